"""Steps that the trials of the package have in common: a channel in a container gets lines, and its answers are compared."""

import re

from tools import EXAMPLES

from .container import Failed

PLANT, LINES = (EXAMPLES / "isolation/run_flood.txt").read_text().split("---\n")
START = re.compile(r"(?m)^S line (\d+)(?: frame \d+)?\n")
FOLDER = "/var/lib/plant_script/{}/folder"
# Finds the program of a channel, whose main process is a script.
PROGRAM_OF = "for p in /proc/[0-9]*; do case $(tr '\\0' ' ' <$p/cmdline) in *'serve --state /var/lib/plant_script/{}/folder ') echo ${{p#/proc/}} ;; esac; done"


def want(condition, what):
    if not condition:
        raise Failed(what)


def answers(box, channel):
    return (box.folder / f"var/lib/plant_script/{channel}/answers").read_text()


def run_answers(box, lines, plant=PLANT):
    """Returns what `run` prints for lines."""
    return box.ask("plant_script run", plant + "---\n" + lines)


class Lines:
    """All lines that a channel with a folder has got, over its starts, and the answers that `serve` gives to them in one run."""

    def __init__(self, channel):
        self.channel, self.text = channel, ""

    def send(self, box, lines):
        self.text += lines
        send(box, self.channel, lines)

    def wait(self, box):
        wanted = box.ask("plant_script serve", PLANT + "---\n" + self.text)
        box.wait_until(f"cat /var/lib/plant_script/{self.channel}/answers", lambda output: START.sub("", output) == wanted, f"the answers of {self.channel} are not those of serve")

    def next_line(self):
        return self.text.count("\n") + 1

    def started(self, box):
        """Waits for the line of the last start, which must have the number of the next line."""
        box.wait_until(f"cat /var/lib/plant_script/{self.channel}/answers", lambda output: (START.findall(output) or [""])[-1] == str(self.next_line()),
                       f"{self.channel} does not go on with line {self.next_line()}")


def begin_anew(box, channel):
    """Removes the answers and the folder of a channel that is stopped."""
    box.run(f"rm -rf /var/lib/plant_script/{channel}/answers {FOLDER.format(channel)}")


def send(box, channel, lines):
    """Writes lines into the pipe of a channel, from a client that then leaves."""
    box.run(f"cat > /run/plant_script/{channel}/in", lines)


def shown(box, unit, *names):
    """Returns properties of a unit, in the order in which they are asked for."""
    rows = dict(line.split("=", 1) for line in box.run(f"systemctl show {unit} " + " ".join(f"-p {name}" for name in names)).splitlines())
    return [rows[name] for name in names]


def wait_for_answers(box, channel, wanted):
    box.wait_until(f"cat /var/lib/plant_script/{channel}/answers", lambda output: output == wanted, f"the answers of {channel} are not those of run")


def set_plant(box, channel, text=PLANT):
    box.write(f"/etc/plant_script/{channel}.toml", text)
