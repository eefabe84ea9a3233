"""Runs the kit's prover on functions of a crate, and reads what it prints of them."""

import dataclasses
import pathlib
import re
import shutil
import subprocess
import tempfile
import time

# The bytes of memory that are left to others when a check begins: none has been seen to take more.
ROOM = 4_000_000_000
STATUS = re.compile(r"fn (?P<crate>\w+)::(?P<path>\S+): (?P<said>.*)")
NOTE = re.compile(r"note: \S+: .*\(`(?P<goal>[^`]+)`\)")


@dataclasses.dataclass(frozen=True)
class Report:
    """What the prover says of a function, and which of its goals it leaves open."""

    said: str
    open_goals: tuple


def crates_of(root):
    """Returns the crates and libraries on which each crate depends, by the names in crates.txt."""
    lines = [line.partition(":") for line in (root / "crates.txt").read_text().splitlines() if line and not line.startswith("#")]
    return {name.split()[0]: names.split() for name, _, names in lines}


def kit_folder():
    """Returns the folder of the kit, which is above the program `rt`."""
    program = shutil.which("rt")
    if program is None:
        raise SystemExit("the program rt is not in PATH")
    return pathlib.Path(program).resolve().parents[1]


class Stopped(Exception):
    """No check begins any more."""


def free_memory():
    """Returns how many bytes of memory are free or can be freed at once."""
    lines = pathlib.Path("/proc/meminfo").read_text().splitlines()
    return next(int(line.split()[1]) * 1024 for line in lines if line.startswith("MemAvailable:"))


class Prover:
    """The kit's prover, and the crates with their dependencies. If it gives way, its checks leave processors and memory to others."""

    def __init__(self, kit, libraries, crates, gives_way=False):
        self.kit, self.libraries, self.crates = kit, libraries, crates
        self.gives_way, self.is_stopped, self.running = gives_way, False, set()

    def below(self, crate):
        """Returns all crates below a crate."""
        found, waiting = {}, [crate]
        while waiting:
            for name in self.crates[waiting.pop()]:
                if name in self.crates and name not in found:
                    found[name] = None
                    waiting.append(name)
        return list(found)

    def words(self, crate, root):
        """Returns the command that checks a crate."""
        words = [f"{self.kit}/bin/rattle", "check", "--crate-name", crate, root]
        for name in ["std", *self.crates[crate]]:
            folder = f"{self.libraries}/{name}/out/rlib" if name in self.crates else f"{self.kit}/rlibs"
            words += ["--extern", f"{name}={folder}/{name}.rlib"]
        for folder in [f"{self.kit}/rlibs", *(f"{self.libraries}/{name}/out/rlib" for name in self.below(crate))]:
            words += ["-L", f"dependency={folder}"]
        logic = ["--antt-project", f"{self.kit}/rattle/logic/antt-project.json", "--logic-built", f"{self.kit}/logic_built"]
        return [*words, *logic, "--links", f"{crate}=", "--jobs", "1"]

    def check(self, crate, texts, functions):
        """Checks some functions of a crate, although the proofs of others are holes. Returns what the prover prints."""
        with tempfile.TemporaryDirectory(prefix="edits-") as folder:
            for file, text in texts.items():
                path = pathlib.Path(folder) / file
                path.parent.mkdir(parents=True, exist_ok=True)
                path.write_text(text)
            root = "src/main.rt" if "src/main.rt" in texts else "src/lib.rt"
            only = [word for function in functions for word in ("--only", function)]
            return self.run([*self.words(crate, root), "--allow-holes", *only], folder)

    def run(self, words, folder):
        """Runs a command in a folder, and returns what it prints."""
        while self.gives_way and free_memory() < ROOM and not self.is_stopped:
            time.sleep(1)
        if self.is_stopped:
            raise Stopped
        words = ["nice", "-n", "19", *words] if self.gives_way else words
        with subprocess.Popen(words, cwd=folder, stdout=subprocess.PIPE, stderr=subprocess.STDOUT, text=True, errors="replace") as running:
            self.running.add(running)
            printed = running.stdout.read()
            self.running.discard(running)
        return printed

    def stop(self):
        """Ends all checks, and lets no other begin."""
        self.is_stopped = True
        for running in list(self.running):
            running.kill()


def reports_of(printed):
    """Returns what the prover says of each function, by its path. The goals that are open are noted before the line of the function."""
    found, open_goals = {}, []
    for line in printed.splitlines():
        if note := NOTE.match(line):
            open_goals.append(note["goal"])
        elif status := STATUS.match(line):
            found[status["path"]] = Report(status["said"], tuple(open_goals))
            open_goals = []
    return found


def is_proved(report):
    """Returns whether a function is proved, perhaps except for holes."""
    return report.said.startswith(("proved", "no holes", "depends on a hole"))
