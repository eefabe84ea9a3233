"""Tests service/systemd/serve_channel with a program of its own, a script of sh, and a pipe that stays open as systemd keeps it. Needs no systemd.

tools/ci/package_trial tries the same script under systemd with the real program. The units' exposure is tested if systemd-analyze is there.
"""

import contextlib
import fcntl
import io
import itertools
import os
import pathlib
import re
import shutil
import signal
import subprocess
import sys
import tempfile
import termios
import threading
import time
import unittest

from tools import ROOT
from tools.tests.killing import kill_group

SCRIPT = ROOT / "service/systemd/serve_channel"
TEXTS = {"serve_channel": SCRIPT.read_text()}
UNITS = ROOT / "service/systemd"
SECONDS = 10
# A test that waits fails after this time, once the script has an edit.
SECONDS_OF_EDIT = 2
MOST_EXPOSURE = 3.0
# `check` refuses a plant with the word bad, and warns of one with the word warned. `serve` answers each line; `die` kills it, `slow` keeps it busy, and `hold` until there is a file `go`. `resume` begins with a
# plant file or a snapshot, and answers K by a snapshot with the plant file of the tests. It answers P by the plant file on a line and the
# line of a change, unless the file is empty or has the word refused. A line `noise` gives 4,000 reasons. `serve` gives one at its end.
# `serve --state` keeps lines in a journal, and goes on after them. It refuses a plant file with the word refused, and one in a file `slow`
# takes a while. Of each line that it answers it says which plant file it has.
PROGRAM = r"""#!/bin/sh
case $1:$2 in
check:*) cat >"$PLACE/checked"; if grep -q bad "$PLACE/checked"; then echo fault: plant 1; echo a reason >&2; exit 3; fi
    if grep -q warned "$PLACE/checked"; then echo warning: a key >&2; fi; echo ok ;;
serve:--state) journal=$3/journal file='' text=''
    exec 8>"$3/lock"
    flock --nonblock 8 || { echo in use >&2; echo fault: io; exit 6; }
    while read -r line && [ "$line" != --- ]; do file="$file$line;" text="$text=$line
"; done
    case $file in *refused*) echo the reason >&2; echo fault: state; exit 3 ;; *slow*) sleep 0.5 ;; esac
    lines=$(grep -c '^+' "$journal" 2>/dev/null)
    { printf '=line 0\n=melfjits-snapshot 1 9\n%s=---\n=frame 0 0\n\n' "$text"; grep '^+' "$journal" 2>/dev/null; } >"$3/new"
    mv "$3/new" "$journal"
    number=$((lines + 1))
    echo "S line $number frame 0"
    while read -r line || [ -n "$line" ]; do
        echo "+$line" >>"$journal"
        case $line in die) kill -9 $$ ;; slow) sleep 0.3 ;; hold) until [ -e "$PLACE/go" ]; do sleep 0.02; done ;; ready) echo a reason >&2 ;; esac
        echo "A $number $line $file"
        number=$((number + 1))
    done ;;
serve:*) while read -r line && [ "$line" != --- ]; do echo "P $line"; done
    while read -r line || [ -n "$line" ]; do
        case $line in die) kill -9 $$ ;; slow) sleep 0.3 ;; hold) until [ -e "$PLACE/go" ]; do sleep 0.02; done ;; esac
        echo "A $line"
    done
    echo end; echo a last reason >&2; exit 6 ;;
resume:*) bars=1
    while read -r line; do
        case $line in melfjits-snapshot*) bars=2 ;; ---) bars=$((bars - 1)); [ $bars != 0 ] || break ;; esac
        echo "P $line"
    done
    while read -r line || [ -n "$line" ]; do
        case $line in
        K) printf 'melfjits-snapshot 1 12\na = 1\nb = 2\n---\nframe 1 0\nend 5 9\n' ;;
        half) kill -9 $$ ;;
        noise) number=0; while [ $number -lt 4000 ]; do echo "line 9: the plant is not changed: $number" >&2; number=$((number + 1)); done ;;
        slow) sleep 0.3 ;;
        hold) until [ -e "$PLACE/go" ]; do sleep 0.02; done ;;
        P) file=
            while read -r line && [ "$line" != --- ]; do file="$file$line;"; done
            case $file in '' | *refused* | *'= cut off'*) echo fault: line 9 ;; *) printf 'C %s\nP frame 7\n' "$file" ;; esac ;;
        *) echo "A $line" ;;
        esac
    done ;;
esac
"""
PLANT = "a = 1\nb = 2"
USAGE = "serve_channel PLANT, serve_channel --change PLANT PIPE, or serve_channel --keep-state"
SNAPSHOT = "melfjits-snapshot 1 12\na = 1\nb = 2\n---\nframe 1 0\nend 5 9\n"


def wait_until(holds):
    end = time.monotonic() + SECONDS
    while not holds():
        if time.monotonic() > end:
            raise AssertionError("too late")
        time.sleep(0.01)


class Channel(unittest.TestCase):
    def setUp(self):
        folder = tempfile.TemporaryDirectory()
        self.addCleanup(folder.cleanup)
        self.folder = pathlib.Path(folder.name)
        self.script = self.write("serve_channel", TEXTS["serve_channel"], 0o755)
        self.program = self.write("program", PROGRAM, 0o755)
        self.answers = self.folder / "answers"
        os.mkfifo(self.folder / "in")
        self.pipe = os.open(self.folder / "in", os.O_RDWR)
        self.addCleanup(os.close, self.pipe)

    def write(self, name, text, mode=0o644):
        path = self.folder / name
        path.write_text(text)
        path.chmod(mode)
        return path

    def start(self, plant=PLANT, words=None, **environment):
        environment = {"PATH": os.environ["PATH"], "PLANT_SCRIPT": str(self.program), "PLACE": str(self.folder), "ANSWERS": str(self.answers), **environment}
        words = [self.write("plant.toml", plant)] if words is None else words
        # (SIGPIPE is ignored, as in the unit)
        process = subprocess.Popen([self.script, *words], stdin=self.pipe, stdout=subprocess.PIPE, stderr=subprocess.PIPE, text=True, env=environment, start_new_session=True, restore_signals=False)
        self.addCleanup(process.stdout.close)
        self.addCleanup(process.stderr.close)
        self.addCleanup(self.end, process)
        return process

    def end(self, process):
        """Ends what a test left running: also the processes of a channel whose program was killed."""
        with contextlib.suppress(ProcessLookupError):
            os.killpg(process.pid, signal.SIGKILL)
        process.wait()

    def send(self, text):
        os.write(self.pipe, text.encode())

    def waiting_bytes(self):
        """Returns how many bytes wait in the pipe."""
        return int.from_bytes(fcntl.ioctl(self.pipe, termios.FIONREAD, bytes(4)), sys.byteorder)

    def wait_for(self, text):
        wait_until(lambda: self.answers.exists() and self.answers.read_text() == text)

    def stop(self, process):
        """Ends the channel as systemd does: SIGTERM for each of its processes. Returns the exit status. A program that holds goes on then."""
        os.killpg(process.pid, signal.SIGTERM)
        time.sleep(0.05)
        self.write("go", "")
        return process.wait(SECONDS)

    def refused(self, process):
        """Returns the exit status of a channel that does not start, and what it said."""
        status = process.wait(SECONDS)
        return status, process.stderr.read()

    def test_lines_of_clients_that_come_and_go_are_answered(self):
        process = self.start()
        self.wait_for("P a = 1\nP b = 2\n")
        for line in ("one", "two"):
            subprocess.run(["sh", "-c", f"echo {line} >in"], cwd=self.folder, check=True, timeout=SECONDS)
        self.wait_for("P a = 1\nP b = 2\nA one\nA two\n")
        self.assertEqual(self.stop(process), 6)

    def test_the_plant_file_ends_at_its_separator(self):
        self.start(plant="a = 1\n---\nT\nbad\n")
        self.wait_for("P a = 1\n")
        self.assertEqual((self.folder / "checked").read_text(), "a = 1\n---\n")

    def test_a_stop_answers_what_has_come(self):
        process = self.start()
        self.send("slow\none\ntwo\n")
        self.wait_for("P a = 1\nP b = 2\n")
        wait_until(lambda: self.waiting_bytes() == 0)
        time.sleep(0.1)
        self.assertEqual(self.stop(process), 6)
        self.assertEqual(self.answers.read_text(), "P a = 1\nP b = 2\nA slow\nA one\nA two\nend\n")

    def test_a_stop_leaves_no_part_of_a_line(self):
        process = self.start()
        self.send("one\ntw")
        self.wait_for("P a = 1\nP b = 2\nA one\n")
        self.stop(process)
        self.assertEqual(self.answers.read_text(), "P a = 1\nP b = 2\nA one\nend\n")

    def test_bytes_that_are_no_text_are_passed_on(self):
        self.start()
        os.write(self.pipe, b"\xff\x00\n\none\n")
        wait_until(lambda: self.answers.exists() and self.answers.read_bytes().endswith(b"A \xff\nA \nA one\n"))

    def test_an_invalid_plant_file_is_refused_with_its_reason(self):
        status, errors = self.refused(self.start(plant="bad"))
        self.assertEqual(status, 3)
        self.assertEqual(errors.splitlines()[:2], ["fault: plant 1", "a reason"])
        self.assertIn("plant.toml is refused (status 3)", errors)
        self.assertFalse(self.answers.exists())

    def test_a_missing_plant_file_is_refused(self):
        status, errors = self.refused(self.start(words=["/nowhere/plant.toml"]))
        self.assertEqual((status, errors), (3, "serve_channel: cannot read the plant file /nowhere/plant.toml\n"))

    def test_wrong_arguments_are_refused(self):
        for words in ([], ["one", "two"], ["--change"], ["--change", "one"], ["--keep", "one", "two"], ["--change", "one", "two", "three"]):
            self.assertEqual(self.refused(self.start(words=words)), (2, f"serve_channel: usage: {USAGE}\n"))

    def test_answers_that_cannot_be_written_are_refused(self):
        self.assertEqual(self.refused(self.start(ANSWERS="/nowhere/answers"))[0], 6)

    def test_answers_are_appended_and_a_cut_line_is_ended(self):
        for before, after in (("", ""), ("whole\n", "whole\n"), ("cut", "cut\n")):
            self.answers.write_text(before)
            process = self.start()
            self.wait_for(after + "P a = 1\nP b = 2\n")
            self.stop(process)

    def test_without_a_file_the_answers_go_to_standard_output(self):
        process = self.start(ANSWERS="")
        self.assertEqual([process.stdout.readline() for _ in range(2)], ["P a = 1\n", "P b = 2\n"])
        self.assertFalse(self.answers.exists())

    def test_the_end_of_the_program_is_the_end_of_the_script(self):
        process = self.start()
        self.send("die\n")
        self.assertEqual(process.wait(SECONDS), -signal.SIGKILL)

    def test_each_start_records_all_input(self):
        (self.folder / "records").mkdir()
        for lines in ("one\ntwo\n", "three\n"):
            process = self.start(RECORDS=str(self.folder / "records"))
            self.send(lines)
            wait_until(lambda lines=lines: self.answers.exists() and self.answers.read_text().endswith("A " + lines.split()[-1] + "\n"))
            self.stop(process)
        self.assertEqual([path.read_text() for path in sorted((self.folder / "records").iterdir())],
                         ["a = 1\nb = 2\n---\none\ntwo\n", "a = 1\nb = 2\n---\nthree\n"])

    def test_a_stop_records_what_is_answered(self):
        """Stops a channel whose program holds while more lines wait than pipes hold. The lines have different lengths."""
        (self.folder / "records").mkdir()
        process = self.start(RECORDS=str(self.folder / "records"))
        lines = ["hold"] + [f"{number:0{90 + number % 19}}" for number in range(4_000)]
        self.write("lines", "\n".join(lines) + "\n")
        client = subprocess.Popen(["sh", "-c", "cat lines >in"], cwd=self.folder)
        wait_until(lambda: self.waiting_bytes() > 60_000)
        time.sleep(0.2)
        self.assertEqual(self.stop(process), 6)
        client.kill()
        client.wait()
        answered = [line.removeprefix("A ") for line in self.answers.read_text().splitlines()[2:-1]]
        self.assertTrue(1 < len(answered) < 4_001)
        self.assertEqual(answered, lines[:len(answered)])
        record = next((self.folder / "records").iterdir()).read_text()
        self.assertEqual(record, "a = 1\nb = 2\n---\n" + "".join(f"{line}\n" for line in answered))

    def keep_state(self, result="success"):
        words = {"PATH": os.environ["PATH"], "ANSWERS": str(self.answers), "STATE": str(self.folder / "state"), "SERVICE_RESULT": result}
        subprocess.run([self.script, "--keep-state"], env=words, check=True, timeout=SECONDS)

    def start_with_state(self, plant=PLANT):
        return self.start(plant=plant, STATE=str(self.folder / "state"))

    def test_a_stop_keeps_the_state_for_the_next_start(self):
        process = self.start_with_state()
        self.send("one\n")
        self.wait_for("P a = 1\nP b = 2\nA one\n")
        self.assertEqual(self.stop(process), 0)
        self.assertEqual(self.answers.read_text(), f"P a = 1\nP b = 2\nA one\n{SNAPSHOT}")
        self.keep_state()
        self.assertEqual((self.folder / "state").read_text(), SNAPSHOT)
        self.answers.write_text("")
        self.start_with_state()
        self.send("two\n")
        self.wait_for("P melfjits-snapshot 1 12\nP a = 1\nP b = 2\nP ---\nP frame 1 0\nP end 5 9\nA two\n")
        self.assertFalse((self.folder / "state").exists())

    def test_a_state_with_another_plant_file_is_put_aside(self):
        (self.folder / "state").write_text(SNAPSHOT)
        self.start_with_state(plant="a = 1\n")
        self.wait_for("P a = 1\n")
        self.assertFalse((self.folder / "state").exists())
        self.assertEqual((self.folder / "state.old").read_text(), SNAPSHOT)

    def test_no_state_is_kept_of_a_channel_that_was_killed(self):
        process = self.start_with_state()
        self.send("K\nhalf\n")
        self.assertEqual(process.wait(SECONDS), -signal.SIGKILL)
        self.assertTrue(self.answers.read_text().endswith(SNAPSHOT))
        self.keep_state("signal")
        self.assertFalse((self.folder / "state").exists())

    def test_no_state_is_kept_if_an_answer_follows(self):
        self.answers.write_text(SNAPSHOT + "A one\n")
        self.keep_state()
        self.assertFalse((self.folder / "state").exists())

    def change(self, plant, pipe="in", **environment):
        """Changes the plant as a reload does. Returns the exit status, and what is said."""
        words = {"PATH": os.environ["PATH"], "PLANT_SCRIPT": str(self.program), "PLACE": str(self.folder), "ANSWERS": str(self.answers),
                 "STATE": str(self.folder / "state"), "CHANGE_SECONDS": "1", **environment}
        command = [self.script, "--change", self.write("plant.toml", plant), self.folder / pipe]
        done = subprocess.run(command, stdin=subprocess.DEVNULL, capture_output=True, text=True, env=words, cwd=self.folder, timeout=SECONDS, check=False)
        self.assertEqual(done.stdout, "")
        return done.returncode, done.stderr

    def start_and_send(self, text="one\n"):
        process = self.start_with_state()
        self.send(text)
        self.wait_for("P a = 1\nP b = 2\n" + "".join(f"A {line}\n" for line in text.splitlines()))
        self.answers.write_text("")
        return process

    def test_a_reload_changes_the_plant(self):
        process = self.start_and_send()
        for number in ("2", "3"):
            status, errors = self.change(f"a = {number}\n---\nbad\n")
            self.assertEqual(status, 0)
            self.assertIn(f"the plant is that of {self.folder}/plant.toml from frame 7 on.", errors)
        self.send("two\n")
        self.wait_for("C a = 2;\nP frame 7\nC a = 3;\nP frame 7\nA two\n")
        self.assertEqual(list(self.folder.glob("state*")), [])
        self.assertEqual(self.stop(process), 0)

    def test_a_refused_change_is_reported(self):
        self.start_and_send()
        self.assertEqual(self.change("a = 2\n")[0], 0)
        status, errors = self.change("refused\n")
        self.assertEqual(status, 1)
        self.assertIn("no answer that the plant is changed", errors)
        self.send("two\n")
        self.wait_for("C a = 2;\nP frame 7\nfault: line 9\nA two\n")

    def test_a_change_waits_for_its_answer(self):
        self.start_and_send()
        os.write(self.pipe, b"slow\n" * 4)
        self.assertEqual(self.change("a = 2\n", CHANGE_SECONDS="9")[0], 0)

    def test_no_line_of_a_client_comes_into_a_plant_file(self):
        self.start_and_send()
        lines = "".join(f"line{number}\n" for number in range(3_000))
        client = subprocess.Popen(["sh", "-c", 'while read -r line; do echo "$line"; done >in'], cwd=self.folder, stdin=subprocess.PIPE, text=True)
        self.addCleanup(client.wait)
        with client.stdin:
            client.stdin.write(lines[:len(lines) // 2])
            client.stdin.flush()
            file = [f"key{number} = 1" for number in range(3_000)]
            status = self.change("\n".join(file), CHANGE_SECONDS="8")[0]
            client.stdin.write(lines[len(lines) // 2:])
        self.assertEqual(status, 0)
        wait_until(lambda: self.answers.read_text().count("A line") == 3_000)
        answers = [line for line in self.answers.read_text().splitlines() if not line.startswith("A line")]
        self.assertEqual(answers, ["C " + "".join(f"{line};" for line in file), "P frame 7"])

    def test_an_invalid_plant_file_is_not_sent(self):
        self.start_and_send()
        status, errors = self.change("bad\n")
        self.assertEqual((status, errors.splitlines()[:2]), (3, ["fault: plant 1", "a reason"]))
        self.send("two\n")
        self.wait_for("A two\n")

    def test_a_stop_within_a_plant_file_keeps_the_state(self):
        process = self.start_and_send()
        self.send("hold\n")
        self.change("".join(f"key{number} = 1\n" for number in range(20_000)), CHANGE_SECONDS="0")
        wait_until(lambda: self.waiting_bytes() == 0)
        time.sleep(0.2)
        self.assertEqual(self.stop(process), 0)
        self.assertEqual(self.answers.read_text(), f"fault: line 9\n{SNAPSHOT}")

    def test_a_client_changes_no_plant(self):
        (self.folder / "state.plant").write_text("a = 2\n")
        self.start_and_send()
        self.send("P\none\n")
        self.wait_for("fault: line 9\nA one\n")

    def test_a_channel_without_a_state_is_not_changed(self):
        self.start()
        self.send("P\none\n")
        self.wait_for("P a = 1\nP b = 2\nA P\nA one\n")
        for environment in ({"STATE": ""}, {"ANSWERS": ""}, {"ANSWERS": "/nowhere/answers"}, {"pipe": "program"}):
            status, errors = self.change("a = 2\n", **environment)
            self.assertEqual((status, errors[:57]), (2, "serve_channel: no channel runs with STATE, ANSWERS and th"))
        self.assertEqual(self.program.read_text(), PROGRAM)

    def test_a_change_is_recorded_with_its_plant_file(self):
        (self.folder / "records").mkdir()
        process = self.start(RECORDS=str(self.folder / "records"), STATE=str(self.folder / "state"))
        self.send("one\n")
        self.wait_for("P a = 1\nP b = 2\nA one\n")
        self.assertEqual(self.change("a = 2\n")[0], 0)
        self.send("two\n")
        self.wait_for("P a = 1\nP b = 2\nA one\nC a = 2;\nP frame 7\nA two\n")
        self.assertEqual(self.stop(process), 0)
        record = next((self.folder / "records").iterdir()).read_text()
        self.assertEqual(record, "a = 1\nb = 2\n---\none\nP\na = 2\n---\ntwo\n")

    JOURNAL = {"JOURNAL_STREAM": "8:1", "PASS_REASONS": str(ROOT / "service/systemd/pass_reasons")}

    def start_with_journal(self, **environment):
        """Starts a channel whose standard error is the journal's, and waits for its first answer."""
        process = self.start(**self.JOURNAL, **environment)
        self.send("one\n")
        self.wait_for("P a = 1\nP b = 2\nA one\n")
        self.answers.write_text("")
        return process

    def test_reasons_have_priorities_in_the_journal(self):
        process = self.start_with_journal()
        self.assertEqual(self.stop(process), 6)
        self.assertEqual(process.stderr.read(), "ok\n<3>a last reason\n")
        status, errors = self.refused(self.start(plant="bad", **self.JOURNAL))
        self.assertEqual((status, errors.splitlines()[:2]), (3, ["<3>fault: plant 1", "<3>a reason"]))
        self.assertIn("<3>serve_channel: the plant file ", errors)

    def test_a_warning_of_the_check_is_one_in_the_journal(self):
        process = self.start(plant="warned\n", **self.JOURNAL)
        self.wait_for("P warned\n")
        self.stop(process)
        self.assertEqual(process.stderr.read(), "<4>warning: a key\nok\n<3>a last reason\n")

    def test_a_refused_reload_is_a_warning(self):
        self.start_and_send()
        self.assertEqual(self.change("bad\n", **self.JOURNAL)[1].splitlines()[:2], ["<4>fault: plant 1", "<4>a reason"])
        self.assertIn("<4>serve_channel: no answer", self.change("refused\n", **self.JOURNAL)[1])
        self.assertIn("<6>serve_channel: the plant is that of ", self.change("a = 2\n", **self.JOURNAL)[1])

    def test_reasons_are_held_back(self):
        process = self.start_with_journal(STATE=str(self.folder / "state"), REASONS_PER_SECOND="3")
        self.send("noise\ntwo\n")
        self.wait_for("A two\n")
        self.assertEqual(self.stop(process), 0)
        lines = process.stderr.read().splitlines()
        self.assertEqual(lines[1:4], [f"<4>line 9: the plant is not changed: {number}" for number in range(3)])
        self.assertEqual(lines[4][:14], "<4>held back: ")
        held = [int(line.split()[2]) for line in lines if line.startswith("<4>held back: ")]
        self.assertEqual(len(lines) - 1 - len(held) + sum(held), 4_000)

    def test_a_journal_that_takes_nothing_stops_no_line(self):
        self.start_with_journal(STATE=str(self.folder / "state"), REASONS_PER_SECOND="1000000")
        self.send("noise\ntwo\n")
        self.wait_for("A two\n")

    def test_the_channel_goes_on_without_the_process_that_passes_reasons(self):
        process = self.start_with_journal(STATE=str(self.folder / "state"))

        def passing():
            children = pathlib.Path(f"/proc/{process.pid}/task/{process.pid}/children").read_text().split()
            return [int(child) for child in children if "pass_reasons" in pathlib.Path(f"/proc/{child}/cmdline").read_text()]

        wait_until(lambda: len(passing()) == 1)
        os.kill(passing()[0], signal.SIGKILL)
        self.send("noise\ntwo\n")
        self.wait_for("A two\n")
        self.assertEqual(self.stop(process), 0)

    def test_without_that_script_reasons_are_passed_as_they_are(self):
        process = self.start(JOURNAL_STREAM="8:1", PASS_REASONS="/nowhere/pass_reasons")
        self.wait_for("P a = 1\nP b = 2\n")
        self.assertEqual(self.stop(process), 6)
        self.assertEqual(process.stderr.read(), "ok\na last reason\n")

    def test_readiness_is_reported_once_the_plant_file_is_checked(self):
        (self.folder / "bin").mkdir()
        self.write("bin/systemd-notify", '#!/bin/sh\n[ -e "$PLACE/checked" ] && echo "$*" >"$PLACE/notified"\n', 0o755)
        how = {"NOTIFY_SOCKET": "/nowhere", "PATH": f"{self.folder}/bin:{os.environ['PATH']}"}
        self.start(**how)
        notified = self.folder / "notified"
        wait_until(lambda: notified.exists() and notified.read_text() == f"--ready --status=serving {self.folder}/plant.toml\n")
        notified.unlink()
        self.refused(self.start(plant="bad", **how))
        self.assertFalse(notified.exists())

    def logged(self, command, status=0):
        """Puts a command before that of the system that only notes its arguments, and returns the PATH for it and the file of notes."""
        (self.folder / "bin").mkdir(exist_ok=True)
        self.write(f"bin/{command}", f'#!/bin/sh\necho "$*" >>"{self.folder}/{command}.log"\nexit {status}\n', 0o755)
        return f"{self.folder}/bin:{os.environ['PATH']}", self.folder / f"{command}.log"

    def test_starts_that_follow_short_runs_wait_longer_each_time(self):
        path, log = self.logged("sleep")
        (self.folder / "runtime").mkdir()
        how = {"PATH": path, "RUNTIME_DIRECTORY": str(self.folder / "runtime")}
        said = [self.refused(self.start(plant="bad", **how))[1].splitlines()[0] for _ in range(11)]
        self.assertEqual(log.read_text().split(), ["1", "2", "4", "8", "15", "15", "15"])
        self.assertEqual(said[4], "serve_channel: waiting for 1 s: this is start 5 in a row, and each run was short")
        self.assertEqual(said[3], "fault: plant 1")
        for seconds in (20, -60):
            # (a run that was long enough, and a clock that was set back)
            self.write("runtime/starts", f"11 {int(time.time()) - seconds}\n")
            self.assertEqual(self.refused(self.start(plant="bad", **how))[1].splitlines()[0], "fault: plant 1")
        self.write("runtime/starts", f"11 {int(time.time()) - 17}\n")
        self.assertIn("waiting for 15 s", self.refused(self.start(plant="bad", **how))[1])

    def fill_pipe(self):
        """Fills the pipe, so that it has no room for a line."""
        os.set_blocking(self.pipe, False)
        with contextlib.suppress(BlockingIOError):
            while True:
                os.write(self.pipe, b"\n" * 4_096)
        return self.waiting_bytes()

    def test_a_reload_waits_for_room_in_the_pipe_for_some_seconds_only(self):
        self.write("answers", "")
        size, begun = self.fill_pipe(), time.monotonic()
        status, errors = self.change("a = 2\n", CHANGE_SECONDS="1")
        self.assertLess(time.monotonic() - begun, 4)
        self.assertEqual((status, errors.splitlines()[1][:93]), (1, f"serve_channel: nothing is changed: the pipe {self.folder}/in took no line within 1 seconds."[:93]))
        self.assertEqual((self.waiting_bytes(), list(self.folder.glob("state*"))), (size, []))

    def noted(self, how):
        """Starts a channel with a watchdog and a script in place of report_progress. Returns what that is given: a process and a folder."""
        self.write("report_progress", f'#!/bin/sh\necho "$*" >"{self.folder}/reported"\n', 0o755)
        (self.folder / "runtime").mkdir()
        process = self.start(WATCHDOG_USEC="30000000", REPORT_PROGRESS=str(self.folder / "report_progress"), RUNTIME_DIRECTORY=str(self.folder / "runtime"), **how)
        reported = self.folder / "reported"
        wait_until(lambda: reported.exists() and reported.read_text().endswith("\n"))
        main, notes = reported.read_text().split()
        self.assertEqual((int(main), notes), (process.pid, f"{self.folder}/runtime/notes"))
        return pathlib.Path(notes)

    def commands_of(self, file):
        """Waits until a file of processes is there, and returns their commands."""
        wait_until(lambda: file.exists() and file.read_text().endswith("\n"))
        return [pathlib.Path(f"/proc/{process}/cmdline").read_text().replace("\0", " ").strip() for process in file.read_text().split()]

    def test_the_program_is_noted_for_its_watchdog(self):
        notes = self.noted({})
        self.send("one\n")
        self.wait_for("P a = 1\nP b = 2\nA one\n")
        self.assertEqual(self.commands_of(notes / "program"), [f"/bin/sh {self.program} serve"])


class FolderChannel(Channel):
    """A channel with a folder: its program is started again for a change, and after a failure."""

    def start(self, plant=PLANT, **environment):
        how = {"FOLDER": str(self.folder / "folder"), "STATE": str(self.folder / "state"), **environment}
        return super().start(plant=plant, **how)

    def change(self, plant, pipe="in", **environment):
        return super().change(plant, pipe, **{"FOLDER": str(self.folder / "folder"), "CHANGE_SECONDS": "9", **environment})

    def answered(self, *lines):
        """Waits until the answers since the last call are these lines."""
        self.wait_for("".join(f"{line}\n" for line in lines))
        self.answers.write_text("")

    def start_and_send(self):
        process = self.start()
        self.send("one\n")
        self.answered("S line 1 frame 0", "A 1 one a = 1;b = 2;")
        return process

    def test_a_folder_is_made_for_its_owner_alone(self):
        self.start_and_send()
        self.assertEqual((self.folder / "folder").stat().st_mode & 0o777, 0o700)
        self.assertEqual((self.folder / "folder/journal").read_text().splitlines()[-1], "+one")

    def test_the_name_of_a_new_folder_is_on_the_disk(self):
        path, log = self.logged("sync")
        for starts in (1, 2):
            process = self.start(PATH=path)
            wait_until(lambda starts=starts: self.answers.exists() and self.answers.read_text().count("S line") == starts)
            self.stop(process)
            self.assertEqual(log.read_text(), f"-- {self.folder}\n")

    def test_a_folder_whose_name_cannot_be_written_is_refused(self):
        status, errors = self.refused(self.start(PATH=self.logged("sync", 1)[0]))
        self.assertEqual((status, errors.splitlines()[-1]), (6, f"serve_channel: cannot write the folder {self.folder} to the disk: mend the disk"))
        self.assertFalse((self.folder / "folder/journal").exists())

    def test_a_reload_with_a_folder_waits_for_room_in_the_pipe_for_some_seconds_only(self):
        self.start_and_send()
        self.send("hold\n")
        self.fill_pipe()
        time.sleep(0.2)
        size, begun = self.fill_pipe(), time.monotonic()
        status, errors = self.change("a = 2\n", CHANGE_SECONDS="1")
        self.assertLess(time.monotonic() - begun, 4)
        self.assertEqual((status, "took no line within 1 seconds" in errors), (1, True), errors)
        self.assertEqual((self.waiting_bytes(), (self.folder / "folder.plant").exists()), (size, False))

    def test_the_processes_of_a_folder_are_noted_for_its_watchdog(self):
        (self.folder / "records").mkdir()
        for records, recorder in (("", []), (str(self.folder / "records"), ["tee"])):
            notes = self.noted({"RECORDS": records})
            self.send("one\n")
            wait_until(lambda: self.answers.exists() and " one " in self.answers.read_text())
            self.assertEqual(self.commands_of(notes / "program"), [f"/bin/sh {self.program} serve --state {self.folder}/folder"])
            self.assertEqual([command.split()[0] for command in self.commands_of(notes / "copiers")], [*recorder, "sed"])
            os.killpg(int((self.folder / "reported").read_text().split()[0]), signal.SIGKILL)
            shutil.rmtree(self.folder / "runtime")
            (self.folder / "reported").unlink()
            self.answers.unlink()

    def test_a_folder_goes_on_after_a_stop_and_keeps_no_state(self):
        process = self.start_and_send()
        self.assertEqual(self.stop(process), 0)
        self.answers.write_text("a\nend 1 2\n")
        words = {"PATH": os.environ["PATH"], "ANSWERS": str(self.answers), "STATE": str(self.folder / "state"), "FOLDER": str(self.folder / "folder")}
        subprocess.run([self.script, "--keep-state"], env=words, check=True, timeout=SECONDS)
        self.assertFalse((self.folder / "state").exists())
        self.answers.write_text("")
        self.start()
        self.send("two\n")
        self.answered("S line 2 frame 0", "A 2 two a = 1;b = 2;")

    def test_a_folder_goes_on_after_a_program_that_was_killed(self):
        """No line that waits in the pipe is lost, and the script ends at once, though no other line comes."""
        process = self.start_and_send()
        self.send("die\n")
        self.assertEqual(process.wait(SECONDS), 128 + signal.SIGKILL)
        self.send("two\n")
        time.sleep(0.1)
        self.start()
        self.answered("S line 3 frame 0", "A 3 two a = 1;b = 2;")

    def test_a_folder_goes_on_after_all_processes_were_killed(self):
        process = self.start_and_send()
        kill_group(process, SECONDS)
        self.send("two\n")
        self.start()
        self.answered("S line 2 frame 0", "A 2 two a = 1;b = 2;")

    def test_a_stop_with_a_folder_answers_what_has_come(self):
        process = self.start_and_send()
        self.send("hold\ntwo\nthr")
        wait_until(lambda: self.waiting_bytes() == 0)
        time.sleep(0.1)
        self.assertEqual(self.stop(process), 0)
        self.answered("A 2 hold a = 1;b = 2;", "A 3 two a = 1;b = 2;")

    def test_a_stop_before_the_first_line_is_copied(self):
        """A stop that comes before there is a process that copies ends the script as well."""
        (self.folder / "bin").mkdir()
        self.write("bin/sed", '#!/bin/sh\ncase $1 in -n) touch "$PLACE/reading"; sleep 0.5 ;; esac\nPATH=${PATH#*:} exec sed "$@"\n', 0o755)
        process = self.start(PATH=f"{self.folder}/bin:{os.environ['PATH']}")
        wait_until((self.folder / "reading").exists)
        os.kill(process.pid, signal.SIGTERM)
        self.assertEqual(process.wait(SECONDS), 0)
        self.answered("S line 1 frame 0")

    def test_a_reload_with_a_folder_changes_the_plant(self):
        process = self.start_and_send()
        for number, line in ((2, "two"), (3, "three")):
            status, errors = self.change(f"a = {number}\n---\nbad\n")
            self.assertEqual((status, errors.count("\n")), (0, 2), errors)
            self.assertIn(f"the plant is that of {self.folder}/plant.toml. The channel goes on: S line {number} frame 0.", errors)
            self.send(f"{line}\n")
            self.answered(f"S line {number} frame 0", f"A {number} {line} a = {number};")
        self.assertEqual(sorted(path.name for path in self.folder.glob("folder*")), ["folder"])
        self.assertIsNone(process.poll())
        self.assertEqual(self.stop(process), 0)

    def test_a_refused_reload_leaves_the_plant_of_the_folder(self):
        process = self.start_and_send()
        status, errors = self.change("a = 2\n")
        self.assertEqual((status, errors.count("\n")), (0, 2), errors)
        status, errors = self.change("refused\n")
        self.assertEqual((status, errors.splitlines()[1:3]), (1, ["the reason", "fault: state"]))
        self.assertIn("is refused (status 3), for the reason above. The channel goes on as before", errors)
        self.send("two\n")
        self.answered("S line 2 frame 0", "S line 2 frame 0", "A 2 two a = 2;")
        self.assertIsNone(process.poll())

    def test_an_invalid_plant_file_is_not_given_to_a_folder(self):
        self.start_and_send()
        status, errors = self.change("bad\n")
        self.assertEqual((status, errors.splitlines()[:2]), (3, ["fault: plant 1", "a reason"]))
        self.send("two\n")
        self.answered("A 2 two a = 1;b = 2;")

    def test_a_reload_loses_no_line(self):
        """A client writes lines all the time, of different lengths. Each is answered once, by the old plant or by the new one."""
        self.start_and_send()
        lines, is_done, pipe = [], threading.Event(), os.open(self.folder / "in", os.O_WRONLY | os.O_NONBLOCK)
        self.addCleanup(os.close, pipe)

        def write():
            # (a pipe that is full takes no part of a line, and the test fails)
            while not is_done.wait(0.002):
                lines.append(f"{len(lines):0{5 + len(lines) % 50}}")
                with contextlib.suppress(BlockingIOError):
                    os.write(pipe, f"{lines[-1]}\n".encode())

        writer = threading.Thread(target=write)
        writer.start()
        try:
            found = [self.change(f"{word} = 1\n")[0] for word in ("c", "refused", "d")]
        finally:
            is_done.set()
            writer.join()
        self.assertEqual(found, [0, 1, 0])
        wait_until(lambda: f" {lines[-1]} " in self.answers.read_text())
        answers = [line.split() for line in self.answers.read_text().splitlines() if line.startswith("A ")]
        self.assertEqual([(int(number), line) for _, number, line, *_ in answers], list(enumerate(lines, 2)))
        self.assertEqual([file for file, _ in itertools.groupby(fields[3] for fields in answers)], ["a", "c", "d"])

    def test_a_line_p_of_a_client_changes_no_plant(self):
        self.start_and_send()
        self.send("P\ntwo\n")
        self.answered("S line 2 frame 0", "A 2 two a = 1;b = 2;")

    def test_a_reload_without_an_answer_changes_nothing(self):
        self.start_and_send()
        self.send("hold\n")
        status, errors = self.change("a = 2\n", CHANGE_SECONDS="1")
        self.assertEqual(status, 1)
        self.assertIn("no answer in time", errors)
        self.write("go", "")
        self.send("two\n")
        self.answered("A 2 hold a = 1;b = 2;", "S line 3 frame 0", "A 3 two a = 1;b = 2;")

    def test_a_reload_of_no_channel(self):
        self.start_and_send()
        for environment in ({"FOLDER": "/nowhere"}, {"pipe": "program"}):
            status, errors = self.change("a = 2\n", **environment)
            self.assertEqual((status, errors[:38]), (2, "serve_channel: no channel runs with /n" if "FOLDER" in environment else "serve_channel: no channel runs with " + str(self.folder)[:2]))

    def test_a_start_takes_a_changed_plant_file(self):
        self.stop(self.start_and_send())
        self.start(plant="a = 2")
        self.send("two\n")
        self.answered("S line 2 frame 0", "A 2 two a = 2;")

    def test_a_start_whose_change_is_refused_says_what_to_do(self):
        self.stop(self.start_and_send())
        journal = (self.folder / "folder/journal").read_text()
        (self.folder / "bin").mkdir()
        self.write("bin/systemd-notify", '#!/bin/sh\ntouch "$PLACE/notified"\n', 0o755)
        process = self.start(plant="refused", NOTIFY_SOCKET="/nowhere", PATH=f"{self.folder}/bin:{os.environ['PATH']}")
        status, errors = self.refused(process)
        self.assertEqual((status, errors.splitlines()[1:3]), (3, ["the reason", "fault: state"]))
        self.assertFalse((self.folder / "notified").exists())
        self.assertEqual((self.folder / "folder/journal").read_text(), journal)
        command = errors.splitlines()[-1].split("printed by: ")[1]
        self.assertEqual(subprocess.run(["sh", "-c", command], capture_output=True, text=True, check=True).stdout, "a = 1\nb = 2\n")
        self.assertEqual(self.answers.read_text(), "")

    def test_a_folder_that_is_in_use_is_refused(self):
        self.start_and_send()
        status, errors = self.refused(self.start())
        self.assertEqual((status, errors.splitlines()[1:3]), (6, ["in use", "fault: io"]))

    def test_a_state_that_a_new_folder_does_not_take_is_reported(self):
        self.write("state", "melfjits-snapshot 1\n")
        process = self.start(STATE=str(self.folder / "state"))
        self.send("one\n")
        self.answered("S line 1 frame 0", "A 1 one a = 1;b = 2;")
        self.assertEqual(self.stop(process), 0)
        self.assertIn(f"the state in {self.folder}/state is not taken", process.stderr.read())

    def test_readiness_is_reported_once_the_folder_is_open(self):
        (self.folder / "bin").mkdir()
        self.write("bin/systemd-notify", '#!/bin/sh\n[ -e "$PLACE/folder/journal" ] && echo "$*" >"$PLACE/notified"\n', 0o755)
        self.start(NOTIFY_SOCKET="/nowhere", PATH=f"{self.folder}/bin:{os.environ['PATH']}")
        notified = self.folder / "notified"
        wait_until(lambda: notified.exists() and notified.read_text() == f"--ready --status=serving {self.folder}/plant.toml\n")

    def test_each_start_with_a_folder_records_its_input(self):
        (self.folder / "records").mkdir()
        process = self.start(RECORDS=str(self.folder / "records"))
        self.send("one\n")
        self.answered("S line 1 frame 0", "A 1 one a = 1;b = 2;")
        self.assertEqual(self.change("a = 2\n")[0], 0)
        self.send("two\n")
        self.answered("S line 2 frame 0", "A 2 two a = 2;")
        self.assertEqual(self.stop(process), 0)
        self.assertEqual([path.read_text() for path in sorted((self.folder / "records").iterdir())], ["a = 1\nb = 2\n---\none\n", "a = 2\n---\ntwo\n"])

    def test_a_killed_program_that_is_recorded_ends_the_script(self):
        (self.folder / "records").mkdir()
        process = self.start(RECORDS=str(self.folder / "records"))
        self.send("die\n")
        self.assertEqual(process.wait(SECONDS), 128 + signal.SIGKILL)

    def test_reasons_of_a_folder_have_priorities(self):
        process = self.start(**self.JOURNAL)
        self.send("ready\n")
        self.answered("S line 1 frame 0", "A 1 ready a = 1;b = 2;")
        self.assertIn("<4>the reason\n<4>fault: state\n<4>serve_channel: the change to ", self.change("refused\n", **self.JOURNAL)[1])
        self.assertEqual(self.stop(process), 0)
        self.assertEqual(process.stderr.read(), "ok\n<6>serve_channel: the channel goes on: S line 1 frame 0\n<3>a reason\n")
        _, errors = self.refused(self.start(plant="refused", **self.JOURNAL))
        self.assertIn("<3>the reason\n<3>fault: state\n<3>serve_channel: the folder ", errors)


for name in [name for name in vars(Channel) if name.startswith("test_")]:
    setattr(FolderChannel, name, None)


class Units(unittest.TestCase):
    @unittest.skipUnless(shutil.which("systemd-analyze"), "systemd-analyze is not installed: the exposure of the unit was not tested")
    def test_exposure(self):
        for name in ("plant@", "plant-ticker@", "plant-metrics@", "plant-renumber@", "plant-bridge@"):
            done = subprocess.run(["systemd-analyze", "security", "--offline=true", "--no-pager", UNITS / f"{name}.service"], capture_output=True, text=True, check=True)
            self.assertLess(float(re.search(r"Overall exposure level .*?: (\d+\.\d+)", done.stdout)[1]), MOST_EXPOSURE)

    def test_an_invalid_plant_file_is_not_tried_again(self):
        self.assertRegex((UNITS / "plant@.service").read_text(), r"(?m)^RestartPreventExitStatus=2 3$")

    @unittest.skipUnless(shutil.which("systemd-analyze"), "systemd-analyze is not installed: the settings of the units were not tested")
    def test_no_setting_is_unknown(self):
        """Reads the units as this version of systemd does. Users and commands of the package are not there."""
        with tempfile.TemporaryDirectory() as folder:
            units = [pathlib.Path(shutil.copy(path, pathlib.Path(folder, path.name.replace("@.", "@east.")))) for path in UNITS.glob("*@.*")]
            self.assertEqual(len(units), 8)
            done = subprocess.run(["systemd-analyze", "verify", "--man=no", *units], capture_output=True, text=True, check=False)
            self.assertEqual([line for line in done.stderr.splitlines() if folder in line], [])


# Each edit of the script is a fault that the test which is named must notice.
EDITS = [
    ("a_stop_answers_what_has_come", "trap '' TERM\n", ""),
    ("a_stop_answers_what_has_come", "trap - TERM && ", ""),
    ("a_stop_keeps_the_state_for_the_next_start", "trap : TERM; ", ""),
    ("a_stop_keeps_the_state_for_the_next_start", "; echo K)", ")"),
    ("a_stop_keeps_the_state_for_the_next_start", ' && mv -- "$STATE" "$STATE.taken"', ""),
    ("a_stop_keeps_the_state_for_the_next_start", " | sed '/^melfjits-snapshot /q'", ""),
    ("a_state_with_another_plant_file_is_put_aside", "cmp --quiet", "true"),
    ("a_state_with_another_plant_file_is_put_aside", 'mv -- "$STATE" "$STATE.old"', "true"),
    ("no_state_is_kept_if_an_answer_follows", "*) return 0 ;; esac", "esac"),
    ("no_state_is_kept_of_a_channel_that_was_killed", '[ "${SERVICE_RESULT-success}" = success ] && ', ""),
    ("a_stop_leaves_no_part_of_a_line", 'LC_ALL=C exec stdbuf --output=L sed "$script"', "exec cat"),
    ("lines_of_clients_that_come_and_go_are_answered", "stdbuf --output=L sed", "sed"),
    ("the_plant_file_ends_at_its_separator", "'/^---$/ { exit } ", "'"),
    ("the_plant_file_ends_at_its_separator", "plant_file && echo ---; }", "plant_file; }"),
    ("a_missing_plant_file_is_refused", "    exit 3\n", "    exit 1\n"),
    ("an_invalid_plant_file_is_refused_with_its_reason", '        exit "$status"\n', "        exit 1\n"),
    ("an_invalid_plant_file_is_refused_with_its_reason", "check 2>&1 | ", "check 2>/dev/null | "),
    ("an_invalid_plant_file_is_refused_with_its_reason", "status=${PIPESTATUS[1]}", "status=${PIPESTATUS[0]}"),
    ("answers_that_cannot_be_written_are_refused", '>>"$ANSWERS"; } || exit 6', '>>"$ANSWERS"; } || true'),
    ("answers_are_appended_and_a_cut_line_is_ended", "end_cut_line && exec", "exec"),
    ("answers_are_appended_and_a_cut_line_is_ended", '[ -z "$(tail -c 1 -- "$ANSWERS")" ] || ', ""),
    ("answers_are_appended_and_a_cut_line_is_ended", 'exec >>"$ANSWERS"', 'exec >"$ANSWERS"'),
    ("each_start_records_all_input", 'beginning_and_separator | tee -- "$record" && ', "beginning_and_separator && "),
    ("each_start_records_all_input", ' | (trap \'\' TERM && exec tee --append -- "$record")', ""),
    ("a_stop_records_what_is_answered", ' | (trap \'\' TERM && exec tee --append -- "$record")', ""),
    ("a_change_is_recorded_with_its_plant_file", '(copy_lines) | (trap \'\' TERM && exec tee --append -- "$record")', 'tee --append -- "$record" | (copy_lines)'),
    ("a_reload_changes_the_plant", "{ plant_file >", "{ cat <$plant >"),
    ("a_reload_changes_the_plant", '    rm -f -- "$change"\n    say', "    say"),
    ("a_stop_within_a_plant_file_keeps_the_state", "end_cut_file; echo K)", "echo K)"),
    ("a_stop_within_a_plant_file_keeps_the_state", "\\n= cut off\\n---", "\\n---"),
    ("a_reload_changes_the_plant", "sh -c 'echo P >>", "sh -c 'echo p >>"),
    ("a_reload_changes_the_plant", "from frame ${answer#P frame } on", "from frame ${answer} on"),
    ("a_refused_change_is_reported", '--bytes="+$(($1 + 1))"', "--bytes=+1"),
    ("a_refused_change_is_reported", "$ANSWERS\"\n        exit 1\n", "$ANSWERS\"\n        exit 0\n"),
    ("a_change_waits_for_its_answer", "'^P frame '; do\n        ! is_late \"${CHANGE_SECONDS-5}\" || return", "'^P frame '; do\n        return 1"),
    ("no_line_of_a_client_comes_into_a_plant_file", "sh -c 'echo P >>\"$1\"' sh \"$1\"\n", "true; { echo P; plant_and_separator; } >>\"$1\"\n"),
    ("an_invalid_plant_file_is_not_sent", "    check_plant 4\n    before", "    before"),
    ("a_client_changes_no_plant", '[ -z "$change" ] || rm -f -- "$change"\n', ""),
    ("a_channel_without_a_state_is_not_changed", '[ -z "$change" ] || script=', "script="),
    ("a_channel_without_a_state_is_not_changed", 'if [ -z "$change" ] || ', "if "),
    ("a_channel_without_a_state_is_not_changed", '[ ! -f "${ANSWERS-}" ] || ', ""),
    ("a_channel_without_a_state_is_not_changed", '"${ANSWERS-}" ] || [ ! -p "$1" ]', '"${ANSWERS-}" ]'),
    ("each_start_records_all_input", "$(date --utc +%Y%m%dT%H%M%S.%3NZ)", "record"),
    ("the_end_of_the_program_is_the_end_of_the_script", 'exec "$program" serve < ', '"$program" serve < '),
    ("readiness_is_reported_once_the_plant_file_is_checked", "    notify --ready", "    true --ready"),
    ("reasons_have_priorities_in_the_journal", "trap - TERM && give_input) 2> >(pass_on)", "trap - TERM && give_input)"),
    ("reasons_have_priorities_in_the_journal", "/^ok\\$/!s", "s"),
    ("reasons_have_priorities_in_the_journal", 'check_plant 3\n', 'check_plant 4\n'),
    ("a_warning_of_the_check_is_one_in_the_journal", "; s/^<.>warning: /<4>warning: /", ""),
    ("a_refused_reload_is_a_warning", "    check_plant 4\n    before", "    check_plant 3\n    before"),
    ("a_refused_reload_is_a_warning", "${JOURNAL_STREAM:+<$1>}serve_channel", "serve_channel"),
    ("reasons_are_held_back", "end_cut_file; echo K) 2> >(pass_on)", "end_cut_file; echo K)"),
    ("reasons_are_held_back", '"${REASONS_PER_SECOND-}"', '""'),
    ("a_journal_that_takes_nothing_stops_no_line", "end_cut_file; echo K) 2> >(pass_on)", "end_cut_file; echo K) 2> >(exec cat >&2)"),
    ("the_channel_goes_on_without_the_process_that_passes_reasons", '        exec "$pass_reasons"', '        "$pass_reasons"'),
    ("without_that_script_reasons_are_passed_as_they_are", ' && [ -x "$pass_reasons" ]', ""),
    ("starts_that_follow_short_runs_wait_longer_each_time", "EPOCHSECONDS < last || ", ""),
    ("starts_that_follow_short_runs_wait_longer_each_time", ">= last + 20", ">= last + 15"),
    ("starts_that_follow_short_runs_wait_longer_each_time", "count < 8 ? 1 << count - 4 : 15", "count < 9 ? 1 << count - 4 : 15"),
    ("starts_that_follow_short_runs_wait_longer_each_time", 'echo "$((count + 1)) $EPOCHSECONDS" >', 'echo "5 $EPOCHSECONDS" >'),
    ("a_reload_waits_for_room_in_the_pipe_for_some_seconds_only", 'timeout "$(($2 ? $2 : 1))" sh', "sh"),
    ("a_reload_waits_for_room_in_the_pipe_for_some_seconds_only", '    rm -f -- "$change"\n    [ "$status" = 124 ]', '    [ "$status" = 124 ]'),
    ("a_reload_waits_for_room_in_the_pipe_for_some_seconds_only", '    [ "$status" = 124 ] || exit 6\n', "    exit 6\n"),
    ("the_program_is_noted_for_its_watchdog", 'echo "$$" >"$notes/program"', "true"),
    ("the_program_is_noted_for_its_watchdog", '"$$" "$notes" <&0', '"$BASHPID" "$notes" <&0'),
    ("wrong_arguments_are_refused", "    exit 2\nfi\n\n# Keeps", "    exit 1\nfi\n\n# Keeps"),
    ("wrong_arguments_are_refused", ' || [ "$1" = --change ]', ""),
    ("wrong_arguments_are_refused", '[ "$#:${1-}" != 3:--change ]', "[ $# != 3 ]"),
]
# The same for a channel with a folder.
FOLDER_EDITS = [
    ("a_folder_is_made_for_its_owner_alone", " --mode=700", ""),
    ("a_folder_goes_on_after_a_stop_and_keeps_no_state", '[ -z "$folder" ] && ', ""),
    ("a_folder_goes_on_after_a_program_that_was_killed", '    [ "$status" = 0 ] || kill "$copier" 2>/dev/null\n', ""),
    ("a_folder_goes_on_after_a_program_that_was_killed", '    exit "$status"\n}\n\nif [ -n "$folder" ]', '    exit\n}\n\nif [ -n "$folder" ]'),
    ("a_stop_with_a_folder_answers_what_has_come", "(trap '' TERM; run_program", "(run_program"),
    ("a_stop_with_a_folder_answers_what_has_come", 'while kill -0 "$server" 2>/dev/null; do wait "$server"; done', 'wait "$server"'),
    ("a_stop_with_a_folder_answers_what_has_come", "    trap stop TERM\n", ""),
    ("a_stop_before_the_first_line_is_copied", '    [ -z "$stopping" ] || kill "$copier"\n', ""),
    ("a_reload_with_a_folder_changes_the_plant", "sed -n '1,2d; /^=---$/q; s/^=//p' \"$folder/journal\"; }", 'cat "$plant"; }'),
    ("a_reload_with_a_folder_changes_the_plant", '    rm -f -- "$plant"\n', ""),
    ("a_reload_with_a_folder_changes_the_plant", '    rm -f -- "$folder.answer"\n    if', "    if"),
    ("a_reload_with_a_folder_changes_the_plant", "if [ -n \"$folder\" ]; then change_folder", "if false; then change_folder"),
    ("a_refused_reload_leaves_the_plant_of_the_folder", '    if [ "$status" != 0 ]; then\n        echo', "    if false; then\n        echo"),
    ("a_refused_reload_leaves_the_plant_of_the_folder", "1,2d; /^=---$/q; s/^=//p' \"", "/^=---$/q; s/^=//p' \""),
    ("an_invalid_plant_file_is_not_given_to_a_folder", '    check_plant 4\n    rm', "    rm"),
    ("a_reload_loses_no_line", "sed --unbuffered", "sed"),
    ("a_reload_loses_no_line", "/Q$line_p", "/q$line_p"),
    ("a_line_p_of_a_client_changes_no_plant", ' 2>/dev/null || return 0', " || exit 1"),
    ("a_reload_without_an_answer_changes_nothing", '        rm -f -- "$change"\n', ""),
    ("a_reload_of_no_channel", ' || [ ! -p "$1" ]; then\n        say 4 "no channel runs with $folder', '; then\n        say 4 "no channel runs with $folder'),
    ("a_reload_of_no_channel", '[ ! -f "$folder/journal" ] || ', ""),
    ("a_start_takes_a_changed_plant_file", "    open_folder\n", ""),
    ("a_start_whose_change_is_refused_says_what_to_do", '$folder/journal"\n    exit "$status"\n', '$folder/journal"\n    exit 1\n'),
    ("a_start_whose_change_is_refused_says_what_to_do", "    open_folder\n    report_ready\n", "    report_ready\n    open_folder\n"),
    ("a_folder_that_is_in_use_is_refused", '$folder/journal"\n    exit "$status"\n', '$folder/journal"\n    exit 3\n'),
    ("readiness_is_reported_once_the_folder_is_open", "    open_folder\n    report_ready\n", "    open_folder\n"),
    ("each_start_with_a_folder_records_its_input", '        exec 9> >(trap \'\' TERM; exec tee -- "$(new_record)" >&9 9>&-)\n', "        true\n"),
    ("a_stop_with_a_folder_answers_what_has_come", "server=$!\n", "server=''\n"),
    ("reasons_of_a_folder_have_priorities", 'exec "$program" serve --state "$folder" 2> >(pass_on)', 'exec "$program" serve --state "$folder"'),
    ("a_state_that_a_new_folder_does_not_take_is_reported", '[ ! -s "$folder/journal" ]', "false"),
    ("reasons_of_a_folder_have_priorities", "| with_priority 4", "| with_priority 3"),
    ("reasons_of_a_folder_have_priorities", "| with_priority 3", "| with_priority 4"),
    ("the_name_of_a_new_folder_is_on_the_disk", '! sync -- "$above"', '! sync -- "$folder"'),
    ("the_name_of_a_new_folder_is_on_the_disk", '[ ! -e "$folder/journal" ] && ', ""),
    ("a_folder_whose_name_cannot_be_written_is_refused", '! sync -- "$above"', '! { sync -- "$above" || true; }'),
    ("a_reload_with_a_folder_waits_for_room_in_the_pipe_for_some_seconds_only", 'timeout "$(($2 ? $2 : 1))" sh', "sh"),
    ("the_processes_of_a_folder_are_noted_for_its_watchdog", 'echo "$BASHPID" >"$notes/program"', 'echo "$$" >"$notes/program"'),
    ("the_processes_of_a_folder_are_noted_for_its_watchdog", 'echo "$recorder $copier" >', 'echo "$copier $recorder" >'),
]


def is_noticed(channel, test, old, new):
    """Returns whether a test fails once the script has the edit."""
    global SECONDS
    text, seconds = TEXTS["serve_channel"], SECONDS
    assert text.count(old) == 1, f"serve_channel has {text.count(old)} times: {old}"
    TEXTS["serve_channel"], SECONDS = text.replace(old, new), SECONDS_OF_EDIT
    try:
        return not unittest.TextTestRunner(stream=io.StringIO()).run(channel(f"test_{test}")).wasSuccessful()
    finally:
        TEXTS["serve_channel"], SECONDS = text, seconds


class Edits(unittest.TestCase):
    def test_each_edit_is_noticed(self):
        self.assertEqual([edit for edit in EDITS if not is_noticed(Channel, *edit)], [])

    def test_each_edit_of_what_a_folder_needs_is_noticed(self):
        self.assertEqual([edit for edit in FOLDER_EDITS if not is_noticed(FolderChannel, *edit)], [])
