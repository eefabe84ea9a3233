"""Tests the two commands at the top, plant_script and prove, and how a service starts. A small script takes the place of rt and prints what
rt prints, so nothing is proved or compiled here. Then each edit of the scripts in EDITS must fail a test.
"""

import contextlib
import io
import os
import pathlib
import shutil
import signal
import subprocess
import sys
import tempfile
import time
import unittest

from tools import ROOT

SCRIPTS = {name: (ROOT / name).read_text() for name in ("plant_script", "prove", "examples/serving/serve_plant.sh")}
COMMANDS = ("sh bash env readlink dirname find head tail awk mktemp rm cat flock cp mkdir sed mkfifo sort xargs sha256sum cut ls touch chmod mv "
            "sleep tr").split()
PROGRAM = "crates/plant_program/out/plant_program"
TIMEOUT = 10  # seconds
REASONS = ["checked: a line of the program that looks like one of rt", "a reason of the program"]

# Takes the place of rt. Files next to it say what it does: `status` the program's status, `silent` that the run gave no answer,
# `refused` that the sources are refused, `opens` that the pipe is opened before there is a program, `waits` that a run does not end,
# `unproved` a crate that is not proved, `edits` a source that changes while rt is at work, `kit` the line of `rt version`.
RT = r"""#!/bin/sh
here=$(dirname -- "$(readlink -f -- "$0")")
for word; do printf '%s|' "$word"; done >>"$here/calls"
echo "${PWD##*/}" >>"$here/calls"
file=
[ "$1 $2" != 'try --data' ] || { file=$3 && shift 3 && set -- try "$@"; }
case "$1 $2" in
'try --')
    shift 2
    [ ! -e "$here/silent" ] || { echo 'checked: no-answer: 1048577 bytes of output'; echo 'run=no-answer runners=0 proved=no'; exit 6; } >&2
    [ ! -e "$here/refused" ] || { echo 'error: a source is refused' >&2; exit 1; }
    [ ! -e "$here/edits" ] || echo >>"$(cat "$here/edits")"
    [ ! -e "$here/opens" ] || sleep 1 <"$2"
    [ ! -e "$here/waits" ] || sleep 20
    folder=$(mktemp -d)/run
    mkdir "$folder"
    cp "$here/unproved_program" "$folder/program"
    [ -z "$file" ] || cp "${file#*=}" "$folder/${file%%=*}"
    cat >"$folder/stdin"
    status=0
    (cd "$folder" && ./program "$@" <stdin) || status=$?
    rm -r "${folder%/run}"
    { echo "checked: ended status=$status"; echo 'races: not looked for'; echo "run=ended status=$status runners=1 races=unchecked proved=no"; } >&2
    exit "$status" ;;
'all check')
    [ ! -e "$here/edits" ] || echo >>"$(cat "$here/edits")"
    echo 'rt: waiting for another rt to finish in lists'
    printf '== lists\nfn lists::new: proved\nlogic=proved tests=0 functions=3 statements=trusted\n'
    if [ -e "$here/unproved" ]; then
        printf '== tlv24\nfn tlv24::read: not proved\nlogic=not-proved functions=9\n== plant_program\n== summary\nlists: ok\ntlv24: failed (1)\n'
        printf 'plant_program: not run, since tlv24 failed\n(1: not proved or not passed)\n1 of 3 crates ok\n'
        exit 1
    fi
    printf '== tlv24\nlogic=proved functions=40 statements=trusted\n== plant_program\nlogic=proved functions=2 statements=trusted\n'
    printf '== summary\nlists: ok\ntlv24: ok\nplant_program: ok\n3 of 3 crates ok\n' ;;
'run --jobs')
    echo 'logic=proved functions=2 target=x86_64 statements=trusted' >&2
    mkdir -p out
    cp "$here/program" out/plant_program ;;
'version ') cat "$here/kit" ;;
*) exit 99 ;;
esac
"""
# Takes the place of the program that `rt try` compiles. Files of the stub of rt say what it does: `status` its status, `faulty` that it
# stops at a fault, `broken` that it does not run where it is kept.
COMPILED = r"""#!/bin/sh
rt={rt}
printf 'words:'; printf ' <%s>' "$@"; echo
[ ! -e "$rt/broken" ] || [ "${{0%/program}}" != "$0" ] || exit 127
case " $* " in ' ' | *' help '* | *' -h '* | *' --help '* | *' -V '* | *' --version '*) exit 0 ;; esac
[ ! -e "$rt/faulty" ] || {{ echo "$ASAN_OPTIONS"; exit "$(echo "$ASAN_OPTIONS" | tr : '\n' | sed -n 's/^exitcode=//p')"; }}
case " $* " in
*' --input '*)
    while [ "$1" != --input ]; do shift; done
    [ ! -e "$2" ] || {{ echo "$2 has:"; cat "$2"; }} ;;
*) cat ;;
esac
echo 'checked: a line of the program that looks like one of rt' >&2
echo 'a reason of the program' >&2
exit "$(cat "$rt/status")"
"""
# Takes the place of the proved program.
PROVED = """#!/bin/sh
printf 'proved:'; printf ' <%s>' "$@"; echo
cat
echo 'a proved reason' >&2
exit 3
"""


class Place:
    """A small repository with the scripts, in a folder whose name has a blank, and a path of commands on which rt may be."""

    def __init__(self, folder, has_rt=True):
        self.top, self.bin, self.rt, self.temporary = (pathlib.Path(folder) / name for name in ("a plant", "bin", "rt", "temporary"))
        for folder in (self.top / "crates/plant_program/src", self.top / "crates/tlv24/src", self.top / "crates/lists/src", self.bin, self.rt, self.temporary):
            folder.mkdir(parents=True)
        for name, text in SCRIPTS.items():
            self.write(name, text).chmod(0o755)
        self.write("crates.txt", "# NAME: what it uses\nlists:\ntlv24: lists\nplant_program: tlv24\n")
        for crate in ("lists", "tlv24"):
            self.write(f"crates/{crate}/src/lib.rt", "")
        self.write("crates/plant_program/src/main.rt", "")
        for command in COMMANDS:
            (self.bin / command).symlink_to(shutil.which(command))
        (self.bin / "python3").symlink_to(sys.executable)
        for name, text in (("rt", RT), ("program", PROVED), ("unproved_program", COMPILED.format(rt=f"'{self.rt}'")), ("status", "0"), ("calls", ""),
                           ("kit", "rattle-kit-1 logic 0\n")):
            (self.rt / name).write_text(text)
        for name in ("rt", "program", "unproved_program"):
            (self.rt / name).chmod(0o755)
        if has_rt:
            (self.bin / "rt").symlink_to(self.rt / "rt")

    def write(self, name, text):
        file = self.top / name
        file.parent.mkdir(parents=True, exist_ok=True)
        file.write_text(text)
        return file

    def build(self):
        """Puts the proved program there, newer than each source and older than what is written from now on."""
        program, now = self.write(PROGRAM, PROVED), time.time()
        program.chmod(0o755)
        os.utime(program, (now - 500, now - 500))
        for file in [self.top / "crates.txt", *self.top.glob("crates/*/src/*")]:
            os.utime(file, (now - 1000, now - 1000))

    def calls(self):
        return (self.rt / "calls").read_text().splitlines()

    def tries(self):
        """Returns the calls that compile and run the program without a proof."""
        return [call for call in self.calls() if call.startswith("try|")]

    def say(self, name, text=""):
        """Writes a file for the stub of rt."""
        (self.rt / name).write_text(text)

    def run(self, *words, given=b"", folder=None, **environment):
        """Runs a script of the repository, and returns its status, standard output and standard error."""
        environment = {"PATH": str(self.bin), "TMPDIR": str(self.temporary), **environment}
        how = {"cwd": folder or self.top, "env": environment, "stdout": subprocess.PIPE, "stderr": subprocess.PIPE}
        how |= {"stdin": subprocess.PIPE if isinstance(given, bytes) else given}
        with in_session([str(self.top / words[0]), *words[1:]], **how) as process:
            output, errors = process.communicate(given if isinstance(given, bytes) else None, timeout=TIMEOUT)
        return process.returncode, output.decode(), errors.decode()


@contextlib.contextmanager
def in_session(words, **how):
    """Starts a process in a session of its own, and kills at the end what is left there. It is interrupted by SIGINT, even if we are not."""
    with subprocess.Popen(words, start_new_session=True, preexec_fn=lambda: signal.signal(signal.SIGINT, signal.SIG_DFL), **how) as process:
        try:
            yield process
        finally:
            with contextlib.suppress(ProcessLookupError):
                os.killpg(process.pid, signal.SIGKILL)


def is_in_session(pid, session):
    """Returns whether a process is of this session."""
    try:
        return os.getsid(int(pid)) == session
    except ProcessLookupError:
        return False


class Starting(unittest.TestCase):
    def setUp(self):
        folder = tempfile.TemporaryDirectory()
        self.addCleanup(folder.cleanup)
        self.folder = pathlib.Path(folder.name)

    def place(self, **how):
        return Place(self.folder / str(len(list(self.folder.iterdir()))), **how)

    def one_line(self, text, *parts):
        """Checks that the text is one line with all these parts."""
        self.assertEqual(len(text.splitlines()), 1, text)
        for part in parts:
            self.assertIn(part, text)


class Unproved(Starting):
    """Runs of a program that cannot be kept, since there is no HOME."""

    def test_output_errors_and_status_of_the_program_are_passed_on(self):
        place = self.place()
        for status in range(8):
            (place.rt / "status").write_text(str(status))
            got, output, errors = place.run("plant_script", "history", "A B", given=b"one\n\ntwo")
            message, not_kept, *reasons = errors.splitlines()
            self.assertEqual(got, status)
            self.assertEqual(output, "words: <history> <A B>\none\n\ntwo")
            self.one_line(message, "plant_script:", "not of a proved program", "two to four minutes", "./prove")
            self.one_line(not_kept, "plant_script:", "$HOME/.cache", "cannot be written")
            self.assertEqual(reasons, REASONS)

    def test_nothing_else_is_started_and_nothing_is_left(self):
        place = self.place()
        before = sorted(place.top.rglob("*"))
        place.run("plant_script", "run")
        self.assertEqual(place.calls(), ["version|a plant", "try|--|run|plant_program"])
        self.assertEqual(sorted(place.top.rglob("*")), before)
        self.assertEqual(list(place.temporary.iterdir()), [])

    def test_a_run_with_no_answer_has_a_status_that_the_program_has_not(self):
        place = self.place()
        (place.rt / "silent").write_text("")
        status, output, errors = place.run("plant_script", "run")
        self.assertEqual((status, output), (125, ""))
        self.assertIn("checked: no-answer: 1048577 bytes of output", errors)
        self.assertIn("./prove", errors.splitlines()[-1])

    def test_help_waits_for_no_input(self):
        place = self.place()
        reading, writing = os.pipe()
        for words in (["--help"], ["run", "-h"], ["help"], ["--version"], ["-V"], ["serve", "--help"], []):
            self.assertEqual(place.run("plant_script", *words, given=reading)[0], 0)
        os.close(reading)
        os.close(writing)

    def test_no_more_of_an_input_is_read_than_the_program_takes(self):
        place = self.place()
        with open("/dev/zero", "rb") as endless:
            self.assertEqual(len(place.run("plant_script", "one", given=endless)[1]), len("words: <one>\n") + 1048577)

    def test_serve_is_refused(self):
        place = self.place()
        status, output, errors = place.run("plant_script", "serve")
        self.assertEqual((status, output, place.calls()), (126, "", []))
        self.one_line(errors, "serve", "not built", "./prove")

    def test_serve_is_refused_behind_options(self):
        place = self.place()
        for words in (["--json", "serve"], ["--strict", "--input", "run", "serve"], ["--state", "run", "--snapshot-every", "5", "serve"]):
            self.assertEqual(place.run("plant_script", *words)[0], 126, words)
        self.assertEqual(place.calls(), [])
        self.assertEqual(place.run("plant_script", "history", "serve")[0], 0)

    def test_a_file_is_read_in_place_of_standard_input(self):
        place = self.place()
        place.write("a file", "its lines\n")
        reading, writing = os.pipe()
        for words, before in ((["run", "--input", "a file"], "<run> <--input>"), (["--input", "a file", "run"], "<--input>")):
            status, output, _ = place.run("plant_script", *words, given=reading)
            after = " <run>" if words[0] != "run" else ""
            self.assertEqual((status, output), (0, f"words: {before} <file>{after}\nfile has:\nits lines\n"))
        self.assertEqual(place.run("plant_script", "run", "--input", "no file", given=reading)[:2], (0, "words: <run> <--input> <no file>\n"))
        os.close(reading)
        os.close(writing)

    def test_a_service_is_refused(self):
        place = self.place()
        plant = place.write("plant.toml", "")
        for environment in ({}, {"PLANT_SCRIPT": str(place.top / "plant_script")}):
            room = place.top / f"room{len(environment)}"
            room.mkdir()
            status, output, errors = place.run("examples/serving/serve_plant.sh", str(plant), str(room), **environment)
            self.assertEqual((status, output, place.calls()), (126, "", []), errors)
            self.assertIn("not built", errors)
            self.assertIn("prove", errors)

    def test_without_rt_it_says_what_to_do(self):
        place = self.place(has_rt=False)
        status, output, errors = place.run("plant_script", "run")
        self.assertEqual((status, output), (127, ""))
        for part in ("no command rt", "./prove", "README.md", "service/reference run"):
            self.assertIn(part, errors)


class Kept(Starting):
    """Runs of a program without a proof that is kept."""

    def setUp(self):
        super().setUp()
        self.home = self.folder / "a home"
        self.cache = self.home / ".cache/plant_script"

    def run_in(self, place, *words, **how):
        return place.run("plant_script", *(words or ["run"]), **{"HOME": str(self.home), **how})

    def kept(self):
        return sorted(self.cache.iterdir())

    def test_the_second_run_compiles_nothing(self):
        place = self.place()
        before = sorted(place.top.rglob("*"))
        for minutes, given in ((True, b"one\n\ntwo"), (False, b"three"), (False, b"")):
            status, output, errors = self.run_in(place, "history", "A B", given=given)
            message, *reasons = errors.splitlines()
            self.assertEqual((status, output, reasons), (0, f"words: <history> <A B>\n{given.decode()}", REASONS))
            self.one_line(message, "plant_script:", "not of a proved program", "./prove")
            self.assertEqual("two to four minutes" in message, minutes)
        self.assertEqual(len(place.tries()), 1)
        self.assertEqual(len(self.kept()), 1)
        self.assertEqual(sorted(place.top.rglob("*")), before)
        self.assertEqual(list(place.temporary.iterdir()), [])

    def test_the_status_of_a_kept_program_is_passed_on(self):
        place = self.place()
        for status in [*range(8), 0]:
            place.say("status", str(status))
            self.assertEqual(self.run_in(place)[0], status)
        self.assertEqual(len(place.tries()), 1)

    def test_a_kept_program_that_stops_at_a_fault_has_a_status_of_the_script(self):
        place = self.place()
        self.run_in(place)
        place.say("faulty")
        for options, given in (("exitcode=125", {}), ("exitcode=125:verbosity=1", {"ASAN_OPTIONS": "verbosity=1"})):
            self.assertEqual(self.run_in(place, **given)[:2], (125, f"words: <run>\n{options}\n"))

    def test_a_kept_program_reads_files_and_long_inputs_itself(self):
        place = self.place()
        long = b"x" * 3_000_000
        for _ in range(2):
            self.assertEqual(self.run_in(place, given=long)[1], "words: <run>\n" + long.decode())
        place.write("a file", "its lines\n")
        self.assertEqual(self.run_in(place, "run", "--input", "a file")[1], "words: <run> <--input> <a file>\na file has:\nits lines\n")
        self.assertEqual(len(place.tries()), 1)

    def test_serve_is_refused_where_a_program_is_kept(self):
        place = self.place()
        self.run_in(place)
        self.assertEqual(len(self.kept()), 1)
        self.assertEqual(self.run_in(place, "serve")[0], 126)

    def test_another_source_or_kit_is_compiled(self):
        place = self.place()
        source = "crates/tlv24/src/lib.rt"
        self.run_in(place)
        changes = [lambda: place.write(source, "fn f() {}"), lambda: place.write("crates/lists/specs/Listed.antt", "x"),
                   lambda: place.write("crates.txt", "lists:\n"), lambda: (place.top / source).rename(place.top / "crates/tlv24/src/renamed.rt"),
                   lambda: place.say("kit", "rattle-kit-2 logic 0\n")]
        for done, change in enumerate(changes, 2):
            change()
            for folder in (self.folder, place.top):
                self.assertEqual(self.run_in(place, folder=folder)[0], 0)
                self.assertEqual(len(place.tries()), done)

    def test_what_is_no_source_is_not_looked_at(self):
        place = self.place()
        self.run_in(place)
        for name in ("README.md", "crates/tlv24/out/lib.rt", "crates/tlv24/edits/an.edit"):
            place.write(name, "x")
        os.utime(place.top / "crates.txt")
        self.run_in(place)
        self.assertEqual(len(place.tries()), 1)

    def test_clones_share_a_program(self):
        places = self.place(), self.place()
        for place in places:
            self.run_in(place, folder=self.folder)
        self.assertEqual([len(place.tries()) for place in places], [1, 0])

    def test_the_folder_of_the_environment_is_used(self):
        place, folder = self.place(), self.folder / "a cache"
        for _ in range(2):
            self.run_in(place, XDG_CACHE_HOME=str(folder))
        self.assertEqual((len(place.tries()), len(list((folder / "plant_script").iterdir())), self.home.exists()), (1, 1, False))
        self.run_in(place, XDG_CACHE_HOME="relative")
        self.assertEqual((len(place.tries()), len(self.kept()), (place.top / "relative").exists()), (2, 1, False))

    def test_only_a_few_programs_are_kept(self):
        place = self.place()
        texts = [f"// {at}" for at in range(6)]
        for at, text in enumerate(texts):
            place.write("crates/lists/src/lib.rt", text)
            self.run_in(place)
            for age, file in enumerate(sorted(self.kept(), key=lambda it: it.stat().st_mtime_ns, reverse=True)):
                os.utime(file, (time.time() - 100 * (age + 1),) * 2)
            self.assertEqual(len(self.kept()), min(at + 1, 4))
        for text, compiled in ((texts[5], 6), (texts[2], 6), ("// 7", 7), (texts[2], 7), (texts[3], 8)):
            place.write("crates/lists/src/lib.rt", text)
            self.run_in(place)
            self.assertEqual(len(place.tries()), compiled, text)

    def test_where_the_folder_cannot_be_written_each_run_compiles(self):
        place = self.place()
        self.home.mkdir()
        (self.home / ".cache").write_text("")
        for done in (1, 2):
            status, output, errors = self.run_in(place, given=b"in")
            message, not_kept, *reasons = errors.splitlines()
            self.assertEqual((status, output, reasons, len(place.tries())), (0, "words: <run>\nin", REASONS, done))
            self.one_line(message, "two to four minutes")
            self.one_line(not_kept, "plant_script:", str(self.cache), "cannot be written")

    def test_a_program_that_does_not_run_there_is_not_kept(self):
        place = self.place()
        place.say("broken")
        status, output, errors = self.run_in(place, given=b"in")
        self.assertEqual((status, output, self.kept()), (0, "words: <run>\nin", []))
        self.one_line(errors.splitlines()[1], str(self.cache), "cannot be kept")

    def test_a_program_of_sources_that_change_meanwhile_is_not_kept(self):
        place = self.place()
        place.say("edits", str(place.top / "crates/tlv24/src/lib.rt"))
        self.assertEqual(self.run_in(place)[0], 0)
        self.assertEqual(self.kept(), [])
        (place.rt / "edits").unlink()
        for _ in range(2):
            self.assertEqual(self.run_in(place)[0], 0)
        self.assertEqual((len(self.kept()), len(place.tries())), (1, 3))

    def test_refused_sources_have_no_program(self):
        place = self.place()
        place.say("refused")
        status, output, errors = self.run_in(place)
        self.assertEqual((status, output, self.kept(), len(place.tries())), (125, "", [], 1))
        self.assertIn("error: a source is refused", errors.splitlines())

    def test_something_else_may_open_the_pipe_first(self):
        place = self.place()
        place.say("opens")
        self.assertEqual(self.run_in(place, given=b"in")[:2], (0, "words: <run>\nin"))
        self.assertEqual((len(self.kept()), len(place.tries())), (1, 1))

    def test_an_interrupted_run_leaves_nothing(self):
        place = self.place()
        place.say("waits")
        environment = {"PATH": str(place.bin), "TMPDIR": str(place.temporary), "HOME": str(self.home)}
        with in_session([place.top / "plant_script", "run"], env=environment, stdin=subprocess.DEVNULL, stderr=subprocess.DEVNULL) as script:
            while not place.tries():
                time.sleep(0.01)
            # As at a terminal, all processes of the run get the signal. A shell that is just about to start a command loses it.
            for _ in range(20):
                os.killpg(script.pid, signal.SIGINT)
                with contextlib.suppress(subprocess.TimeoutExpired):
                    script.wait(TIMEOUT / 20)
                    break
            self.assertEqual(script.poll(), 130)
            self.assertEqual((self.kept(), list(place.temporary.iterdir())), ([], []))
            self.assertEqual([pid for pid in os.listdir("/proc") if pid.isdigit() and is_in_session(pid, script.pid)], [])


class Proved(Starting):
    def test_the_proved_program_runs(self):
        place = self.place()
        place.build()
        (self.folder / "link").symlink_to(place.top / "plant_script")
        place.write("crates/plant_program/out/rlib/lib.rt", "")
        for folder in (place.top, self.folder):
            self.assertEqual(place.run("plant_script", "run", "a b", given=b"in", folder=folder), (3, "proved: <run> <a b>\nin", "a proved reason\n"))
        done = subprocess.run([self.folder / "link", "one"], input=b"", capture_output=True, check=False)
        self.assertEqual((done.returncode, done.stdout), (3, b"proved: <one>\n"))
        self.assertEqual(place.calls(), [])

    def test_a_newer_source_is_named_and_the_program_runs(self):
        for source in ("crates/tlv24/src/lib.rt", "crates/lists/specs/Listed.antt", "crates.txt"):
            place = self.place()
            place.build()
            place.write(source, "lists:")
            status, output, errors = place.run("plant_script", "serve", given=b"in")
            message, reason = errors.splitlines()
            self.assertEqual((status, output, reason, place.calls()), (3, "proved: <serve>\nin", "a proved reason", []))
            self.one_line(message, source, "newer", "./prove")

    def test_elsewhere_the_whole_path_of_prove_is_named(self):
        place = self.place()
        self.assertIn(f"{place.top.resolve()}/prove", place.run("plant_script", "run", folder=self.folder)[2])


class Proving(Starting):
    def test_crates_then_the_program_are_proved(self):
        place = self.place()
        status, output, errors = place.run("prove", "--jobs", "3")
        self.assertEqual((status, errors), (0, ""))
        self.assertEqual(place.calls(), ["all|check|--jobs|3|a plant", "run|--jobs|1|--|one|plant_program", "version|a plant"])
        lines = output.splitlines()
        self.one_line(lines[0], "3 crates", "3 at a time")
        self.one_line(lines[1], "rt: waiting for another rt to finish in lists")
        for at, crate in enumerate(("lists", "tlv24", "plant_program"), 1):
            self.one_line(lines[at + 1], f"{at} of 3 crates", "0 min", crate)
        self.assertIn("rt says: 3 of 3 crates ok", output)
        self.assertIn("proved in this run: 45", output)
        self.assertIn("logic=proved functions=2 target=x86_64 statements=trusted", output)
        self.assertIn(PROGRAM, lines[-1])
        self.assertEqual(place.run("plant_script", "run"), (3, "proved: <run>\n", "a proved reason\n"))
        self.assertIn("fn lists::new: proved", (place.top / "crates/plant_program/out/prove.log").read_text())

    def test_the_version_names_the_kit_that_built_the_program(self):
        place = self.place()
        self.assertEqual(place.run("prove")[0], 0)
        program = place.write(PROGRAM, PROVED.replace("exit 3", "exit 0"))
        for option in ("--version", "-V"):
            os.utime(program)
            self.assertEqual(place.run("plant_script", option)[1], f"proved: <{option}>\n")
            os.utime(program, (time.time() - 500,) * 2)
            self.assertEqual(place.run("plant_script", option)[1], f"proved: <{option}>\nkit rattle-kit-1 logic 0\n")
        self.assertEqual(place.run("plant_script", "run", "--version")[1], "proved: <run> <--version>\n")

    def test_it_does_nothing_where_nothing_is_newer(self):
        place = self.place()
        place.build()
        status, output, _ = place.run("prove")
        self.assertEqual((status, place.calls()), (0, []))
        self.one_line(output, "nothing to do", "--again")
        self.assertEqual(place.run("prove", "--again", RT_JOBS="2")[0], 0)
        self.assertEqual(place.calls()[0], "all|check|--jobs|2|a plant")

    def test_a_crate_that_is_not_proved_is_named_and_no_program_is_built(self):
        place = self.place()
        (place.rt / "unproved").write_text("")
        status, output, _ = place.run("prove", "--jobs", "1")
        self.assertEqual((status, len(place.calls()), (place.top / PROGRAM).exists()), (1, 1, False))
        for part in ("tlv24: failed (1)", "fn tlv24::read: not proved", "plant_program: not run, since tlv24 failed", "prove.log"):
            self.assertIn(part, output)
        self.assertNotIn("proved and built", output)

    def test_a_source_that_changes_meanwhile_is_newer(self):
        place = self.place()
        (place.rt / "edits").write_text(str(place.top / "crates/tlv24/src/lib.rt"))
        self.assertEqual(place.run("prove", "--jobs", "1")[0], 0)
        self.one_line(place.run("plant_script", "run")[2].splitlines()[0], "crates/tlv24/src/lib.rt", "newer")
        (place.rt / "edits").unlink()
        self.assertEqual(place.run("prove", "--jobs", "1")[0], 0)
        self.assertEqual(len(place.calls()), 6)

    def test_without_rt_it_says_what_to_do(self):
        status, output, errors = self.place(has_rt=False).run("prove")
        self.assertEqual((status, output), (127, ""))
        for part in ("no command rt", "README.md"):
            self.assertIn(part, errors)

    def test_wrong_arguments_are_refused(self):
        place = self.place()
        for words in (["--jobs", "0"], ["--jobs", "many"], ["all"]):
            self.assertEqual(place.run("prove", *words)[0], 2)
        self.assertEqual(place.calls(), [])


# Each edit of a script is a fault that a check must notice.
EDITS = [
    ("plant_script", '    say "not built, so this run is not of a proved program, and', '    : "'),
    ("plant_script", "program_errors >&2", 'cat "$work/errors" >&2'),
    ("plant_script", "while (NR > 0", "while (NR > 9"),
    ("plant_script", "NR > 0 && line[NR] ~ /^(run=|", "line[NR] ~ /^(a |run=|"),
    ("plant_script", "build it with $prove\"\n    exit 125\n", "build it with $prove\"\n    exit \"$status\"\n"),
    ("plant_script", '"run=ended status=$status "*)', "*proved=no)"),
    ("plant_script", 'exit "$status"\n}', "exit 0\n}"),
    ("plant_script", 'exec rt try "$@"', "exec rt try $*"),
    ("plant_script", 'exec rt try "$@") <"$work/input"', 'exec rt try "$@") </dev/null'),
    ("plant_script", '&& argument=file; }', "; }"),
    ("plant_script", '[ "$argument" != --input ] ||', '[ "$argument" = --input ] ||'),
    ("plant_script", '|| reads_file "$@"; then', "; then"),
    ("plant_script", '--input | --state | --snapshot-every) [ $# -lt 2 ] || shift ;;', "--input) ;;"),
    ("plant_script", "--json | --strict) ;;", "--json) ;;"),
    ("plant_script", "trap clean_up EXIT", ":"),
    ("plant_script", "head -c $((most_input + 1))", "head -c $most_input"),
    ("plant_script", "        -h | --help | -V | --version) return 0 ;;\n", ""),
    ("plant_script", '[ "$program" -nt "$program.kit" ] || ', ""),
    ("plant_script", "    1:-V | 1:--version)\n", "    1:--version)\n"),
    ("plant_script", 'if [ "$(command_of "$@")" = serve ]', "if false"),
    ("plant_script", "if ! command -v rt >/dev/null; then", "if false; then"),
    ("plant_script", '    exec "$program" "$@"', '    [ -z "$source" ] || "$prove"\n    exec "$program" "$@"'),
    ("plant_script", '    [ -z "$source" ] || say', "    true || say"),
    ("plant_script", "-name out -prune -o ", ""),
    ("plant_script", "-o -name '*.antt' ", ""),
    ("plant_script", "prove=./prove", "prove=prove"),
    ("plant_script", '[ "$(pwd -P)" != "$here" ] || ', ""),
    ("prove", "KIT_LINE.write_bytes(", "len("),
    ("prove", '["all", "check", "--jobs", str(jobs)]', '["all", "check", "--jobs", "1"]'),
    ("prove", 'if line.startswith("rt: waiting"):', "if not line:"),
    ("prove", "            log.write(line)\n", ""),
    ("prove", "ns=(started, started)", "None"),
    ("prove", "if is_up_to_date() and not arguments.again:", "if is_up_to_date():"),
    ("prove", "if is_up_to_date() and not arguments.again:", "if False:"),
    ("prove", "is_built = prove_crates(jobs, log) and build_program(log)", "is_built = [prove_crates(jobs, log), build_program(log)]"),
    ("prove", 'if line.startswith("logic="):', 'if line.startswith("proved"):'),
    ("prove", "    return sum(int(found[1])", "    return len([found[1]"),
    ("prove", "        say_last_lines(progress.lines", "        len(progress.lines"),
    ("prove", 'self.done()} of {self.crates} crates, {self.minutes()}: {self.crate}"', 'self.crates} of {self.crates} crates, {self.minutes()}: {self.crate}"'),
    ("examples/serving/serve_plant.sh", "    exit 126\n", "    exit 2\n"),
]
# Each fault of keeping a program, and the test that must notice it.
EDITS_OF_KEEPING = [
    ("the_folder_of_the_environment_is_used", '    /*) echo "$XDG', '    /none) echo "$XDG'),
    ("the_folder_of_the_environment_is_used", '    /*) echo "$XDG', '    ?*) echo "$XDG'),
    ("another_source_or_kit_is_compiled", "kit=$(rt version) || return", "kit="),
    ("another_source_or_kit_is_compiled", '(cd "$here" && echo', "(echo"),
    ("another_source_or_kit_is_compiled", "xargs -0 sha256sum", "xargs -0 cat"),
    ("another_source_or_kit_is_compiled", "xargs -0 sha256sum", "tr '\\0' '\\n'"),
    ("clones_share_a_program", "find_sources . -print0", 'find_sources "$here" -print0'),
    ("something_else_may_open_the_pipe_first", '[ -z "$found" ] || break', "break"),
    ("the_second_run_compiles_nothing", "TMPDIR=$work exec rt", "exec rt"),
    ("refused_sources_have_no_program", '    kill "$copying" 2>/dev/null\n    wait', "    wait"),
    ("refused_sources_have_no_program", "    *) end_without_result ;;\n    esac\n}\n", "    *) return 1 ;;\n    esac\n}\n"),
    ("a_program_that_does_not_run_there_is_not_kept", '"$new" --version </dev/null >/dev/null &&', ""),
    ("a_program_that_does_not_run_there_is_not_kept", '        rm -f -- "$new"\n', ""),
    ("a_program_of_sources_that_change_meanwhile_is_not_kept", '[ "$(sum_of_sources)" = "$sum" ] && mv', "mv"),
    ("only_a_few_programs_are_kept", "$((most_kept + 1))", "9"),
    ("only_a_few_programs_are_kept", "ls -t |", "ls |"),
    ("only_a_few_programs_are_kept", 'touch -c -- "$kept"', "true"),
    ("a_kept_program_that_stops_at_a_fault_has_a_status_of_the_script", "exitcode=125", "exitcode=1"),
    ("a_kept_program_that_stops_at_a_fault_has_a_status_of_the_script", "${ASAN_OPTIONS:+:$ASAN_OPTIONS}", ""),
    ("an_interrupted_run_leaves_nothing", '[ -z "$copying" ] ||', "true ||"),
    ("the_second_run_compiles_nothing", 'if [ -n "$sum" ] && [ -x "$kept" ]', "if false"),
    ("the_second_run_compiles_nothing", 'say "not built, so this run is not of a proved program; prove', ': "'),
    ("the_second_run_compiles_nothing", "            clean_up\n", ""),
]


def suite(first):
    """Returns all tests, those of the class `first` before the others."""
    classes = sorted((Unproved, Proved, Proving, Kept), key=lambda it: it is not first)
    return unittest.TestSuite(map(unittest.defaultTestLoader.loadTestsFromTestCase, classes))


def is_noticed(tests, name, old, new):
    """Returns whether one of the tests fails once the script has the edit."""
    text = SCRIPTS[name]
    assert text.count(old) == 1, f"{name} has {text.count(old)} times: {old}"
    SCRIPTS[name] = text.replace(old, new)
    try:
        return not unittest.TextTestRunner(stream=io.StringIO(), failfast=True).run(tests).wasSuccessful()
    finally:
        SCRIPTS[name] = text


class Edits(unittest.TestCase):
    def test_each_edit_is_noticed(self):
        unnoticed = [edit for edit in EDITS if not is_noticed(suite(Proving if edit[0] == "prove" else Unproved), *edit)]
        self.assertEqual(unnoticed, [])

    def test_each_edit_of_keeping_is_noticed(self):
        unnoticed = [edit for edit in EDITS_OF_KEEPING if not is_noticed(Kept(f"test_{edit[0]}"), "plant_script", *edit[1:])]
        self.assertEqual(unnoticed, [])
