"""What the packages of the program and of the library have in common: the commit, the version, what build.txt says, and a build by debhelper."""

import hashlib
import os
import pathlib
import re
import shutil
import subprocess

from tools.manual.pages import VERSION

SOURCE, MAINTAINER = (re.compile(rf"^{field}: (.*)$", re.MULTILINE) for field in ("Source", "Maintainer"))
COMMANDS = {"git": "git", "dpkg-buildpackage": "dpkg-dev", "dh": "debhelper"}


class Refused(Exception):
    """There is nothing that may be packed, or a command is missing."""


def judge_commands(commands):
    """Raises Refused if a command is missing. `commands` has the package of each."""
    missing = sorted({package for command, package in commands.items() if not shutil.which(command)})
    if missing:
        raise Refused(f"install Debian's packages {', '.join(missing)}")


def newer_source(root, program):
    """Returns a source of the proved program that is newer than it, or None."""
    built = program.stat().st_mtime_ns
    if (root / "crates.txt").stat().st_mtime_ns > built:
        return "crates.txt"
    for folder, folders, names in os.walk(root / "crates"):
        folders[:] = sorted(name for name in folders if name != "out")
        for name in sorted(names):
            path = pathlib.Path(folder, name)
            if (path.suffix in (".rt", ".antt") or name == "crates.txt") and path.stat().st_mtime_ns > built:
                return str(path.relative_to(root))
    return None


def git(root, *words):
    done = subprocess.run(["git", "-C", root, *words], capture_output=True, text=True, check=False)
    if done.returncode:
        raise Refused(f"git {' '.join(words)}: {done.stderr.strip()}")
    return done.stdout.strip()


class Commit:
    """The commit that is packed: its name, its time, and whether files differ from it."""

    def __init__(self, root):
        self.name = git(root, "rev-parse", "HEAD")
        self.seconds = int(git(root, "log", "-1", "--format=%ct"))
        self.time = git(root, "log", "-1", "--format=%cd", "--date=format-local:%Y%m%d.%H%M")
        self.date = git(root, "log", "-1", "--format=%cD")
        self.is_modified = bool(git(root, "status", "--porcelain"))


def version_of(root, commit, is_proved, revision):
    """Returns the version of the package. It is before the version of CHANGELOG.md, since there is no release yet."""
    found = VERSION.search((root / "CHANGELOG.md").read_text())
    if found is None:
        raise Refused("CHANGELOG.md has no heading of a version")
    marks = "+modified" * commit.is_modified + "+unproved" * (not is_proved)
    return f"{found[1]}~{commit.time}.g{commit.name[:8]}{marks}-{revision}"


def changelog(control, version, commit, is_proved, kind="program"):
    """Returns debian/changelog, with one entry for what is packed. `control` is the path of debian/control, and `kind` what is packed."""
    source, maintainer = (field.search(control.read_text())[1] for field in (SOURCE, MAINTAINER))
    packed = f"the proved {kind}" if is_proved else f"a {kind} without a proof, for a trial of the package"
    return (f"{source} ({version}) unstable; urgency=medium\n\n  * Pack {packed}, from commit\n    {commit.name}.\n"
            f"    CHANGELOG.md lists what changed.\n\n -- {maintainer}  {commit.date}\n")


def sum_of(path):
    return hashlib.sha256(path.read_bytes()).hexdigest()


def kit_line():
    """Returns the line by which the toolchain kit on the path names itself."""
    if not shutil.which("rt"):
        return "unknown (no command rt on the path)"
    return subprocess.run(["rt", "version"], capture_output=True, text=True, check=False).stdout.strip() or "unknown"


def build_text(version, commit, is_proved, packed, log, kind="program"):
    """Returns build.txt. `packed` is the path of what was packed, and `kind` what it is."""
    proof = f"none: this {kind} is not proved" if not is_proved else log.name if log else "not kept"
    rows = {"version": version, "commit": commit.name + " with changes that are not committed" * commit.is_modified,
            kind: f"{'proved' if is_proved else 'not proved'}, sha256 {sum_of(packed)}", "proof log": proof, "toolchain kit": kit_line()}
    return "".join(f"{name}: {value}\n" for name, value in rows.items())


def run(words, folder, seconds):
    """Runs a command that builds, and says its last lines if it fails."""
    environment = {**os.environ, "SOURCE_DATE_EPOCH": str(seconds), "LC_ALL": "C.UTF-8", "TZ": "UTC"}
    done = subprocess.run(words, cwd=folder, env=environment, stdout=subprocess.PIPE, stderr=subprocess.STDOUT, text=True, check=False)
    if done.returncode:
        raise Refused(f"{words[0]} ended with status {done.returncode}:\n" + "\n".join(done.stdout.splitlines()[-20:]))
