"""Builds the Debian package of the proved program, and a tarball with the same files. Or builds those of the library for C.

    tools/run build_package [--revision N] [--output FOLDER] [--proof-log FILE]
    tools/run build_package --unproved PROGRAM ..             packs another program, for a trial of the package
    tools/run build_package --library [--unproved ARCHIVE] [--revision N] [--output FOLDER]

The proved program is crates/plant_program/out/plant_program, as ./prove or .ci/run builds it. If it is missing, or older than one of its
sources, nothing is built. A package of --unproved has +unproved in its version, and one of files that are not committed has +modified.

FOLDER, else out/package at the top, gets the package, the tarball, build.txt (which says what was packed), the log of the proof run if
there is one, and SHA256SUMS. Without --proof-log that log is crates/plant_program/out/prove.log, if it belongs to the program.

With --library, FOLDER, else out/library_packages, gets libmelfjits0, libmelfjits-dev and python3-melfjits, build.txt and SHA256SUMS. The
library is crates/channel_c/out/libchannel_c.a, as tools/ci/build_channel_c builds it, or ARCHIVE.

Needs git and Debian's packages dpkg-dev and debhelper, for the library dh-python and gcc, too. packaging/README.md describes the packages.
"""

import argparse
import gzip
import os
import pathlib
import shutil
import sys
import tarfile
import tempfile

from tools import ROOT

from . import library_packages
from .packing import COMMANDS, Commit, Refused, build_text, changelog, judge_commands, newer_source, run, sum_of, version_of

PACKAGE = "plant-script"
PROGRAM = "crates/plant_program/out/plant_program"
PROVE_LOG = "crates/plant_program/out/prove.log"
# What the rules of the package read: from the repository, to the folder in which they run.
FILES = {"packaging/debian": "debian", "packaging/completions": "completions", "service": "service", "docs": "docs", "examples": "examples",
         "README.md": "README.md", "CHANGELOG.md": "CHANGELOG.md"}


def proved_program(root):
    """Returns the path of the proved program, if it is newer than its sources."""
    program = root / PROGRAM
    if not os.access(program, os.X_OK):
        raise Refused("the proved program is not built; prove and build it with ./prove (--unproved packs another program, for a trial)")
    source = newer_source(root, program)
    if source:
        raise Refused(f"{source} is newer than the proved program; prove and build it again with ./prove")
    return program


def proof_log(root, asked, program):
    """Returns the log of the proof run: the one that is asked for, or the one that ./prove left when it built this program."""
    if asked:
        return pathlib.Path(asked)
    log = root / PROVE_LOG
    # ./prove dates the program with the time at which it began its log.
    return log if log.exists() and log.stat().st_mtime_ns >= program.stat().st_mtime_ns else None


def copy_files(root, program, folder):
    for source, target in FILES.items():
        if (root / source).is_dir():
            shutil.copytree(root / source, folder / target, ignore=shutil.ignore_patterns("__pycache__", ".gitignore"))
        else:
            shutil.copy(root / source, folder / target)
    shutil.copy(program, folder / "plant_script")
    (folder / "plant_script").chmod(0o755)


def pack_tarball(tree, path, prefix, seconds):
    """Writes a tarball of a folder: sorted, owned by root, and with no time after that of the commit."""
    def common(entry):
        entry.uid = entry.gid = 0
        entry.uname = entry.gname = "root"
        entry.mtime = min(int(entry.mtime), seconds)
        return entry

    with path.open("wb") as raw, gzip.GzipFile("", "wb", fileobj=raw, mtime=seconds) as packed, tarfile.open(fileobj=packed, mode="w") as tar:
        for name in sorted(tree.rglob("*")):
            tar.add(name, f"{prefix}/{name.relative_to(tree)}", recursive=False, filter=common)


def build(root, output, program, is_proved, revision, log):
    """Builds all files of the output folder, and returns them."""
    commit = Commit(root)
    version = version_of(root, commit, is_proved, revision)
    output.mkdir(parents=True, exist_ok=True)
    with tempfile.TemporaryDirectory() as work:
        folder = pathlib.Path(work, f"{PACKAGE}-{version}")
        folder.mkdir()
        copy_files(root, program, folder)
        (folder / "debian/changelog").write_text(changelog(folder / "debian/control", version, commit, is_proved))
        (folder / "build.txt").write_text(build_text(version, commit, is_proved, program, log))
        run(["dpkg-buildpackage", "--build=binary", "--no-sign"], folder, commit.seconds)
        package = next(pathlib.Path(work).glob("*.deb"))
        run(["dpkg-deb", "--extract", package, "tree"], work, commit.seconds)
        files = [pathlib.Path(shutil.copy(path, output)) for path in (package, folder / "build.txt")]
        files.append(output / f"{PACKAGE}-{version}-amd64.tar.gz")
        pack_tarball(pathlib.Path(work, "tree"), files[-1], f"{PACKAGE}-{version}", commit.seconds)
    if log:
        files.append(pathlib.Path(shutil.copy(log, output / log.name)))
    files.append(output / "SHA256SUMS")
    files[-1].write_text("".join(f"{sum_of(path)}  {path.name}\n" for path in files[:-1]))
    return files


def read_arguments():
    ask = argparse.ArgumentParser("build_package", description=__doc__, formatter_class=argparse.RawDescriptionHelpFormatter)
    ask.add_argument("--library", action="store_true", help="pack the library for C")
    ask.add_argument("--unproved", metavar="FILE", type=pathlib.Path, help="pack this program or library, and name the package +unproved")
    ask.add_argument("--revision", metavar="N", type=int, default=1, help="revision of the package of one commit (1)")
    ask.add_argument("--output", metavar="FOLDER", type=pathlib.Path, help="where the files are written")
    ask.add_argument("--proof-log", metavar="FILE", help="the log of the proof run, such as what .ci/run printed")
    asked = ask.parse_args()
    if asked.proof_log and (asked.unproved or asked.library):
        ask.error("--proof-log is not for an unproved program, nor for the library")
    return asked


def pack_program(asked):
    """Builds the package of the program, and returns the files."""
    judge_commands(COMMANDS)
    program = asked.unproved or proved_program(ROOT)
    if not os.access(program, os.X_OK):
        raise Refused(f"{program} is not a program")
    log = None if asked.unproved else proof_log(ROOT, asked.proof_log, program)
    return build(ROOT, asked.output or ROOT / "out/package", program, not asked.unproved, asked.revision, log)


def pack_library(asked):
    """Builds the packages of the library for C, and returns the files."""
    judge_commands(library_packages.COMMANDS)
    archive = asked.unproved or library_packages.proved_archive(ROOT)
    return library_packages.build(ROOT, asked.output or ROOT / "out/library_packages", archive, not asked.unproved, asked.revision)


def main():
    asked = read_arguments()
    try:
        files = pack_library(asked) if asked.library else pack_program(asked)
    except Refused as fault:
        sys.exit(f"build_package: {fault}")
    for path in files:
        print(path)


if __name__ == "__main__":
    main()
