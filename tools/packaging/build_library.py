"""Builds the shared library for C from the static one, and puts both where a compiler finds them.

    tools/run build_library [--archive ARCHIVE] [--output FOLDER]

ARCHIVE is what tools/ci/build_channel_c built, crates/channel_c/out/libchannel_c.a. FOLDER, out/library at the top if not given, gets

    include/    melfjits.h and melfjits.hpp
    lib/        libmelfjits.so.0, which is named by the number of its ABI in bindings/c/melfjits.map; the link libmelfjits.so to it;
                libmelfjits.a, with the toolchain kit's allocator in it; pkgconfig/melfjits.pc

Both libraries have all of the archive, and export the calls of bindings/c/melfjits.h alone. If the archive has other calls than the header,
this says so, and exits with 1. Needs gcc, and the kit on the path. Prints the files.
"""

import argparse
import os
import pathlib
import re
import shutil
import subprocess
import sys
import tempfile

from tools import ROOT
from tools.manual.pages import VERSION
from tools.proving.prover import kit_folder

from .packing import Refused

ARCHIVE = ROOT / "crates/channel_c/out/libchannel_c.a"
BINDINGS = ROOT / "bindings"
EXPORTS = BINDINGS / "c/melfjits.map"
CALLS = "melfjits_*"


def soname():
    """Returns the name under which programs load the shared library."""
    return "libmelfjits.so." + re.search(r"^MELFJITS_(\d+) \{$", EXPORTS.read_text(), re.MULTILINE)[1]


def header_calls():
    """Returns the names of the calls that the header declares."""
    return sorted(re.findall(r"^uint32_t (melfjits_\w+)\(", (BINDINGS / "c/melfjits.h").read_text(), re.MULTILINE))


def archives(archive):
    """Returns the archives that a program is linked with, in their order: the channel's, and the allocator of the kit."""
    return [pathlib.Path(archive), kit_folder() / "c/liblibc_c.a"]


def run(*words):
    """Runs a command, and returns what it prints."""
    done = subprocess.run(words, stdout=subprocess.PIPE, stderr=subprocess.STDOUT, text=True, check=False)
    if done.returncode:
        raise Refused(f"{words[0]} ended with status {done.returncode}:\n{done.stdout}".rstrip())
    return done.stdout


def whole(libraries):
    """Returns the words by which the linker takes all of the first archive, and of the others what that needs."""
    first, *others = libraries
    return ["-Wl,--whole-archive", first, "-Wl,--no-whole-archive", *others]


def link_shared(libraries, folder):
    """Links archives as the shared library in a folder, next to the link that a compiler looks for, and returns its path."""
    path, link = pathlib.Path(folder, soname()), pathlib.Path(folder, "libmelfjits.so")
    run("gcc", "-shared", "-o", path, f"-Wl,-soname,{soname()}", f"-Wl,--version-script={EXPORTS}", "-Wl,-z,defs,-z,relro,-z,now", *whole(libraries))
    path.chmod(0o644)
    link.unlink(missing_ok=True)
    link.symlink_to(path.name)
    return path


def link_static(libraries, folder):
    """Puts archives together as one in a folder, in which the calls alone are global, and returns its path."""
    path = pathlib.Path(folder, "libmelfjits.a")
    with tempfile.TemporaryDirectory() as work:
        member = f"{work}/melfjits.o"
        run("gcc", "-r", "-nostdlib", "-o", member, *whole(libraries))
        run("objcopy", "--wildcard", f"--keep-global-symbol={CALLS}", member)
        path.unlink(missing_ok=True)
        run("ar", "rcsD", path, member)
    return path


def exports(path, *words):
    """Returns the names that a library defines for others, without their versions."""
    printed = run("nm", "--format=posix", "--defined-only", "--extern-only", *words, path)
    return {name for name, kind in re.findall(r"^(\w+)\S* (\w) ", printed, re.MULTILINE) if kind != "A"}


def judge_exports(path, *words):
    """Raises Refused if a library exports other names than those of the header's calls."""
    found, wanted = exports(path, *words), set(header_calls())
    if found != wanted:
        lacks, has = sorted(wanted - found), sorted(found - wanted)
        raise Refused(f"{path.name} lacks {lacks} of melfjits.h, and exports {has} besides")


def package_text(prefix, libdir):
    """Returns melfjits.pc."""
    version = VERSION.search((ROOT / "CHANGELOG.md").read_text())[1]
    text = (BINDINGS / "c/melfjits.pc.in").read_text()
    return text.replace("@PREFIX@", str(prefix)).replace("@LIBDIR@", libdir).replace("@VERSION@", version)


def install(libraries, folder, prefix, libdir="lib"):
    """Puts libraries, headers and melfjits.pc below a folder, which programs will know as `prefix`. Returns the files."""
    include, lib = folder / "include", folder / libdir
    for made in (include, lib / "pkgconfig"):
        made.mkdir(parents=True, exist_ok=True)
    files = [pathlib.Path(shutil.copy(BINDINGS / name, include)) for name in ("c/melfjits.h", "cpp/melfjits.hpp")]
    files += [link_shared(libraries, lib), link_static(libraries, lib)]
    judge_exports(files[-2], "--dynamic")
    judge_exports(files[-1])
    files += [lib / "libmelfjits.so", lib / "pkgconfig/melfjits.pc"]
    files[-1].write_text(package_text(prefix, libdir))
    return files


def main():
    parser = argparse.ArgumentParser("build_library", description=__doc__, formatter_class=argparse.RawDescriptionHelpFormatter)
    parser.add_argument("--archive", type=pathlib.Path, default=ARCHIVE, metavar="ARCHIVE", help="the static library for C")
    parser.add_argument("--output", type=pathlib.Path, default=ROOT / "out/library", metavar="FOLDER", help="where the files are written")
    asked = parser.parse_args()
    try:
        if not os.access(asked.archive, os.R_OK):
            raise Refused(f"there is no {asked.archive}: tools/ci/build_channel_c builds it")
        files = install(archives(asked.archive), asked.output.absolute(), asked.output.absolute())
    except Refused as fault:
        sys.exit(f"build_library: {fault}")
    for path in files:
        print(path)


if __name__ == "__main__":
    main()
