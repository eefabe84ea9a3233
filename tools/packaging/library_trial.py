"""Tries the packages of the library for C in a clean Debian system: installs them, builds and runs their examples, and purges them.

    tools/run ci/library_trial FOLDER [--base FOLDER] [--keep]

FOLDER is what tools/run build_package --library filled. The system is one that debootstrap fetches, with g++, pkg-config and python3, or a copy
of --base, which debootstrap filled with these before. --keep keeps the copy, and prints where it is.

Needs root, the network (without --base), and Debian's packages debootstrap and lintian. It is no part of .ci/run. Prints a line for each
trial; exits with 1 if one fails. Takes two minutes, with --base half of one.
"""

import argparse
import os
import pathlib
import re
import shutil
import subprocess
import sys
import tempfile

from tools import EXAMPLES
from tools.packaging.channel_steps import want
from tools.packaging.container import Failed, fill, last_lines, run_here

INCLUDED = "g++,pkg-config,python3"
COMMANDS = {"debootstrap": "debootstrap", "chroot": "coreutils", "lintian": "lintian"}
PACKAGES = ("libmelfjits0", "libmelfjits-dev", "python3-melfjits")
DOCUMENTS = "/usr/share/doc/libmelfjits-dev/examples"
RUN_LOOP = "cd /root; ./cmts_loop plant_p2.toml arrivals.list 5"
CPP = """#include <melfjits.hpp>
#include <iostream>
int main() try { melfjits::channel channel(""); } catch (const melfjits::error &error) { std::cout << error.what() << '\\n'; }
"""
PYTHON = """import melfjits
with melfjits.Channel(open("{0}/plant_p2.toml").read()) as channel:
    channel.arrive("020000000001", bytes.fromhex("0F0001180A010200010601060F0102"))
    print(channel.next_output().message.hex().upper())
"""
ENVIRONMENT = {"PATH": "/usr/sbin:/usr/bin:/sbin:/bin", "LANG": "C.UTF-8", "DEBIAN_FRONTEND": "noninteractive"}


class System:
    """A Debian system in a folder, in which commands run as root."""

    def __init__(self, folder):
        self.folder = folder

    def run(self, script, given=""):
        """Returns what a script prints, which must succeed."""
        done = subprocess.run(["chroot", self.folder, "sh", "-ec", script], input=given, env=ENVIRONMENT, text=True, stdout=subprocess.PIPE,
                              stderr=subprocess.STDOUT, check=False)
        if done.returncode:
            raise Failed(f"status {done.returncode}: {script}\n{last_lines(done.stdout)}")
        return done.stdout


def loop_output():
    """Returns what the page of examples/cmts_loop shows. tools/tests/test_cmts_loop.py compares that with the second implementation."""
    page = (EXAMPLES / "cmts_loop/README.md").read_text()
    return "".join(line.removeprefix("    ") for line in re.findall(r"^    (?:reply|no reply|operator|MAP) .*\n", page, re.MULTILINE))


def first_reply():
    return re.search(r"^reply to \w+: (\w+)$", loop_output(), re.MULTILINE)[1] + "\n"


def lint(packages):
    found = subprocess.run(["lintian", "--allow-root", "--display-info", *packages], capture_output=True, text=True, check=False).stdout
    found = "\n".join(line for line in found.splitlines() if not line.startswith("N:"))
    want(not found, f"lintian finds:\n{found}")
    return "lintian finds nothing"


def install(system, packages):
    for package in packages:
        shutil.copy(package, system.folder / "root")
    system.run("dpkg --install /root/*.deb")
    versions = set(system.run(f"dpkg-query --show --showformat '${{Version}}\\n' {' '.join(PACKAGES)}").splitlines())
    build = dict(line.split(": ", 1) for line in system.run("cat /usr/share/doc/libmelfjits0/build.txt").splitlines())
    want(versions == {build["version"]}, f"build.txt has another version than {versions}")
    return f"installed {build['version']} ({build['library'].split(',')[0]})"


def run_loop(system):
    printed = system.run(RUN_LOOP)
    want(printed == loop_output(), f"cmts_loop prints\n{printed}")


def shared(system):
    want(system.run("pkg-config --cflags --libs melfjits").split() == ["-lmelfjits"], "pkg-config has other words than -lmelfjits")
    system.run(f"cp {DOCUMENTS}/plant_p2.toml {DOCUMENTS}/cmts_loop/arrivals.list /root")
    system.run(f"gcc -Wall -Werror -o /root/cmts_loop {DOCUMENTS}/cmts_loop/cmts_loop.c $(pkg-config --cflags --libs melfjits)")
    want("libmelfjits.so.0 => " in system.run("ldd /root/cmts_loop"), "the program does not load libmelfjits.so.0")
    run_loop(system)
    return "cmts_loop is built with the shared library, and prints what its page shows"


def static(system):
    system.run(f"gcc -o /root/static {DOCUMENTS}/first_reply.c -l:libmelfjits.a")
    want("melfjits" not in system.run("ldd /root/static"), "the program loads the shared library")
    printed = system.run(f"/root/static {DOCUMENTS}/plant_p2.toml")
    want(printed == first_reply(), f"first_reply prints {printed}")
    return "first_reply is built with the static library, and prints the reply"


def cpp(system):
    system.run("cat > /root/cpp.cpp; g++ -std=c++17 -Wall -Werror -o /root/cpp /root/cpp.cpp -lmelfjits", CPP)
    printed = system.run("/root/cpp")
    want(printed == "a required key of the plant file is missing\n", f"the program in C++ prints {printed}")
    return "a program in C++ gets an exception for an empty plant file"


def python(system):
    printed = system.run("python3 -", PYTHON.format(DOCUMENTS))
    want(printed == first_reply(), f"Python prints {printed}")
    printed = system.run("cd /usr/share/doc/python3-melfjits/examples/simulation; python3 -B simulate.py --seconds 0.5")
    want(printed.endswith("are the same in both runs\n"), f"the simulation prints\n{printed}")
    return "Python loads the library, and the simulation finds no difference of operator A"


def without_development(system):
    system.run("dpkg --purge libmelfjits-dev")
    run_loop(system)
    return "cmts_loop runs without libmelfjits-dev"


def purged(system):
    system.run("dpkg --purge python3-melfjits libmelfjits0")
    left = system.run("find / -xdev -name '*melfjits*' ! -path '/proc/*' ! -path '/root/*' ! -path '/var/log/*'")
    want(not left, f"left after the purge:\n{left}")
    return "a purge leaves nothing"


def read_arguments():
    ask = argparse.ArgumentParser("library_trial", description=__doc__, formatter_class=argparse.RawDescriptionHelpFormatter)
    ask.add_argument("packages", metavar="FOLDER", type=pathlib.Path, help="the folder of the packages")
    ask.add_argument("--base", metavar="FOLDER", help="copy this Debian system in place of a new one")
    ask.add_argument("--keep", action="store_true", help="keep the copy, and print where it is")
    return ask.parse_args()


def trials(packages, folder):
    """Yields a line for each trial."""
    system = System(folder)
    yield lint(packages)
    yield install(system, packages)
    for trial in (shared, static, cpp, python, without_development, purged):
        yield trial(system)


def main():
    asked = read_arguments()
    missing = sorted(package for command, package in COMMANDS.items() if not shutil.which(command))
    packages = sorted(asked.packages.glob("*.deb"))
    if missing:
        sys.exit(f"library_trial: install Debian's packages {', '.join(missing)}")
    if os.geteuid() or sorted(path.name.split("_")[0] for path in packages) != sorted(PACKAGES):
        sys.exit(f"library_trial: needs root, and one package each of {', '.join(PACKAGES)} in {asked.packages}")
    work = pathlib.Path(tempfile.mkdtemp(prefix="library_trial", dir="/var/tmp"))
    try:
        (work / "root").mkdir()
        fill(work / "root", asked.base, INCLUDED)
        for line in trials(packages, work / "root"):
            print(line, flush=True)
    except Failed as fault:
        sys.exit(f"library_trial: failed: {fault}")
    finally:
        if asked.keep:
            print(work)
        else:
            shutil.rmtree(work, ignore_errors=True)
    print("the packages passed all trials")


if __name__ == "__main__":
    main()
