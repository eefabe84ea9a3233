"""What people run on a channel or next to it. README.md in this folder says what each package has. Nothing here imports a module of tools/."""

import pathlib
import sys

ROOT = pathlib.Path(__file__).resolve().parent.parent
# The program of the package, and the one that ./prove builds, from ROOT.
INSTALLED, BUILT = "/usr/bin/plant_script", "crates/plant_program/out/plant_program"


def show_help(text):
    """Prints the help of a command and ends it, if its arguments are -h or --help."""
    if sys.argv[1:] in (["-h"], ["--help"]):
        print(text.strip())
        sys.exit()
