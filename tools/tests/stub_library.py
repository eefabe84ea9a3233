"""Writes a library for C that has all calls of the header, for tests of what is built around it: each call says that the handle is closed."""

import re
import subprocess

from tools import ROOT

HEADER = ROOT / "bindings/c/melfjits.h"
CLOSED = 2


def build_archive(folder, more=""):
    """Builds libchannel_c.a in a folder, with further definitions in C, and returns its path."""
    calls = re.findall(r"^uint32_t melfjits_.*?\)(?=;)", HEADER.read_text(), re.MULTILINE | re.DOTALL)
    # The calls of a whole archive alone are exported, and not what they are made of.
    text = "".join(f"{call}\n{{\n    return code_of_closed;\n}}\n" for call in calls)
    source, member, archive = folder / "stub.c", folder / "stub.o", folder / "libchannel_c.a"
    source.write_text(f'#include "melfjits.h"\nuint32_t code_of_closed = {CLOSED};\n{text}{more}')
    subprocess.run(["gcc", "-fPIC", "-O1", "-Wall", "-Werror", f"-I{HEADER.parent}", "-c", "-o", member, source], check=True)
    archive.unlink(missing_ok=True)
    subprocess.run(["ar", "rcs", archive, member], check=True)
    return archive
