"""Runs the commands that README.md, docs/GUIDE.md and docs/CONNECT.md show, with the second implementation as plant_script, and with the
program if it is built. The lines below a command that begins with `$` are its output. Other commands have to end with status 0. A block of
`toml` is a part of examples/plant_p2.toml.
"""

import pathlib
import re
import shutil
import subprocess
import tempfile
import unittest

from tools import ROOT

PROGRAM = ROOT / "crates/plant_program/out/plant_program"
DOCUMENTS = ("README.md", "docs/GUIDE.md", "docs/CONNECT.md")
# Not run: what proves, installs or serves.
NOT_RUN = ("./prove", ".ci/run", "tools/run build_package", "apt-get", "systemctl")
# Files of the reader, with those that replace them.
OF_THE_READER = {"my_channel.txt": "examples/every_key/check.txt", "INPUT": "examples/two_operators.txt"}


def blocks(text):
    """Yields the indented blocks of a document as lists of lines, without the indentation."""
    block, indentation, is_fenced = [], 0, False
    for line in [*text.splitlines(), ""]:
        is_fenced ^= line.startswith("```")
        width = len(line) - len(line.lstrip(" "))
        if line and width >= (indentation or 4) and not is_fenced:
            indentation = indentation or width
            block.append(line[indentation:])
        elif not line and block:
            block.append("")
        elif block:
            yield block
            block, indentation = [], 0
    if block:
        yield block


def commands(block):
    """Yields each command of a block with its output, or with None where it shows none."""
    lines = list(block)
    has_output = any(line.startswith("$ ") for line in lines)
    while lines:
        line = lines.pop(0)
        if not line:
            continue
        command = [line.removeprefix("$ ")]
        while command[-1].endswith(("|", "\\")):
            command.append(lines.pop(0))
        if "<<END" in command[0]:
            while command[-1] != "END":
                command.append(lines.pop(0))
        output = []
        while has_output and lines and not lines[0].startswith("$ "):
            output.append(lines.pop(0))
        yield "\n".join(command), "\n".join(output).strip("\n") if has_output else None


def room_for(folder, plant_script):
    """Prepares a folder in which the commands run as at the top of the repository."""
    for name in ("examples", "service", "tools"):
        (folder / name).symlink_to(ROOT / name)
    script = folder / "plant_script"
    script.write_text(f'#!/bin/sh\nexec {plant_script} "$@"\n')
    script.chmod(0o755)
    for name, source in OF_THE_READER.items():
        shutil.copy(ROOT / source, folder / name)


def is_run(command):
    return not any(word in command for word in NOT_RUN) and (not command.startswith("tshark") or shutil.which("tshark"))


def differences(folder, document):
    text = (ROOT / document).read_text()
    found = [it for block in blocks(text) for it in commands(block) if is_run(it[0])]
    if not found:
        yield f"{document} shows no command"
    for command, output in found:
        done = subprocess.run(["bash", "-c", command], cwd=folder, capture_output=True, text=True, timeout=60, check=False)
        if output is None and done.returncode:
            yield f"{document}: status {done.returncode}: {command}\n{done.stderr}"
        if output is not None and done.stdout.strip("\n") != output:
            yield f"{document}: {command}\nprints\n{done.stdout}{done.stderr}and not\n{output}\n"
    for plant in re.findall(r"^```toml\n(.*?)^```", text, re.M | re.S):
        if plant not in (ROOT / "examples/plant_p2.toml").read_text():
            yield f"{document}: not in examples/plant_p2.toml:\n{plant}"


def differences_by(plant_script, document):
    """Returns what differs if `plant_script` runs the commands of a document."""
    with tempfile.TemporaryDirectory() as folder:
        room_for(pathlib.Path(folder), plant_script)
        return list(differences(pathlib.Path(folder), document))


class Guide(unittest.TestCase):
    def test_by_the_second_implementation(self):
        for document in DOCUMENTS:
            with self.subTest(document):
                self.assertEqual(differences_by(f"python3 '{ROOT}/service/reference'", document), [])

    @unittest.skipUnless(PROGRAM.is_file(), "the program is not built: it ran no command of the documents")
    def test_by_the_program(self):
        for document in DOCUMENTS:
            with self.subTest(document):
                self.assertEqual(differences_by(f"'{PROGRAM}'", document), [])

    def test_a_program_that_does_nothing_is_noticed(self):
        for document in DOCUMENTS:
            with self.subTest(document):
                self.assertNotEqual(differences_by("false", document), [])
