"""Measures the memory of `serve` by the numbers of modems and of service flows, and what one of each takes.

    tools/run measure/memory [PROGRAM]

The plant has 32 operators. Each modem has so many provisioned flows. Two frames are given out, and then the input ends. Prints the greatest
resident memory of each process, and what it grows by for each modem and each flow. The table of cached responses has its whole size from
the start: here one of 16 responses.
"""

import argparse
import pathlib
import re
import subprocess

from tools.compare.program import PROGRAM
from tools.generator.message_bytes import spelled
from tools.generator.plant_text import channel_text, operator_text

OPERATORS, SLICE = 32, 124
SIZES = ((16, 0), (64, 0), (256, 0), (1024, 0), (64, 1), (64, 3))
ENCODING = spelled([(6, 1), (7, 1), (15, 2)]).hex().upper()


def plant_of(modems, flows):
    """Returns a plant file whose operators have so many modems, each with so many provisioned flows that are not admitted."""
    text, all_flows = channel_text(4096, 0), max(modems * flows, 1)
    for place in range(OPERATORS):
        addresses = [f"02{place + 1:02X}{number:08X}" for number in range(modems)]
        identifiers = (1 + place * all_flows, (place + 1) * all_flows)
        text += operator_text(f"OP{place + 1}", addresses, (place * SLICE, SLICE), identifiers, 1, flows=all_flows, transactions=16)
        text += "".join(f'[[operator.flow]]\nmodem = "{modem}"\nencoding = "{ENCODING}"\n' for modem in addresses for _ in range(flows))
    return text


def kilobytes(program, plant):
    """Returns the greatest resident memory of `serve` on a plant, once it has answered two frames."""
    with subprocess.Popen([program, "serve"], stdin=subprocess.PIPE, stdout=subprocess.PIPE) as process:
        process.stdin.write(plant.encode() + b"---\nT\nT\n")
        process.stdin.flush()
        maps = 0
        while maps < 2:
            line = process.stdout.readline()
            if not line:
                raise SystemExit("the program has ended before its second MAP")
            maps += line.startswith(b"MAP ")
        status = pathlib.Path(f"/proc/{process.pid}/status").read_text()
        process.stdin.close()
        process.stdout.read()
    return int(re.search(r"^VmHWM:\s*(\d+) kB$", status, re.MULTILINE).group(1))


def main():
    parser = argparse.ArgumentParser("memory", description=__doc__, formatter_class=argparse.RawDescriptionHelpFormatter)
    parser.add_argument("program", nargs="?", default=PROGRAM)
    program = parser.parse_args().program
    print("| modems | flows | plant file, KB | memory, KB |")
    print("|---|---|---|---|")
    taken = {}
    for modems, flows in SIZES:
        plant = plant_of(modems, flows)
        taken[modems, flows] = kilobytes(program, plant)
        print(f"| {OPERATORS * modems:,} | {OPERATORS * modems * flows:,} | {len(plant) // 1024:,} | {taken[modems, flows]:,} |", flush=True)
    modem = (taken[1024, 0] - taken[16, 0]) * 1024 / OPERATORS / (1024 - 16)
    flow = (taken[64, 3] - taken[64, 0]) * 1024 / OPERATORS / (3 * 64)
    print(f"a modem takes {modem:.0f} bytes, and a flow {flow:.0f}, with their share of the text of the plant file while it is read")


if __name__ == "__main__":
    main()
