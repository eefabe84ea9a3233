"""Counts how many voice calls and how many best effort flows each operator's slice carries.

    plan_capacity PLANT [--voice WORDS] [--data WORDS] [--calls N] [--library LIBRARY]

    plan_capacity examples/plant_p2.toml
    plan_capacity examples/plant_p2.toml --voice 'size=120 interval=10000 grants=1' --data reserved=512000 --calls 1

Opens the channel of the plant file by the library for C, and adds flows for the modems of an operator in turn, until one is refused. So no
formula takes the place of the rules. Prints a line for each operator: the voice calls that are admitted and active, the confirmation code of the
next one, and the same of best effort flows, next to N calls if --calls is given. Code 3 says that a limit of the operator is reached:
budget, elements, flows, or numbers for flows. `plant_script trace` says which.

WORDS are those of a flow encoding, as dsx takes them. A voice call is by default 232 bytes each 20 ms, which is G.711 with its headers.
LIBRARY is a shared library, by default out/library/lib/libmelfjits.so.0 if tools/run build_library has built it, or else the one that the
bindings for Python find.

Exit status: 0 success, 2 wrong words, 3 the plant file is refused, 6 a file or the library cannot be read.
"""

import argparse
import itertools
import pathlib
import sys

from bindings.python.melfjits import Channel, PlantError, Reply
from service import ROOT
from service.messages.words import CODES, WordsFault, bytes_of_message
from service.reference.plant import PlantFault, read_plant

BUILT = ROOT / "out/library/lib/libmelfjits.so.0"
VOICE, DATA = "size=232 interval=20000 grants=1", ""
CODE_AT = 3  # in a response, after its type and the transaction ID


class Planner:
    """A channel to which flows of the modems of an operator are added."""

    def __init__(self, channel, plant, place):
        self.channel, self.place, self.hold = channel, place, plant.hold
        self.modems, self.transactions = itertools.cycle(plant.rows[place].modems), itertools.count(1)

    def send(self, modem, *words):
        """Sends a message of a modem, and returns the reply or None."""
        self.channel.arrive(modem, bytes_of_message(words))
        return next((output.message for output in self.channel.outputs() if isinstance(output, Reply)), None)

    def add_flow(self, modem, words):
        """Adds a flow that is admitted and active, and acknowledges the reply. Returns its confirmation code."""
        tid = f"tid={next(self.transactions) % 0x8000}"
        code = self.send(modem, "dsa", tid, "ref=1", "set=6", *words)[CODE_AT]
        if code == 0:
            self.send(modem, "dsa-ack", tid)
        return code

    def pass_time(self):
        """Ticks until no response of before is cached, since a full cache refuses requests, too."""
        for _ in range(self.hold):
            self.channel.tick(self.place)
            list(self.channel.outputs())

    def add_flows(self, words, most=None):
        """Adds flows, for one modem after the other. Returns how many there are at the end, and the code of the one that was refused."""
        for count in itertools.count():
            if count == most:
                return count, None
            modem = next(self.modems)
            if self.add_flow(modem, words):
                self.pass_time()
                code = self.add_flow(modem, words)
                if code:
                    return count, code


def plans(open_channel, plant, voice, data, calls):
    """Yields for each operator its name, and the number and the code of the next of voice calls, and of flows next to so many calls."""
    for place, row in enumerate(plant.rows):
        with open_channel() as channel:
            voices = Planner(channel, plant, place).add_flows(voice)
        with open_channel() as channel:
            planner = Planner(channel, plant, place)
            count, code = planner.add_flows(voice, calls)
            yield row.name, voices, planner.add_flows(data) if count == calls else (None, code)


def cell(number, code):
    return f"{'-' if number is None else number:>14} | {'-' if code is None else f'{code} ({CODES[code]})':20}"


def print_plans(found, calls):
    """Prints the table."""
    flows = f"flows, {calls} calls" if calls else "flows"
    print(f"| operator         | {'calls':>14} | the next is refused  | {flows:>14} | the next is refused  |")
    print(f"|{'-' * 18}|{'-' * 16}|{'-' * 22}|{'-' * 16}|{'-' * 22}|")
    for name, *counted in found:
        print(f"| {name:16} | {' | '.join(cell(*pair) for pair in counted)} |", flush=True)


def read_arguments():
    ask = argparse.ArgumentParser("plan_capacity", description=__doc__, formatter_class=argparse.RawDescriptionHelpFormatter)
    ask.add_argument("plant", metavar="PLANT", type=pathlib.Path, help="the plant file")
    ask.add_argument("--voice", metavar="WORDS", default=VOICE, help=f"the encoding of a voice call besides type=ugs ({VOICE})")
    ask.add_argument("--data", metavar="WORDS", default=DATA, help="the encoding of a best effort flow besides type=be")
    ask.add_argument("--calls", metavar="N", type=int, default=0, help="how many calls each operator has next to the flows (0)")
    ask.add_argument("--library", metavar="LIBRARY", help="the shared library")
    return ask.parse_args()


def main():
    asked = read_arguments()
    library = asked.library or (BUILT if BUILT.exists() else None)
    try:
        text = asked.plant.read_text()
        Channel(text, library).close()
        voice, data = ["type=ugs", *asked.voice.split()], ["type=be", *asked.data.split()]
        bytes_of_message(["dsa", "tid=1", "flow", *voice, "flow", *data])  # a wrong word is found before the table begins
        print_plans(plans(lambda: Channel(text, library), read_plant(text), voice, data, asked.calls), asked.calls)
    except WordsFault as fault:
        print(f"plan_capacity: {fault}", file=sys.stderr)
        sys.exit(2)
    except (PlantError, PlantFault) as fault:
        print(f"plan_capacity: {asked.plant}: {fault}; `plant_script check` says more", file=sys.stderr)
        sys.exit(3)
    except (OSError, UnicodeDecodeError) as fault:
        print(f"plan_capacity: {fault}", file=sys.stderr)
        sys.exit(6)


if __name__ == "__main__":
    main()
