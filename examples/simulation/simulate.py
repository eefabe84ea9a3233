"""Simulates two operators on one channel, with and without a flood of operator B's modem.

    PYTHONPATH=bindings/python python3 examples/simulation/simulate.py [--library LIBRARY] [--seconds N] [--plot FILE]

Prints the delays and the use of both operators. Exits with 1 if anything of operator A differs between the two runs. With --plot, draws
both to FILE, which matplotlib writes as its ending says (.svg, .png, .pdf).
"""

import argparse
import dataclasses
import pathlib
import statistics
import sys
import tomllib

from melfjits import Channel, Frame, Map
from modems import BEST_EFFORT, UNSOLICITED_GRANTS, Flood, Modem, bursts, voice

PLANT = (pathlib.Path(__file__).parent / "plant.toml").read_text()
KEYS = tomllib.loads(PLANT)
OPERATORS = [row["name"] for row in KEYS["operator"]]
SLICE = KEYS["operator"][0]["slice"][1]  # all slices have this length
FRAME_US = KEYS["plant"]["frame_us"]
MINISLOT_US = FRAME_US // KEYS["plant"]["frame_minislots"]
FRAMES_PER_POINT = 50


@dataclasses.dataclass
class Result:
    """What an operator got in a run: its outputs, the delays of its packets in microseconds, and the minislots granted in each frame."""

    outputs: list = dataclasses.field(default_factory=list)
    delays_us: list = dataclasses.field(default_factory=list)
    granted: list = dataclasses.field(default_factory=list)

    def use(self):
        """Returns the share of the slice that is granted, for each 100 ms."""
        starts = range(0, len(self.granted) - FRAMES_PER_POINT + 1, FRAMES_PER_POINT)
        return [sum(self.granted[start : start + FRAMES_PER_POINT]) / (FRAMES_PER_POINT * SLICE) for start in starts]


def users():
    """Returns the modems that both runs have."""
    made = []
    for place, name in enumerate(OPERATORS):
        address = f"0200000000{name}"
        made.append(Modem(place, f"{address}1", voice(f"{name}1"), UNSOLICITED_GRANTS))
        made.append(Modem(place, f"{address}2", bursts(f"{name}2"), BEST_EFFORT))
    return made + [Modem(0, f"0200000000A{number}", bursts(f"A{number}"), BEST_EFFORT) for number in (3, 4)]


def perform_frame(channel, number, modems, by_sid, results):
    """Lets the modems act, makes a frame of each operator, and sends in its grants."""
    for modem in modems:
        modem.act(channel, number * FRAME_US)
    for place in range(len(OPERATORS)):
        channel.tick(place)
        channel.collect(place)
    for output in channel.outputs():
        if isinstance(output, Map):
            continue
        results[output.operator_at].outputs.append(output)
        if isinstance(output, Frame):
            granted = [span for span in output.spans if span.sid]
            results[output.operator_at].granted.append(sum(span.length for span in granted))
            for span in granted:
                if span.sid in by_sid:
                    by_sid[span.sid].send(span.length, number * FRAME_US + (span.start + span.length) * MINISLOT_US)


def simulate(library, frames, floods):
    """Runs the channel for some frames, and returns the result of each operator. In each frame the floods act before all other modems."""
    results, senders = [Result() for _ in OPERATORS], users()
    with Channel(PLANT, library) as channel:
        for modem in [*floods, *senders]:
            results[modem.operator_at].outputs += modem.start(channel)
        by_sid = {modem.sid: modem for modem in senders}
        for number in range(frames):
            perform_frame(channel, number, [*floods, *senders], by_sid, results)
    for modem in senders:
        results[modem.operator_at].delays_us += modem.delays_us
    return results


def print_results(runs):
    print(f"{'operator':9} {'flood of B':10} {'packets':>8} {'median ms':>10} {'99 % ms':>8} {'use':>6}")
    for place, name in enumerate(OPERATORS):
        for flood, results in runs.items():
            delays = results[place].delays_us
            last = statistics.quantiles(delays, n=100)[98]
            used = sum(results[place].granted) / (SLICE * len(results[place].granted))
            print(f"{name:9} {flood:10} {len(delays):8} {statistics.median(delays) / 1000:10.1f} {last / 1000:8.1f} {used:6.0%}")


def main():
    parser = argparse.ArgumentParser("simulate.py", description=__doc__, formatter_class=argparse.RawDescriptionHelpFormatter)
    parser.add_argument("--library", metavar="LIBRARY", help="the shared library")
    parser.add_argument("--seconds", type=float, default=4, metavar="N", help="how long each run is, 4 if not given")
    parser.add_argument("--plot", metavar="FILE", help="the picture")
    options = parser.parse_args()
    frames = round(options.seconds * 1_000_000 / FRAME_US)
    runs = {"no": simulate(options.library, frames, []), "yes": simulate(options.library, frames, [Flood(1, "0200000000BF")])}
    print_results(runs)
    if options.plot:
        from plots import draw  # matplotlib is needed for a picture alone

        draw(runs, OPERATORS, options.plot)
    if runs["no"][0] != runs["yes"][0]:
        sys.exit("operator A differs between the two runs")
    print("operator A: replies, frames, delays and use are the same in both runs")


if __name__ == "__main__":
    main()
