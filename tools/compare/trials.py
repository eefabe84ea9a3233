"""Runs long trials in several processes, with the figures so far on standard error. One that is stopped (SIGTERM) prints what it has."""

import multiprocessing
import signal
import sys
import time
from collections import Counter

MOST_SHOWN = 5


def tasks_of(first, count, at_a_time):
    """Returns ranges of numbers, each within a multiple of `at_a_time`."""
    end = first + count
    starts = [first, *range(first - first % at_a_time + at_a_time, end, at_a_time)]
    return [range(start, min(end, start - start % at_a_time + at_a_time)) for start in starts]


def run(do_some, tasks, workers, report_each):
    """Does tasks and prints what they count. Returns 1 if one found a fault, else 0.

    `do_some` returns of a task what it counted, and a text for each fault. The first faults are printed at once, and the trial goes on.
    """
    began, counts, faults, done, stops = time.monotonic(), Counter(), [], 0, []
    signal.signal(signal.SIGTERM, lambda *_: stops.append("stopped: "))
    for task, (some, found) in zip(tasks, results(do_some, tasks, workers)):
        counts += some
        for text in found[:max(0, MOST_SHOWN - len(faults))]:
            print(text, flush=True)
        faults += found
        if (done + len(task)) // report_each > done // report_each:
            print(f"{done + len(task)} were tried, {len(faults)} are wrong, {time.monotonic() - began:.0f} seconds", file=sys.stderr, flush=True)
        done += len(task)
        if stops:
            break
    print(f"{''.join(stops[:1])}{done} were tried, {len(faults)} are wrong, in {time.monotonic() - began:.0f} seconds")
    for what, times in sorted(counts.items()):
        print(f"{times:9} {what}")
    return 1 if faults else 0


def results(do_some, tasks, workers):
    """Yields what the tasks return, in their order."""
    if workers == 1:
        yield from map(do_some, tasks)
        return
    # The pool ends its processes by SIGTERM.
    with multiprocessing.Pool(workers, signal.signal, (signal.SIGTERM, signal.SIG_DFL)) as pool:
        yield from pool.imap(do_some, tasks)
