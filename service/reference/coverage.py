"""Counts what the second implementation reached, so that the generator can be steered towards what is rare."""

from collections import Counter

COUNTS = Counter()


def met(what):
    COUNTS[what] += 1


class MetFault(Exception):
    """Reports a fault that is counted under `name` wherever it is reached. What it says is its fields."""

    def __init__(self, name, **fields):
        super().__init__(*fields.values())
        self.__dict__.update(fields)
        met(name)
