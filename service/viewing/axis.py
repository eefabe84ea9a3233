"""Finds the times of frames, and the frames at which slices change."""

from itertools import pairwise

from .run_output import part_of


def time_of(number, frame_us):
    """Returns when a frame begins, in milliseconds: its number times the length of a frame. All frames have equally many decimals.

    Frame 0 begins at 0, as in a capture.
    """
    microseconds = number * frame_us
    decimals = next(places for places in range(4) if frame_us * 10**places % 1000 == 0)
    whole, rest = divmod(microseconds, 1000)
    return f"{whole}.{rest:03}"[:-3 + decimals or None] if decimals else str(whole)


def slice_changes(run):
    """Returns the numbers of the frames in which an operator's slice differs from that in its frame before."""
    found = set()
    for frames in run.frames.values():
        for before, number in pairwise(sorted(frames)):
            if slice_of(frames[before]) != slice_of(frames[number]):
                found.add(number)
    return sorted(found)


def slice_of(elements):
    """Returns the start and the length of the slice in a frame of an operator."""
    part = part_of(elements)
    return part.start, part.length


def spread(centres, gap, low, high):
    """Returns where labels are drawn whose best places are `centres`, in ascending order: neighbours at least `gap` apart, and all between
    `low` and `high`. The caller has seen to it that they have room."""
    placed = []
    for centre in centres:
        placed.append(max(centre, placed[-1] + gap if placed else low))
    end = high
    for place in reversed(range(len(placed))):
        placed[place] = min(placed[place], end)
        end = placed[place] - gap
    return placed
