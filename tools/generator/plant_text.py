"""Writes plant files: a channel, and operators whose SFIDs and SIDs are the same numbers."""


def channel_text(frame_minislots, head, **more):
    """Returns the table `plant`. What is not given is a frame of 2,000 microseconds, minislots of 16 bytes and short grants of at most 4."""
    keys = {"frame_minislots": frame_minislots, "head": head, "frame_us": 2000, "bytes_per_minislot": 16, "short_max": 4,
            "channel": 1, "ucd_count": 1, **more}
    return "[plant]\n" + "".join(f"{key} = {value}\n" for key, value in keys.items())


def operator_text(name, modems, slice_of, identifiers, elements, flows=4, transactions=8, inbox=16, budget=None, policy='"strict"'):
    """Returns an operator's table. A slice is its start and length, identifiers are the first and the last; a budget is the whole slice."""
    addresses = ", ".join(f'"{modem}"' for modem in modems)
    return f"""
[[operator]]
name = "{name}"
slice = [{slice_of[0]}, {slice_of[1]}]
sfids = [{identifiers[0]}, {identifiers[1]}]
sids = [{identifiers[0]}, {identifiers[1]}]
flows = {flows}
transactions = {transactions}
inbox = {inbox}
budget = {slice_of[1] if budget is None else budget}
elements = {elements}
policy = {policy}
modems = [{addresses}]
"""
