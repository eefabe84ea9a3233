"""Finds in an output what an operator observes of its plant, and gives lines their first frame numbers."""

MOST_AGE = 255
# Which number of a parameter set is its interval in microseconds, by scheduling type: of polls, or of unsolicited grants.
INTERVALS = {3: 6, 4: 6, 6: 9}


def observed(output, row):
    """Returns the lines of an output that an operator observes: replies and drop reasons of its modems, its frames, and its state."""
    lines = output.decode().splitlines()
    return own_lines(lines, row), state_of(lines, row.name)


def own_lines(lines, row, shift=0):
    """Returns the replies, drop reasons and frames of an operator, with frame numbers that are moved back."""
    return [moved_back(line, shift) for line in lines if is_own(row, *f"{line} ".split(" ")[:2])]


def is_own(row, kind, who):
    return kind in ("R", "S") and who in row.modems or kind == "F" and who == row.name


def state_of(lines, name):
    """Returns the records of an operator in a last snapshot, or None if the plant did not rest."""
    if not lines or not lines[-1].startswith("end "):
        return None
    place = max(at for at, line in enumerate(lines) if line.startswith(f"operator {name} "))
    return lines[place:next(at for at in range(place + 1, len(lines)) if lines[at].split(" ")[0] in ("operator", "end"))]


def settled_state(lines, name, frame_us):
    """Returns the records of an operator in a last snapshot with what a line `N` leaves of its frames, or None if the plant did not rest."""
    state = state_of(lines, name)
    if state is None:
        return None
    frame = int(next(line for line in reversed(lines) if line.startswith("frame ")).split(" ")[1])
    return [settled_record(line.split(" "), frame, frame_us) for line in state]


def settled_record(fields, frame, frame_us):
    """Returns a record with how far a slice change is from the next frame, with the place of that frame in the interval of a flow, and with
    the age of the backlog."""
    if fields[0] == "next" and fields[1] != "-":
        fields[1] = str(int(fields[1][1:]) - frame)
    if fields[0] == "flow":
        interval = interval_of(fields[6], frame_us)
        fields[-3] = str((frame - int(fields[-3])) % interval if interval else 0)
        fields[-1] = str(min(MOST_AGE, frame - int(fields[-1])))
    return " ".join(fields)


def interval_of(field, frame_us):
    """Returns the frames of the interval of an active set as a snapshot has it, or 0."""
    numbers = [int(number) for number in field[1:].split(",")] if field.startswith("=") else [0]
    return numbers[INTERVALS[numbers[0]]] // frame_us if numbers[0] in INTERVALS else 0


def moved_back(line, shift):
    """Returns a line of an output with the first number of its frame. Of a flow in a snapshot, the frames that it counts from are left out."""
    fields = line.split(" ")
    if fields[0] == "F" or fields[0] == "MAP":
        place = 2 if fields[0] == "F" else 1
        return " ".join(fields[:place] + [str(int(fields[place]) - shift)] + fields[place + 1:])
    if fields[0] == "frame" and len(fields) == 3 and fields[1].isdigit():
        return f"frame {int(fields[1]) - shift} {fields[2]}"
    if line.startswith("next ="):
        return " ".join(["next", str(int(fields[1][1:]) - shift)] + fields[2:])
    if fields[0] == "flow" and len(fields) > 8:
        return " ".join(fields[:-3] + fields[-2:-1])
    return "end" if fields[0] == "end" else line
