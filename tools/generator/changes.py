"""Changes plant files at random, and leaves the row of one operator as it is. Some of the changed files are invalid."""

import copy

from service.reference.encodings import CLASS_NAME, tlv
from service.reference.plant import document_of

from .flows import pick
from .plants import Style

# What a channel and the tables of a plant file may have, in the order in which it is written.
OPERATOR_KEYS = ("name", "slice", "sfids", "sids", "flows", "transactions", "inbox", "budget", "elements", "policy", "step", "modems")
FLOW_KEYS = ("modem", "encoding")
NEW_MODEMS = tuple(f"0A00000000{number:02X}" for number in range(6))
BEST_EFFORT = "0601070F0102"
# Classes that are added. No message of a generated script names one.
NEW_CLASSES = tuple(f"Extra{number}" for number in range(6))
CLASS_ENCODINGS = ("", "070101", "0f0102070105", "0F01030A0400002710", "0F0106130200201404000F4240160101")


class File:
    """A plant file that is changed: its tables, the name of the operator whose row stays, and the minislots that are in force."""

    def __init__(self, text, watched, used):
        document = document_of(text)
        self.channel = {key: value for key, value in document["plant"].items() if is_plain(value)}
        self.classes = [dict(table) for table in document.get("class", [])]
        self.rows = [row_of(table) for table in document["operator"]]
        self.watched, self.used = watched, used

    def others(self):
        return [row for row in self.rows if row["name"] != self.watched]

    def text(self, rng):
        tables = [["[plant]", list(self.channel.items())]]
        tables += [["[[class]]", [(key, table[key]) for key in ("name", "encoding")]] for table in self.classes]
        for row in self.rows:
            tables.append(["[[operator]]", [(key, row[key]) for key in OPERATOR_KEYS if key in row]])
            tables += [["[[operator.flow]]", [(key, flow[key]) for key in FLOW_KEYS]] for flow in row["flow"]]
        style = Style(rng)
        return "\n".join(style.table(head, keys) for head, keys in tables)


def is_plain(value):
    return isinstance(value, (int, str, list)) and not isinstance(value, bool)


def row_of(table):
    row = {key: copy.deepcopy(value) for key, value in table.items() if key in OPERATOR_KEYS and is_plain(value)}
    return {**row, "flow": [dict(flow) for flow in table.get("flow", [])]}


def change_file(rng, file, original):
    """Changes a file once to three times. `original` is the file of the start, of which a row may come back."""
    for _ in range(pick(rng, (1, 5), (2, 3), (3, 2))):
        change = pick(rng, (add_modem, 5), (remove_modem, 4), (move_modem, 1), (change_limit, 5), (change_share, 3), (change_policy, 2),
                      (change_range, 3), (remove_operator, 3), (add_operator, 6), (rename_operator, 1), (order_rows, 3), (change_flows, 2),
                      (change_channel, 1), (add_classes, 8), (order_classes, 2), (remove_class, 1), (change_class, 1))
        change(rng, file)
    if rng.random() < 0.2:
        return_operator(rng, file, original)


def changed_bytes(rng, file):
    """Returns the bytes of a file, at times with one of them changed or with the end cut off."""
    data = file.text(rng).encode()
    if rng.random() < 0.03:
        place = rng.randrange(len(data))
        data = data[:place] + bytes([rng.randrange(256)]) + data[place + 1:]
    return data[:rng.randrange(len(data))] if rng.random() < 0.02 else data


# Changes of the rows of other operators

def with_other(change):
    """Returns a change that is made of a random other operator, if there is one."""
    def changed(rng, file):
        if file.others():
            change(rng, file, rng.choice(file.others()))
    return changed


@with_other
def add_modem(rng, file, row):
    row["modems"].insert(rng.randrange(len(row["modems"]) + 1), rng.choice(NEW_MODEMS))


@with_other
def remove_modem(rng, file, row):
    if len(row["modems"]) > 1:
        modem = row["modems"].pop(rng.randrange(len(row["modems"])))
        row["flow"] = [flow for flow in row["flow"] if flow["modem"].upper() != modem.upper()]


@with_other
def move_modem(rng, file, row):
    other = rng.choice(file.others())
    if len(row["modems"]) > 1:
        other["modems"].append(row["modems"].pop())


@with_other
def change_limit(rng, file, row):
    key = rng.choice(("flows", "transactions", "inbox", "elements"))
    row[key] = max(1, rng.choice((row[key] + 1, row[key] - 1, row[key] // 2, 1, 2)))


@with_other
def change_share(rng, file, row):
    row["slice"][1] = rng.randrange(1, row["slice"][1] + 1)
    row["budget"] = rng.randrange(row["slice"][1] + 1)


@with_other
def change_policy(rng, file, row):
    row["policy"] = rng.choice(("strict", "aged", "short"))
    row["step"] = rng.choice((1, 2, 255))


@with_other
def change_range(rng, file, row):
    numbers = row[rng.choice(("sfids", "sids"))]
    numbers[rng.randrange(2)] += rng.choice((-1, 1, 1, 4))


@with_other
def remove_operator(rng, file, row):
    if len(file.rows) > 1:
        file.rows.remove(row)


@with_other
def rename_operator(rng, file, row):
    row["name"] = rng.choice(("New0", "New1", "New2"))


@with_other
def change_flows(rng, file, row):
    if row["flow"] and rng.random() < 0.5:
        del row["flow"][rng.randrange(len(row["flow"]))]
    else:
        row["flow"].append({"modem": rng.choice(row["modems"]), "encoding": provisioned(rng, file)})


def provisioned(rng, file):
    """Returns the encoding of a provisioned flow, which at times names a class of the file."""
    if not file.classes or rng.random() < 0.6:
        return BEST_EFFORT
    return class_name(rng.choice(file.classes)["name"]) + BEST_EFFORT


def class_name(name):
    """Returns a class name as a subtype of a flow encoding, in hexadecimal."""
    return tlv(CLASS_NAME, name.encode() + b"\x00").hex().upper()


# Changes of the list of rows, and of what operators share

def order_rows(rng, file):
    rng.shuffle(file.rows)


def add_operator(rng, file):
    """Adds an operator, mostly in minislots that no slice has."""
    free = free_minislots(file) if rng.random() < 0.9 else list(range(file.channel["head"], file.channel["frame_minislots"]))
    if not free:
        return
    start = rng.choice(free)
    length = next(end for end in range(1, len(free) + 2) if start + end not in free)
    length = rng.randrange(1, length + 1)
    numbers = {key: next_range(rng, file, key) for key in ("sfids", "sids")}
    row = {"name": rng.choice(("New0", "New1", "New2")), "slice": [start, length], **numbers, "flows": rng.choice((1, 4)), "transactions": 4,
           "inbox": 2, "budget": length, "elements": rng.choice((2, 6)), "policy": "strict", "modems": [rng.choice(NEW_MODEMS)], "flow": []}
    if rng.random() < 0.4:
        row["flow"].append({"modem": row["modems"][0], "encoding": provisioned(rng, file)})
    file.rows.insert(rng.randrange(len(file.rows) + 1), row)


def free_minislots(file):
    """Returns the minislots that no slice has, neither in the file nor in force."""
    taken = set(file.used)
    for row in file.rows:
        taken |= set(range(row["slice"][0], sum(row["slice"])))
    return [minislot for minislot in range(file.channel["head"], file.channel["frame_minislots"]) if minislot not in taken]


def next_range(rng, file, key):
    first = max(row[key][1] for row in file.rows) + 1
    return [first, first + rng.randrange(4)]


def return_operator(rng, file, original):
    """Gives an operator the row back that it had at the start, or adds it again."""
    row = copy.deepcopy(rng.choice(original.rows))
    if row["name"] != file.watched:
        file.rows = [other for other in file.rows if other["name"] != row["name"]] + [row]


def change_channel(rng, file):
    """Changes a number of the table `plant`."""
    key = rng.choice(list(file.channel))
    file.channel[key] = max(0, file.channel[key] + rng.choice((-1, 1)))


def add_classes(rng, file):
    """Adds a class or two, in front, at the end or between others. With a name that the file has, it is invalid."""
    for _ in range(rng.choice((1, 1, 2))):
        names = [table["name"] for table in file.classes]
        free = [name for name in NEW_CLASSES if name not in names] if rng.random() < 0.95 else names
        if free:
            place = rng.choice((0, len(names), rng.randrange(len(names) + 1)))
            file.classes.insert(place, {"name": rng.choice(free), "encoding": rng.choice(CLASS_ENCODINGS)})


def order_classes(rng, file):
    """Gives the classes another order, and one of them digits in the other case, which are read alike."""
    rng.shuffle(file.classes)
    if file.classes:
        table = rng.choice(file.classes)
        table["encoding"] = table["encoding"].swapcase()


def remove_class(rng, file):
    if file.classes:
        file.classes.pop(rng.randrange(len(file.classes)))


def change_class(rng, file):
    """Gives a class another name or another encoding."""
    if file.classes:
        key = rng.choice(("name", "encoding"))
        rng.choice(file.classes)[key] = rng.choice(NEW_CLASSES if key == "name" else CLASS_ENCODINGS)


def make_room(rng, file):
    """Halves the slice of an operator, so that others can be added."""
    row = rng.choice(file.rows)
    row["slice"][1] = (row["slice"][1] + 1) // 2
    row["budget"] = min(row["budget"], row["slice"][1])
