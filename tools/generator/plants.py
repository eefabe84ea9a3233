"""Makes random plants, and writes them as TOML."""

from dataclasses import dataclass, field

from service.reference.sets import NoSet, need_of, parameter_set

from .flows import fields_of, params, pick, rate_of, spelled

NAMES = ("A", "B", "North", "South", "op1", "op2", "x", "Isp0000000000016", "zz9", "Alpha", "Beta", "m3")


@dataclass
class Provision:
    modem: str
    set_type: int
    params: dict
    encoding: str


@dataclass
class Operator:
    name: str
    slice: list
    sfids: list
    sids: list
    flows: int
    transactions: int
    inbox: int
    budget: int
    elements: int
    policy: str
    step: object
    modems: list
    provisions: list = field(default_factory=list)


@dataclass
class Plant:
    frame_minislots: int
    head: int
    frame_us: int
    bytes_per_minislot: int
    short_max: int
    more: dict
    classes: list = field(default_factory=list)
    operators: list = field(default_factory=list)

    @property
    def first_frame(self):
        return self.more.get("first_frame", 0)


PLANT_OF_ONE = Plant(72, 8, 2000, 16, 4, {"channel": 1, "ucd_count": 1}, [], [
    Operator("A", [8, 32], [257, 512], [257, 272], 4, 4, 4, 32, 8, "strict", None, ["020000000001"])])


def plant(rng):
    if rng.random() < 0.012:
        return plant_of_full_maps(rng)
    if rng.random() < 0.02:
        return plant_of_long_waits(rng)
    size = pick(rng, ("small", 55), ("busy", 22), ("some", 14), ("many", 4), ("wide", 5))
    made = channel(rng, size)
    count = {"small": lambda: rng.choice((1, 1, 2, 2, 3)), "busy": lambda: rng.choice((1, 1, 2)), "some": lambda: rng.randrange(2, 8),
             "many": lambda: rng.randrange(9, 33), "wide": lambda: rng.choice((1, 1, 2, 3))}[size]()
    room = made.frame_minislots - made.head
    if room < count:
        count = max(1, room)
    if room == 0:
        made.head -= 1
    made.classes = classes(rng, made)
    made.operators = operators(rng, made, min(count, 32), size)
    return made


def plant_of_full_maps(rng):
    """Returns one operator whose provisioned flows can fill a MAP up to its greatest number of elements."""
    made = Plant(600, rng.choice((0, 8)), 2000, 16, 4, {"channel": 1, "ucd_count": 1, "ack_wait": 2, "hold": 2})
    made.operators = [Operator("Full", [20, 500], [1, 300], [1, 300], 300, 64, 4, 500, 235, "aged", 1, ["020000000001"])]
    if rng.random() < 0.5:
        flows = [{15: 6, 19: 16, 20: 2000, 22: grants} for grants in (127, 108)]
    else:
        flows = [{7: rng.randrange(8)} for _ in range(117)]
    made.operators[0].provisions = [
        Provision("020000000001", 7, asked, spelled([(6, 7), *sorted(asked.items())]).hex()) for asked in flows]
    return made


def plant_of_long_waits(rng):
    """Returns one operator whose flows request much more than its slice has, so that some wait for hundreds of frames."""
    made = Plant(8, 0, 2000, 16, 4, {"channel": 1, "ucd_count": 1})
    made.operators = [Operator("Slow", [0, rng.choice((1, 1, 2))], [1, 30], [1, 30], 30, 64, 4, 1, 40, "aged", rng.choice((1, 5, 5, 255)),
                               ["020000000001"])]
    count, priorities = rng.choice(((2, (0, 7)), (3, (0, 1, 7)), (12, (5, 6, 7)), (12, (7,))))
    flows = [{7: rng.choice(priorities)} for _ in range(count)]
    made.operators[0].provisions = [
        Provision("020000000001", 7, asked, spelled([(6, 7), *sorted(asked.items())]).hex()) for asked in flows]
    return made


def channel(rng, size):
    frame_minislots = {"small": rng.choice((1, 8, 24, 40, 72, 72, 100)), "busy": rng.randrange(16, 80), "some": rng.randrange(40, 200),
                       "many": rng.randrange(64, 500), "wide": rng.choice((2048, 4095, 4096))}[size]
    head = pick(rng, (0, 3), (1, 1), (8, 4), (frame_minislots - 1, 0.3))
    more = {}
    for key in ("ranging_start", "ranging_end", "data_start", "data_end"):
        if rng.random() < 0.2:
            more[key] = rng.randrange(16)
    if rng.random() < 0.92:
        more["ack_wait"] = pick(rng, (1, 4), (2, 4), (3, 2), (5, 1), (65_535, 0.3))
    if rng.random() < 0.85:
        more["resends"] = pick(rng, (0, 3), (1, 4), (2, 2), (3, 1), (255, 0.3))
    if rng.random() < 0.92:
        more["hold"] = pick(rng, (1, 3), (2, 4), (4, 2), (9, 1), (65_535, 0.3))
    first_frame = pick(rng, (None, 60), (0, 5), (1, 5), (rng.randrange(2**32), 12), (2**32 - 1 - rng.randrange(12), 8),
                       (2**32 // frame_minislots - rng.randrange(1, 6), 10))
    if first_frame is not None:
        more["first_frame"] = min(first_frame, 2**32 - 1)
    return Plant(frame_minislots, min(head, frame_minislots),
                 rng.choice((1, 250, 1000, 2000, 2000, 2000, 10_000, 999_999, 1_000_000)),
                 pick(rng, (1, 1), (8, 2), (16, 6), (100, 1), (65_535, 0.4)),
                 pick(rng, (0, 2), (1, 1), (2, 2), (4, 4), (4096, 1)),
                 {"channel": rng.randrange(256), "ucd_count": rng.randrange(256), **more})


def classes(rng, made):
    named = []
    for place in range(pick(rng, (0, 5), (1, 3), (2, 2), (5, 1), (64, 0.1))):
        asked = params(rng, made)
        for subtype in list(asked):
            if rng.random() < 0.15:
                del asked[subtype]
        named.append((rng.choice(("gold", "Voip", "c", "fifteenLetters0")) + (str(place) if place else ""), asked))
    return [(name[-15:], asked, spelled(fields_of(rng, asked)).hex()) for name, asked in named]


def operators(rng, made, count, size):
    cuts = slices(rng, made, count)
    sfids = ranges(rng, count, 4_294_967_295, size)
    sids = ranges(rng, count, 8191, size)
    elements_left = 240 - 3 - 2 * count
    made_operators = []
    for place in range(count):
        start, length = cuts[place]
        few = pick(rng, (0, 0.3), (2, 2), (4, 3), (6, 3), (9, 3), (14, 2), (235, 2 if size == "wide" else 0.3))
        few = rng.choice((14, 20, 40)) if size == "busy" else few
        elements = min(few, elements_left // (count - place) if few < 235 else elements_left, 235)
        elements_left -= elements
        policy = rng.choice(("strict", "aged", "aged", "short"))
        step = rng.choice((1, 1, 2, 3, 5, 255)) if policy == "aged" else rng.choice((None, None, 0, "x"))
        made_operators.append(Operator(
            name_of(rng, place), [start, length], sfids[place], sids[place],
            pick(rng, (1, 1), (2, 2), (3, 2), (4, 2), (16, 3), (1024, 0.5)) if size != "busy" else rng.choice((8, 16)),
            pick(rng, (1, 1), (2, 2), (3, 2), (6, 4), (64, 3), (256, 0.5)), rng.choice((1, 1, 4, 256)),
            pick(rng, (length, 6), (rng.randrange(length + 1), 4), (0, 0.3)), elements, policy, step,
            addresses(rng, place)))
        made_operators[-1].provisions = provisions(rng, made, made_operators[-1], size == "busy")
    return made_operators


def name_of(rng, place):
    return NAMES[place] if place < len(NAMES) and rng.random() < 0.9 else f"Op{place}"


def addresses(rng, place):
    count = pick(rng, (1, 3), (2, 4), (3, 1))
    return [f"02{place:02X}000000{modem:02X}" for modem in range(1, count + 1)]


def slices(rng, made, count):
    """Returns as many slices, in any order, with gaps between some."""
    room = made.frame_minislots - made.head
    ends = sorted(rng.sample(range(1, room), count - 1)) + [room] if room > count else list(range(1, count + 1))
    cut, start = [], 0
    for end in ends:
        length = end - start
        before = rng.randrange(length) if rng.random() < 0.2 else 0
        behind = rng.randrange(length - before) if rng.random() < 0.2 else 0
        cut.append((made.head + start + before, length - before - behind))
        start = end
    if rng.random() < 0.4:
        rng.shuffle(cut)
    return cut


def ranges(rng, count, greatest, size):
    """Returns as many ranges of identifiers that do not overlap, in any order."""
    lengths = [pick(rng, (1, 1), (2, 2), (3, 2), (5, 2), (16, 3), (200, 1 if size != "wide" else 3)) for _ in range(count)]
    lengths = [max(length, 10) for length in lengths] if size == "busy" else lengths
    number = pick(rng, (1, 6), (257, 3), (greatest - sum(lengths) - 4 * count + 1, 1))
    made = []
    for length in lengths:
        number += rng.choice((0, 0, 1, 3)) if number + sum(lengths) + 4 * count < greatest else 0
        made.append([number, number + length - 1])
        number += length
    if rng.random() < 0.3:
        rng.shuffle(made)
    return made


def provisions(rng, made, operator, busy):
    """Returns provisioned flows that fit; of a busy operator mostly such as ask for grants from the first frame on."""
    kept, minislots, elements, admitted = [], 0, 0, 0
    for _ in range(pick(rng, (0, 4), (1, 3), (2, 2), (4, 1), (12, 0.5)) if not busy else rng.randrange(3, 9)):
        if len(kept) >= min(operator.flows, operator.sfids[1] - operator.sfids[0] + 1):
            break
        asked, set_type = params(rng, made), rng.choice((1, 1, 3, 7, 7))
        if busy and rng.random() < 0.8:
            asked, set_type = {7: rng.randrange(8), 10: rate_of(made, rng.randrange(3))}, 7
        named = [entry for entry in made.classes if rng.random() < 0.1][:1]
        of_class = dict(named[0][1]) if named else {}
        try:
            need = need_of(parameter_set({**of_class, **asked}, made.frame_us), made)
        except NoSet:
            continue
        if set_type != 1:
            minislots, elements, admitted = minislots + need[0], elements + need[1], admitted + 1
            if minislots > operator.budget or elements > operator.elements or admitted > operator.sids[1] - operator.sids[0] + 1:
                break
        leading = [(6, set_type)] + ([(4, named[0][0].encode() + b"\x00")] if named else [])
        if rng.random() < 0.2:
            leading += rng.choice(([(1, 7)], [(2, 9)], [(3, 65_535)], [(5, b"\x01\x01\x0f\x02\x01\x17")]))
        kept.append(Provision(rng.choice(operator.modems), set_type, {**of_class, **asked},
                              spelled(fields_of(rng, asked, leading)).hex()))
    return kept


# Writing

def written(rng, made, spoil=None):
    """Returns the plant as TOML, at times with keys in any order, numbers in other notations, comments and unknown keys."""
    tables = [["[plant]", channel_keys(made)]]
    tables += [["[[class]]", [("name", name), ("encoding", encoding)]] for name, _, encoding in made.classes]
    for operator in made.operators:
        tables.append(["[[operator]]", operator_keys(operator)])
        tables += [["[[operator.flow]]", [("modem", flow.modem), ("encoding", flow.encoding)]] for flow in operator.provisions]
    if spoil is not None:
        spoil(rng, tables)
    style = Style(rng)
    return "\n".join(style.table(head, keys) for head, keys in tables)


def channel_keys(made):
    return [("frame_minislots", made.frame_minislots), ("head", made.head), ("frame_us", made.frame_us),
            ("bytes_per_minislot", made.bytes_per_minislot), ("short_max", made.short_max), *made.more.items()]


def operator_keys(operator):
    keys = [("name", operator.name), ("slice", operator.slice), ("sfids", operator.sfids), ("sids", operator.sids),
            ("flows", operator.flows), ("transactions", operator.transactions), ("inbox", operator.inbox),
            ("budget", operator.budget), ("elements", operator.elements), ("policy", operator.policy)]
    if operator.step is not None:
        keys.append(("step", operator.step))
    return keys + [("modems", operator.modems)]


class Raw(str):
    """A value as the file has it."""


class Style:
    def __init__(self, rng):
        self.rng, self.plain = rng, rng.random() < 0.7
        self.shuffled = not self.plain and rng.random() < 0.5

    def table(self, head, keys):
        if self.shuffled:
            self.rng.shuffle(keys)
        lines = [head] + [f"{key} = {self.value(value)}" for key, value in keys]
        if not self.plain and self.rng.random() < 0.2:
            lines.insert(self.rng.randrange(1, len(lines) + 1), self.rng.choice(("# a comment", "strange = 1.5", "other = { a = true }", "")))
        return "\n".join(lines) + "\n"

    def value(self, value):
        if isinstance(value, Raw):
            return value
        if isinstance(value, list):
            return "[" + (", " if self.plain else self.rng.choice((",", " , ", ",\n  "))).join(map(self.value, value)) + "]"
        if isinstance(value, str):
            return self.string(value)
        if self.plain or self.rng.random() < 0.7:
            return str(value)
        return self.rng.choice((f"0x{value:x}", f"0x{value:X}", f"0o{value:o}", f"0b{value:b}", f"+{value}", f"{value:_}"))

    def string(self, value):
        if self.plain:
            return f'"{value}"'
        if set(value) <= set("0123456789abcdefABCDEF") and self.rng.random() < 0.3 and value not in NAMES:
            value = value.lower()
        return self.rng.choice((f'"{value}"', f"'{value}'", f'"""{value}"""', f"'''\n{value}'''"))
