"""Makes plant files invalid, and knows the limits of their keys."""

from .plants import Raw

BAD = tuple(map(Raw, ("true", "1.5", "-1", '"x"', "[]", "{}", "1979-05-27", "[1, 2, 3]", "[1]", '["a", 1]', "[true, 2]", "[[1], 2]",
                      "[2, 1.0]", "9223372036854775807", "-9223372036854775808", "0", "inf", "07:32:00", '""', "[-1, 5]", '["020000000001", 2]',
                      '"\\u00e9"', "{ x = 1 }", '"A "')))
HUGE = (Raw("9223372036854775808"), Raw("99999999999999999999"), Raw("-9223372036854775809"))
EDGES = {
    "frame_minislots": (0, 1, 4096, 4097), "head": (0, 4096, 4097), "frame_us": (0, 1, 1_000_000, 1_000_001),
    "bytes_per_minislot": (0, 1, 65_535, 65_536), "short_max": (0, 4096, 4097), "channel": (0, 255, 256), "ucd_count": (0, 255, 256),
    "ranging_start": (0, 15, 16), "ranging_end": (0, 15, 16), "data_start": (0, 15, 16), "data_end": (0, 15, 16),
    "ack_wait": (0, 1, 65_535, 65_536), "resends": (0, 255, 256), "hold": (0, 1, 65_535, 65_536),
    "first_frame": (0, 2**32 - 1, 2**32),
    "name": ("", "A", "Abcdefghijklmno", "Abcdefghijklmnop", "Abcdefghijklmnopq", "a-b", "a_b", "a b", "\u00e9", "1"),
    "encoding": ("", "0", "0g", "0601010f0102", "060103", "060107", "060105", "0701", "070108", "0701010701", "0602", "040261 00",
                 "04026100", "0601010402630000", "0F0104", "0601010f0104", "06010104036300", "06010100ff", "0F0102FF00"),
    "slice": ([0, 1], [0, 0], [8, 4096], [4095, 1], [4096, 1], [8, -1]),
    "sfids": ([0, 1], [1, 1], [2, 1], [1, 2**32 - 1], [1, 2**32]), "sids": ([0, 1], [1, 1], [2, 1], [1, 8191], [1, 8192]),
    "flows": (0, 1, 1024, 1025), "transactions": (0, 1, 256, 257), "inbox": (0, 1, 256, 257), "budget": (0, 4096, 4097),
    "elements": (0, 235, 236), "policy": ("strict", "aged", "short", "Strict", "", "random"), "step": (0, 1, 255, 256),
    "modems": ([], ["02000000000"], ["0200000000011"], ["02000000000g"], ["02:00:00:00:00:01"], ["020000000001", "020000000001"]),
    "modem": ("020000000001", "02000000000", "ffffffffffff", ""),
}
HEADS = ("[[plant]]", "[class]", "[operator]", "[strange]", "[[operator]]", "[[class]]", "[plant.x]", "[operator.flow]")


def spoil_plant(rng, tables):
    """Returns one to three changes that most likely make the file faulty, or put a key at its limit."""
    for _ in range(rng.choice((1, 1, 1, 2, 3))):
        rng.choice((drop_key, drop_key, bad_value, bad_value, edge, edge, edge, together, together, together, together, tables_at_fault))(rng, tables)


def drop_key(rng, tables):
    keys = rng.choice(tables)[1]
    if keys:
        del keys[rng.randrange(len(keys))]


def set_key(rng, keys, value_for):
    place = rng.randrange(len(keys))
    keys[place] = (keys[place][0], value_for(keys[place][0]))


def bad_value(rng, tables):
    keys = rng.choice(tables)[1]
    if keys:
        set_key(rng, keys, lambda _: rng.choice(HUGE if rng.random() < 0.03 else BAD))


def edge(rng, tables):
    keys = rng.choice(tables)[1]
    if keys:
        set_key(rng, keys, lambda key: rng.choice(EDGES.get(key, (0, 1))))


def put_key(keys, key, value):
    keys[:] = [(name, value if name == key else old) for name, old in keys]


def value_at(keys, key):
    return dict(keys).get(key)


def together(rng, tables):
    """Makes a fault of all keys together: ranges that overlap, an address twice, a sum."""
    operators = [keys for head, keys in tables if head == "[[operator]]"]
    if operators:
        rng.choice((same_key, same_key, meeting, meeting, meeting, sum_of_elements, sum_of_elements, over_budget, add_flows))(rng, tables, operators)


def same_key(rng, tables, operators):
    one, other, key = rng.choice(operators), rng.choice(operators), rng.choice(("modems", "modems", "modems", "slice", "sids", "sfids", "name"))
    if value_at(other, key) is not None:
        put_key(one, key, value_at(other, key))


def meeting(rng, tables, operators):
    """Makes two ranges overlap at one number, or just not."""
    one, other, key = rng.choice(operators), rng.choice(operators), rng.choice(("slice", "sids", "sfids"))
    value = value_at(other, key)
    if isinstance(value, list) and len(value) == 2:
        last = value[0] + value[1] - 1 if key == "slice" else value[1]
        first = last + rng.choice((0, 0, 1))
        put_key(one, key, [first, rng.choice((1, 2))] if key == "slice" else [first, first + rng.choice((0, 3))])


def sum_of_elements(rng, tables, operators):
    """Makes the elements of all operators, and those that a MAP needs besides, nearly 240."""
    others = [value_at(keys, "elements") for keys in operators[1:]]
    if all(isinstance(number, int) for number in others):
        most = 240 - 3 - 2 * len(operators) - sum(others)
        put_key(operators[0], "elements", max(0, min(235, most + rng.choice((0, 1, 1, 2, 100)))))


def over_budget(rng, tables, operators):
    keys = rng.choice(operators)
    put_key(keys, "budget", rng.choice((0, 1, 4096, 4096)))
    if rng.random() < 0.6:
        put_key(rng.choice(operators), *rng.choice((("flows", 1), ("sfids", [5, 5]), ("sids", [5, 5]), ("elements", 1))))
        add_flows(rng, tables, operators)


def add_flows(rng, tables, operators):
    """Adds provisioned flows after the last table, that of an operator or of a flow of it."""
    modems = value_at(operators[-1], "modems")
    if isinstance(modems, list) and modems:
        for _ in range(rng.choice((1, 2, 5))):
            tables.append(["[[operator.flow]]", [("modem", rng.choice(modems)), ("encoding", rng.choice(("060107", "060103", "060101")))]])


def tables_at_fault(rng, tables):
    what = rng.choice(("head", "drop", "again", "many", "value", "no toml"))
    place = rng.randrange(len(tables))
    if what == "head":
        tables[place][0] = rng.choice(HEADS)
    elif what == "drop":
        del tables[place]
        tables or tables.append(["[strange]", []])
    elif what == "again":
        tables.append([tables[place][0], list(tables[place][1])])
    elif what == "many":
        head, count = rng.choice((("[[operator]]", 33), ("[[class]]", 65)))
        tables += [[head, []] for _ in range(count)]
    elif what == "value":
        tables.insert(0, ["", [(rng.choice(("plant", "class", "operator", "flow")),
                                Raw(rng.choice(("5", "[]", "[5]", "{}", "[{}]", '"x"', "[{}, 1]", "[[]]", "1.5"))))]])
        tables[:] = [entry for entry in tables if not entry[0].strip("[]").startswith(tables[0][1][0][0])]
    else:
        tables[place][0] = rng.choice(("[plant", "= 5", "[[operator]", "key", "a = ", "[plant]\nhead = 1\nhead = 2", "a = \"x", "b = 01"))
