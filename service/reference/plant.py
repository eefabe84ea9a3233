"""Reads the plant file, or finds its first fault."""

import re
import tomllib
from dataclasses import dataclass
from functools import lru_cache
from typing import Optional

from .coverage import MetFault
from .encodings import CLASS_NAME, SET_TYPE, FlowFault, read_flow
from .sets import NoSet, need_of, overridden, parameter_set

NOT_TOML, MISSING, BAD_VALUE, SLICES_MEET, SIDS_MEET, SFIDS_MEET, MODEM_TWICE, TOO_MANY_ELEMENTS, BUDGET_OVER_SLICE, \
    PROVISIONED_OVER = range(1, 11)
MOST_ELEMENTS = 240


class PlantFault(MetFault):
    def __init__(self, number, *detail):
        text = " ".join(str(part) for part in detail)
        where = " " + re.sub(r"\[\d+\]", "[]", text) if number in (2, 3) else ""
        super().__init__(f"plant fault {number}{where}", number=number, detail=text)


@dataclass
class Provisioned:
    modem: str
    provisioned: dict
    admitted: Optional[dict]
    active: Optional[dict]


@dataclass
class Row:
    """An operator's row of the plant."""
    name: str
    slice: tuple
    sfids: tuple
    sids: tuple
    flows: int
    transactions: int
    inbox: int
    budget: int
    elements: int
    policy: str
    step: int
    modems: list
    provisioned: list


@dataclass
class Plant:
    frame_minislots: int
    head: int
    frame_us: int
    bytes_per_minislot: int
    short_max: int
    channel: int
    ucd_count: int
    backoffs: tuple
    ack_wait: int
    resends: int
    hold: int
    first_frame: int
    classes: dict
    rows: list


def read_plant(text):
    document = read_toml(text)
    plant = read_channel(document)
    for place, table in enumerate(array_of(document, "class", "class", 0, 64, may_be_absent=True)):
        read_class(plant, f"class[{place}]", table)
    for place, table in enumerate(array_of(document, "operator", "operator", 1, 32)):
        plant.rows.append(read_row(plant, f"operator[{place}]", table))
    judge_meetings(plant)
    judge_addresses(plant)
    judge_sums(plant)
    return plant


def read_toml(text):
    try:
        document = document_of(text)
    except ValueError as fault:
        raise PlantFault(NOT_TOML) from fault
    if not has_small_integers(document):
        raise PlantFault(NOT_TOML)
    return document


@lru_cache(maxsize=16)
def document_of(text):
    """Returns the tables of a TOML text. The last texts are not read again, so nobody may change the tables."""
    return tomllib.loads(text)


def has_small_integers(value):
    """Finds integers of more than 64 bits, which Python's reader accepts and TOML does not."""
    if isinstance(value, dict):
        return all(has_small_integers(item) for item in value.values())
    if isinstance(value, list):
        return all(has_small_integers(item) for item in value)
    return not isinstance(value, int) or -2**63 <= value < 2**63


# The reading of a key

def is_number(value, least, greatest):
    return isinstance(value, int) and not isinstance(value, bool) and least <= value <= greatest


def stated(table, place, key):
    if key not in table:
        raise PlantFault(MISSING, f"{place}.{key}")
    return table[key]


def number(table, place, key, least, greatest, default=None):
    if default is not None and key not in table:
        return default
    value = stated(table, place, key)
    if not is_number(value, least, greatest):
        raise PlantFault(BAD_VALUE, f"{place}.{key}")
    return value


def number_pair(table, place, key, fits):
    value = stated(table, place, key)
    is_pair = isinstance(value, list) and len(value) == 2 and all(is_number(item, 0, 2**63) for item in value)
    if not is_pair or not fits(*value):
        raise PlantFault(BAD_VALUE, f"{place}.{key}")
    return tuple(value)


def number_range(table, place, key, greatest):
    return number_pair(table, place, key, lambda first, last: 1 <= first <= last <= greatest)


def text(table, place, key, fits):
    value = stated(table, place, key)
    if not isinstance(value, str) or not fits(value):
        raise PlantFault(BAD_VALUE, f"{place}.{key}")
    return value


def array_of(table, place, key, least, greatest, may_be_absent=False):
    """Returns the items of an array of tables. Each item is judged to be a table when its turn comes."""
    if may_be_absent and key not in table:
        return []
    if key not in table:
        raise PlantFault(MISSING, place)
    value = table[key]
    if not isinstance(value, list) or len(value) < least or (greatest is not None and len(value) > greatest):
        raise PlantFault(BAD_VALUE, place)
    return value


def judge_table(value, place):
    if not isinstance(value, dict):
        raise PlantFault(BAD_VALUE, place)


def is_name(value, longest):
    return re.fullmatch(f"[A-Za-z0-9]{{1,{longest}}}", value) is not None


def is_address(value):
    return isinstance(value, str) and re.fullmatch("[0-9A-Fa-f]{12}", value) is not None


def flow_of_text(value):
    """Returns the fields of a flow encoding written in hexadecimal, or None."""
    if not isinstance(value, str) or re.fullmatch("([0-9A-Fa-f]{2})*", value) is None:
        return None
    try:
        return read_flow(bytes.fromhex(value))
    except FlowFault:
        return None


# The tables

def read_channel(document):
    if "plant" in document:
        judge_table(document["plant"], "plant")
    table = document.get("plant", {})

    def key(name, least, greatest, default=None):
        return number(table, "plant", name, least, greatest, default)

    frame_minislots = key("frame_minislots", 1, 4096)
    return Plant(
        frame_minislots=frame_minislots,
        head=key("head", 0, frame_minislots),
        frame_us=key("frame_us", 1, 1_000_000),
        bytes_per_minislot=key("bytes_per_minislot", 1, 65_535),
        short_max=key("short_max", 0, 4096),
        channel=key("channel", 0, 255),
        ucd_count=key("ucd_count", 0, 255),
        backoffs=tuple(key(name, 0, 15, 0) for name in ("ranging_start", "ranging_end", "data_start", "data_end")),
        ack_wait=key("ack_wait", 1, 65_535, 150),
        resends=key("resends", 0, 255, 3),
        hold=key("hold", 1, 65_535, 1_500),
        first_frame=key("first_frame", 0, 4_294_967_295, 0),
        classes={}, rows=[])


def read_class(plant, place, table):
    judge_table(table, place)
    earlier = list(plant.classes)
    name = text(table, place, "name", lambda value: is_name(value, 15) and value.encode() not in earlier)
    encoding = text(table, place, "encoding", lambda value: is_class_encoding(flow_of_text(value)))
    plant.classes[name.encode()] = flow_of_text(encoding)


def is_class_encoding(fields):
    return fields is not None and all(subtype > 6 for subtype in fields)


def read_row(plant, place, table):
    judge_table(table, place)
    earlier = [row.name for row in plant.rows]

    def slice_fits(start, length):
        return start >= plant.head and length >= 1 and start + length <= plant.frame_minislots

    row = Row(
        name=text(table, place, "name", lambda value: is_name(value, 16) and value not in earlier),
        slice=number_pair(table, place, "slice", slice_fits),
        sfids=number_range(table, place, "sfids", 4_294_967_295),
        sids=number_range(table, place, "sids", 8191),
        flows=number(table, place, "flows", 1, 1024),
        transactions=number(table, place, "transactions", 1, 256),
        inbox=number(table, place, "inbox", 1, 256),
        budget=number(table, place, "budget", 0, 4096),
        elements=number(table, place, "elements", 0, 235),
        policy=text(table, place, "policy", lambda value: value in ("strict", "aged", "short")),
        step=number(table, place, "step", 1, 255) if table.get("policy") == "aged" else 1,
        modems=read_modems(table, place),
        provisioned=[])
    for j, flow in enumerate(array_of(table, f"{place}.flow", "flow", 0, None, may_be_absent=True)):
        row.provisioned.append(read_provisioned(plant, row, f"{place}.flow[{j}]", flow))
    return row


def read_modems(table, place):
    value = stated(table, place, "modems")
    if not isinstance(value, list) or not 1 <= len(value) <= 1024 or not all(is_address(item) for item in value):
        raise PlantFault(BAD_VALUE, f"{place}.modems")
    return [item.upper() for item in value]


def read_provisioned(plant, row, place, table):
    judge_table(table, place)
    modem = text(table, place, "modem", lambda value: is_address(value) and value.upper() in row.modems)
    encoding = text(table, place, "encoding", lambda value: provisioned_set(plant, value) is not None)
    params, set_type = provisioned_set(plant, encoding)
    return Provisioned(modem.upper(), params, params if set_type in (3, 7) else None, params if set_type == 7 else None)


def provisioned_set(plant, value):
    """Returns the parameter set and the set type of a provisioned flow's encoding, or None if it gives none."""
    fields = flow_of_text(value)
    if fields is None or fields.get(SET_TYPE) not in (1, 3, 7):
        return None
    if CLASS_NAME in fields and fields[CLASS_NAME] not in plant.classes:
        return None
    try:
        return parameter_set(overridden(fields, plant.classes), plant.frame_us), fields[SET_TYPE]
    except NoSet:
        return None


# All keys together

def judge_meetings(plant):
    judge_pairs(plant, SLICES_MEET, lambda row: (row.slice[0], row.slice[0] + row.slice[1] - 1))
    judge_pairs(plant, SIDS_MEET, lambda row: row.sids)
    judge_pairs(plant, SFIDS_MEET, lambda row: row.sfids)


def judge_pairs(plant, fault, range_of):
    for place, one in enumerate(plant.rows):
        for other in plant.rows[place + 1:]:
            if have_common(range_of(one), range_of(other)):
                raise PlantFault(fault, one.name, other.name)


def have_common(one, other):
    """Tests whether two ranges, each from its first to its last number, have a number in common."""
    return one[0] <= other[1] and other[0] <= one[1]


def judge_addresses(plant):
    seen = set()
    for row in plant.rows:
        for modem in row.modems:
            if modem in seen:
                raise PlantFault(MODEM_TWICE, modem)
            seen.add(modem)


def judge_sums(plant):
    elements = sum(row.elements + 2 for row in plant.rows) + 3
    if elements > MOST_ELEMENTS:
        raise PlantFault(TOO_MANY_ELEMENTS, elements)
    for row in plant.rows:
        if row.budget > row.slice[1]:
            raise PlantFault(BUDGET_OVER_SLICE, row.name)
    for row in plant.rows:
        if not provisioned_fit(plant, row):
            raise PlantFault(PROVISIONED_OVER, row.name)


def provisioned_fit(plant, row):
    admitted = [flow.admitted for flow in row.provisioned if flow.admitted is not None]
    needs = [need_of(params, plant) for params in admitted]
    return (len(row.provisioned) <= min(row.flows, row.sfids[1] - row.sfids[0] + 1)
            and len(admitted) <= row.sids[1] - row.sids[0] + 1
            and sum(minislots for minislots, _ in needs) <= row.budget
            and sum(elements for _, elements in needs) <= row.elements)
