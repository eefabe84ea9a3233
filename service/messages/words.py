"""Translates messages between words, such as `dsa tid=1 ref=1 set=6 type=be`, and bytes. The help of dsx lists the words."""

import difflib
import re
from dataclasses import dataclass

from service.reference.encodings import CLASS_NAME, ERRORS, LENGTHS, SCHEDULING, WIDTH, in_range, number_of, split_tlvs, tlv
from service.reference.messages import DSA_ACK, DSA_REQ, DSC_ACK, DSC_REQ, DSD_REQ, FLOW, LEFT_OUT, RESPONSE, write_number


class WordsFault(Exception):
    """What is wrong with words that should spell a message, or with bytes that should be one."""


@dataclass(frozen=True)
class Kind:
    """A message: its name, its type, and its fixed part as words with their widths. TLVs follow, or bytes that are not read."""
    name: str
    number: int
    fixed: tuple
    has_tlvs: bool


TID, CODE = ("tid", 2), ("code", 1)
KINDS = {
    "dsa": Kind("DSA-REQ", DSA_REQ, (TID,), True),
    "dsa-rsp": Kind("DSA-RSP", RESPONSE["DSA"], (TID, CODE), True),
    "dsa-ack": Kind("DSA-ACK", DSA_ACK, (TID, CODE), False),
    "dsc": Kind("DSC-REQ", DSC_REQ, (TID,), True),
    "dsc-rsp": Kind("DSC-RSP", RESPONSE["DSC"], (TID, CODE), True),
    "dsc-ack": Kind("DSC-ACK", DSC_ACK, (TID, CODE), False),
    "dsd": Kind("DSD-REQ", DSD_REQ, (TID, ("unused", 2), ("sfid", 4)), False),
    "dsd-rsp": Kind("DSD-RSP", RESPONSE["DSD"], (TID, CODE, ("unused", 1)), False),
}
# Words of the fixed part that may be left out: they are 0 then.
MAY_BE_ABSENT = ("code", "unused")

# Subtype: its word, its name, and the unit of its number.
FIELDS = {
    1: ("ref", "Service Flow Reference", ""), 2: ("sfid", "Service Flow Identifier (SFID)", ""), 3: ("sid", "Service Identifier (SID)", ""),
    4: ("class", "Service Class Name", ""), 5: ("error", "Service Flow Error Encodings", ""),
    6: ("set", "Quality of Service Parameter Set Type", ""), 7: ("priority", "Traffic Priority", ""),
    8: ("sustained", "Maximum Sustained Traffic Rate", "bits a second"), 9: ("burst", "Maximum Traffic Burst", "bytes"),
    10: ("reserved", "Minimum Reserved Traffic Rate", "bits a second"), 15: ("type", "Scheduling Type", ""),
    16: ("policy", "Request/Transmission Policy", ""), 17: ("polling", "Nominal Polling Interval", "microseconds"),
    18: ("poll-jitter", "Tolerated Poll Jitter", "microseconds"), 19: ("size", "Unsolicited Grant Size", "bytes"),
    20: ("interval", "Nominal Grant Interval", "microseconds"), 21: ("jitter", "Tolerated Grant Jitter", "microseconds"),
    22: ("grants", "Grants Per Interval", ""),
}
SUBTYPE = {word: subtype for subtype, (word, _, _) in FIELDS.items()}
SCHEDULING_TYPES = {"be": (2, "best effort"), "nrtps": (3, "non-real-time polling"), "rtps": (4, "real-time polling"), "ugs": (6, "unsolicited grant")}
# Names that a person may write for a scheduling type, with the word that is meant.
OTHER_NAMES = {"voice": "ugs", "voip": "ugs", "unsolicited": "ugs", "besteffort": "be", "realtime": "rtps", "nonrealtime": "nrtps"}
SET_TYPES = {0: "no set", 1: "provisioned", 2: "admitted", 3: "provisioned and admitted", 4: "active", 6: "admitted and active",
             7: "provisioned, admitted and active"}
CODES = {0: "okay", 1: "reject-other", 2: "reject-unrecognized-configuration-setting", 3: "reject-temporary", 4: "reject-permanent",
         5: "reject-not-owner", 6: "reject-service-flow-not-found", 8: "reject-required-parameter-not-present",
         10: "reject-unknown-transaction-id", 18: "reject-duplicate-reference-ID-or-index-in-message",
         19: "reject-multiple-upstream-service-flows", 23: "reject-parameter-invalid-for-context", 24: "reject-authorization-failure"}
# The named numbers of a word, and what they are called.
NAMED = {"type": ("scheduling type", {number: f"{word} ({text})" for word, (number, text) in SCHEDULING_TYPES.items()}),
         "set": ("set type", {number: f"{number} ({name})" for number, name in SET_TYPES.items()}),
         "code": ("confirmation code", {number: f"{number} ({name})" for number, name in CODES.items()})}
# Types of TLVs next to the flow encodings (Annex C).
TLV_NAMES = {22: "upstream classifier", 23: "downstream classifier", 25: "downstream flow", 26: "payload header suppression",
             27: "HMAC-Digest", 31: "Key Sequence Number"}
# Words that give bytes as they are: after the whole TLVs of an encoding, and after those of the message.
CUT, REST = "cut", "rest"


# From words to bytes

def bytes_of_message(words):
    """Returns the bytes of a message that words spell."""
    kind = KINDS.get(words[0] if words else "")
    if kind is None:
        raise WordsFault(f"{words[0] if words else 'no word'}: " + nearest(words[0] if words else "", "message", [*KINDS]))
    widths, stated, others = dict(kind.fixed), {}, []
    for word in words[1:]:
        key, value = key_and_value(word)
        if key not in widths:
            others.append(word)
        elif key in stated:
            raise WordsFault(f"{shortened(word)}: `{key}` stands twice")
        else:
            stated[key] = write_number(number(word, value, widths[key]), widths[key])
    missing = [key for key, _ in kind.fixed if key not in stated and key not in MAY_BE_ABSENT]
    if missing:
        raise WordsFault(f"{words[0]}: needs {missing[0]}=")
    fixed = b"".join(stated.get(key, bytes(width)) for key, width in kind.fixed)
    return bytes([kind.number]) + fixed + (bytes_of_tlvs(others) if kind.has_tlvs else bytes_behind(words[0], others))


def bytes_behind(kind, words):
    """Returns the bytes that follow a fixed part and are not read."""
    if any(key_and_value(word)[0] != REST for word in words) or len(words) > 1:
        raise WordsFault(f"{words[0]}: {kind} takes no such word")
    return b"".join(octets(word, key_and_value(word)[1]) for word in words)


def bytes_of_tlvs(words):
    """Returns the TLVs of a message: encodings and others."""
    done, encoding = b"", None
    for word in words:
        key, value = key_and_value(word)
        if key == "flow" or key == REST or key.startswith("tlv"):
            done, encoding = done + closed(encoding), [] if key == "flow" else None
            done += b"" if key == "flow" else other_bytes(word, key, value)
        else:
            encoding = (encoding or []) + [word]
    return done + closed(encoding)


def other_bytes(word, key, value):
    """Returns a TLV that is not a flow encoding, or the bytes after all TLVs."""
    data = octets(word, value)
    return data if key == REST else tlv(number(word, key[3:], 1), data)


def closed(words):
    if words is None:
        return b""
    data = bytes_of_flow(words)
    if len(data) > 255:
        raise WordsFault(f"{words[0]} ..: the encoding has {len(data)} bytes, and a TLV holds 255")
    return tlv(FLOW, data)


def bytes_of_flow(words):
    """Returns a flow encoding as a plant file has it, without the type and length before it."""
    stated, data = set(), b""
    for word in words:
        key, value = key_and_value(word)
        if key == CUT:
            data += octets(word, value)
        elif key.isdigit():
            data += tlv(number(word, key, 1), octets(word, value))
        elif key not in SUBTYPE:
            raise WordsFault(f"{shortened(word)}: " + nearest(key, "field", [*SUBTYPE]))
        elif key in stated:
            raise WordsFault(f"{shortened(word)}: `{key}` stands twice")
        else:
            stated.add(key)
            data += tlv(SUBTYPE[key], value_of(SUBTYPE[key], word, value))
    return data


def value_of(subtype, word, value):
    """Returns the value of a named field, which has to be one that the subtype takes."""
    name = FIELDS[subtype][1]
    if subtype == CLASS_NAME:
        data = value.encode() + b"\x00"
    elif subtype == ERRORS:
        data = error_value(word, value)
    elif subtype == SCHEDULING and value in SCHEDULING_TYPES:
        data = bytes([SCHEDULING_TYPES[value][0]])
    else:
        data = write_number(number(word, value, WIDTH[subtype]), WIDTH[subtype])
    least, greatest = LENGTHS[subtype]
    if not least <= len(data) <= greatest:
        raise WordsFault(f"{shortened(word)}: a {name} has {least} to {greatest} bytes, this one {len(data)}")
    if not in_range(subtype, data):
        raise WordsFault(f"{shortened(word)}: {name} does not take that; {subtype}={data.hex().upper()} gives it all the same")
    return data


def error_value(word, value):
    subtype, slash, code = value.partition("/")
    if not slash:
        raise WordsFault(f"{shortened(word)}: an error is SUBTYPE/CODE, such as error=19/23")
    return bytes([1, 1, number(word, subtype, 1), 2, 1, number(word, code, 1)])


def key_and_value(word):
    key, _, value = word.partition("=")
    return key, value


def number(word, text, width):
    """Reads a number in decimal, or in hexadecimal after 0x."""
    try:
        value = int(text, 16 if text.startswith("0x") else 10)
    except ValueError as fault:
        raise WordsFault(f"{shortened(word)}: " + no_number(word, text)) from fault
    if not 0 <= value < 256 ** width:
        raise WordsFault(f"{shortened(word)}: {shortened(text)} is not between 0 and {256 ** width - 1}")
    return value


def no_number(word, text):
    """Returns why a text is not a number, and the names that are taken in place of numbers, or that numbers have."""
    key, equals, _ = word.partition("=")
    if not equals:
        return f"it has no value; write {shortened(key)}=NUMBER"
    if key not in NAMED:
        return f"`{shortened(text)}` is no number"
    what, names = NAMED[key]
    meant = nearest_name(text, list(names.values()))
    return f"no such {what}" + (f"; the nearest is {meant}" if meant else "") + f"; there are {', '.join(names.values())}"


def nearest_name(text, names):
    """Returns the name, such as `ugs (unsolicited grant)`, of which a word is closest to a text, or None."""
    plain = letters(text)
    plain, words = OTHER_NAMES.get(plain, plain), {}
    for part, name in [(part, name) for name in names for part in (*re.split("[()]", name), *re.split("[(), ]+", name))]:
        words.setdefault(letters(part), name)
    near = difflib.get_close_matches(plain, [word for word in words if word], 1)
    return words[near[0]] if near else None


def letters(text):
    return re.sub("[^a-z]", "", text.lower())


def octets(word, text):
    try:
        return bytes.fromhex(text)
    except ValueError as fault:
        raise WordsFault(f"{shortened(word)}: `{shortened(text)}` is no hexadecimal of whole bytes") from fault


def shortened(text, most=40):
    return text if len(text) <= most else f"{text[:most]}.. ({len(text)} characters)"


def nearest(word, what, known):
    near = difflib.get_close_matches(word, known, 1)
    return f"no such {what}" + (f"; the nearest is {near[0]}" if near else "") + f"; there are {', '.join(known)}"


# From bytes to words

@dataclass(frozen=True)
class Part:
    """Bytes of a message, their depth, the word that spells them (None if other words do), what they mean, and their fault if they have one."""
    data: bytes
    depth: int
    word: str
    text: str
    fault: str = ""


def words_of(parts):
    return [part.word for part in parts if part.word is not None]


def parts_of_message(data):
    """Returns the parts of a message, whose words spell it."""
    if not data:
        raise WordsFault("Empty: there is no byte")
    found = [(word, kind) for word, kind in KINDS.items() if kind.number == data[0]]
    if not found:
        raise WordsFault(f"NotOurs: the type is {data[0]}; there are {', '.join(f'{kind.number} {word}' for word, kind in KINDS.items())}")
    word, kind = found[0]
    parts, place = [Part(data[:1], 0, word, kind.name)], 1
    for key, width in kind.fixed:
        value = data[place:place + width]
        if len(value) < width:
            raise WordsFault(f"Short: a {kind.name} has {sum(width for _, width in kind.fixed)} bytes behind its type, this one {len(data) - 1}")
        parts.append(fixed_part(key, value))
        place += width
    return parts + (parts_of_tlvs(data[place:]) if kind.has_tlvs else rest_of(data[place:], REST, 0, "not read"))


def fixed_part(key, value):
    found = number_of(value)
    text = {"tid": "transaction ID", "code": "confirmation code", "unused": "reserved", "sfid": "SFID"}[key] + f" {found}"
    named = f" ({CODES[found]})" if key == "code" and found in CODES else ""
    return Part(value, 0, None if key == "unused" and not found else f"{key}={found}", text + named)


def rest_of(data, word, depth, text, fault=""):
    return [Part(data, depth, f"{word}={data.hex().upper()}", text, fault)] if data else []


def whole_tlvs(data):
    """Splits bytes into the whole TLVs at their beginning, and the rest."""
    tlvs, _ = split_tlvs(data)
    return tlvs, data[sum(2 + len(value) for _, value in tlvs):]


def parts_of_tlvs(body):
    tlvs, behind = whole_tlvs(body)
    parts, is_open = [], False
    for kind, value in tlvs:
        head = bytes([kind, len(value)])
        if kind == FLOW:
            says_flow = is_open or not value
            parts.append(Part(head, 0, "flow" if says_flow else None, f"upstream flow encoding, {len(value)} bytes"))
            parts += parts_of_flow(value, 1)
        else:
            parts.append(other_part(head, kind, value))
        is_open = kind == FLOW
    return parts + rest_of(behind, REST, 0, "cut: a TLV reaches past the end", "cut")


def other_part(head, kind, value):
    name = f" ({TLV_NAMES[kind]})" if kind in TLV_NAMES else ""
    fault = "left out" if kind in LEFT_OUT else ""
    return Part(head + value, 0, f"tlv{kind}={value.hex().upper()}", f"type {kind}{name}, {len(value)} bytes", fault)


def parts_of_flow(data, depth=0):
    tlvs, behind = whole_tlvs(data)
    parts, stated = [], set()
    for subtype, value in tlvs:
        parts.append(field_part(subtype, value, depth, subtype in stated))
        stated.add(subtype)
    return parts + rest_of(behind, CUT, depth, "cut: a TLV reaches past the end", "cut")


def field_part(subtype, value, depth, again):
    data, least, greatest = tlv(subtype, value), *LENGTHS.get(subtype, (0, 255))
    raw = f"{subtype}={value.hex().upper()}"
    if subtype not in FIELDS:
        return Part(data, depth, raw, f"subtype {subtype}: skipped")
    word, name, unit = FIELDS[subtype]
    if not least <= len(value) <= greatest:
        return Part(data, depth, raw, f"{name}: of wrong length, {len(value)} bytes", "wrong length")
    if again:
        return Part(data, depth, raw, f"{name}: there twice", "twice")
    if not in_range(subtype, value):
        return Part(data, depth, raw, f"{name}: out of range", "out of range")
    value_word = value_words(subtype, value)
    return Part(data, depth, raw if value_word is None else f"{word}={value_word}", f"{name} {value_text(subtype, value, unit)}")


def value_words(subtype, value):
    """Returns a field's value as it is after `=`, or None if only bytes can give it."""
    if subtype == CLASS_NAME:
        text = value[:-1].decode("ascii", "replace")
        return text if text.isascii() and text.isalnum() else None
    if subtype == ERRORS:
        return f"{value[2]}/{value[5]}"
    if subtype == SCHEDULING:
        return {number: word for word, (number, _) in SCHEDULING_TYPES.items()}.get(value[0], str(value[0]))
    return str(number_of(value))


def value_text(subtype, value, unit):
    found = number_of(value)
    if subtype == CLASS_NAME:
        return repr(value[:-1])[1:]
    if subtype == ERRORS:
        return f"subtype {value[2]}, code {value[5]}" + (f" ({CODES[value[5]]})" if value[5] in CODES else "")
    named = {"set": SET_TYPES, "type": dict(SCHEDULING_TYPES.values())}.get(FIELDS[subtype][0], {})
    return f"{found}" + (f" ({named[found]})" if found in named else "") + (f" {unit}" if unit else "")
