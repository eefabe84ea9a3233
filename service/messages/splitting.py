"""Separates a modem's DSA-REQ or DSC-REQ into what the program takes and the rest, and puts the reply together.

    dsx split [HEX..]
    dsx join reply=HEX rest=HEX [program=HEX] [WORD..]

The program takes upstream flows alone. It refuses with code 2 a request that has a classifier (types 22 and 23), a downstream flow (25) or
payload header suppression (26). The layer above it keeps these TLVs, and is responsible for them. docs/CONNECT.md has a worked call.

split

A message is in hexadecimal and begins with the byte of its type, as in a line M. Without HEX, the messages are the lines of standard input,
which may be lines M. For each message, split prints two words for join:

    program=HEX    the message with its upstream flow encodings (type 24) alone; the program gets it
    rest=HEX       the message without them: types 22, 23, 25 and 26, the HMAC-Digest (27), the Key Sequence Number (31), all others

program=- means that the program gets nothing: the request is about the downstream or classifiers alone. rest=- means that nothing is kept.
Several upstream flows all go to the program, which decides. So does a request of nothing: code 8. A message of another type, or one that is
cut, goes to the program as it is, and the program replies as it does to every such message. Standard error says so. The same bytes always
give the same two words.

Standard error also says if the rest can be in no reply, and with which code to refuse it.

join

It prints one word, modem=HEX: the reply that goes to the modem. Words may also be in standard input, if no argument is given. They are:

    reply=HEX           the program's DSA-RSP or DSC-RSP. It is left out if the program got nothing (program=-)
    rest=HEX            what split kept
    program=HEX         what split gave for the program. The flow in the reply then has its parameters as well
    sfid=N              the SFID of the downstream flow, for a DSA
    classifier=N,N..    the identifiers of the classifiers that the request adds, in their order
    phs=N,N..           the indexes of the payload header suppression rules that the request adds, in their order
    code=N              refuses a request that the program did not refuse; the program's own code counts without it
    key=N               the Key Sequence Number, otherwise that of the request
    hmac=HEX            the HMAC-Digest, 20 bytes

The caller chooses all identifiers. A reply with code 0 has the upstream flow, then each TLV of the rest that gets an identifier, as the
request had it and with the identifiers. In a DSC, these are the classifiers and rules that are added. Vendor-specific and unknown types are
not in the reply.

If the reply refuses, its error encodings stay and nothing of the rest is in it: drop the rest, and what was made for it. A refusal by code=
has no error encodings. If code= refuses what the program accepted, standard error has the acknowledgement that takes the program's part
back. Write it in the modem's name before the reply is sent.

A digest is never made up. If the request has one and hmac= is missing, the word is unsigned=HEX and not modem=HEX. The digest is computed
over all bytes of it after the first, which is the type. Give it as hmac=, or append 1B14 and its 20 bytes.

A repeat of a request gets the same bytes: join with the same words prints them, or the caller keeps them.

Exit status: 0 success, 2 words or bytes that make no reply, 6 standard input or output failed.
"""

import re
from dataclasses import dataclass

from service.reference.encodings import REFERENCE, SFID, number_of, split_tlvs, tlv
from service.reference.messages import DSA_REQ, DSC_REQ, FLOW, LEFT_OUT, OKAY, write_number

from .streams import InputLines, copied, report
from .words import WordsFault, number, octets, key_and_value, shortened

UP_CLASSIFIER, DOWN_CLASSIFIER, DOWN_FLOW, SUPPRESSION, HMAC, KEY = 22, 23, 25, 26, 27, 31
CLASSIFIERS = (UP_CLASSIFIER, DOWN_CLASSIFIER)
# Subtypes of classifiers (C.2.1) and of suppression rules. Both name their flow by subtypes 3 and 4.
CLASSIFIER_REFERENCE, CLASSIFIER_ID, FLOW_REFERENCE, FLOW_SFID = 1, 2, 3, 4
INDEX = 8
# The subtype of the action in a DSC. Its value 0 adds, and so does its absence.
ACTION = {UP_CLASSIFIER: 7, DOWN_CLASSIFIER: 7, SUPPRESSION: 5}
RESPONSE_TO = {DSA_REQ: 16, DSC_REQ: 19}
NAMES = {DSA_REQ: "DSA-REQ", DSC_REQ: "DSC-REQ", 16: "DSA-RSP", 19: "DSC-RSP"}
# The words of join with the bytes of their numbers; 0 for hexadecimal.
WORDS = {"reply": 0, "rest": 0, "program": 0, "hmac": 0, "code": 1, "key": 1, "sfid": 4, "classifier": 2, "phs": 1}
DIGEST_BYTES = 20


# split

def lines_of_split(words):
    """Yields the two words of each message."""
    if words in (["-h"], ["--help"]):
        yield from __doc__.splitlines()
        return
    yield from lines_of_parts(words) if words else copied(lines_of_parts)


def lines_of_parts(texts):
    for text in texts:
        found = re.fullmatch("(?:M [0-9A-Fa-f]{12} )?(.*)", text)
        program, rest = split(octets(text, found.group(1)))
        yield f"program={shown(program)}"
        yield f"rest={shown(rest)}"


def split(data):
    """Returns what the program gets of a message, and what is kept. No byte stands for no message."""
    if len(data) < 3 or data[0] not in RESPONSE_TO:
        report("dsx: it is not a DSA-REQ or DSC-REQ: the program gets it as it is")
        return data, b""
    tlvs, is_cut = split_tlvs(data[3:])
    if is_cut:
        report("dsx: the TLVs are cut: the program gets the message as it is, and refuses it with code 1")
        return data, b""
    flows, others = [it for it in tlvs if it[0] == FLOW], [it for it in tlvs if it[0] != FLOW]
    rest = joined(data[:3], others) if others else b""
    program = joined(data[:3], flows)
    if not flows and any(kind in LEFT_OUT for kind, _ in others):
        report("dsx: there is no upstream flow: the program gets nothing; make the reply with join and program=-")
        program = b""
    fault = fault_of_rest(data[:3], flows, rest)
    if fault is not None:
        report(f"dsx: {fault}; the program need not get its part")
    return program, rest


def fault_of_rest(head, flows, rest):
    """Returns why join refuses to reply with this rest, whatever the program and the caller give, or None."""
    made = [encoding(FLOW, {REFERENCE: dict_of(value).get(REFERENCE, []), SFID: [write_number(1, 4)]}) for _, value in flows]
    given = Given(bytes([RESPONSE_TO[head[0]]]) + head[1:] + bytes([OKAY]) + b"".join(made), rest, b"", {})
    added = [kind for kind, value in given.rest_tlvs(DOWN_FLOW, *ACTION) if kind != DOWN_FLOW and given.adds((kind, value))]
    given.stated = {"classifier": [1 for kind in added if kind in CLASSIFIERS], "phs": [1 for kind in added if kind == SUPPRESSION]}
    if given.request == DSA_REQ and given.rest_tlvs(DOWN_FLOW):
        given.stated["sfid"] = 1
    try:
        check_message("rest", rest, tuple(RESPONSE_TO), 3)
        rest_of_reply(given)
    except WordsFault as fault:
        return str(fault)
    return None


def flows_of(body):
    """Returns the upstream flow encodings of the TLVs of a message."""
    return [dict_of(value) for kind, value in split_tlvs(body)[0] if kind == FLOW]


def joined(head, tlvs):
    """Returns a message of these TLVs."""
    return head + b"".join(tlv(*it) for it in tlvs)


def shown(data):
    return data.hex().upper() or "-"


# join

@dataclass
class Given:
    """What join is given: the messages that it has, and its words."""
    reply: bytes
    rest: bytes
    program: bytes
    stated: dict

    @property
    def request(self):
        """Returns the type of the request."""
        return (self.rest or self.program or bytes([DSA_REQ if self.reply[0] == 16 else DSC_REQ]))[0]

    @property
    def code(self):
        of_program = self.reply[3] if self.reply else OKAY
        return of_program or self.stated.get("code", OKAY)

    def rest_tlvs(self, *types):
        return [it for it in split_tlvs(self.rest[3:])[0] if it[0] in types]

    def adds(self, it):
        """Tests whether a classifier or a suppression rule is added by the request."""
        kind, value = it
        return self.request == DSA_REQ or number_of(dict(split_tlvs(value)[0]).get(ACTION[kind], b"")) == 0


def lines_of_join(words):
    """Yields the reply for the modem."""
    if words in (["-h"], ["--help"]):
        yield from __doc__.splitlines()
        return
    given = read_words(words or [word for line in InputLines() for word in line.split()])
    tlvs = tlvs_of_reply(given)
    tid = (given.reply or given.rest)[1:3]
    yield signed(given, bytes([RESPONSE_TO[given.request]]) + tid + bytes([given.code]) + tlvs + key_of(given))


def key_of(given):
    """Returns the TLV of the Key Sequence Number: the one that is stated, or that of the request, or none."""
    if "key" in given.stated:
        return tlv(KEY, bytes([given.stated["key"]]))
    asked = given.rest_tlvs(KEY)
    if len(asked) > 1 or any(len(value) != 1 for _, value in asked):
        raise WordsFault("the Key Sequence Number (type 31) of the request is not one byte: give key=N, or refuse the request with code=1")
    return b"".join(tlv(*it) for it in asked)


def signed(given, data):
    """Returns the last word: with the digest, without one, or with its place open."""
    if "hmac" in given.stated:
        if len(given.stated["hmac"]) != DIGEST_BYTES:
            raise WordsFault(f"hmac=: a digest has {DIGEST_BYTES} bytes, this one {len(given.stated['hmac'])}")
        return "modem=" + shown(data + tlv(HMAC, given.stated["hmac"]))
    if given.rest_tlvs(HMAC):
        report(f"dsx: the request has an HMAC-Digest (type 27): compute that of the reply over its {len(data) - 1} bytes after the type, and append "
               "1B14 and its 20 bytes, or give it as hmac=")
        return "unsigned=" + shown(data)
    return "modem=" + shown(data)


def read_words(words):
    """Returns what words say, once they fit together."""
    stated = {}
    for word in words:
        key, value = key_and_value(word)
        if key not in WORDS:
            raise WordsFault(f"{shortened(word)}: no such word; there are {', '.join(f'{known}=' for known in WORDS)}")
        if key in stated:
            raise WordsFault(f"{shortened(word)}: `{key}` stands twice")
        stated[key] = value_of(key, word, value)
    if "rest" not in stated:
        raise WordsFault("join needs rest=, which split prints")
    given = Given(stated.get("reply", b""), stated["rest"], stated.get("program", b""), stated)
    check_messages(given)
    return given


def value_of(key, word, text):
    if key in ("classifier", "phs"):
        return [number(word, part, WORDS[key]) for part in text.split(",")]
    if WORDS[key]:
        return number(word, text, WORDS[key])
    return b"" if text == "-" else octets(word, text)


def check_messages(given):
    """Checks that the messages are whole and of one transaction."""
    check_message("reply", given.reply, (16, 19), 4)
    check_message("rest", given.rest, (DSA_REQ, DSC_REQ), 3)
    check_message("program", given.program, (DSA_REQ, DSC_REQ), 3)
    if not given.reply and (given.program or "program" not in given.stated or not given.rest):
        raise WordsFault("join needs reply=, the program's reply; or program=- and a rest, if the program got nothing")
    for name, data in (("rest", given.rest), ("program", given.program)):
        if data and given.reply and (RESPONSE_TO[data[0]], data[1:3]) != (given.reply[0], given.reply[1:3]):
            raise WordsFault(f"{name}=: it is {named(data)}, and reply= is {named(given.reply)}")
    if given.reply and given.reply[3] and given.stated.get("code", given.reply[3]) != given.reply[3]:
        raise WordsFault(f"code={given.stated['code']}: the program refuses already, with code {given.reply[3]}")


def check_message(name, data, types, fixed):
    if not data:
        return
    if data[0] not in types or len(data) < fixed:
        raise WordsFault(f"{name}={shortened(shown(data))}: it is not a whole {' or '.join(NAMES[kind] for kind in types)}")
    tlvs, is_cut = split_tlvs(data[fixed:])
    if is_cut or any(split_tlvs(value)[1] for kind, value in tlvs if kind in (FLOW, DOWN_FLOW, *ACTION)):
        raise WordsFault(f"{name}={shortened(shown(data))}: its TLVs are cut" + ("; refuse the request with code=1" if name == "rest" else ""))


def named(data):
    return f"a {NAMES[data[0]]} of transaction {number_of(data[1:3])}"


def tlvs_of_reply(given):
    """Returns the TLVs of the reply, without the key and the digest."""
    if given.code == OKAY:
        return flows_of_reply(given) + rest_of_reply(given)
    if given.rest_tlvs(DOWN_FLOW, *ACTION):
        report(f"dsx: the reply refuses with code {given.code}: nothing of the rest is in it; drop the rest and what was made for it")
    if given.reply and given.reply[3] == OKAY:
        undo = bytes([given.reply[0] + 1]) + given.reply[1:3] + bytes([given.code])
        report(f"dsx: the program accepted its part: before you send this, take it back by {shown(undo)} in the modem's name")
        return b""
    return given.reply[4:]


def flows_of_reply(given):
    """Returns the upstream flow of the reply. With the request it has the parameters of each of its encodings."""
    asked, made = flows_of(given.program[3:]), flows_of(given.reply[4:])
    if not asked or len(made) != 1:
        return given.reply[4:]
    return b"".join(encoding(FLOW, {**fields, **made[0]}) for fields in asked)


def dict_of(value):
    """Returns the TLVs of an encoding by subtype, each with all its values."""
    found = {}
    for subtype, data in split_tlvs(value)[0]:
        found[subtype] = [*found.get(subtype, []), data]
    return found


def encoding(kind, fields):
    """Returns an encoding with its subtypes in ascending order."""
    data = b"".join(tlv(subtype, value) for subtype in sorted(fields) for value in fields[subtype])
    if len(data) > 255:
        raise WordsFault(f"the encoding of type {kind} has {len(data)} bytes with its identifiers, and a TLV holds 255: "
                         "refuse the request with code=1")
    return tlv(kind, data)


# The rest, with its identifiers

def rest_of_reply(given):
    """Returns the TLVs of the rest that get identifiers."""
    flows = {UP_CLASSIFIER: references(given.reply), DOWN_CLASSIFIER: downstream(given)}
    added = [it for it in given.rest_tlvs(*CLASSIFIERS) if given.adds(it)]
    rules = [it for it in given.rest_tlvs(SUPPRESSION) if given.adds(it)]
    numbers = iter(identifiers(given, "classifier", added, "classifiers"))
    indexes = iter(identifiers(given, "phs", rules, "payload header suppression rules"))
    data, classifiers = b"", {}
    for kind, value in given.rest_tlvs(DOWN_FLOW, *ACTION):
        fields = dict_of(value)
        if kind == DOWN_FLOW:
            data += encoding(kind, {**fields, SFID: [write_number(given.stated["sfid"], 4)]}) if given.request == DSA_REQ else b""
        elif (kind, value) in added:
            fields = {**of_flow(given, kind, fields, flows[kind]), CLASSIFIER_ID: [write_number(next(numbers), 2)]}
            classifiers.update({reference: fields[CLASSIFIER_ID] for reference in fields.get(CLASSIFIER_REFERENCE, [])})
            data += encoding(kind, fields)
    return data + b"".join(rule(dict_of(value), next(indexes), classifiers, {**flows[UP_CLASSIFIER], **flows[DOWN_CLASSIFIER]}) for _, value in rules)


def references(reply):
    """Returns the SFID of each flow of a reply, by its reference."""
    flows = flows_of(reply[4:])
    return {flow[REFERENCE][0]: flow[SFID][0] for flow in flows if REFERENCE in flow and SFID in flow}


def downstream(given):
    """Returns the SFID of the downstream flow that a DSA adds, by its reference."""
    flows = [dict_of(value) for _, value in given.rest_tlvs(DOWN_FLOW)] if given.request == DSA_REQ else []
    found = {reference for flow in flows for reference in flow.get(REFERENCE, [])}
    if len(found) > 1:
        raise WordsFault("the rest has several downstream flows: refuse the request with code=20 (reject-multiple-downstream-service-flows)")
    if flows and not found:
        raise WordsFault("the downstream flow has no reference: refuse the request with code=8 (reject-required-parameter-not-present)")
    if flows and not given.stated.get("sfid"):
        raise WordsFault("the rest has a downstream flow: give it an SFID that is in no operator's sfids, as sfid=N")
    if not flows and "sfid" in given.stated:
        raise WordsFault(f"sfid={given.stated['sfid']}: the rest adds no downstream flow")
    return {reference: write_number(given.stated["sfid"], 4) for reference in found}


def identifiers(given, word, added, what):
    """Returns the numbers of a word, one for each TLV that is added."""
    numbers = given.stated.get(word, [])
    if len(numbers) != len(added) or 0 in numbers:
        example = ",".join(map(str, range(1, len(added) + 1)))
        advice = f"give each a number that is not 0, such as {word}={example}" if added else f"leave out {word}="
        raise WordsFault(f"the rest adds {len(added)} {what}: {advice}")
    return numbers


def of_flow(given, kind, fields, flows):
    """Returns the fields of a classifier with the SFID of its flow. A DSC-REQ has that already."""
    named_flows = fields.get(FLOW_REFERENCE, [])
    if given.request == DSC_REQ and FLOW_SFID in fields and not named_flows:
        return fields
    if len(named_flows) != 1 or named_flows[0] not in flows:
        direction = "upstream" if kind == UP_CLASSIFIER else "downstream"
        raise WordsFault(f"a classifier (type {kind}) names no {direction} flow of its request: refuse it with code=21 "
                         "(reject-classifier-for-another-service-flow)")
    return {**fields, FLOW_SFID: [flows[named_flows[0]]]}


def rule(fields, index, classifiers, flows):
    """Returns a suppression rule with its index, its classifier and its flow."""
    sfids = [flows[name] for name in fields.get(FLOW_REFERENCE, []) if name in flows] or fields.get(FLOW_SFID, [])
    ids = [number for name in fields.get(CLASSIFIER_REFERENCE, []) for number in classifiers.get(name, [])] or fields.get(CLASSIFIER_ID, [])
    if not sfids or not ids:
        raise WordsFault("a payload header suppression rule names no flow and classifier of its request: refuse it with code=22 "
                         "(reject-PHS-for-another-service-flow)")
    return encoding(SUPPRESSION, {**fields, FLOW_SFID: sfids, CLASSIFIER_ID: ids, INDEX: [bytes([index])]})
