"""Makes random scripts: messages, bandwidth requests, ticks and slice changes, with guesses of what the flows and transactions are."""

from dataclasses import dataclass, field

from service.reference.book import StepRefused, all_committed, may_ask
from service.reference.encodings import tlv
from service.reference.program import steps_of
from service.reference.sets import REQUIRED, NoSet, need_of, parameter_set

from .flows import SKIPPED, fields_of, faulty, lessened, params, pick, spelled, spoilt, varied

REQUEST_TYPE = {"DSA": 15, "DSC": 18, "DSD": 21}
ACK_TYPE = {"DSA": 17, "DSC": 20, "DSD": 20}


@dataclass
class Known:
    """An operator of the plant with its book as the reference has it by now, and what its modems sent lately."""
    operator: object
    book: object
    requests: list = field(default_factory=list)
    next_tid: int = 1

    def flows(self):
        return list(self.book.flows.values())

    def waiting(self):
        return [entry for entry in self.book.kept if entry.waits]


class ScriptMaker:
    """Makes lines and lets the reference do them, so that the next lines suit what flows and transactions there are."""

    def __init__(self, rng, plant, core):
        self.rng, self.plant, self.core = rng, plant, core
        self.known = [Known(operator, book) for operator, book in zip(plant.operators, core.books)]
        self.ended = False

    def lines(self, count):
        weights, made = self.weights(), []
        while len(made) < count:
            make = pick(self.rng, *weights)
            for line in make():
                made += [line] if self.is_done(line) else []
        return made

    def long_waits(self):
        """Returns lines in which all flows request much, and hundreds of frames follow."""
        operator = self.plant.operators[0]
        asking = [f"Q {operator.modems[0]} {1 + place} {self.rng.choice((300, 600, 65_535))}" for place in range(len(operator.provisions))]
        return asking + ["T"] * self.rng.randrange(250, 700) + self.lines(5)

    def weights(self):
        """Returns how often which lines come: of all kinds, or mostly bandwidth requests and frames, or mostly transactions."""
        mood = pick(self.rng, ("mixed", 5), ("frames", 3), ("transactions", 2))
        often = {"mixed": (22, 22, 18, 30, 16), "frames": (6, 8, 8, 60, 30), "transactions": (30, 30, 30, 5, 20)}[mood]
        return list(zip((self.addition, self.change, self.ack, self.request, self.all_ticks), often)) + [
            (self.deletion, 4), (self.any_ack, 2), (self.repeat, 5), (self.other_kind, 3), (self.one_tick, 5),
            (self.other_slices, 3), (self.mutated, 4), (self.garbage, 1)]

    def is_done(self, line):
        """Lets the reference do a line; one that it refuses ends a run and is left out mostly."""
        steps = steps_of(self.core.plant, line.split(" "))
        if self.ended or steps is None:
            return True
        try:
            for step in steps:
                self.core.step(*step)
        except StepRefused:
            self.ended = self.rng.random() < 0.25
            return self.ended
        return True

    def messages(self, count):
        """Returns as many messages of one modem, for the command `one`."""
        made = []
        while len(made) < count:
            make = pick(self.rng, (self.addition, 20), (self.change, 20), (self.deletion, 5), (self.ack, 20), (self.any_ack, 3),
                        (self.repeat, 5), (self.other_kind, 2), (self.mutated, 6), (self.garbage, 3))
            made += [line.split(" ")[2] for line in make() if line.startswith("M") and self.is_done(line)]
        return made

    # Messages

    def message(self, known, modem, kind, data):
        """Returns a line, and remembers the message as the modem's."""
        if data and kind is not None:
            known.requests = (known.requests + [(modem, kind, data)])[-12:]
        return [f"M {self.case(modem)} {self.case(data.hex().upper()) if data else '-'}"]

    def case(self, text):
        return text if self.rng.random() < 0.95 else text.lower()

    def tid(self, known):
        rng = self.rng
        what = rng.random()
        if what < 0.8:
            known.next_tid = known.next_tid % rng.choice((40, 0x7FFF)) + 1
            return known.next_tid
        if what < 0.95:
            return rng.choice((0, 1, 2, 3, known.next_tid, max(0, known.next_tid - 1), 0x7FFF))
        return rng.choice((0x8000, 0x8001, 0xFFFF))

    def someone(self):
        known = self.rng.choice(self.known)
        return known, self.rng.choice(known.operator.modems)

    def addition(self):
        rng = self.rng
        known, modem = self.someone()
        tid = self.tid(known)
        identifier = rng.choice((1, 1, 2, 3, 65_535))
        flows = self.flows_of("DSA", (1, identifier), self.params_that_fit(known))
        lines = self.message(known, modem, "DSA", b"\x0f" + tid.to_bytes(2, "big") + self.body(flows))
        return lines + (self.acked(known, modem, "DSA", tid) if rng.random() < 0.4 else [])

    def params_that_fit(self, known):
        """Parameters whose need still fits, as far as a few tries find some."""
        minislots, elements = all_committed(known.book)
        for _ in range(4):
            asked = params(self.rng, self.plant)
            need = need_of_params(asked, self.plant)
            if minislots + need[0] <= known.book.share.budget and elements + need[1] <= known.operator.elements:
                break
        return asked

    def change(self):
        rng = self.rng
        known, modem = self.someone()
        tid = self.tid(known)
        sfid, asked = self.rng.randint(*known.operator.sfids), params(rng, self.plant)
        if known.flows() and rng.random() < 0.92:
            flow = rng.choice(known.flows())
            sfid, asked = flow.sfid, self.changed_params(known, flow)
            modem = flow.modem if rng.random() < 0.95 else modem
        if rng.random() < 0.03:
            sfid = rng.choice((1, 2**32 - 1, known.operator.sfids[1] + 1))
        flows = self.flows_of("DSC", (2, min(sfid, 2**32 - 1)), asked)
        lines = self.message(known, modem, "DSC", b"\x12" + tid.to_bytes(2, "big") + self.body(flows))
        return lines + (self.acked(known, modem, "DSC", tid) if rng.random() < 0.4 else [])

    def changed_params(self, known, flow):
        rng = self.rng
        present = stated(flow.provisioned or flow.admitted)
        if present is None or rng.random() < 0.15:
            return self.params_that_fit(known)
        return pick(rng, (present, 2), (lessened(rng, present), 5), (varied(rng, present), 5))

    def acked(self, known, modem, kind, tid, late=0.1):
        code = pick(self.rng, (0, 8), (1, 1), (3, 0.5), (255, 0.3))
        data = bytes([ACK_TYPE[kind]]) + tid.to_bytes(2, "big") + bytes([code])
        lines = self.message(known, modem, None, data + (self.rng.randbytes(3) if self.rng.random() < 0.1 else b""))
        ticks = []
        while self.rng.random() < late:
            ticks += self.one_tick()
        return ticks + lines

    def deletion(self):
        rng = self.rng
        known, modem = self.someone()
        tid = self.tid(known)
        sfid = rng.randint(*known.operator.sfids)
        if known.flows() and rng.random() < 0.85:
            flow = rng.choice(known.flows())
            sfid, modem = flow.sfid, flow.modem if rng.random() < 0.85 else modem
        data = b"\x15" + tid.to_bytes(2, "big") + (b"\0\0" if rng.random() < 0.8 else rng.randbytes(2)) + sfid.to_bytes(4, "big")
        if rng.random() < 0.2:
            data += rng.randbytes(rng.randrange(1, 6))
        return self.message(known, modem, "DSD", data)

    def ack(self):
        known = self.rng.choice(self.known)
        if known.waiting() and self.rng.random() < 0.9:
            entry = self.rng.choice(known.waiting())
            return self.acked(known, entry.modem, entry.kind, entry.tid)
        if not known.requests or self.rng.random() < 0.6:
            return self.addition()
        modem, kind, data = self.rng.choice(known.requests[-5:])
        return self.acked(known, modem, kind, int.from_bytes(data[1:3], "big"))

    def any_ack(self):
        rng = self.rng
        known, modem = self.someone()
        data = bytes([rng.choice((17, 20))]) + self.tid(known).to_bytes(2, "big") + bytes([rng.choice((0, 0, 1, 255))])
        return self.message(known, modem, None, data[:rng.choice((1, 2, 3, 4, 4, 4))])

    def repeat(self):
        known = self.rng.choice(self.known)
        if not known.requests:
            return self.addition()
        modem, kind, data = self.rng.choice(known.requests)
        if known.book.kept and self.rng.random() < 0.3:
            entry = self.rng.choice(known.book.kept)
            modem, kind = entry.modem, entry.kind
            data = bytes([REQUEST_TYPE[kind]]) + entry.tid.to_bytes(2, "big") + bytes(6)
        if self.rng.random() < 0.25:
            data = data[:3] + self.rng.randbytes(self.rng.randrange(4)) if kind != "DSD" else data
        return self.message(known, modem, None, data)

    def other_kind(self):
        """Returns another kind of request under the transaction ID of one that was sent; at times an acknowledgement of another kind."""
        known = self.rng.choice(self.known)
        if not known.requests:
            return self.addition()
        modem, kind, data = self.rng.choice(known.requests)
        other = self.rng.choice([value for name, value in REQUEST_TYPE.items() if name != kind] + [37 - ACK_TYPE[kind]])
        return self.message(known, modem, None, bytes([other]) + data[1:] + bytes(5))

    def mutated(self):
        """Returns a message sent before, or a new one, with bytes changed, cut, doubled or put in."""
        rng = self.rng
        known = rng.choice(self.known)
        if known.requests and rng.random() < 0.5:
            modem, kind, data = rng.choice(known.requests)
        else:
            kind = rng.choice(("DSA", "DSC"))
            modem = rng.choice(known.operator.modems)
            identifier = (1, 1) if kind == "DSA" else (2, known.operator.sfids[0])
            data = bytes([REQUEST_TYPE[kind]]) + bytes(2) + self.body(self.flows_of(kind, identifier, params(rng, self.plant)))
        if rng.random() < 0.7:
            data = data[:1] + self.tid(known).to_bytes(2, "big") + data[3:]
        for _ in range(rng.choice((1, 1, 2))):
            data = self.mutation(data)
        kind = {number: name for name, number in REQUEST_TYPE.items()}.get(data[0] if data else 0)
        return self.message(known, modem, kind, data)

    def mutation(self, data):
        rng = self.rng
        place = rng.randrange(3, max(4, len(data))) if rng.random() < 0.9 else rng.randrange(max(1, len(data)))
        end = rng.randrange(place, len(data) + 1) if place <= len(data) else place
        what = rng.random()
        if what < 0.5 and place < len(data):
            return data[:place] + bytes([data[place] ^ rng.choice((1, 2, 4, 8, 16, 32, 64, 128, 255))]) + data[place + 1:]
        if what < 0.7:
            return data[:place]
        if what < 0.85:
            return data[:end] + data[place:]
        return data[:place] + rng.randbytes(rng.choice((1, 2, 5))) + data[place:]

    def garbage(self):
        known, modem = self.someone()
        kind = self.rng.choice((15, 17, 18, 20, 21, 22, 16, 0, 255, self.rng.randrange(256)))
        data = bytes([kind]) + self.rng.randbytes(self.rng.randrange(12))
        return self.message(known, modem, None, data if self.rng.random() < 0.8 else b"")

    # The TLVs of a request

    def body(self, flows):
        """Returns type 24s with what else may be next to them."""
        rng = self.rng
        tlvs = [tlv(24, data[:255]) for data in flows]
        while rng.random() < 0.06:
            tlvs.insert(rng.randrange(len(tlvs) + 1), tlv(rng.choice(SKIPPED), rng.randbytes(rng.randrange(4))))
        if rng.random() < 0.025:
            tlvs.insert(rng.randrange(len(tlvs) + 1), tlv(rng.choice((22, 23, 25, 26)), rng.randbytes(rng.randrange(4))))
        data = b"".join(tlvs)
        return data[:rng.randrange(len(data))] if data and rng.random() < 0.015 else data

    def flows_of(self, kind, identifier, asked):
        """Returns the bytes of the flow encodings of a request."""
        rng = self.rng
        make = pick(rng, (self.one_flow, 50), (self.two_flows, 30), (self.no_set, 9 if kind == "DSC" else 1),
                    (self.wrong_count, 2.5), (self.wrong_identifiers, 3), (self.wrong_set_type, 3), (self.no_parameters, 5),
                    (self.faulty_flow, 8))
        return make(kind, identifier, asked)

    def leading(self, identifier, set_type):
        """Returns the fields before the parameters: those that decide, and at times those that are ignored."""
        rng = self.rng
        fields = [] if identifier is None else [identifier]
        if rng.random() < 0.06:
            other = {1: (2, 257), 2: (1, 9)}.get(identifier[0] if identifier else 0, (3, 1))
            fields.append(rng.choice((other, (3, rng.randrange(65_536)), (5, b"\x01\x01\x02\x02\x01\x03"))))
        if self.plant.classes and rng.random() < 0.35:
            fields.append((4, rng.choice(self.plant.classes)[0].encode() + b"\x00"))
        elif rng.random() < 0.015:
            fields.append((4, rng.choice((b"nosuch\x00", b"GOLD\x00", b"gol\x00", b"\xff\xfe\x00"))))
        return fields + ([] if set_type is None else [(6, set_type)])

    def flow(self, identifier, set_type, asked):
        return spelled(fields_of(self.rng, asked, self.leading(identifier, set_type)))

    def one_flow(self, kind, identifier, asked):
        return [self.flow(identifier, self.rng.choice((2, 6, 6)), asked)]

    def two_flows(self, kind, identifier, asked):
        rng = self.rng
        active = pick(rng, (asked, 2), (lessened(rng, asked), 5), (varied(rng, asked), 4), (params(rng, self.plant), 0.5))
        flows = [self.flow(identifier, 2, asked), self.flow(identifier, 4, active)]
        return flows if rng.random() < 0.7 else flows[::-1]

    def no_set(self, kind, identifier, asked):
        return [self.flow(identifier, 0, asked if self.rng.random() < 0.3 else {})]

    def wrong_count(self, kind, identifier, asked):
        rng = self.rng
        types = rng.choice(((), (), (2, 2), (6, 6), (2, 4, 4), (2, 6), (4, 2, 2), (0, 4), (None, 4), (4, None), (2, 2, 4, 4)))
        return [self.flow(identifier, set_type, asked) for set_type in types]

    def wrong_identifiers(self, kind, identifier, asked):
        rng = self.rng
        other = (identifier[0], identifier[1] % 65_535 + 1)
        names = rng.choice(((None,), (None,), (None, None), (None, identifier), (identifier, None), (identifier, other), (other, identifier)))
        types = (6,) if len(names) == 1 else (2, 4)
        return [self.flow(name, set_type, asked) for name, set_type in zip(names, types)]

    def wrong_set_type(self, kind, identifier, asked):
        return [self.flow(identifier, self.rng.choice((None, None, 1, 3, 4, 5, 7, 8, 255)), asked)]

    def no_parameters(self, kind, identifier, asked):
        rng = self.rng
        bad = spoilt(rng, self.plant, asked)
        if rng.random() < 0.6:
            return [self.flow(identifier, rng.choice((2, 6)), bad)]
        one, other = (bad, asked) if rng.random() < 0.5 else (asked, bad)
        return [self.flow(identifier, 2, one), self.flow(identifier, 4, other)][::rng.choice((1, -1))]

    def faulty_flow(self, kind, identifier, asked):
        rng = self.rng
        bad = faulty(rng, fields_of(rng, asked, self.leading(identifier, rng.choice((2, 6)))))
        return [bad] if rng.random() < 0.7 else rng.sample([bad, self.flow(identifier, 4, asked)], 2)

    # Bandwidth requests, ticks, slice changes

    def request(self):
        rng = self.rng
        known, modem = self.someone()
        sid = rng.randint(*known.operator.sids)
        asking = [flow for flow in known.flows() if may_ask(flow)] if rng.random() < 0.85 else known.flows()
        asking = [flow for flow in asking if flow.sid is not None]
        if not asking and rng.random() < 0.8:
            return self.addition()
        if asking and rng.random() < 0.95:
            flow = rng.choice(asking)
            sid, modem = flow.sid, flow.modem if rng.random() < 0.95 else modem
        if rng.random() < 0.03:
            sid = rng.choice((0, 1, sid + 1, 16384 + sid, 65_535))
        minislots = pick(rng, (0, 1), (1, 2), (3, 3), (5, 3), (17, 2), (40, 2), (64 * rng.randrange(66), 2), (65_535, 0.7), (rng.randrange(65_536), 1))
        return [f"Q {self.case(modem)} {self.number(min(sid, 65_535))} {self.number(minislots)}"]

    def number(self, number):
        text = str(number)
        return text if self.rng.random() < 0.97 else text.zfill(5)

    def all_ticks(self):
        return ["T"] * pick(self.rng, (1, 10), (2, 3), (5, 1))

    def one_tick(self):
        return [f"T {self.rng.choice(self.known).operator.name}"]

    def other_slices(self):
        rng = self.rng
        start = max(known.book.frame for known in self.known) + pick(rng, (0, 1), (1, 6), (2, 4), (4, 2), (50, 0.1))
        shares = [self.share(known) for known in self.known]
        what = rng.random()
        if what < 0.5:
            shares = self.moved(shares)
        elif what < 0.65:
            place = rng.randrange(len(shares))
            shares[place] = rng.choice(([0, 5, 0], [self.plant.head, 0, 0], shares[place][:2] + [shares[place][1] + 1],
                                        [self.plant.frame_minislots - 1, 2, 0], [65_535, 65_535, 65_535], rng.choice(shares), rng.choice(shares), rng.choice(shares)))
        return [f"Z {start} " + " ".join("/".join(map(self.number, share)) for share in shares)]

    def share(self, known):
        """Returns the present slice with a budget that mostly has room for what is committed."""
        share, least = known.book.share, min(all_committed(known.book)[0], known.book.share.length)
        budget = pick(self.rng, (share.budget, 4), (share.length, 2), (self.rng.randint(least, share.length), 4), (least, 2), (0, 0.3))
        return [share.start, share.length, budget]

    def moved(self, shares):
        """Returns the same lengths in other places, with other gaps; some a little shorter."""
        rng = self.rng
        order = list(range(len(shares)))
        rng.shuffle(order)
        room = self.plant.frame_minislots - self.plant.head - sum(share[1] for share in shares)
        start = self.plant.head
        for place in order:
            gap = rng.randrange(room + 1) if rng.random() < 0.3 else 0
            room -= gap
            length = shares[place][1]
            if rng.random() < 0.3:
                length = max(1, length - rng.randrange(4))
                shares[place][2] = min(length, shares[place][2])
            shares[place] = [start + gap, length, shares[place][2]]
            start += gap + length
        return shares


def stated(params_of_flow):
    """Returns a parameter set as an encoding states it: what is 0 is left out, unless it is required."""
    if params_of_flow is None:
        return None
    return {subtype: value for subtype, value in params_of_flow.items() if value or subtype in REQUIRED[params_of_flow[15]]}


def need_of_params(asked, plant):
    try:
        return need_of(parameter_set(asked, plant.frame_us), plant)
    except NoSet:
        return 0, 0


def faulty_line(rng, plant):
    """Returns a line that is invalid, or nearly so."""
    modem = plant.operators[0].modems[0]
    name = plant.operators[-1].name
    shares = " ".join("/".join(map(str, [*operator.slice, operator.budget])) for operator in plant.operators)
    return rng.choice((
        "M", "M ", f"M {modem}", f"M {modem} ", f"M {modem} 0", f"M {modem} 0F0", f"M {modem} 0G", f"M {modem}  0F", f"M {modem} 0F ", f"M {modem} --",
        f"M {modem[:-1]} -", f"M {modem}0 -", "M ffffffffffff -", f" M {modem} -", f"m {modem} -", f"M\t{modem}\t-", f"M {modem} -\r",
        f"M {modem} -", f"M {modem} \u00e9", f"Q {modem} 1", f"Q {modem} 1 65536", f"Q {modem} 65536 1", f"Q {modem} 000001 1",
        f"Q {modem} 1 1 1", f"Q {modem} +1 1", f"Q {modem} -1 1", f"Q {modem} 1 0x1", f"Q {modem} 1_0 1", f"Q {modem}  1", f"Q {modem} 00001 00000",
        f"Q {modem} \u0661 1", "Q ffffffffffff 1 1", "T ", "T nobody", f"T {name.lower()}x", f"T {name} ", f"T {name} {name}", "TT", "t", "T\r",
        "Z", "Z 1", f"Z {shares}", f"Z 1 {shares} 1/1/1", f"Z 4294967296 {shares}", f"Z 00000000001 {shares}", f"Z 4294967295 {shares}", f"Z 0 {shares}",
        f"Z 1 {shares}/1", f"Z 1 {shares}".replace("/", " ", 1), f"Z 1  {shares}", f"Z -1 {shares}", f"Z 1 {shares}000", "---", "-", "#", "R 1", "0F0001",
        "\ufeffT", "T\x00", "T\u00a0", " ", f"Z 0000000001 {shares}"))


def faulty_line_of_one(rng):
    return rng.choice(("0", "0F0", "0G", " ", "0F ", " 0F", "--", "- ", "0F0001\r", "\r", "0x0F", "0F 00", "\u00e9", "M", "\uff10\uff10", "-0", "00-"))
