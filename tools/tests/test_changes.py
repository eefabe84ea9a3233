"""Tests the changes of plant of the second implementation with what docs/FORMATS.md says of them, and the tool that compares changed scripts."""

import random
import unittest
from dataclasses import replace

from service.reference.answers import reference_answer
from service.reference.changes import NotChanged, changed_core
from service.reference.plant import PlantFault, read_plant
from service.reference.program import Core
from service.reference.resuming import Service, split_file
from tools import EXAMPLES
from tools.compare import changed_cases
from tools.compare.answers import Answers, Differs
from tools.generator.changes import File, change_file, changed_bytes
from tools.generator.plants import plant, written

P2 = (EXAMPLES / "plant_p2.toml").read_text()
A1, B1 = "020000000001", "020000000003"
ADDITION = b"M 020000000003 0F0001180A010200010601060F0102"
WITH_A_MODEM = P2.replace(f'["{B1}"]', f'["{B1}", "020000000004"]')
WITHOUT_B = P2[:P2.rindex("[[operator]]")]
GOLD, SILVER, VOICE = (f'[[class]]\nname = "{name}"\nencoding = "{encoding}"\n' for name, encoding in (("gold", "070107"), ("silver", "070105"), ("voice", "")))


def service_of(*lines, text=P2):
    """Returns the service of a plant file after some lines."""
    service = Service(Core(read_plant(text)), text)
    list(service.answers(list(lines)))
    return service


def reason(service, text):
    """Returns why a plant is not changed to that of a file, or None if it is."""
    try:
        changed_core(service.core, text if isinstance(text, bytes) else text.encode())
        return None
    except NotChanged as fault:
        return fault.reason


def change(text):
    return [b"P", *text.encode().removesuffix(b"\n").split(b"\n"), b"---"]


class ChangedPlants(unittest.TestCase):
    def test_end_of_a_file(self):
        for lines, file in (([b"a", b"---", b"b"], (b"a\n", 3)), ([b"---"], (b"", 2)), ([b"a"], (None, 2)), ([], (None, 1)),
                            ([b"P", b"---\r", b" ---", b"---", b"---"], (b"P\n---\r\n ---\n", 5))):
            self.assertEqual(split_file(lines), file)

    def test_answers_and_numbers(self):
        service = service_of()
        answers = list(service.answers([b"T", *change(WITH_A_MODEM), b"X", *change("x"), b"X"]))
        self.assertEqual([answer.splitlines()[-1] for answer in answers[1:]], ["P frame 1", "fault: line 38", "fault: line 39", "fault: line 42"])

    def test_an_operator_that_stays_goes_on_and_one_that_leaves_begins_anew(self):
        service = service_of(ADDITION, b"T A", b"T B")
        before = service.core.books
        for text, flows in ((WITH_A_MODEM, [{}, {513}]), (WITHOUT_B, [{}]), (P2, [{}, set()])):
            list(service.answers(change(text)))
            self.assertEqual(([set(book.flows) for book in service.core.books], service.plant_text), ([set(of_book) for of_book in flows], text))
        self.assertEqual([book.frame for book in before + service.core.books], [1] * 4)

    def test_the_old_core_stays_as_it_is(self):
        service = service_of(ADDITION)
        old = service.core
        core, text = changed_core(old, WITH_A_MODEM.encode())
        self.assertEqual(text, WITH_A_MODEM)
        Service(core, text).core.tick(0)
        core.books[1].flows.clear()
        core.books[1].kept[0].ticks = 1
        self.assertEqual((old.books[0].frame, list(old.books[1].flows), old.books[1].kept[0].ticks), (0, [513], 150))

    def test_a_refused_change_leaves_core_and_text(self):
        service = service_of(ADDITION)
        core = service.core
        for lines in (change("x"), change(WITHOUT_B.replace("head = 8", "head = 7")), change(P2.replace(B1, A1[:-1] + "9")), change(P2)[:-1], [b"P"]):
            self.assertEqual(list(service.answers(lines)), ["fault: line 1\n"])
            self.assertIs(service.core, core)
            self.assertEqual(service.plant_text, P2)

    def test_reasons(self):
        service, apart = service_of(ADDITION), service_of(b"T A")
        for of_service, text, why in (
                (service, P2, None), (service, "", "the plant file has status 3"), (service, b"\xff", "the plant file has status 6"),
                (service, P2 + "#" * (1_048_577 - len(P2)), "the plant file has status 6"), (service, P2 + "#" * (1_048_576 - len(P2)), None),
                (apart, P2, "the core does not rest"), (service, P2.replace("ucd_count = 1", "ucd_count = 2"), "the table plant differs"),
                (service, P2.replace("head = 8", "head = 8\nfirst_frame = 0"), None),
                (service, P2.replace("head = 8", "head = 8\nfirst_frame = 1"), "the table plant differs"),
                (service, P2.replace("head = 8", 'head = 8\n[[class]]\nname = "c"\nencoding = ""'), "the plant file has status 3"),
                (service, P2.replace("ucd_count = 1", "ucd_count = 2") + GOLD, "the table plant differs"),
                (service, P2.replace(B1, "020000000009"), "modems are listed"), (service, WITHOUT_B, None),
                (service, P2.replace("[513, 768]", "[514, 768]"), "SFIDs are in their range"),
                (service, P2.replace("[513, 528]", "[514, 528]"), "SIDs are in their range")):
            self.assertEqual(reason(of_service, text), why, text)

    def test_classes_stay_and_may_be_added_in_any_order(self):
        service = service_of(text=P2 + GOLD + SILVER)
        for classes, why in ((GOLD + SILVER, None), (SILVER + GOLD, None), (GOLD + SILVER + VOICE, None), (VOICE + SILVER + GOLD, None),
                             (GOLD.replace("070107", "0a040000fa00070107") + SILVER, "the encoding of a class differs"),
                             (GOLD.replace("070107", "ff00070107") + SILVER, None), ("", "a class is missing"), (GOLD + VOICE, "a class is missing"),
                             (GOLD + SILVER.replace("silver", "Silver"), "a class is missing"), (GOLD + SILVER + GOLD, "the plant file has status 3"),
                             (GOLD + SILVER.replace("070105", ""), "the encoding of a class differs"),
                             (GOLD.replace("gold", "silver") + SILVER.replace("silver", "gold") + VOICE, "the encoding of a class differs")):
            self.assertEqual(reason(service, P2 + classes), why, classes)
        self.assertEqual(reason(service_of(), P2 + GOLD), None)

    def test_a_class_is_known_once_it_is_added(self):
        service = service_of()
        lines = [b"M 020000000001 0F000%d180E010200010405676F6C6400060106" % tid for tid in (1, 1, 2)]
        answers = list(service.answers([lines[0], *change(P2 + GOLD), *lines[1:], *change(P2), b"M 020000000003 " + lines[0][15:]]))
        refused = "R 020000000001 10000104180C010200010506010104020104\n"
        self.assertEqual(answers, [refused, "P frame 0\n", refused, "R 020000000001 10000200180E0102000102040000010103020101\n", "fault: line 43\n",
                                   "R 020000000003 10000100180E0102000102040000020103020201\n"])
        self.assertEqual([flow.waiting.active[7] for book in service.core.books for flow in book.flows.values()], [7, 7])


class ChangedFiles(unittest.TestCase):
    """Tests the generator of changed plant files."""

    def files(self):
        for seed in range(40):
            rng = random.Random(seed)
            yield rng, written(random.Random(seed), plant(rng))

    def test_a_file_that_is_not_changed_is_the_same_plant(self):
        for rng, text in self.files():
            self.assertEqual(read_plant(File(text, None, ()).text(rng)), read_plant(text))

    def test_the_watched_row_stays(self):
        count = 0
        for rng, text in self.files():
            row = rng.choice(read_plant(text).rows)
            file = File(text, row.name, ())
            for _ in range(10):
                change_file(rng, file, File(text, row.name, ()))
                try:
                    plant_of_file = read_plant(changed_bytes(rng, file).decode())
                except (PlantFault, UnicodeDecodeError):
                    continue
                # A provisioned flow may be of a class that has another encoding. Such a change is refused.
                if read_plant(text).classes.items() <= plant_of_file.classes.items():
                    self.assertEqual([other for other in plant_of_file.rows if other.name == row.name], [row])
                    count += 1
        self.assertGreater(count, 100)


class ChangedScripts(unittest.TestCase):
    def scripts(self):
        made = (changed_cases.changed_script(seed) for seed in range(25))
        return [script for script in made if script is not None]

    def test_a_script_is_the_same_twice(self):
        for seed in range(4):
            self.assertEqual(changed_cases.changed_script(seed), changed_cases.changed_script(seed))

    def test_scripts_agree_and_have_changes_of_both_kinds(self):
        answers, changes = Answers(None), []
        for made in self.scripts():
            changed_cases.judge_refused(answers, made, changed_cases.judge_watched(answers, made))
            changes += made.changes
        self.assertEqual({False, True}, {change.is_refused() for change in changes})
        results = {change.result.split(": ")[1] for change in changes}
        self.assertLess({"changed", "changed, with more classes", "a class is missing"}, results)

    def test_the_plant_left_alone_has_the_added_classes_if_they_are_named(self):
        answers, named, noticed = Answers(None), 0, 0
        for made in self.scripts():
            if made.named == 0:
                self.assertEqual(made.alone_plant, made.plant)
                continue
            first, alone = read_plant(made.plant), read_plant(made.alone_plant)
            self.assertLess(first.classes.items(), alone.classes.items())
            self.assertEqual(replace(alone, classes=first.classes), first)
            made.alone_plant = made.plant
            named += 1
            noticed += self.differs(lambda made=made: changed_cases.judge_watched(answers, made))
        # A name is not noticed where the request is a repetition, or is refused by an earlier check.
        self.assertGreater(noticed, named // 2)

    def test_what_a_watched_operator_observes(self):
        output = b"R 020000000001 10\nS 020000000001 Short\nR 020000000003 10\nF A 0 0/6/8/32\nF B 0 0/6/40/32\nMAP 0 01\nP frame 1\n"
        state = b"melfjits-snapshot 1 0\n---\nframe 1 2\noperator A 0 0 0\nslice 8 32 32\noperator B 0 0 0\nend 5 1\n"
        row = read_plant(P2).rows[0]
        own = ["R 020000000001 10", "S 020000000001 Short", "F A 0 0/6/8/32"]
        self.assertEqual(changed_cases.observed(output, row), (own, None))
        self.assertEqual(changed_cases.observed(output + state, row), (own, ["operator A 0 0 0", "slice 8 32 32"]))

    def made(self, text):
        """Returns a script in which B adds a flow, the plant is changed, and B ticks."""
        change_lines = change(text)
        result = "change of plant: the plant file has status 3" if text == "x" else changed_cases.CHANGED
        made = changed_cases.Changed(P2, read_plant(P2).rows[1], alone_plant=P2)
        made.alone = [ADDITION, b"T B", b"K"]
        made.lines = [ADDITION, *change_lines, b"T B", b"K"]
        made.changes = [changed_cases.Change(2, len(change_lines), result)]
        return made

    def test_what_is_noticed_is_reported(self):
        class Other(Answers):
            """Answers of a program that answers something else after a change."""
            def __init__(self, old, new):
                super().__init__(None)
                self.old, self.new = old, new

            def of(self, words, data, part=None):
                status, text = reference_answer(words, data)
                return (status, text.replace(self.old, self.new)) if b"\nP\n" in data else (status, text)

        made = self.made(WITH_A_MODEM)
        for answers, is_noticed in ((Other(b"", b""), False), (Other(b"F B 0", b"F B 1"), True), (Other(b"R 02", b"S 02"), True), (Other(b"F A", b"F a"), False)):
            self.assertEqual(self.differs(lambda: changed_cases.judge_watched(answers, made)), is_noticed)
        made = self.made("x")
        for answers, is_noticed in ((Other(b"", b""), False), (Other(b"fault: line 2\n", b""), True), (Other(b"F B 0", b"F B 1"), True)):
            self.assertEqual(self.differs(lambda: changed_cases.judge_refused(answers, made, answers.of(["resume"], made.input(made.lines)))), is_noticed)

    def differs(self, judge):
        try:
            judge()
            return False
        except Differs:
            return True


if __name__ == "__main__":
    unittest.main()
