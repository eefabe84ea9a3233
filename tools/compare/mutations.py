"""Edits the second implementation, one rule at a time, and reports at which seed a generated case first notices each edit.

    tools/run compare/mutations COUNT      the seeds 0 to COUNT - 1; 2,000 take about a minute and a half

A case notices an edit if the edited implementation prints something else. Exits with 1 if no case notices an edit.
"""

import importlib
import importlib.util
import pathlib
import shutil
import sys
import tempfile

from service.reference.program import answer
from tools import ROOT, show_help
from tools.generator.case import case

# A name, the file, a text of it, and the text that replaces it.
EDITS = [
    ("a repeat is handled anew", "book.py", "if entry is not None and entry.kind == kind:", "if False:"),
    ("a repeat restarts the timer", "book.py", "        return entry.response\n", "        entry.ticks = book.plant.hold\n        return entry.response\n"),
    ("another kind under a kept transaction ID is answered", "book.py", "        raise NoAnswer(\"TidInUse\")", "        return entry.response"),
    ("a refusal waits for its acknowledgement", "book.py", "    if sfid is not None and kind != \"DSD\":", "    if sfid is not None:"),
    ("a new flow gets the greatest SFID so far and one", "book.py", "    number = first\n", "    number = max([first - 1, *(n for n in used if n)]) + 1\n"),
    ("a change frees the old need at once", "book.py", "        minislots, elements = max(minislots, more_minislots), max(elements, more_elements)", "        minislots, elements = more_minislots, more_elements"),
    ("what waits is not committed", "book.py", "    if flow.waiting is not None:\n        more", "    if False:\n        more"),
    ("a waiting budget does not bind", "book.py", "    return min(book.share.budget, book.next_share[1].budget)", "    return book.share.budget"),
    ("elements may be one more", "book.py", "own_elements > book.row.elements", "own_elements > book.row.elements + 1"),
    ("minislots may be one more", "book.py", "own_minislots > least_budget(book)", "own_minislots > least_budget(book) + 1"),
    ("a given-up change deletes its flow", "book.py", "    if flow.waiting.kind == \"DSA\":\n        del", "    if flow.waiting.kind == \"DSA\" or why == \"giving up\":\n        del"),
    ("a change taken back keeps its SID", "book.py", "    if gave_sid:", "    if False:"),
    ("a commit keeps the start", "book.py", "    flow.start = book.frame\n", ""),
    ("a commit keeps the backlog of a flow that may not ask", "book.py", "        flow.backlog = 0\n", "        pass\n"),
    ("a commit keeps the SID", "book.py", "        flow.sid = None\n    if not may_ask", "    if not may_ask"),
    ("a request renews since when its backlog waits", "book.py", "    if flows[0].backlog == 0:\n", "    if True:\n"),
    ("what is left waits since the same frame", "book.py", "            flow.since = book.frame + 1\n", "            flow.since = book.frame\n"),
    ("what is left waits on", "book.py", "            flow.since = book.frame + 1\n", "            pass\n"),
    ("one resend less", "book.py", "entry.resends > 0", "entry.resends > 1"),
    ("held one tick more", "book.py", "    entry.ticks = book.plant.hold\n", "    entry.ticks = book.plant.hold + 1\n"),
    ("another slice one frame early", "book.py", "book.next_share[0] == book.frame:", "book.next_share[0] == book.frame + 1:"),
    ("another modem's flow is changed", "book.py", "    if flow.modem != modem:", "    if False:"),
    ("a flow that waits is changed", "book.py", "    if flow.waiting is not None:\n        raise", "    if False:\n        raise"),
    ("active is judged after provisioned", "book.py", "    judge_active(flows, admitted, active)\n    judge_provisioned(flow, flows, admitted)\n", "    judge_provisioned(flow, flows, admitted)\n    judge_active(flows, admitted, active)\n"),
    ("two encodings in one order only", "book.py", "    return sorted(flow.get(SET_TYPE, 0) for flow in flows) == [2, 4]", "    return [flow.get(SET_TYPE, 0) for flow in flows] == [2, 4]"),
    ("identifiers are not compared", "book.py", "    if any(flow.get(identifier) != flows[0].get(identifier) for flow in flows):", "    if False:"),
    ("the flows' limit is one more", "book.py", "len(book.flows) >= book.row.flows", "len(book.flows) > book.row.flows"),
    ("the transactions' limit is one more", "book.py", "len(book.kept) >= book.row.transactions", "len(book.kept) > book.row.transactions"),
    ("an acknowledgement of another kind is taken", "book.py", "not entry.waits or entry.kind != kind", "not entry.waits"),
    ("a last frame has a tick", "book.py", "    if book.frame == LAST_FRAME:", "    if book.frame > LAST_FRAME:"),
    ("provisioned flows start at frame 0", "book.py", "provisioned.active, None, book.frame, 0", "provisioned.active, None, 0, 0"),
    ("the ranking forgets the policy", "schedule.py", "    if policy == \"strict\":", "    if True:"),
    ("ages are not held", "schedule.py", "min(age, 255) // step", "age // step"),
    ("a rank of age has no bound", "schedule.py", "        return min(63, 8", "        return max(0, 8"),
    ("ties by greater SFID", "schedule.py", "        return -rank, flow.sfid", "        return -rank, -flow.sfid"),
    ("no base", "schedule.py", "    return min(flow.backlog, reserve_of(flow.active, plant))", "    return 0"),
    ("room lends the base twice", "schedule.py", " - sum(base_of(flow, plant) for flow in asking)", ""),
    ("due flows by rank", "schedule.py", "    due = [flow for flow in active if", "    due = [flow for flow in in_order(active, row, frame) if"),
    ("short grants one less", "schedule.py", "length <= plant.short_max else", "length < plant.short_max else"),
    ("polls with the IUC of grants", "schedule.py", "grant_code(piece, plant) if unsolicited else REQUEST", "grant_code(piece, plant)"),
    ("pending by SFID", "schedule.py", "    pending = [flow.sid for flow in asking if", "    pending = [flow.sid for flow in active if flow.sfid in grants and"),
    ("idle minislots are left out", "maps.py", "    elements += [element(*span) for span in sorted(held + idle", "    elements += [element(*span) for span in sorted([span for span in held if span[0]] + idle"),
    ("minislots of no slice are left out", "maps.py", "sorted(held + idle,", "sorted(held,"),
    ("pending of the last operator first", "maps.py", "for _, pending in parts for sid in pending]", "for _, pending in parts[::-1] for sid in pending]"),
    ("no head element is left out", "maps.py", "if plant.head > 0 else []", "if True else []"),
    ("alloc start counts frames", "maps.py", "frame * plant.frame_minislots % 2**32", "frame % 2**32"),
    ("minislots round down", "sets.py", "    return rounded_up(length, bytes_per_minislot)", "    return max(1, length // bytes_per_minislot)"),
    ("the reserve rounds down", "sets.py", "    return rounded_up(params[RESERVED] * plant.frame_us, 8_000_000 * plant.bytes_per_minislot)", "    return params[RESERVED] * plant.frame_us // (8_000_000 * plant.bytes_per_minislot)"),
    ("no limit is the least rate", "sets.py", "    return other != 0 and (one == 0 or one > other)", "    return one > other"),
    ("a poll needs no minislot", "sets.py", "(1 + reserve, 3) if", "(reserve, 3) if"),
    ("grants within by greater interval", "sets.py", "    if one[GRANT_INTERVAL] < other", "    if one[GRANT_INTERVAL] > other"),
    ("polling within is not judged", "sets.py", "    if one[POLLING_INTERVAL] < other", "    if False and one[POLLING_INTERVAL] < other"),
    ("non-real-time polling without a default", "sets.py", "    if scheduling == NON_REAL_TIME and POLLING_INTERVAL not in fields:", "    if False:"),
    ("a class overrides what is stated", "sets.py", "    return {**of_class, **fields}", "    return {**fields, **of_class}"),
    ("a class is forgotten", "sets.py", "    if CLASS_NAME not in fields:", "    if True:"),
    ("128 grants are taken", "sets.py", "<= 127:", "<= 128:"),
    ("the range before twice", "encodings.py", "        if subtype in fields:\n            raise FlowFault(\"twice\", subtype, fields)\n        if not in_range(subtype, value):\n            raise FlowFault(\"out of range\", subtype, fields)\n", "        if not in_range(subtype, value):\n            raise FlowFault(\"out of range\", subtype, fields)\n"),
    ("skipped subtypes are judged twice", "encodings.py", "            met(\"flow encoding: a subtype is skipped\")\n            continue", "            raise FlowFault(\"twice\", subtype, fields)"),
    ("names of 17 bytes", "encodings.py", "4: (2, 16)", "4: (2, 17)"),
    ("a left-out type behind a cut", "messages.py", "    if cut:\n        met(\"message: cut\")\n        raise Refused(4, OTHER)\n", ""),
    ("type 26 is skipped", "messages.py", "LEFT_OUT = (22, 23, 25, 26)", "LEFT_OUT = (22, 23, 25)"),
    ("a DSD answer without its reserved byte", "messages.py", "(b\"\\x00\" if kind == \"DSD\" else tlvs)", "tlvs"),
    ("a refusal forgets the identifier", "messages.py", "b\"\" if identifier is None else", "b\"\" if True else"),
    ("slices that meet are taken", "program.py", "        if slices_meet(shares):", "        if False:"),
    ("other slices for some operators alone", "program.py", "            if why is not None:\n", "            if why is not None and book is self.books[0]:\n"),
    ("numbers of six digits", "program.py", "most_digits=5, greatest=65_535", "most_digits=6, greatest=65_535"),
    ("slices that meet at one minislot", "plant.py", "one[0] <= other[1] and other[0] <= one[1]", "one[0] < other[1] and other[0] < one[1]"),
    ("241 elements", "plant.py", "MOST_ELEMENTS = 240", "MOST_ELEMENTS = 241"),
    ("the budget is judged after the provisioned flows", "plant.py", "        if row.budget > row.slice[1]:", "        if row.budget > row.slice[1] and provisioned_fit(plant, row):"),
    ("step is required of all", "plant.py", "if table.get(\"policy\") == \"aged\" else 1", ""),
    ("numbers may be true or false", "plant.py", "isinstance(value, int) and not isinstance(value, bool)", "isinstance(value, int)"),
]


def edited(folder, place, edit):
    """Returns `answer` of the second implementation with an edit."""
    _, file, old, new = edit
    package = f"edited{place}"
    shutil.copytree(ROOT / "service/reference", folder / package, ignore=shutil.ignore_patterns("__pycache__"))
    path = folder / package / file
    text = path.read_text()
    if text.count(old) < 1:
        sys.exit(f"the edit finds no place: {edit[0]}")
    path.write_text(text.replace(old, new))
    import_from(folder / package)
    return importlib.import_module(f"{package}.program").answer


def import_from(folder):
    """Imports the package of a folder, by the folder's name."""
    spec = importlib.util.spec_from_file_location(folder.name, folder / "__init__.py", submodule_search_locations=[str(folder)])
    sys.modules[folder.name] = importlib.util.module_from_spec(spec)
    spec.loader.exec_module(sys.modules[folder.name])


def safely(program, words, data):
    """Returns the answer, or the exception: one of the edited implementation is noticed too."""
    try:
        return program(words, data)
    except Exception as fall:
        return repr(fall)


def main():
    show_help(__doc__)
    if len(sys.argv) != 2:
        sys.exit(__doc__)
    with tempfile.TemporaryDirectory() as folder:
        unnoticed = {edit[0]: edited(pathlib.Path(folder), place, edit) for place, edit in enumerate(EDITS)}
        for seed in range(int(sys.argv[1])):
            words, data = case(seed)
            right = answer(words, data)
            for name in [name for name, program in unnoticed.items() if safely(program, words, data) != right]:
                del unnoticed[name]
                print(f"seed {seed:6}: {name}", flush=True)
    for name in unnoticed:
        print(f"not noticed: {name}")
    print(f"{len(EDITS) - len(unnoticed)} of {len(EDITS)} edits are noticed")
    sys.exit(1 if unnoticed else 0)


if __name__ == "__main__":
    main()
