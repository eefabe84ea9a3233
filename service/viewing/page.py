"""Makes the page: one file with all that it needs."""

import html
import json
import pathlib
import re

from service.messages.words import CODES
from service.reference.messages import RESPONSE

from .axis import slice_changes, time_of
from .kinds import REQUESTED, UNSOLICITED, kinds_in
from .run_output import frame_of, part_of
from .styles import MARKS, PATTERNS, TILE, Style, styles, swatch

TEMPLATE = pathlib.Path(__file__).with_name("page.html")
DIGITS = "0123456789abcdefghijklmnopqrstuvwxyz"
# At most so many points of a course, rows of the table of modems, buttons of frames, and faults.
POINTS, MODEMS, CHANGES, FAULTS = 240, 200, 24, 24
# What the page's script calls the kinds that the IUC of a span does not show.
LETTERS = {UNSOLICITED: "u", REQUESTED: "r"}


def page(title, run, sums, budgets, highlighted=None):
    """Returns the page. The operator `highlighted` is highlighted at first."""
    of_names = styles(len(run.names))
    parts = {
        "title": html.escape(title), "summary": html.escape(summary(run)), "fault": fault_note(run), "changes": changes_list(run),
        "service": service_note(run), "kinds": kinds_note(sums), "choices": choices(run.names), "legend": legend(run.names, of_names),
        "keys": keys(of_names, unknown_grants(sums)), "time": time_note(budgets),
        "operators": operators_table(run, sums, budgets, of_names), "replies": replies_table(sums), "causes": causes_table(sums, budgets),
        "data": data_of(run, budgets, of_names, highlighted)}
    return re.sub(r"\{\{(\w+)\}\}", lambda found: parts[found[1]], TEMPLATE.read_text())


def summary(run):
    numbers = run.numbers()
    frames = f"{counted(len(numbers), 'frame')}, {numbers[0]} to {numbers[-1]}" if numbers else "no frame"
    return (f"{frames}; {counted(len(run.names), 'operator')}; {counted(run.maps, 'MAP')}; {counted(len(run.replies), 'reply', 'replies')}; "
            f"{counted(len(run.causes), 'drop reason')}")


def time_note(budgets):
    if budgets.plant is None:
        return "<p>The length of a frame is in the plant file: with --plant the frames have times.</p>"
    return f"<p>A frame has {budgets.plant.frame_us:,} microseconds. Its time is its number times that.</p>"


def fault_note(run):
    """Returns with which fault the output ends, or all faults that a service answered."""
    if not run.faults:
        return ""
    if not run.is_of_service:
        return f'<p class="fault">The output ends with fault: {html.escape(run.faults[0])}.</p>'
    named = ", ".join(map(html.escape, run.faults[:FAULTS])) + more(len(run.faults), FAULTS)
    return f'<p class="fault">{counted(len(run.faults), "fault")}: {named}.</p>'


def service_note(run):
    """Returns what a service printed besides the lines of a run."""
    notes = [f"A service began at line {line:,}" + ("" if frame is None else f", before frame {buttons([frame])}") for line, frame in run.starts]
    if run.changes:
        notes.append(f"The plant changed before frame {buttons(run.changes)}")
    if run.renumberings:
        notes.append(f"The next frame got the number {buttons(run.renumberings)}")
    if run.snapshots:
        notes.append(f"{counted(run.snapshots, 'snapshot')} left out")
    if run.replaced:
        notes.append(f"{counted(run.replaced, 'frame')} left out, whose number came again for the same operator")
    return "".join(f"<p>{note}.</p>" for note in notes[:CHANGES]) + (f"<p>{len(notes) - CHANGES:,} more.</p>" if len(notes) > CHANGES else "")


def unknown_grants(sums):
    return sum(of.unknown_grants for of in sums.operators)


def kinds_note(sums):
    unknown = unknown_grants(sums)
    if not unknown:
        return ""
    return (f"<p>The kind of {counted(unknown, 'grant')} is not known, unsolicited or on request. Neither the output shows it nor a script "
            "that --plant gives.</p>")


def changes_list(run):
    """Returns buttons that lead to the frames at which slices change, or nothing."""
    changes = slice_changes(run)
    return f"<p>Slices change at frame {buttons(changes)}.</p>" if changes else ""


def buttons(numbers):
    """Returns buttons that lead to frames."""
    return " ".join(f'<button type="button" class="to" data-frame="{number}">{number}</button>' for number in numbers[:CHANGES]) + more(len(numbers), CHANGES)


def more(count, shown):
    return f" and {count - shown:,} more" if count > shown else ""


def choices(names):
    return "".join(f"<option>{html.escape(name)}</option>" for name in names)


def legend(names, of_names):
    """Returns a button for each operator, with its style and its whole name."""
    return "\n".join(f'<button type="button" class="operator" aria-pressed="false">{swatch(style)} {html.escape(name)}</button>'
                     for name, style in zip(names, of_names))


def keys(of_names, unknown):
    """Returns what the drawings mean, in the style of the first operator. Of some grants the kind may be unknown."""
    style = of_names[0] if of_names else Style("#888888", "plain")
    stripes = f"repeating-linear-gradient(135deg, {style.colour} 0 4px, {style.ink} 4px 5px)"
    corner = f"linear-gradient(135deg, {style.ink} 0 7px, {style.colour} 7px)"
    kinds = ((f"background: {style.colour}", "grant, with its SID" if unknown else "grant that answers a request, with its SID"),
             (f"background: {corner}; border-radius: 0", "unsolicited grant (marked corner)"),
             (f"background: {stripes}", "poll (diagonal stripes)"),
             (f"background: {style.colour}; opacity: .2", "idle (pale)"),
             ("border-bottom: 4px solid var(--wait); border-radius: 0", "a grant is pending (line below)"),
             ("background: var(--head)", "head: every modem may send a request"),
             ("height: 0; border-top: 2px dashed var(--ink); border-radius: 0", "slices change (dashed line)"))
    return "\n".join(f'<span class="key"><i style="{how}"></i>{what}</span>' for how, what in kinds)


def counted(number, one, many=None):
    return f"{number:,} {one if number == 1 else many or one + 's'}"


# The frames, as the page's script reads them

def data_of(run, budgets, of_names, highlighted):
    places, rows = {}, []
    for number in run.numbers():
        indices = [index_of(places, run, budgets, name, number) for name in run.names]
        time = time_of(number, budgets.plant.frame_us) if budgets.plant else "-"
        rows.append(f"{number} {time} " + " ".join(indices))
    operators = [{"name": name, "colour": style.colour, "ink": style.ink, "pattern": style.pattern, "least": least_slice(run.frames[name])}
                 for name, style in zip(run.names, of_names)]
    minislots, head = frame_of(run, budgets)
    data = {"minislots": minislots, "head": head, "operators": operators, "patterns": PATTERNS, "tile": TILE, "marks": MARKS,
            "highlighted": run.names.index(highlighted) if highlighted in run.names else -1,
            "changes": slice_changes(run), "parts": list(places), "rows": "\n".join(rows)}
    return json.dumps(data, separators=(",", ":")).replace("<", "\\u003c")


def least_slice(frames):
    """Returns the length of the shortest slice in the frames of an operator."""
    return min(part_of(elements).length for elements in set(frames.values()))


def index_of(places, run, budgets, name, number):
    """Returns the place of a part among all that differ, to base 36."""
    if number not in run.frames[name]:
        return "-"
    return base_36(places.setdefault(packed(run.frames[name][number], kinds_in(run, budgets, name, number)), len(places)))


def packed(elements, kinds):
    part = part_of(elements)
    spans = ",".join(f"{sid}.{code}.{length}" + (f".{LETTERS[kind]}" if kind in LETTERS else "") for (sid, code, _, length), kind in zip(part.spans, kinds))
    return f"{part.start};{spans};{','.join(map(str, part.pending))}"


def base_36(number):
    digits = DIGITS[number % 36]
    while number >= 36:
        number //= 36
        digits = DIGITS[number % 36] + digits
    return digits


# The tables

def table(heads, rows):
    """Returns a table with texts on the left of their cells and numbers on the right. No word of a head is broken, not even at a hyphen."""
    lines = ["<tr>" + "".join(f"<th{' class=text' if is_text else ''}><div>{words(name)}</div></th>" for name, is_text in heads) + "</tr>"]
    for row in rows:
        cells = (f"<td{' class=text' if is_text else ''}>{cell}</td>" for cell, (_, is_text) in zip(row, heads))
        lines.append("<tr>" + "".join(cells) + "</tr>")
    return "<table>\n" + "\n".join(lines) + "\n</table>"


def words(name):
    return " ".join(f"<span>{word}</span>" for word in name.split(" "))


def percent(part, whole):
    return f"{100 * part / whole:.0f} %" if whole else "–"


def operators_table(run, sums, budgets, of_names):
    if not run.names:
        return "<p>No frame.</p>"
    heads = [("operator", True), ("slice", True), ("budget", False), ("committed", False), ("of the budget", False), ("given", False),
             ("of the slice", False), ("use by frame", True), ("polls", False), ("unsolicited grants", False), ("short grants", False),
             ("long grants", False), ("frames with pending", False)]
    rows = []
    for of, style in zip(sums.operators, of_names):
        last = max(of.filled)
        share = budgets.at(of.name, last)
        part = part_of(run.frames[of.name][last])
        known = share is not None and share.committed is not None
        rows.append([f"{swatch(style)} {html.escape(of.name)}", f"{part.start} to {part.start + part.length - 1}",
                     share.budget if share else "–", share.committed if known else "–", percent(share.committed, share.budget) if known else "–",
                     f"{of.given:,}", percent(of.given, of.of_slice), course(of, budgets, style.colour), f"{of.polls:,}", unsolicited(of),
                     f"{of.short_grants:,}", f"{of.long_grants:,}", f"{of.pending_frames:,}"])
    note = "Slice, budget and committed are those of the last frame. Given are the minislots of grants and polls in all frames. " \
           "Unsolicited grants are among the short and the long ones. " \
           "In the drawing, the area is how much of the slice was given" + (", and the line how much of the budget was committed." if budgets.plant else ".")
    return f"<p>{note}</p>" + table(heads, rows)


def unsolicited(of):
    """Returns how many grants are unsolicited: a number, or the least and the greatest that it may be."""
    least, most = of.unsolicited_grants, of.unsolicited_grants + of.unknown_grants
    return f"{least:,}" if least == most else f"{least:,} to {most:,}"


def course(of, budgets, colour):
    """Returns a small drawing of how full an operator's slice and its budget were, frame by frame; if there are many frames, means of some."""
    numbers = sorted(of.filled)
    size = max(1, -(-len(numbers) // POINTS))
    some = [numbers[place:place + size] for place in range(0, len(numbers), size)]
    given = [sum(of.filled[number][0] for number in group) / sum(of.filled[number][1] for number in group) for group in some]
    shares = [budgets.at(of.name, group[-1]) for group in some]
    lines = f'<polygon fill="{colour}" points="0,26 {points(given)} 240,26"/>'
    if all(share is not None and share.committed is not None for share in shares):
        lines += f'<polyline points="{points([share.committed / share.budget if share.budget else 0 for share in shares])}"/>'
    return f'<svg class="course" viewBox="0 0 240 26" preserveAspectRatio="none">{lines}</svg>'


def points(shares):
    """Returns each share as a step that is as wide as its frames."""
    wide = 240 / len(shares)
    return " ".join(f"{place * wide:.1f},{25 - 24 * share:.1f} {(place + 1) * wide:.1f},{25 - 24 * share:.1f}" for place, share in enumerate(shares))


def replies_table(sums):
    by_code = {}
    for (_, response, code), count in sums.replies.items():
        counts = by_code.setdefault(code, {})
        counts[response] = counts.get(response, 0) + count
    if not by_code:
        return "<p>No reply.</p>"
    kinds = [f"{kind}-RSP" for kind in RESPONSE]
    heads = [("code", False), ("name", True), *((kind, False) for kind in kinds), ("all", False)]
    return table(heads, [[code, CODES.get(code, ""), *(f"{counts.get(kind, 0):,}" for kind in kinds), f"{sum(counts.values()):,}"]
                         for code, counts in sorted(by_code.items())])


def causes_table(sums, budgets):
    names = sorted({cause for _, cause in sums.causes})
    if not names:
        return "<p>No drop reason.</p>"
    by_modem = {}
    for (modem, cause), count in sums.causes.items():
        by_modem.setdefault(modem, {})[cause] = count
    most = sorted(by_modem.items(), key=lambda item: (-sum(item[1].values()), item[0]))
    heads = [("modem", True), ("operator", True), *((name, False) for name in names)]
    rows = [[html.escape(modem), html.escape(budgets.operator_of.get(modem, "–")), *(f"{counts.get(name, 0):,}" for name in names)]
            for modem, counts in most[:MODEMS]]
    left = f"<p>And {counted(len(most) - MODEMS, 'modem')} more; --csv has all.</p>" if len(most) > MODEMS else ""
    return table(heads, rows) + left
