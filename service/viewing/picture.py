"""Draws a few frames of outputs side by side, for documents. The background is light or dark as the reader's screen is."""

import html
from dataclasses import dataclass

from .axis import slice_changes, slice_of, spread, time_of
from .kinds import UNSOLICITED, kinds_in
from .run_output import NoOutput, frame_of, part_of
from .styles import MARKS, PATTERNS, TILE, styles

# The width of a frame: of the only output, and of one of several.
ONE_FRAME, FRAME = 920, 440
GAP, MARGIN, TITLE, ROW, MOST_ROWS, KEY_LINE, CORNER = 28, 8, 30, 22, 40, 20, 6
LETTER, BOLD_LETTER, LINE, LEADER, STRIP = 6.8, 7.6, 13, 12, 7
STYLE = """text { font: 11px "DejaVu Sans", Verdana, sans-serif; fill: #59636e; } .ground { fill: #ffffff; }
.title { font-size: 14px; font-weight: bold; fill: #1b1f24; } .name { font-weight: bold; fill: #1b1f24; }
.head { fill: #c9d1d9; } .idle { opacity: .18; } .waits { fill: #d1242f; } .on { text-anchor: middle; } .number { text-anchor: end; }
.faded { opacity: .3; } .leader { stroke: #59636e; stroke-width: .7; fill: none; } .change { stroke: #1b1f24; stroke-width: 2; stroke-dasharray: 6 3; }
@media (prefers-color-scheme: dark) { text { fill: #9198a1; } .ground { fill: #0d1117; } .title, .name { fill: #e6edf3; } .head { fill: #30363d; }
.waits { fill: #ff4560; } .idle { opacity: .25; } .leader { stroke: #9198a1; } .change { stroke: #e6edf3; } }"""
INKS = {"#ffffff": "light", "#000000": "dark"}


@dataclass
class Sheet:
    """What all panels of a picture share: measures, and the operators' styles by name. A frame's length in microseconds is None if unknown."""
    styles: dict
    highlighted: object
    frame_us: object
    frame: float
    axis: float
    names: float

    @property
    def left(self):
        return MARGIN + self.axis

    @property
    def top(self):
        return TITLE + self.names + STRIP + 5

    @property
    def panel(self):
        return self.left + self.frame

    def group(self, name, lines):
        """Returns lines of an operator as a group, faded if another one is highlighted."""
        is_faded = self.highlighted not in (None, name)
        return [f'<g class="{"faded" if is_faded else "operator"}">', *lines, "</g>"]


def picture(outputs, budgets, highlighted=None):
    """Returns outputs with their titles, each as a panel. An operator has the same style in all. Another one than `highlighted` is faded."""
    if not all(run.names for _, run in outputs):
        raise NoOutput("an output has no frame to draw")
    names = list(dict.fromkeys(name for _, run in outputs for name in run.names))
    frame_us = budgets.plant.frame_us if budgets.plant else None
    frame = FRAME if len(outputs) > 1 else ONE_FRAME
    units = [frame / frame_of(run, budgets)[0] for _, run in outputs]
    sheet = Sheet(dict(zip(names, styles(len(names)))), highlighted, frame_us, frame, max(axis_width(run, frame_us) for _, run in outputs),
                  max(names_height(run, unit) for (_, run), unit in zip(outputs, units)))
    panels = [f'<g transform="translate({place * (sheet.panel + GAP):.1f} 0)">{panel(sheet, title, run, budgets, unit)}</g>'
              for place, ((title, run), unit) in enumerate(zip(outputs, units))]
    rows = sheet.top + ROW * max(len(shown_numbers(run)) for _, run in outputs)
    wide = len(outputs) * (sheet.panel + GAP) - GAP + MARGIN
    lines = key(sheet, any(slice_changes(run) for _, run in outputs), any(has_unsolicited(run, budgets) for _, run in outputs), wide - sheet.left)
    tall = rows + 10 + KEY_LINE * len(lines)
    return (f'<svg xmlns="http://www.w3.org/2000/svg" viewBox="0 0 {wide:.0f} {tall:.0f}" width="{wide:.0f}" height="{tall:.0f}" role="img">\n'
            f"<title>{html.escape(', '.join(title for title, _ in outputs))}</title>\n<style>{STYLE}</style>\n<defs>{definitions(sheet)}</defs>\n" + '<rect width="100%" height="100%" rx="6" class="ground"/>\n'
            + "\n".join(panels) + "\n" + drawn_key(sheet, lines, rows + 8) + "\n</svg>\n")


def shown_numbers(run):
    return run.numbers()[:MOST_ROWS]


def has_unsolicited(run, budgets):
    """Tests whether a frame that is shown has an unsolicited grant."""
    return any(UNSOLICITED in kinds_in(run, budgets, name, number) for number in shown_numbers(run) for name in run.names if number in run.frames[name])


def definitions(sheet):
    """Returns the patterns that the operators' styles and the polls use, in black or white marks."""
    used = sorted({(style.pattern, style.ink) for style in sheet.styles.values() if PATTERNS[style.pattern]})
    lines = [f'<pattern id="{name}-{INKS[ink]}" width="{TILE}" height="{TILE}" patternUnits="userSpaceOnUse"><g fill="{ink}" opacity="{MARKS}">'
             + "".join(f'<rect x="{x}" y="{y}" width="{wide}" height="{tall}"/>' for x, y, wide, tall in PATTERNS[name]) + "</g></pattern>"
             for name, ink in used]
    lines += [f'<pattern id="poll-{INKS[ink]}" width="5" height="5" patternUnits="userSpaceOnUse" patternTransform="rotate(45)">'
              f'<rect width="1.6" height="5" fill="{ink}"/></pattern>' for ink in sorted({style.ink for style in sheet.styles.values()})]
    return "".join(lines)


# The axis, and the names over the slices

def columns_of(numbers, frame_us):
    """Returns the columns of the axis, each with its head and its numbers."""
    columns = [("frame", [str(number) for number in numbers])]
    return columns if frame_us is None else columns + [("ms", [time_of(number, frame_us) for number in numbers])]


def axis_width(run, frame_us):
    return sum(column_width(column) for column in columns_of(shown_numbers(run), frame_us))


def column_width(column):
    head, texts = column
    return 12 + LETTER * max(map(len, [head, *texts]))


def axis(sheet, numbers):
    """Returns the columns of the axis, each ending where the next begins."""
    lines, end = [], sheet.left - 8
    for head, texts in reversed(columns_of(numbers, sheet.frame_us)):
        lines.append(text(end, sheet.top - 8, head, "number"))
        lines += [text(end, sheet.top + place * ROW + 14, number, "number") for place, number in enumerate(texts)]
        end -= column_width((head, texts))
    return lines


def first_slices(run):
    """Returns the slice of each operator in its first frame, by place: start, length and name."""
    return sorted((*slice_of(frames[min(frames)]), name) for name, frames in run.frames.items())


def is_upright(run, unit):
    """Tests whether a name is too long for its slice, so that all names are written upright."""
    return any(BOLD_LETTER * len(name) + 4 > length * unit for _, length, name in first_slices(run))


def names_height(run, unit):
    if not is_upright(run, unit):
        return LINE
    return LEADER + BOLD_LETTER * max(len(name) for _, _, name in first_slices(run))


def names_of(sheet, run, unit):
    """Returns the operators' names and styles, each over its slice of the first frame."""
    slices, lines, strip = first_slices(run), [], sheet.top - STRIP - 5
    centres = [sheet.left + (start + length / 2) * unit for start, length, _ in slices]
    places = spread(centres, LINE, sheet.left + 6, sheet.left + sheet.frame - 2)
    for (start, length, name), centre, place in zip(slices, centres, places):
        x = sheet.left + start * unit
        drawing = styled(sheet.styles[name], x, strip, length * unit - 1, STRIP)
        if is_upright(run, unit):
            drawing.append(f'<path d="M{centre:.1f} {strip} L{place:.1f} {strip - LEADER + 3:.1f}" class="leader"/>')
            drawing.append(f'<text transform="translate({place + 4:.1f} {strip - LEADER:.1f}) rotate(-90)" class="name">{html.escape(name)}</text>')
        else:
            drawing.append(text(x, strip - 4, name, "name"))
        lines += sheet.group(name, drawing)
    return lines


# The frames

def panel(sheet, title, run, budgets, unit):
    _, head = frame_of(run, budgets)
    numbers, changes = shown_numbers(run), slice_changes(run)
    lines = [text(sheet.left, 18, title, "title"), *names_of(sheet, run, unit), *axis(sheet, numbers)]
    for place, number in enumerate(numbers):
        y = sheet.top + place * ROW
        lines.append(rect(sheet.left, y, head * unit, ROW - 3, 'class="head"'))
        for name in run.names:
            if number in run.frames[name]:
                part, kinds = part_of(run.frames[name][number]), kinds_in(run, budgets, name, number)
                lines += sheet.group(name, drawn(part, kinds, sheet.styles[name], (sheet.left, y), unit, sheet.highlighted in (None, name)))
    lines += [change_mark(MARGIN, sheet.panel, sheet.top + place * ROW - 1.5) for place, number in enumerate(numbers) if number in changes]
    return "\n".join(line for line in lines if line)


def change_mark(left, right, y):
    return f'<path d="M{left:.1f} {y:.1f} H{right:.1f}" class="change"/>'


def drawn(part, kinds, style, corner, unit, has_labels):
    """Returns the spans of a part, and a line below them if a grant is pending."""
    lines, (left, y) = [], corner
    for (sid, code, start, length), kind in zip(part.spans, kinds):
        x, wide = left + start * unit, length * unit - 1
        if not sid:
            lines.append(rect(x, y, wide, ROW - 3, f'fill="{style.colour}" class="idle"'))
            continue
        lines += styled(style, x, y, wide, ROW - 3)
        if code == 1:
            lines.append(rect(x, y, wide, ROW - 3, f'fill="url(#poll-{INKS[style.ink]})"'))
        elif has_labels and LETTER * len(str(sid)) + 2 <= wide:
            lines += label(sid, style, x + wide / 2, y)
        if kind == UNSOLICITED:
            lines += marked_corner(style, x, y, wide)
    if part.pending:
        lines.append(rect(left + part.start * unit, y + ROW - 5, part.length * unit - 1, 3, 'class="waits"'))
    return lines


def styled(style, x, y, wide, tall):
    """Returns a rectangle of a style."""
    lines = [rect(x, y, wide, tall, f'fill="{style.colour}"')]
    if PATTERNS[style.pattern]:
        lines.append(rect(x, y, wide, tall, f'fill="url(#{style.pattern}-{INKS[style.ink]})"'))
    return lines


def marked_corner(style, x, y, wide):
    """Returns the mark of an unsolicited grant: its upper left corner, on its colour alone."""
    return [f'<path d="M{x:.1f} {y:g} h{min(side, wide):.1f} L{x:.1f} {y + side:g} z" fill="{colour}"{kind}/>'
            for side, colour, kind in ((CORNER + 2, style.colour, ""), (CORNER, style.ink, ' class="unsolicited"')) if wide > 0]


def label(sid, style, centre, y):
    """Returns a SID, on its colour alone."""
    half = LETTER * len(str(sid)) / 2 + 1
    box = [rect(centre - half, y + 3, 2 * half, 13, f'fill="{style.colour}"')] if PATTERNS[style.pattern] else []
    return box + [f'<text x="{centre:.1f}" y="{y + 13}" class="on" style="fill: {style.ink}">{sid}</text>']


def key(sheet, has_changes, has_unsolicited_grants, room):
    """Returns lines of drawings with what they mean, each line as wide as there is room: pairs of a place and a text."""
    style = next(iter(sheet.styles.values()))
    fill = f'fill="{style.colour}"'
    poll = rect(0, 0, 24, 12, fill) + rect(0, 0, 24, 12, f'fill="url(#poll-{INKS[style.ink]})"')
    kinds = [(rect(0, 0, 24, 12, fill), "grant, with its SID"), (poll, "poll"), (rect(0, 0, 24, 12, fill + ' class="idle"'), "idle"),
             (rect(0, 9, 24, 3, 'class="waits"'), "a grant is pending"), (rect(0, 0, 24, 12, 'class="head"'), "head: every modem may request")]
    if has_unsolicited_grants:
        kinds.insert(1, (rect(0, 0, 24, 12, fill) + "".join(marked_corner(style, 0, 0, 24)), "unsolicited grant"))
    if has_changes:
        kinds.append((change_mark(0, 24, 6), "slices change"))
    lines, x = [[]], 0
    for drawing, what in kinds:
        wide = 36 + LETTER * len(what)
        if x and x + wide > room:
            lines, x = [*lines, []], 0
        lines[-1].append((x, drawing + text(30, 10, what, "key")))
        x += wide + 14
    return lines


def drawn_key(sheet, lines, top):
    return "\n".join(f'<g transform="translate({sheet.left + x:.1f} {top + place * KEY_LINE:.1f})">{drawing}</g>'
                     for place, line in enumerate(lines) for x, drawing in line)


def rect(x, y, wide, tall, how):
    return f'<rect x="{x:.1f}" y="{y:g}" width="{max(wide, 0.5):.1f}" height="{tall}" {how}/>' if wide > 0 else ""


def text(x, y, what, kind):
    return f'<text x="{x:.1f}" y="{y:g}" class="{kind}">{html.escape(str(what))}</text>'
