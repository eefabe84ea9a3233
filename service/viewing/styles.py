"""Gives each operator a style: a colour and a pattern, no two alike, readable on a light and on a dark background."""

from dataclasses import dataclass

from .run_output import MOST_OPERATORS, NoOutput

# Eight colours that differ for people who do not see red and green apart, too. Red is left to what is pending.
COLOURS = ("#2f6fb7", "#d9822b", "#2a6f5d", "#82baed", "#864413", "#2fbcb1", "#4f36e2", "#eda682")
# The marks of a pattern within a square of TILE pixels: left, top, width and height. Diagonal marks are left to polls.
TILE = 6
PATTERNS = {"plain": (), "lines": ((0, 2, 6, 2),), "dots": ((0, 0, 2, 2), (3, 3, 2, 2)), "bars": ((2, 0, 2, 6),)}
# How strong the marks are on their colour.
MARKS = 0.6


@dataclass(frozen=True)
class Style:
    """The style of an operator."""
    colour: str
    pattern: str

    @property
    def ink(self):
        """Returns the colour of what is written on this one: black or white, whichever differs more."""
        return ink_on(self.colour)


def styles(count):
    """Returns so many styles. The first eight differ in colour, later ones in colour or pattern."""
    if count > MOST_OPERATORS:
        raise NoOutput(f"{count} operators; a picture has at most {MOST_OPERATORS}")
    return [Style(COLOURS[place % len(COLOURS)], list(PATTERNS)[place // len(COLOURS)]) for place in range(count)]


def ink_on(colour):
    """Returns black or white, whichever differs more from a colour."""
    channels = [int(colour[place:place + 2], 16) / 255 for place in (1, 3, 5)]
    linear = [value / 12.92 if value <= 0.03928 else ((value + 0.055) / 1.055) ** 2.4 for value in channels]
    luminance = 0.2126 * linear[0] + 0.7152 * linear[1] + 0.0722 * linear[2]
    return "#000000" if (luminance + 0.05) ** 2 > 0.05 * 1.05 else "#ffffff"


def swatch(style, wide=26, tall=14):
    """Returns a small drawing of a style, for a page."""
    marks = [f'<rect x="{left + x}" y="{top + y}" width="{min(width, wide - left - x)}" height="{min(height, tall - top - y)}"/>'
             for left in range(0, wide, TILE) for top in range(0, tall, TILE)
             for x, y, width, height in PATTERNS[style.pattern] if left + x < wide and top + y < tall]
    return (f'<svg class="swatch" width="{wide}" height="{tall}"><rect width="{wide}" height="{tall}" fill="{style.colour}"/>'
            f'<g fill="{style.ink}" opacity="{MARKS}">{"".join(marks)}</g></svg>')
