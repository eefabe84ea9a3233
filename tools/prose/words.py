"""The words that documents do not use, each with what they use instead.

A pattern sees the text of a paragraph or a cell in which code spans are one character (COMMAND or CODE) and quoted text is left out, so that
words which formats, commands and output fix may be named.
"""

import re

from .markdown import CODE, COMMAND

# A pattern, and what to write.
CROSSED_OUT = tuple((re.compile(pattern, re.IGNORECASE), instead) for pattern, instead in (
    (r"\bbehind\b(?! an? (?:\w+ )?(?:socket|lock|cell|trait)\b)", "after, next to"),
    (r"\bbeside\b", "next to, besides, compared with"),
    (r"\bwant of memory\b|\bmemory (?:is|was|were|be) wanting\b|\bwants? memory\b", "out of memory, allocation failure"),
    (r"\bat fault\b|\bfault lines?\b", "invalid, error line"),
    (r"\btold\b|\btells\b", "is reported, reports, returns"),
    (r"\b(?:put|puts|putting) out\b", "outputs, output"),
    (r"\bparted\b", "separated, splits"),
    (r"\b(?:slices?|ranges?)\b[^.;:]{0,20}\bmeets?\b", "overlap"),
    (r"\b(?:stand|stands|stood|standing)\b", "is, is listed, is implemented"),
    (r"\b(?:come|comes|came) to\b", "is, results in"),
    (r"(?<!there )\b(?:is|are|was|were) no (?!longer\b|more\b|less\b|fewer\b|later\b|greater\b|smaller\b)", "is not a"),
    (r"\bbut for\b|\bnone but\b", "except, only"),
    (CODE + r" answers\b", "returns, replies"),
    (rf"\bwords?,? [{CODE}{COMMAND}]|\bwords? of the program\b|\bprogram's words?\b|\bcommand words?\b", "a command, a subcommand"),
    (r"\(own\b|\bown\)|\b(?:is|are) own\b|\*\*own\*\*", "implementation-specific"),
    (r"\bother slices\b|\bre-?slic(?:e|es|ed|ing|ings)\b", "slice change, reconfiguration"),
    (r"\bkept (?:response|responses|reply|replies|transaction|transactions|entry|entries)\b", "cached response"),
    (r"\b(?:give|gives|given|gave|giving) up\b", "abandoned after the last retransmission"),
    (r"\bsent again\b|\bsends? (?:it |them )?again\b", "retransmitted"),
    (r"\bsilent causes?\b", "drop reason, why there is no reply"),
    (r"\bask(?:s|ed|ing)? for (?:\w+ ){0,2}minislots?\b", "sends a bandwidth request"),
    (r"\bheadline\b", "non-interference theorem"),
    (r"\bthe gate\b|\bmerge gate\b", "CI, the proof run"),
    (r"\blets? go\b|\bletting go\b", "frees, drops"),
    (r"\bheard\b", "received"),
    (r"\bthe house\b|\bspoils?\b (?!of\b)|\bread aloud\b|\bthe walk\b", "no metaphor"),
))


def crossed_out(text):
    """Returns the crossed-out words of a text, each with what to write instead."""
    text = re.sub(r'"[^"]{1,200}"', CODE, text)
    return [(found.group(0), instead) for pattern, instead in CROSSED_OUT for found in pattern.finditer(text)]
