"""Compares the program with the second implementation on odd spellings of TOML, hexadecimal, the line `---` and arguments.

    tools/run compare/odd_spellings [PROGRAM]

The generator seldom writes these. Prints how many there are and each that differs; exits with 1 if one does.

Python reads TOML 1.0, and the program reads TOML 1.1, which accepts more. Texts that only 1.1 accepts are in ONLY_IN_1_1 and
NOT_OF_PYTHON: the program has to accept them.
"""

import sys

from service.reference.answers import reference_answer
from tools import EXAMPLES, show_help
from tools.compare.program import PROGRAM, program_answer

P2 = (EXAMPLES / "plant_p2.toml").read_text()
CHANNEL, OPERATORS = P2[:P2.index("[[operator]]")], P2[P2.index("[[operator]]"):]
FLOW = '[[operator.flow]]\nmodem = "020000000003"\nencoding = "%s"\n'
CLASS = '[[class]]\nname = "g"\nencoding = "%s"\n'

VALUES = (
    "9223372036854775807", "9223372036854775808", "-9223372036854775809", "1_0", "1__0", "0x_1", "0xFFFFFFFFFFFFFFFF", "0o7", "0b1", "+5", "-0", "+0",
    "1e3", "nan", "-inf", "00", "0x00", "1979-05-27T07:32:00Z", "1979-13-27", "07:61:00", "[1,]", "[1,,]", "{a=1,a=2}", '"\\u00e9"', '"\\ud800"',
    "'a\\b'", '"a\tb"', '"a\x01b"', '"""a\nb"""', '"\x7f"', "true", "True", '[1, "a"]', "[[1],[2]]", "{}")
LINES = (
    "plant.head = 8", '"plant".x = 1', "a.b.c = 1", '"" = 1', "'' = 1", "\u00e9 = 1", '"\u00e9" = 1', "a b = 1", "a. b = 1", "a . b = 1", ".a = 1", "a. = 1",
    "a = 1\na.b = 2", "a.b = 2\na = 1", "[plant.sub]", "[[plant.sub]]\nq = 1", "[ plant2 ]", "[a.b]\n[a]", "[a]\n[a]", "[a.b]\n[a.b]", "[[a]]\n[a]",
    "a = []\n[[a]]", "[a]\n[[a]]", "[[a.b]]\n[a]", "[a]\nb = {}\n[a.b]", "[a]\nb.c = 1\n[a.b]", "[a]\nb.c = 1\n[a.b.d]", "# \x01", "# \t ok", "# \u00e9",
    "\r", "a = 1 b = 2", "a = 1 # c", "a\n= 1", "a =\n1", "[a]]", "[[a]", "[ [a] ]", "[a] x", 'a = "x" # y', "a = 1\r\nb = 2\r", "\x0c", "\u00a0",
    "a = '''x'''''", "a = '''x''''''", 'a = """x"""""', 'a = """x""""""', 'a = """\\\n  x"""', 'a = """x\\  \n  y"""', 'a = """x\\ y"""', "a = 'x\ny'",
    'a = "\\uD7FF\\uE000\\U0010FFFF"', 'a = "\\U00110000"', "1 = 2", "-1 = 2", "1.2 = 3", "[1.2]", "a = 1979-05-27 07:32:00", "a = 1979-05-27T",
    "a = 1979-05-27  07:32:00", "a = 1979-02-29", "a=1979-05-27T24:00:00", "a=1979-05-27t00:00:00z", "a=1979-05-27T00:00:00.123456789123",
    "a=1979-05-27T00:00:00+24:00", "a=1979-05-27T00:00:00+23:60", "a=.5", "a=5.", "a=1.e5", "a=1e", "a=1_e5", "a=1e1_0", "a=-.5", "a=0e0", "a=1.0_0",
    "a=1._0", "a=0.0", "a=00.1", "a=+inf", "a=inf_", "a={b.c=1,b.d=2}", "a={b={c=1},b.d=2}", "a=[1\n,2 # x\n]", "a=[#\n]", "a=tru", "a=truee", "a=",
    "=1", '"a"b=1', '"a".b=1\n"a"."b"=2', 'a="\\b\\t\\n\\f\\r\\"\\\\"', 'a="\\/"', 'a="\\u12"', "[]", "[[]]", "[a.]", "[.a]", '["a"]\n[a]')
PLANTS = (
    CHANNEL, OPERATORS, "", "---\n", "\n---", "operator = []\n" + CHANNEL, "operator = 1\n" + CHANNEL, "operator = [1]\n" + CHANNEL, "class = {}\n" + P2,
    "class = [[]]\n" + P2, 'class = [{name = "a", encoding = ""}]\n' + P2, 'class = [{name = "a", encoding = ""}, 3]\n' + P2,
    P2.replace("[plant]", "[[plant]]"), "plant = []\n" + OPERATORS, "plant = 1\n" + OPERATORS, P2.replace("\n", "\r\n"),
    P2 + 'x = """\n---\n"""\n', P2 + "--- \nT\n", P2 + "---\r\nT\n", P2 + "---\nT\r\n", CLASS % "" + CLASS % "zz" + P2)
ENCODINGS = (
    "0601070f0102", "0601070F0102", "0601010aFFFFFFFF", "", "0", "zz", "06 0107", "0601010a", "060102", "0601070404476f6c6400", "06010101020000",
    "06010101020001", "06010102040000000103020001", "060101050601010f020117", "0601010506000000000000", "0601070c00", "060107" + "0b00" * 300,
    "060101" + "0bff" + "00" * 255, "0601070a04FFFFFFFF", "0601011000", "0601010f0103", "0601010f0106", "0601010f010411040000000111", "0701", "070107",
    "01020001", "0f0109", "0F01020A04FFFFFFFF", "0701070701", "0701FF")
SCRIPTS = ("M 020000000001 \n", "M 020000000001\n", "---\n", "", "T", "T\n\n\nX\n")
WORDS = ((), ("one", "one"), ("run", "x"), ("check", "x"), ("history",), ("history", "A", "B"), ("history", ""), ("history", "Z"), ("One",), ("-",), ("--",),
         ("walk",), ("--versions",), ("-v",), ("run", "-x"), ("history", "A", "-x"), ("one", "-"), ("h",), ("hist", "A"), ("r",), ("",))
ONLY_IN_1_1 = ("{a=1,}", "{\n}", "{b=1\n}", '"\\x41"', '"\\e"', "07:32", "1979-05-27T00:00Z")
# Python's dates have no leap second and no year 0, and its reader accepts no byte order mark.
NOT_OF_PYTHON = ("a = 1979-05-27T00:00:60Z\n" + P2, "a = 0000-01-01\n" + P2, "\ufeff" + P2)


def cases():
    """Yields arguments and inputs for which both have to print the same."""
    for value in VALUES:
        yield ["check"], P2.replace("channel = 1", f"channel = {value}")
        yield ["check"], f"a = {value}\n{P2}"
    for line in LINES:
        yield ["check"], f"{line}\n{P2}"
        yield ["check"], f"{P2}{line}\n"
    for plant in PLANTS:
        yield ["check"], plant
    for encoding in ENCODINGS:
        yield ["run"], P2 + FLOW % encoding + "---\nT\nT\n"
        yield ["check"], CLASS % encoding + P2
    for script in SCRIPTS:
        yield ["run"], P2 + "---\n" + script
        yield ["history", "A"], P2 + "---\n" + script
    yield ["run"], P2 + "---"
    yield ["run"], P2.rstrip("\n") + "\n---\nT"
    yield ["history", "A"], P2.replace("frame_us", "frame_u")
    for words in WORDS:
        yield list(words), P2


def main():
    show_help(__doc__)
    program = sys.argv[1] if len(sys.argv) == 2 else PROGRAM
    count = differing = 0
    for words, text in cases():
        count += 1
        answer, right = program_answer(program, words, text.encode()), reference_answer(words, text.encode())
        if answer != right:
            differing += 1
            print(f"{words} {text!r}\n    program: {answer}\n    second implementation: {right}")
    print(f"{count - differing} of {count} odd spellings agree")
    newer = [f"a = {value}\n{P2}" for value in ONLY_IN_1_1] + list(NOT_OF_PYTHON)
    taken = [program_answer(program, ["check"], text.encode()) == (0, b"ok\n") for text in newer]
    print(f"{sum(taken)} of {len(newer)} texts that TOML 1.1 accepts, and Python's reader does not, are accepted")
    sys.exit(1 if differing or not all(taken) else 0)


if __name__ == "__main__":
    main()
