"""What the suite says of a line: of values, of traps, and of what is refused.

The suite writes integers and the bits of floats as unsigned numbers, and names traps by texts, which changed over time.
"""

import re

TRAPS = (
    ("out of bounds memory access", ["MemoryOutOfBounds"]),
    ("out of bounds table access", ["TableOutOfBounds"]),
    ("data segment does not fit", ["MemoryOutOfBounds"]),
    ("elements segment does not fit", ["TableOutOfBounds"]),
    ("out of bounds", ["MemoryOutOfBounds", "TableOutOfBounds"]),
    ("undefined", ["TableOutOfBounds"]),
    ("uninitialized", ["IndirectCallToNull"]),
    ("indirect call", ["BadSignature"]),
    ("callIndirect", ["BadSignature"]),
    ("unreachable", ["UnreachableCodeReached"]),
    ("integer divide by zero", ["IntegerDivisionByZero"]),
    ("integer overflow", ["IntegerOverflow"]),
    ("call stack exhausted", ["StackOverflow"]),
)
WIDTHS = {"i32": 32, "i64": 64, "f32": 32, "f64": 64}
# The highest bit of the fraction, and the exponent with it.
QUIET = {"f32": 0x7FC00000, "f64": 0x7FF8000000000000}


class Unsaid(Exception):
    """What a session cannot say, with the reason."""


def operand(value):
    """An argument of the suite as an operand of a session."""
    kind, number = value["type"], value.get("value")
    if kind in WIDTHS and isinstance(number, str) and number.isdigit():
        return {kind: int(number)}
    if kind == "externref":
        return {"extern": None if number == "null" else int(number)}
    if kind == "funcref" and number == "null":
        return {"func": None}
    raise Unsaid("a value that a session cannot write: %s" % kind)


def is_float(kind, wanted, digits):
    bits = int(digits, 16)
    magnitude = bits & (1 << WIDTHS[kind] - 1) - 1
    if wanted == "nan:canonical":
        return magnitude == QUIET[kind]
    if wanted == "nan:arithmetic":
        return magnitude & QUIET[kind] == QUIET[kind]
    return bits == int(wanted)


def is_value(word, wanted):
    """Whether a word of a line is a value of the suite."""
    kind, number = wanted["type"], wanted.get("value")
    head, _, shown = word.partition(":")
    if head != kind:
        return False
    if kind in ("i32", "i64"):
        return int(shown) % (1 << WIDTHS[kind]) == int(number)
    if kind in WIDTHS:
        return is_float(kind, number, shown)
    if kind == "funcref" and number != "null":
        return shown != "null"
    return shown == number


class Values:
    def __init__(self, wanted):
        for value in wanted:
            if value["type"] not in (*WIDTHS, "externref", "funcref"):
                raise Unsaid("a value that a session cannot write: %s" % value["type"])
        self.wanted = wanted

    def holds(self, line):
        words = line.split(" ")
        if words[:2] != ["ok", "values"] or len(words) != 2 + len(self.wanted):
            return False
        return all(map(is_value, words[2:], self.wanted))

    def __str__(self):
        return "values " + " ".join("%s:%s" % (one["type"], one.get("value")) for one in self.wanted)


class Line:
    """A line by its beginning."""

    def __init__(self, *patterns):
        self.patterns = patterns

    def holds(self, line):
        return any(re.fullmatch(pattern, line) for pattern in self.patterns)

    def __str__(self):
        return " or ".join(self.patterns)


def trap(text):
    """The line of a trap that the suite names so."""
    for beginning, names in TRAPS:
        if text.startswith(beginning):
            return Line(*["trap " + name for name in names])
    raise Unsaid("a trap of instructions that are not in the profile: %s" % text)


OK = Line("ok.*")
INSTANCE = Line("ok instance [0-9]+")
NO_EXPORT = Line("refused NoExport")
IMPORT_TYPE = Line("refused ImportType [0-9]+")
