"""Reads the JSON of a tape, and writes a tape as JSON.

Written from the rules of the format alone (crates/wasm_tape/README.md): commands and operands are read as in scripts,
but that an operand may be a function by its store and its place, and that the name of an export is any text.
"""

import json
from collections import namedtuple

import script_reader
from json_input import BadJson, read_json
from reading import BadScript, Members, demand, items, line, number, one_of, only_true, sole, text
from script_reader import VALUES, CommandReader, Operand
from value_types import RefType

Tape = namedtuple("Tape", "steps readings growths")
Step = namedtuple("Step", "body state event answer next")

MOST_STORE = 2**63


class UnknownType(Exception):
    """A function type is none of the types that have a number."""


def handle(value):
    if value is None:
        return None
    demand(isinstance(value, list) and len(value) == 2)
    return number(value[0], MOST_STORE, 1), number(value[1])


TAPED_VALUES = {**VALUES, "func": handle}


def operand(value):
    kind, content = sole(value, TAPED_VALUES)
    return Operand(None, content) if kind == "name" else Operand((kind, content), None)


def operands(value):
    return items(value, operand)


def returned(value):
    values = operands(value)
    demand(all(one.name is None for one in values))
    return values


class TapeReader(CommandReader):
    """Reads a tape over a list of function types."""

    own = {script_reader.operand: operand, script_reader.operands: operands, line: text}

    def answer(self, value):
        return sole(value, {"return": returned, "fail": only_true, "call": self.operation})

    def step(self, value):
        members = Members(value)
        step = Step(
            members.take("body", number),
            members.take("state", number),
            members.take("event", lambda event: one_of(event, ("start", "replied"))),
            members.take("answer", self.answer),
            members.take("next", number),
        )
        members.end()
        return step

    def tape(self, value):
        members = Members(value)
        tape = Tape(
            members.take("steps", lambda steps: items(steps, self.step)),
            members.take("readings", lambda readings: items(readings, reading)),
            members.take("growths", lambda growths: items(growths, growth)),
        )
        members.end()
        return tape


def reading(value):
    return one_of(value, ("fault",)) if isinstance(value, str) else number(value)


def growth(value):
    return one_of(value, ("yes", "no", "fault"))


def read_tape(types, spelled):
    """The tape that a text spells over these types, or BadScript; BadJson where the text is no JSON."""
    return TapeReader(types).tape(read_json(spelled.encode()))


# ------------------------------------------------------------------------------------------------------------- writing


def signed(content, bits):
    return content - 2**bits if content >= 2 ** (bits - 1) else content


WRITTEN_VALUES = {"i32": lambda content: signed(content, 32), "i64": lambda content: signed(content, 64),
                  "v128": lambda content: "%032x" % content}


def written_name(name):
    form, content = name
    return content if form == "reply" else {form: content}


def written_operand(one):
    if one.name is not None:
        return {"name": written_name(one.name)}
    kind, content = one.value
    return {kind: WRITTEN_VALUES.get(kind, lambda plain: plain)(content)}


class TapeWriter:
    """Writes a tape, each function type as the number of the first equal one of a list."""

    def __init__(self, types):
        self.types = types

    def func_type(self, ty):
        if ty not in self.types:
            raise UnknownType
        return self.types.index(ty)

    def value_type(self, ty):
        if not isinstance(ty, RefType):
            return ty
        return {"null": ty.nullable, "ref": ty.heap if isinstance(ty.heap, str) else self.func_type(ty.heap)}

    def limits(self, ty):
        limits = {"min": ty.minimum}
        return limits if ty.maximum is None else {**limits, "max": ty.maximum}

    def type_keys(self, do, ty):
        """The keys of a type that a command holds."""
        if do == "memory_new":
            return {**self.limits(ty), "page": ty.page}
        if do == "table_new":
            return {**self.limits(ty), "ref": self.value_type(ty.element)}
        if do == "global_new":
            return {"val": self.value_type(ty.content), "mut": ty.variable}
        return {"type": self.func_type(ty)}

    def key(self, key, content):
        if isinstance(content, Operand):
            return {key: written_operand(content)}
        if key == "args":
            return {key: [written_operand(one) for one in content]}
        if isinstance(content, bytes):
            return {key: content.hex()}
        return {key: written_name(content) if isinstance(content, tuple) else content}

    def command(self, command):
        written = {"do": command.do}
        for key, content in command.keys.items():
            if key == "type":
                written.update(self.type_keys(command.do, content))
            elif (command.do, key, content) != ("call", "results", None):
                written.update(self.key(key, content))
        return written

    def answer(self, answer):
        form, content = answer
        if form == "return":
            return {form: [written_operand(one) for one in content]}
        return {form: self.command(content) if form == "call" else content}

    def step(self, step):
        return {**step._asdict(), "answer": self.answer(step.answer)}

    def tape(self, tape):
        return {"steps": [self.step(step) for step in tape.steps], "readings": tape.readings, "growths": tape.growths}


def spelled(value):
    """JSON on one line, members in the order of their keys."""
    return json.dumps(value, sort_keys=True, separators=(",", ":"), ensure_ascii=False)


def there_and_back(read, written, text_of_tape):
    """The text of a tape that was read over some types and is written over others, or why there is none."""
    try:
        return spelled(TapeWriter(written).tape(read_tape(read, text_of_tape)))
    except BadJson:
        return "no answer"
    except BadScript:
        return "BadTape"
    except UnknownType:
        return "UnknownType"
