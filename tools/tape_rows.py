#!/usr/bin/env python3
"""The rows of crates/vectors_tape: tapes as JSON, and what each comes to when it is read and written again.

python3 tools/tape_rows.py --write      makes the rows of the crate anew, its files stdin and stdout
python3 tools/tape_rows.py PROGRAM      runs the crate's program on the rows, and compares its lines

What is wanted stands here, by hand, and the reader of tapes in tools/executor, which was written from the rules of the
format apart from the project, must say the same. Over three types, of which the third is equal to the first, a row is
read over so many and written over so many. It prints what differs and how many rows there are, and ends with 1 where
something differs.
"""

import json
import os
import subprocess
import sys

HERE = os.path.dirname(os.path.abspath(__file__))
CRATE = os.path.join(HERE, "..", "crates", "vectors_tape")
sys.path.insert(0, os.path.join(HERE, "executor"))

from tapes import spelled, there_and_back  # noqa: E402
from value_types import make_func_type  # noqa: E402

PLAIN = make_func_type([], [])
TYPES = [PLAIN, make_func_type(["i32"], ["i64"]), PLAIN]
BAD, UNKNOWN = "BadTape", "UnknownType"
U64 = 2**64 - 1
VECTOR = "000102030405060708090a0b0c0d0eff"

# What is no number, name, operand, text, function type, reference type, value type, boolean, or bytes.
NO_NUMBER = [-1, 1.5, 2**64, "1", None]
NO_NAME = [-1, "x", {"arg": -1}, {"caller": False}]
NO_OPERAND = [7, {"i32": 2**32}, {"i32": 1, "i64": 1}, {}]
NO_TEXT = [7, None]
NO_TYPE = [3, "func"]
NO_REFERENCE = ["i32", "func", {"null": True}, {"ref": "func", "null": 1}]
NO_VALUE_TYPE = ["f128", {"ref": "i32"}]
NO_TRUTH = [1, "true"]
NO_BYTES = ["0", "0g", [0]]
NO_LIMIT = [2**32, -1, "1"]
NO_EVENT = ["ended", True]
NO_LIST = [{}, None]

# Each operation with all of its keys; behind each key what is none of its kind, and what stands for it where it may be
# left out.
OPERATIONS = {
    "memory_new": {"min": (1, NO_LIMIT), "max": (2, [0, *NO_LIMIT], None), "page": (16, [1, 15, 17, None], 16)},
    "memory_read": {"memory": (0, NO_NAME), "at": (U64, NO_NUMBER), "len": (4, NO_NUMBER)},
    "memory_write": {"memory": ({"value": [1, 0]}, NO_NAME), "at": (0, NO_NUMBER), "bytes": ("00ff", NO_BYTES)},
    "memory_size": {"memory": ({"arg": 2}, NO_NAME)},
    "memory_grow": {"memory": ({"stored": 1}, NO_NAME), "delta": (U64, NO_NUMBER)},
    "table_new": {"ref": ({"null": True, "ref": "func"}, NO_REFERENCE), "min": (0, NO_LIMIT),
                  "max": (3, NO_LIMIT, None), "init": ({"func": None}, NO_OPERAND)},
    "table_get": {"table": (0, NO_NAME), "at": (1, NO_NUMBER)},
    "table_set": {"table": (0, NO_NAME), "at": (1, NO_NUMBER), "value": ({"func": [1, 2]}, NO_OPERAND)},
    "table_size": {"table": (5, NO_NAME)},
    "table_grow": {"table": (5, NO_NAME), "delta": (1, NO_NUMBER), "value": ({"extern": U64}, NO_OPERAND)},
    "table_copy": {"dst": (0, NO_NAME), "dst_at": (1, NO_NUMBER), "src": ({"arg": 0}, NO_NAME),
                   "src_at": (2, NO_NUMBER), "len": (3, NO_NUMBER)},
    "table_fill": {"table": (0, NO_NAME), "at": (1, NO_NUMBER), "value": ({"any": 5}, NO_OPERAND),
                   "len": (2, NO_NUMBER)},
    "global_new": {"val": ("i32", NO_VALUE_TYPE), "mut": (True, NO_TRUTH, False), "init": ({"i32": -1}, NO_OPERAND)},
    "global_get": {"global": (0, NO_NAME)},
    "global_set": {"global": (0, NO_NAME), "value": ({"name": {"arg": 0}}, NO_OPERAND)},
    "tag_new": {"type": (1, NO_TYPE)},
    "get_export": {"instance": ({"caller": True}, NO_NAME), "name": ("two\nlines", NO_TEXT)},
    "get_fuel": {},
    "set_fuel": {"fuel": (U64, NO_NUMBER)},
    "yield_interval": {"interval": (9, NO_NUMBER[:-1])},
    "set_epoch_deadline": {"ticks": (0, NO_NUMBER)},
    "call": {"func": (4, NO_NAME), "args": ([{"f64": 1}, {"name": 0}], [*NO_LIST, [7]], []),
             "results": (2, NO_NUMBER, None)},
}
STEP = {"body": (2, NO_NUMBER), "state": (U64, NO_NUMBER), "event": ("replied", NO_EVENT),
        "answer": ({"fail": True}, [{"fail": False}, {}, "fail", {"fail": True, "return": []}]), "next": (1, NO_NUMBER)}
TAPE = {"steps": ([], [*NO_LIST, [7]]), "readings": ([7, "fault"], [*NO_LIST, ["yes"]]),
        "growths": (["yes", "no", "fault"], [*NO_LIST, [True]])}

# Operands beside those above, as they are read and as they are written.
OPERANDS = [
    ({"i32": -(2**31)}, None), ({"i32": 2**31 - 1}, None), ({"i32": 2**32 - 1}, {"i32": -1}),
    ({"i32": 2**31}, {"i32": -(2**31)}), ({"i32": -(2**31) - 1}, BAD), ({"i64": -(2**63)}, None),
    ({"i64": U64}, {"i64": -1}), ({"i64": 2**64}, BAD), ({"i64": -(2**63) - 1}, BAD), ({"f32": 2**32 - 1}, None),
    ({"f32": 2**32}, BAD), ({"f32": -1}, BAD), ({"f64": U64}, None), ({"v128": VECTOR}, None),
    ({"v128": VECTOR.upper()}, {"v128": VECTOR}), ({"v128": VECTOR[1:]}, BAD), ({"v128": 0}, BAD),
    ({"func": None}, None), ({"func": [1, 0]}, None), ({"func": [2**63, U64]}, None), ({"func": [0, 0]}, BAD),
    ({"func": [2**63 + 1, 0]}, BAD), ({"func": [1]}, BAD), ({"func": [1, 0, 0]}, BAD), ({"func": [1, -1]}, BAD),
    ({"func": 0}, BAD), ({"extern": None}, None), ({"extern": 0}, None), ({"extern": 2**64}, BAD),
    ({"any": None}, None), ({"any": 2**31 - 1}, None), ({"any": 2**31}, BAD), ({"ref": None}, BAD),
]
NAMES = [
    (U64, None), ({"value": [2, 3]}, None), ({"stored": 0}, None), ({"caller": True}, None), ({"value": [1]}, BAD),
    ({"value": [1, 2, 3]}, BAD), ({"reply": 0}, BAD), ({"arg": 0, "stored": 0}, BAD),
]
VALUE_TYPES = [
    ("i32", None), ("i64", None), ("f32", None), ("f64", None), ("v128", None),
    ("anyref", {"null": True, "ref": "any"}), ("funcref", {"null": True, "ref": "func"}),
    ("externref", {"null": True, "ref": "extern"}),
    ({"ref": "func"}, {"null": True, "ref": "func"}), ({"ref": 1}, {"null": True, "ref": 1}),
    ({"null": False, "ref": 2}, {"null": False, "ref": 0}), ({"ref": 3}, BAD), ({"ref": "funcref"}, BAD),
    *(({"null": False, "ref": heap}, None) for heap in ("nofunc", "extern", "noextern", "any", "eq", "i31", "none")),
]
# What names a type: over so many types read, over so many written, and what it comes to.
OVER = [
    ({"do": "tag_new", "type": 1}, 3, 2, None), ({"do": "tag_new", "type": 1}, 3, 1, UNKNOWN),
    ({"do": "tag_new", "type": 1}, 1, 3, BAD), ({"do": "tag_new", "type": 2}, 3, 1, {"do": "tag_new", "type": 0}),
    ({"do": "tag_new", "type": 0}, 1, 0, UNKNOWN),
    ({"do": "global_new", "val": {"null": False, "ref": 1}, "mut": False, "init": {"func": [1, 0]}}, 2, 1, UNKNOWN),
    ({"do": "table_new", "ref": {"null": True, "ref": 1}, "min": 0, "init": {"func": None}}, 2, 2, None),
    ({"do": "table_new", "ref": {"null": True, "ref": 1}, "min": 0, "init": {"func": None}}, 2, 0, UNKNOWN),
]
BESIDE = [
    "[]", "null", "0", '""', "{}", '{"steps":[],"readings":[],"growths":[],"hooks":[]}',
    '{"steps":[],"readings":[-1],"growths":[]}', '{"steps":[],"readings":[18446744073709551616],"growths":[]}',
    '{"steps":[],"readings":[null],"growths":[]}', '{"steps":[],"readings":[],"growths":["Yes"]}',
]


def written(around, part):
    """A tape around a part, members in the order of their keys."""
    return spelled(json.loads(around(spelled(part))))


class Rows:
    def __init__(self):
        self.rows = []

    def add(self, text, due, read=3, written=3):
        self.rows.append(("%d %d %s" % (read, written, text), due))

    def parts(self, keys, around, also=None):
        """An object with these keys and others: whole, with a key more, and with each key left out, of another kind,
        and doubled."""
        whole = {**(also or {}), **{key: content for key, (content, *_) in keys.items()}}
        right = written(around, whole)
        self.add(around(spelled(whole)), right)
        self.add(around(spelled({**whole, "more": 0})), BAD)
        for key, (content, wrong, *default) in keys.items():
            left = {other: value for other, value in whole.items() if other != key}
            filled = left if default == [None] else {**left, key: default[0]} if default else None
            self.add(around(spelled(left)), BAD if filled is None else written(around, filled))
            for other in wrong:
                self.add(around(spelled({**left, key: other})), BAD)
            both = [spelled({key: value})[1:-1] for value in (wrong[0], content)]
            for members, due in ((both, right), (both[::-1], BAD)):
                self.add(around("{%s}" % ",".join([*filter(None, [spelled(left)[1:-1]]), *members])), due)

    def forms(self, forms, around):
        """Each form of a part, which is written as itself where it says no other."""
        for form, due in forms:
            self.add(around(spelled(form)), due if due == BAD else written(around, form if due is None else due))


def with_step(step):
    return '{"steps":[%s],"readings":[],"growths":[]}' % step


def with_answer(answer):
    return with_step('{"body":0,"state":0,"event":"start","answer":%s,"next":0}' % answer)


def with_operation(operation):
    return with_answer('{"call":%s}' % operation)


def with_value(value):
    return with_answer('{"return":[%s]}' % value)


def with_name(name):
    return with_operation('{"do":"memory_size","memory":%s}' % name)


def with_value_type(ty):
    return with_operation('{"do":"global_new","init":{"i32":0},"mut":false,"val":%s}' % ty)


def all_rows():
    rows = Rows()
    rows.parts(TAPE, lambda tape: tape)
    rows.parts(STEP, with_step)
    for do, keys in OPERATIONS.items():
        rows.parts(keys, with_operation, {"do": do})
    for do in ("func_new", "instantiate", "memory_copy"):
        rows.add(with_operation('{"do":"%s","type":0,"body":0,"module":0}' % do), BAD)
    rows.add(with_operation("{}"), BAD)
    rows.add(with_operation('{"do":7}'), BAD)
    rows.forms(OPERANDS, with_value)
    rows.forms([({"name": 0}, BAD)], with_value)
    rows.forms(NAMES, with_name)
    rows.forms(VALUE_TYPES, with_value_type)
    rows.forms([({"do": "yield_interval", "interval": None}, None)], with_operation)
    for operation, read, over, due in OVER:
        line = due if isinstance(due, str) else written(with_operation, due or operation)
        rows.add(with_operation(spelled(operation)), line, read, over)
    for text in BESIDE:
        rows.add(text, BAD)
    rows.add("{", "no answer")
    return rows.rows


def by_the_other_reader(row):
    read, written, text = row.split(" ", 2)
    return there_and_back(TYPES[: int(read)], TYPES[: int(written)], text)


def main(words):
    rows = all_rows()
    differ = [(row, due, by_the_other_reader(row)) for row, due in rows if by_the_other_reader(row) != due]
    if words == ["--write"]:
        for name, lines in (("stdin", [row for row, _ in rows]), ("stdout", [due for _, due in rows])):
            with open(os.path.join(CRATE, name), "w", encoding="utf-8") as file:
                file.write("".join(line + "\n" for line in lines))
    elif words:
        text = "".join(row + "\n" for row, _ in rows)
        done = subprocess.run(words, input=text.encode(), capture_output=True, check=False)
        lines = done.stdout.decode().splitlines()
        differ += [(row, due, line) for (row, due), line in zip(rows, lines, strict=True) if line != due]
    for row, due, line in differ:
        print("%s\n  wanted %s\n  is     %s" % (row, due, line))
    print("%d rows, %d differ" % (len(rows), len(differ)))
    return 1 if differ else 0


if __name__ == "__main__":
    sys.exit(main(sys.argv[1:]))
