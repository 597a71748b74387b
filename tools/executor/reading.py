"""The small readers of a script: whole numbers, texts, bytes, lists, objects by their keys, and types.

Written from the rules of the session language alone. Each takes a JSON value and gives what it spells, or raises BadScript.
"""

import re

import value_types
from value_types import BadType, GlobalType, RefType

DIGITS = re.compile(r"(?:[0-9a-fA-F]{2})*\Z")
U32 = 2**32 - 1
U64 = 2**64 - 1
SIMPLE_HEAPS = ("func", "nofunc", "extern", "noextern", "any", "eq", "i31", "none")
NAMED_REFERENCES = {"funcref": "func", "externref": "extern", "anyref": "any"}


class BadScript(Exception):
    """The value is no script."""


def demand(condition):
    if not condition:
        raise BadScript


def number(value, most=U64, least=0):
    demand(type(value) is int and least <= value <= most)
    return value


def index(value):
    return number(value, U32)


def integer(value, bits):
    """A signed or unsigned integer of so many bits, as a number from 0."""
    return number(value, 2**bits - 1, -(2 ** (bits - 1))) % 2**bits


def truth(value):
    demand(type(value) is bool)
    return value


def text(value):
    demand(isinstance(value, str))
    return value


def line(value):
    """A text of one line."""
    demand("\n" not in text(value) and "\r" not in value)
    return value


def hexadecimal(value):
    demand(DIGITS.match(text(value)))
    return bytes.fromhex(value)


def vector(value):
    demand(len(text(value)) == 32)
    return int.from_bytes(hexadecimal(value), "big")


def items(value, read):
    demand(isinstance(value, list))
    return [read(item) for item in value]


def one_of(value, words):
    demand(isinstance(value, str) and value in words)
    return value


class Members:
    """The members of an object, each of which is read once; `end` says that there is no other."""

    def __init__(self, value):
        demand(isinstance(value, dict))
        self.left = dict(value)

    def has(self, key):
        return key in self.left

    def take(self, key, read):
        demand(key in self.left)
        return read(self.left.pop(key))

    def option(self, key, read, default=None):
        return read(self.left.pop(key)) if key in self.left else default

    def only(self, keys):
        """The one of the keys that is there."""
        there = [key for key in keys if key in self.left]
        demand(len(there) == 1)
        return there[0]

    def end(self):
        demand(not self.left)


def sole(value, readers):
    """The one key of an object of one member, and what its reader gives."""
    demand(isinstance(value, dict) and len(value) == 1)
    key = next(iter(value))
    demand(key in readers)
    return key, readers[key](value[key])


def only_true(value):
    demand(value is True)
    return True


def only_null(value):
    demand(value is None)


def checked(make, *parts):
    """The type of these parts, where they make one."""
    try:
        return make(*parts)
    except BadType:
        raise BadScript from None


class TypeReader:
    """Reads types over a list of function types, to which a heap type's number points."""

    def __init__(self, types):
        self.types = types

    def func_type(self, value):
        place = number(value)
        demand(place < len(self.types))
        return self.types[place]

    def heap(self, value):
        return one_of(value, SIMPLE_HEAPS) if isinstance(value, str) else self.func_type(value)

    def value_type(self, value):
        if isinstance(value, str):
            if value in NAMED_REFERENCES:
                return RefType(True, NAMED_REFERENCES[value])
            return one_of(value, value_types.NUMBERS)
        members = Members(value)
        heap = members.take("ref", self.heap)
        nullable = members.option("null", truth, True)
        members.end()
        return RefType(nullable, heap)

    def reference(self, value):
        read = self.value_type(value)
        demand(value_types.is_reference(read))
        return read

    def value_list(self, value):
        return items(value, self.value_type)

    def memory_of(self, members):
        minimum, maximum = members.take("min", index), members.option("max", index)
        return checked(value_types.make_memory_type, minimum, maximum, members.option("page", number, 16))

    def table_of(self, members):
        element = members.take("ref", self.reference)
        minimum, maximum = members.take("min", index), members.option("max", index)
        return checked(value_types.make_table_type, element, minimum, maximum)

    def global_of(self, members):
        return GlobalType(members.take("val", self.value_type), members.option("mut", truth, False))

    def whole(self, read):
        """A reader of an object that has these keys alone."""

        def reader(value):
            members = Members(value)
            result = read(members)
            members.end()
            return result

        return reader


def read_types(value):
    """The list of function types of a script, each of which names only those before it."""
    types = []
    reader = TypeReader(types)

    def one(entry):
        members = Members(entry)
        params = members.option("params", reader.value_list, [])
        results = members.option("results", reader.value_list, [])
        final = members.option("final", truth, True)
        supertype = members.option("super", reader.func_type)
        members.end()
        types.append(checked(value_types.make_func_type, params, results, final, supertype))

    items(value, one)
    return types
