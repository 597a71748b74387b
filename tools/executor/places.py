"""Where code is not well typed: the place of the instruction, the operands before it, and what it wanted.

A place is written as in a script: `code[3][2][0]` is the first instruction in the list of the block that is the fourth one.
"""

import re

from main import deeply
from module_reader import read_modules
from reading import BadScript, read_types
from validator import Validator
from value_types import is_reference


def type_text(one):
    if not is_reference(one):
        return one
    heap = one.heap if isinstance(one.heap, str) else "a function type"
    return "%sreference to %s" % ("nullable " if one.nullable else "", heap)


def row(types):
    return "(%s)" % ", ".join(map(type_text, types))


def wanted_text(wanted, depth):
    """What was wanted there, in words."""
    if not isinstance(wanted, tuple):
        return wanted or "that does not fit it"
    if wanted[0] == "ends":
        return "the list is to end with " + row(wanted[1])
    if wanted[2] is not None:
        return "it wants %s where %s stands" % tuple(map(type_text, wanted[1:]))
    inner = " (an inner list sees the parameters of its block alone)" if depth > 1 else ""
    return "it wants %s where nothing is%s" % (type_text(wanted[1]), inner)


def bad_code(module, number):
    """Of a function whose code is not typed the steps to the place, and what is wrong there."""
    function, validator = module.functions[number], Validator(module)
    typing = validator.typing(function)
    fault = typing.fault(function.code)
    if fault is None:
        return "", ""
    steps = "".join("%s[%d]" % ("" if depth == 0 else "[%d]" % part, place)
                    for depth, (part, place) in enumerate(typing.places) if place is not None)
    if typing.places[-1][1] is None and len(typing.places) > 1:
        steps += "[%d]" % typing.places[-1][0]
    where = "behind its last instruction" if typing.places[-1][1] is None else "before it"
    stack = row(typing.seen) if typing.seen else "empty"
    return steps, "%s the stack is %s: %s" % (where, stack, wanted_text(*fault, len(typing.places)))


def module_of(declaration):
    """The module of a declaration, as types and module of a script have it, or none where a script cannot hold it."""
    try:
        return read_modules([declaration["module"]], read_types(declaration["types"]))[0]
    except BadScript:
        return None


def first_broken(declaration):
    """The rule that the module breaks first, the part and the item; or none."""
    def work():
        module = module_of(declaration)
        return module and Validator(module).first_broken()
    return deeply(work)


def place_in(declaration, number):
    """The place in a function whose code is not typed, with what is wrong there."""
    def work():
        steps, what = bad_code(module_of(declaration), number)
        one = declaration["module"]["functions"][number]["code"]
        for place in re.findall(r"\d+", steps):
            one = one[int(place)]
        name = " (%s)" % " ".join(str(word) for word in one if not isinstance(word, list)) if steps else ""
        return "at code%s%s: %s" % (steps, name, what)
    return deeply(work)
