"""The types of the session language, and which of them match which: value, reference and function types, and imports.

Written from the rules of the language alone, apart from the program and without a look at it. A number type is its name;
a function type is compared part by part, whatever the places in a list of types that spelled it.
"""

from collections import namedtuple

LARGEST_DEPTH = 32
LARGEST_SIZE = 65536

RefType = namedtuple("RefType", "nullable heap")
FuncType = namedtuple("FuncType", "final supertype params results depth size")
MemoryType = namedtuple("MemoryType", "minimum maximum page")
TableType = namedtuple("TableType", "element minimum maximum")
GlobalType = namedtuple("GlobalType", "content variable")

NUMBERS = ("i32", "i64", "f32", "f64", "v128")
TOPS = {"nofunc": "func", "func": "func", "noextern": "extern", "extern": "extern"}
TOPS.update({"none": "any", "i31": "any", "eq": "any", "any": "any"})
BOTTOMS = {"func": "nofunc", "extern": "noextern", "any": "none"}
ABOVE = {
    "func": ("func",),
    "noextern": ("noextern", "extern"),
    "extern": ("extern",),
    "none": ("none", "i31", "eq", "any"),
    "i31": ("i31", "eq", "any"),
    "eq": ("eq", "any"),
    "any": ("any",),
}


class BadType(Exception):
    """The parts make no type."""


def is_reference(value_type):
    return isinstance(value_type, RefType)


def top(heap):
    """The family of a heap type: func, extern or any."""
    return "func" if isinstance(heap, FuncType) else TOPS[heap]


def kind(value_type):
    """The kind of the values of a type: a number type, or the family of a reference type."""
    return top(value_type.heap) if is_reference(value_type) else value_type


def chain(func_type):
    """A function type and the supertypes behind it."""
    while func_type is not None:
        yield func_type
        func_type = func_type.supertype


def heap_matches(one, other):
    if isinstance(one, FuncType):
        if isinstance(other, FuncType):
            return any(member == other for member in chain(one))
        return other == "func"
    if one == "nofunc":
        return isinstance(other, FuncType) or other in ("nofunc", "func")
    return not isinstance(other, FuncType) and other in ABOVE[one]


def matches(one, other):
    """Whether a value type matches another."""
    if is_reference(one) != is_reference(other):
        return False
    if not is_reference(one):
        return one == other
    return heap_matches(one.heap, other.heap) and (not one.nullable or other.nullable)


def func_matches(one, other):
    return heap_matches(one, other)


def all_match(ones, others):
    return len(ones) == len(others) and all(map(matches, ones, others))


def make_func_type(params, results, final=True, supertype=None):
    """The function type of these parts, or BadType."""
    if supertype is not None:
        fits = not supertype.final and all_match(supertype.params, params) and all_match(results, supertype.results)
        if not fits:
            raise BadType
    within = [ty.heap for ty in (*params, *results) if is_reference(ty) and isinstance(ty.heap, FuncType)]
    if supertype is not None:
        within.append(supertype)
    depth = 1 + max((ty.depth for ty in within), default=0)
    size = 1 + len(params) + len(results) + sum(ty.size for ty in within)
    if depth > LARGEST_DEPTH or size > LARGEST_SIZE:
        raise BadType
    return FuncType(final, supertype, tuple(params), tuple(results), depth, size)


def make_memory_type(minimum, maximum, page):
    numbers = [minimum] if maximum is None else [minimum, maximum]
    if page not in (0, 16) or minimum > numbers[-1] or page == 16 and max(numbers) > 65536:
        raise BadType
    return MemoryType(minimum, maximum, page)


def make_table_type(element, minimum, maximum):
    if maximum is not None and minimum > maximum:
        raise BadType
    return TableType(element, minimum, maximum)


def has_default(value_type):
    return not is_reference(value_type) or value_type.nullable


def limits_match(declared, maximum, size):
    """Whether an object of this size and this maximum is within declared limits."""
    if size < declared.minimum:
        return False
    return declared.maximum is None or maximum is not None and maximum <= declared.maximum


def global_matches(declared, actual):
    if declared.variable != actual.variable:
        return False
    return declared.content == actual.content if declared.variable else matches(actual.content, declared.content)
