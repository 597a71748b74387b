"""The rules of a module's declaration, and the first one that is broken: by rule, then by part, then by item.

Written from the rules of the session language alone.
"""

from code_typing import Spaces, Typing
from value_types import BOTTOMS, RefType, has_default, matches

MOST_ENTRIES = 1000000
MOST_LOCALS = 10000
MOST_BYTES = 2**24
MOST_INSTRUCTIONS = 2**20
MOST_LABELS = 2**20
DEEPEST = 256
LISTS = ("types", "imports", "functions", "tables", "memories", "globals", "tags", "exports", "elements", "datas")
CONSTANT_TYPES = {"i32.const": "i32", "i64.const": "i64", "f32.bits": "f32", "f64.bits": "f64", "v128.hex": "v128"}


def inner_lists(instruction):
    """The lists of instructions that a structured instruction holds."""
    return [part for part in instruction[2:] if isinstance(part, list)] if instruction[0] in ("block", "loop", "if") else []


def all_instructions(code):
    """Each instruction of a body with the depth of its list, block 0 being at depth 1."""
    open_lists = [(code, 1)]
    while open_lists:
        instructions, depth = open_lists.pop()
        for instruction in instructions:
            yield instruction, depth
            open_lists.extend((inner, depth + 1) for inner in inner_lists(instruction))


class Validator:
    def __init__(self, module):
        self.module = module
        self.spaces = Spaces(module)

    def first_broken(self):
        """The name of the first broken rule, its part and its item, or None."""
        rules = [self.size, self.index, self.local, self.shape, self.const, self.element, self.export_name]
        for rule in [*rules, self.start, self.body]:
            for part, place in rule():
                name = "".join(word.capitalize() for word in rule.__name__.split("_"))
                return name, part, place
        return None

    def places(self, part, is_broken):
        """The items of a part that break a rule, in order."""
        for place, entry in enumerate(getattr(self.module, part)):
            if is_broken(entry):
                yield part, place

    def size(self):
        for part in LISTS:
            if part == "functions":
                yield from self.places(part, self.has_many_locals)
            elif part == "elements":
                yield from self.places(part, lambda segment: len(segment.items) > MOST_ENTRIES)
            elif part == "datas":
                yield from self.places(part, lambda segment: len(segment.bytes) > MOST_BYTES)
            if len(getattr(self.module, part)) > MOST_ENTRIES:
                yield part, MOST_ENTRIES

    def has_many_locals(self, function):
        types = self.module.types
        params = types[function.type].params if function.type < len(types) else ()
        return len(params) + len(function.locals) > MOST_LOCALS

    def index(self):
        types, has = self.module.types, self.spaces.has
        yield from self.places("functions", self.names_no_type)
        yield from self.places("tags", lambda number: number >= len(types))
        yield from self.places("exports", lambda export: not has(export.kind, export.index))
        yield from self.places("elements", lambda entry: entry.mode == "active" and not has("table", entry.table))
        yield from self.places("datas", lambda entry: entry.mode == "active" and not has("memory", entry.memory))
        if self.module.start is not None and not has("func", self.module.start):
            yield "start", 0

    def names_no_type(self, function):
        count = len(self.module.types)
        blocks = (one for one, _depth in all_instructions(function.code) if inner_lists(one))
        return function.type >= count or any(one[1] >= count for one in blocks)

    def local(self):
        return self.places("functions", lambda function: not all(map(has_default, function.locals)))

    def shape(self):
        return self.places("functions", self.is_too_large)

    def is_too_large(self, function):
        instructions, labels, deepest = 0, 0, 1
        for one, depth in all_instructions(function.code):
            instructions += 1
            labels += len(one[1]) + 1 if one[0] == "br_table" else 0
            deepest = max(deepest, depth + 1 if inner_lists(one) else depth)
        return instructions > MOST_INSTRUCTIONS or labels > MOST_LABELS or deepest > DEEPEST

    def const(self):
        imported = self.spaces.imported_globals
        everything = len(self.spaces.globals)
        yield from self.places("tables", lambda table: not self.fits(table.init, table.type.element, imported))
        for place, entry in enumerate(self.module.globals):
            if not self.fits(entry.init, entry.type.content, imported + place):
                yield "globals", place

        def is_broken(segment):
            offset_fits = segment.offset is None or self.fits(segment.offset, "i32", everything)
            return not offset_fits or not all(self.fits(one, segment.type, everything) for one in segment.items)

        yield from self.places("elements", is_broken)
        yield from self.places(
            "datas", lambda data: data.offset is not None and not self.fits(data.offset, "i32", everything)
        )

    def fits(self, constant, wanted, globals_there):
        """Whether a constant expression, which may name so many globals, is of the wanted type."""
        name, content = constant
        if name == "ref.null":
            return matches(RefType(True, BOTTOMS[content]), wanted)
        if name == "ref.func":
            there = content < self.spaces.func_count()
            return there and matches(RefType(False, self.spaces.func_type(content)), wanted)
        if name == "global.get":
            if content >= globals_there:
                return False
            ty = self.spaces.globals[content]
            return not ty.variable and matches(ty.content, wanted)
        return matches(CONSTANT_TYPES[name], wanted)

    def element(self):
        def is_broken(segment):
            return segment.mode == "active" and not matches(segment.type, self.spaces.tables[segment.table].element)

        return self.places("elements", is_broken)

    def export_name(self):
        names = set()

        def is_broken(export):
            known = export.name in names
            names.add(export.name)
            return known

        return self.places("exports", is_broken)

    def start(self):
        if self.module.start is not None:
            ty = self.spaces.func_type(self.module.start)
            if ty.params or ty.results:
                yield "start", 0

    def body(self):
        return self.places("functions", self.is_badly_typed)

    def typing(self, function):
        return Typing(self.spaces, self.module.types[function.type], function.locals)

    def is_badly_typed(self, function):
        return self.typing(function).fault(function.code) is not None
