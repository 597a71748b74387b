"""The typing of code: what the operands are after each instruction, or that it does not fit.

Written from the rules of the session language alone. Operands are a list of types, the last one on top. What follows an
instruction that never goes on is not typed. Where code does not fit, `Typing` keeps where it stood.
"""

from value_types import BOTTOMS, NUMBERS, RefType, all_match, is_reference, matches

from arithmetic import LOADS, OPERATORS, STORES

FUNCREF = RefType(True, "func")
DEEPEST = 256
SHOWN = 8
OTHER_ELEMENTS = "its elements do not match those of the table"


class Bad(Exception):
    """The code does not fit, and what was wanted where that is known."""


class Stopped(Exception):
    """The code does not go on."""


def demand(condition, wanted=""):
    if not condition:
        raise Bad(wanted)


def is_there(place, count):
    demand(place < count, "what %d names is not there" % place)


def item(entries, place):
    is_there(place, len(entries))
    return entries[place]


class Spaces:
    """What the indices of a module mean: the imports of a kind in order, and then what the module defines."""

    def __init__(self, module):
        imported = {kind: [entry.type for entry in module.imports if entry.kind == kind] for kind in KINDS}
        self.types = module.types
        self.imported_globals = len(imported["global"])
        self.imported_funcs = len(imported["func"])
        self.func_numbers = [function.type for function in module.functions]
        self.imported_types = imported["func"]
        self.tables = imported["table"] + [table.type for table in module.tables]
        self.memories = imported["memory"] + module.memories
        self.globals = imported["global"] + [entry.type for entry in module.globals]
        self.tags = len(imported["tag"]) + len(module.tags)
        self.elements = [segment.type for segment in module.elements]
        self.datas = len(module.datas)

    def func_count(self):
        return self.imported_funcs + len(self.func_numbers)

    def func_type(self, place):
        """The type of a function, which is there and whose type is there."""
        if place < self.imported_funcs:
            return self.imported_types[place]
        return self.types[self.func_numbers[place - self.imported_funcs]]

    def has(self, kind, place):
        counts = {"func": self.func_count(), "table": len(self.tables), "memory": len(self.memories)}
        counts.update({"global": len(self.globals), "tag": self.tags})
        return place < counts[kind]


KINDS = ("func", "table", "memory", "global", "tag")


class Typing:
    """The typing of one body over the spaces of its module."""

    def __init__(self, spaces, func_type, local_types):
        self.spaces = spaces
        self.results = func_type.results
        self.locals = list(func_type.params) + list(local_types)
        self.labels = []
        self.stack = []
        self.places = []  # of each list that is open: which part of its instruction it is, and the place in it
        self.seen = []  # the top of the stack before the instruction there

    def pop(self, wanted):
        found = self.stack.pop() if self.stack else None
        demand(found is not None and matches(found, wanted), ("pops", wanted, found))

    def pop_all(self, wanted):
        for one in reversed(wanted):
            self.pop(one)

    def push(self, *types):
        self.stack.extend(types)

    def fault(self, instructions):
        """What is wrong where a body is not well typed, or none: a text, ("pops", a type, what is there), or
        ("ends", types)."""
        try:
            self.list_of(instructions, (), self.results, self.results)
        except Bad as bad:
            return bad.args
        return None

    def list_of(self, instructions, params, results, carried, part=2):
        """Types an inner list, which sees its own parameters alone, behind a label."""
        demand(len(self.labels) < DEEPEST, "lists are within one another more than %d deep" % DEEPEST)
        outer, self.stack = self.stack, list(params)
        self.labels.append(carried)
        self.places.append([part, 0])
        try:
            for place, one in enumerate(instructions):
                self.places[-1][1], self.seen = place, self.stack[-SHOWN:]
                self.instruction(one)
            self.places[-1][1], self.seen = None, self.stack[-SHOWN:]
            demand(all_match(self.stack, results), ("ends", results))
        except Stopped:
            pass
        self.places.pop()
        self.labels.pop()
        self.stack = outer

    def block_type(self, number):
        return item(self.spaces.types, number)

    def label(self, number):
        is_there(number, len(self.labels))
        return self.labels[-1 - number]

    def instruction(self, one):
        name, *rest = one
        if name in OPERATORS:
            params, result, _work = OPERATORS[name]
            self.pop_all(params)
            self.push(result)
        elif name in LOADS:
            item(self.spaces.memories, rest[0])
            self.pop("i32")
            self.push(LOADS[name][0])
        elif name in STORES:
            item(self.spaces.memories, rest[0])
            self.pop_all(("i32", STORES[name][0]))
        else:
            getattr(self, "type_" + name.replace(".", "_"))(*rest)

    def type_unreachable(self):
        raise Stopped

    def type_nop(self):
        pass

    def type_block(self, number, inner):
        ty = self.block_type(number)
        self.pop_all(ty.params)
        self.list_of(inner, ty.params, ty.results, ty.results)
        self.push(*ty.results)

    def type_loop(self, number, inner):
        ty = self.block_type(number)
        self.pop_all(ty.params)
        self.list_of(inner, ty.params, ty.results, ty.params)
        self.push(*ty.results)

    def type_if(self, number, first, second):
        ty = self.block_type(number)
        self.pop_all((*ty.params, "i32"))
        self.list_of(first, ty.params, ty.results, ty.results)
        self.list_of(second, ty.params, ty.results, ty.results, part=3)
        self.push(*ty.results)

    def type_br(self, number):
        self.pop_all(self.label(number))
        raise Stopped

    def type_br_if(self, number):
        carried = self.label(number)
        self.pop_all((*carried, "i32"))
        self.push(*carried)

    def type_br_table(self, listed, last):
        self.pop("i32")
        carried = [self.label(number) for number in (*listed, last)]
        count = len(carried[0])
        operands = self.stack[len(self.stack) - count :] if len(self.stack) >= count else None
        demand(operands is not None and all(all_match(operands, types) for types in carried), "its labels want other operands")
        raise Stopped

    def type_return(self):
        self.pop_all(self.results)
        raise Stopped

    def type_call(self, place):
        is_there(place, self.spaces.func_count())
        ty = self.spaces.func_type(place)
        self.pop_all(ty.params)
        self.push(*ty.results)

    def type_call_indirect(self, number, table):
        ty = self.block_type(number)
        demand(matches(item(self.spaces.tables, table).element, FUNCREF), "that table has no functions")
        self.pop_all((*ty.params, "i32"))
        self.push(*ty.results)

    def pop_any(self):
        demand(self.stack, ("pops", "an operand", None))
        return self.stack.pop()

    def type_drop(self):
        self.pop_any()

    def type_select(self):
        self.pop("i32")
        second, first = self.pop_any(), self.pop_any()
        demand(first == second and first in NUMBERS, "it wants two numbers of one type below the i32")
        self.push(first)

    def type_local_get(self, place):
        self.push(item(self.locals, place))

    def type_local_set(self, place):
        self.pop(item(self.locals, place))

    def type_local_tee(self, place):
        self.pop(item(self.locals, place))
        self.push(self.locals[place])

    def type_global_get(self, place):
        self.push(item(self.spaces.globals, place).content)

    def type_global_set(self, place):
        ty = item(self.spaces.globals, place)
        demand(ty.variable, "that global may not be set")
        self.pop(ty.content)

    def type_i32_const(self, _number):
        self.push("i32")

    def type_i64_const(self, _number):
        self.push("i64")

    def type_memory_size(self, memory):
        item(self.spaces.memories, memory)
        self.push("i32")

    def type_memory_grow(self, memory):
        item(self.spaces.memories, memory)
        self.pop("i32")
        self.push("i32")

    def type_memory_fill(self, memory):
        item(self.spaces.memories, memory)
        self.pop_all(("i32", "i32", "i32"))

    def type_memory_copy(self, destination, source):
        item(self.spaces.memories, destination)
        self.type_memory_fill(source)

    def type_memory_init(self, memory, segment):
        is_there(segment, self.spaces.datas)
        self.type_memory_fill(memory)

    def type_data_drop(self, segment):
        is_there(segment, self.spaces.datas)

    def type_ref_null(self, family):
        self.push(RefType(True, BOTTOMS[family]))

    def type_ref_is_null(self):
        demand(is_reference(self.pop_any()), "it wants a reference")
        self.push("i32")

    def type_ref_func(self, place):
        is_there(place, self.spaces.func_count())
        self.push(RefType(False, self.spaces.func_type(place)))

    def element(self, table):
        return item(self.spaces.tables, table).element

    def type_table_get(self, table):
        element = self.element(table)
        self.pop("i32")
        self.push(element)

    def type_table_set(self, table):
        self.pop_all(("i32", self.element(table)))

    def type_table_size(self, table):
        self.element(table)
        self.push("i32")

    def type_table_grow(self, table):
        self.pop_all((self.element(table), "i32"))
        self.push("i32")

    def type_table_fill(self, table):
        self.pop_all(("i32", self.element(table), "i32"))

    def type_table_copy(self, destination, source):
        demand(matches(self.element(source), self.element(destination)), OTHER_ELEMENTS)
        self.pop_all(("i32", "i32", "i32"))

    def type_table_init(self, table, segment):
        demand(matches(item(self.spaces.elements, segment), self.element(table)), OTHER_ELEMENTS)
        self.pop_all(("i32", "i32", "i32"))

    def type_elem_drop(self, segment):
        item(self.spaces.elements, segment)
