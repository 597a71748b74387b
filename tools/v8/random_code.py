"""Random code of functions for tools/random_sessions.py, valid by construction: the types on the operand stack are
followed while instructions are chosen, and what an instruction needs is pushed first where it is not there.

All code ends. A module imports three globals: the rounds that are left of this call, counted by each function and each
round of a loop; whether the element of the last indirect call was a null, which V8 does not tell apart from a function
of another type; and a sum into which numbers go that would else be lost, so that a wrong one is seen.
"""

from dataclasses import dataclass, field

from wasm_binary import LOADS, OPERATORS, STORES

I32, I64, FUNCREF, EXTERNREF = "i32", "i64", "funcref", "externref"
NUMBERS, REFERENCES = (I32, I64), (FUNCREF, EXTERNREF)
ROUNDS, NULL_PROBE, SUM = range(3)  # the three globals
FACTOR = 6364136223846793005  # odd, so that nothing is lost of a sum
PAGE = 1 << 16
EDGES = {
    width: sorted({(sign * (1 << power) + step) % (1 << bits) for sign in (1, -1) for step in (-1, 0, 1)
                   for power in (0, 1, 2, 7, 8, 15, 16, 31, 32, bits - 1) if power < bits})
    for width, bits in ((I32, 32), (I64, 64))
}
TRAPPING = ("div_s", "div_u", "rem_s", "rem_u")


def random_number(random, kind):
    """A small number, one near a power of two or any, written with its sign or without one."""
    bits = 32 if kind == I32 else 64
    draw = random.random()
    if draw < 0.25:
        return random.randrange(16)
    number = random.choice(EDGES[kind]) if draw < 0.6 else random.getrandbits(bits)
    return number - (1 << bits) if number >> (bits - 1) and random.random() < 0.5 else number


@dataclass
class Shape:
    """What code may name in its module; imports come first in each list."""

    functions: list = field(default_factory=list)  # types as pairs of parameters and results
    tables: list = field(default_factory=list)  # table types
    memories: list = field(default_factory=list)  # memory types, at most one
    globals: list = field(default_factory=list)  # global types
    datas: list = field(default_factory=list)  # lengths, 0 where it is no passive segment
    elements: list = field(default_factory=list)  # reference types and such lengths
    imported_globals: int = 0


class Types:
    """The function types of a session, made as they are asked for; some are there twice, and some have subtypes."""

    def __init__(self, random):
        self.random = random
        self.items = [{"params": [], "results": []}]
        self.subtypes = random.random() < 0.3

    def number(self, params, results):
        """The number of a type with these parameters and results."""
        there = [n for n, item in enumerate(self.items) if (item["params"], item["results"]) == (params, results)]
        if not there or there != [0] and self.random.random() < 0.05:
            there.append(self.add(params, results, there))
        return self.random.choice(there)

    def add(self, params, results, there):
        """Types of the same parameters and results are all final or none is: V8 11 takes them for one type else."""
        made = {"params": list(params), "results": list(results)}
        if "final" in self.items[there[0]] if there else self.subtypes and self.random.random() < 0.7:
            made["final"] = False
            if there and self.random.random() < 0.7:
                made["super"] = self.random.choice(there)
        self.items.append(made)
        return len(self.items) - 1


@dataclass
class Row:
    """A list of instructions that is written: its operands, and the types of its labels, the innermost first."""

    stack: list
    labels: list
    code: list = field(default_factory=list)
    ended: bool = False

    def emit(self, *instruction):
        self.code.append(list(instruction))


class Writer:
    """Writes the code of one function. Of the choices that may trap it takes as many as `danger` says."""

    def __init__(self, random, types, shape, signature, danger):
        self.random, self.types, self.shape, self.danger = random, types, shape, danger
        self.params, self.results = signature
        extra = [random.choice(NUMBERS + REFERENCES) for _ in range(random.randrange(4))] + [I32, I64]
        self.free = self.params + extra  # the types of the locals that any instruction may use
        self.locals = self.free + [I32]
        self.index = len(self.free)  # the local that keeps the place of an indirect call
        self.left = random.choice((6, 15, 40, 80))  # how many instructions are chosen yet

    def body(self):
        row = Row([], [self.results])
        row.code += self.check()
        for local in range(len(self.params), len(self.free)):
            self.push_constant(row, self.free[local])
            self.put(row, row.stack, [], "local.set", local)
        self.fill(row, self.results, 0)
        return {"locals": self.locals[len(self.params):], "code": row.code}

    # Control.

    def check(self):
        """What begins a function and each round of a loop: it gives up where no rounds are left."""
        give_up = Row([], [])
        if self.random.random() < 0.2:
            give_up.emit("unreachable")
        else:
            for kind in self.results:
                self.push_constant(give_up, kind)
            give_up.emit("return")
        spend = [["global.get", ROUNDS], ["i32.const", 1], ["i32.sub"], ["global.set", ROUNDS]]
        return spend + [["global.get", ROUNDS], ["i32.const", 0], ["i32.lt_s"], ["if", 0, give_up.code, []]]

    def fill(self, row, results, depth):
        """Writes the rest of a list that is to leave these results."""
        for _ in range(self.random.randrange(2, 9) if depth else self.random.randrange(5, 30)):
            if self.left <= 0 or row.ended:
                break
            self.left -= 1
            self.random.choices(*self.actions(row, depth))[0](row, depth)
        if not row.ended:
            if depth == 0:
                self.add_locals(row)
            self.settle(row, results)

    def add_locals(self, row):
        for local, kind in enumerate(self.free):
            if kind in NUMBERS:
                self.put(row, [], [kind], "local.get", local)
                self.add_up(row)

    def settle(self, row, results):
        """Takes operands off until they are a front of these types, and pushes the others."""
        while row.stack != results[:len(row.stack)]:
            self.keep_or_drop(row)
        for kind in results[len(row.stack):]:
            self.push(row, kind)

    def actions(self, row, depth):
        chosen = [(self.operate, 14), (self.set_local, 4), (self.select, 2), (self.call, 3), (self.test_reference, 1),
                  (self.branch_if, 2), (lambda row, depth: self.push(row, self.any_kind()), 4),
                  (lambda row, depth: row.emit("nop"), 0.5), (self.leave, 0.4)]
        if depth < 4:
            chosen += [(self.block, 3), (self.choose, 3), (self.loop, 3)]
        if self.variables():
            chosen += [(self.set_global, 4)]
        if self.has_memory():
            chosen += [(self.load, 7), (self.store, 9), (self.work_on_memory, 4)]
        if self.tables_of(*REFERENCES):
            chosen += [(self.call_indirect, 3), (self.work_on_table, 5)]
        if row.stack:
            chosen += [(lambda row, depth: self.keep_or_drop(row), 4)]
        return [action for action, _ in chosen], [weight for _, weight in chosen]

    def inner(self, row, params, results, label, depth, before=()):
        """An inner list of code, which sees its own parameters alone."""
        made = Row(list(params), [label] + row.labels, list(before))
        self.fill(made, list(results), depth + 1)
        return made

    def some_types(self, most):
        return [self.any_kind() for _ in range(self.random.randrange(most + 1))]

    def taken(self, row):
        """The types of some topmost operands, or of new ones."""
        count = self.random.randrange(3)
        if count and len(row.stack) >= count:
            return row.stack[-count:]
        return self.some_types(2) if self.random.random() < 0.3 else []

    def block(self, row, depth):
        params, results = self.taken(row), self.some_types(2)
        self.need(row, params)
        code = self.inner(row, params, results, results, depth).code
        self.put(row, params, results, "block", self.types.number(params, results), code)

    def choose(self, row, depth):
        params, results = self.taken(row), self.some_types(2)
        self.need(row, params + [I32])
        codes = [self.inner(row, params, results, results, depth).code for _ in range(2)]
        if not results and not params and self.random.random() < 0.3:
            codes[1] = []
        self.put(row, params + [I32], results, "if", self.types.number(params, results), *codes)

    def loop(self, row, depth):
        """A loop of a few rounds, by a counter of its own."""
        params, results = self.taken(row), self.some_types(2)
        counter = len(self.locals)
        self.locals.append(I32)
        row.emit("i32.const", self.random.randrange(1, 5))
        row.emit("local.set", counter)
        self.need(row, params)
        inner = self.inner(row, params, results, params, depth, self.check())
        if not inner.ended:
            for kind in params:
                self.push(inner, kind)
            inner.code += [["local.get", counter], ["i32.const", 1], ["i32.sub"], ["local.tee", counter], ["br_if", 0]]
            inner.code += [["drop"]] * len(params)
        self.put(row, params, results, "loop", self.types.number(params, results), inner.code)

    def leave(self, row, depth):
        """An instruction that never goes on, and seldom code behind it, which never runs."""
        ways = (self.branch, self.branch_by_table, self.give_back, self.trap)
        self.random.choices(ways, (2, 3, 1, self.danger * 5))[0](row)
        row.ended = True
        if self.random.random() < 0.2:
            row.code += [["i64.const", 1], ["drop"], ["nop"]]

    def trap(self, row):
        row.emit("unreachable")

    def give_back(self, row):
        self.need(row, self.results)
        row.emit("return")

    def branch(self, row):
        label = self.random.randrange(len(row.labels))
        self.need(row, row.labels[label])
        row.emit("br", label)

    def branch_by_table(self, row):
        label = self.random.randrange(len(row.labels))
        same = [n for n, types in enumerate(row.labels) if types == row.labels[label]]
        labels = self.random.choices(same, k=self.random.randrange(5))
        self.need(row, row.labels[label] + [I32])
        if self.random.random() < 0.7:
            row.code += [["i32.const", len(labels) + 1], ["i32.rem_u"]]
        row.emit("br_table", labels, label)

    def branch_if(self, row, depth):
        label = self.random.randrange(len(row.labels))
        self.need(row, row.labels[label] + [I32])
        if self.random.random() < 0.6:
            row.emit("i32.eqz")  # few numbers are 0, so that code mostly goes on
        row.stack.pop()
        row.emit("br_if", label)

    def call(self, row, depth):
        function = self.random.randrange(len(self.shape.functions))
        params, results = self.shape.functions[function]
        self.need(row, params)
        self.put(row, params, results, "call", function)

    def call_indirect(self, row, depth):
        tables = self.tables_of(FUNCREF)
        if not tables:
            return
        table = self.random.choice(tables)
        function = self.random.randrange(len(self.shape.functions))
        params, results = self.shape.functions[function]
        self.need(row, params)
        self.push_place(row, self.shape.tables[table]["min"])
        if self.random.random() < 0.6:
            row.code += [["local.tee", self.index], ["ref.func", function], ["table.set", table]]
            row.emit("local.get", self.index)
        row.code += [["local.tee", self.index], ["table.get", table], ["ref.is_null"], ["global.set", NULL_PROBE]]
        row.emit("local.get", self.index)
        self.put(row, params + [I32], results, "call_indirect", self.types.number(params, results), table)

    # Operands.

    def any_kind(self):
        return self.random.choices(NUMBERS + REFERENCES, (8, 8, 2, 1))[0]

    def risky(self):
        return self.random.random() < self.danger

    def put(self, row, taken, given, *instruction):
        """Writes an instruction whose operands are there."""
        del row.stack[len(row.stack) - len(taken):]
        row.stack += given
        row.emit(*instruction)

    def need(self, row, wanted):
        """Lets the topmost operands be of these types: as many of them as can be are those that are there."""
        there = max(n for n in range(len(wanted) + 1) if n == 0 or row.stack[-n:] == wanted[:n])
        for kind in wanted[there:]:
            self.push(row, kind)

    def push(self, row, kind, depth=0):
        """Pushes an operand of this type by an instruction or a few."""
        ways = [self.push_constant, self.push_constant]
        ways += [self.push_local] * 3 * (kind in self.free)
        ways += [self.push_global] * any(item["val"] == kind for item in self.shape.globals[SUM + 1:])
        ways += [self.push_element] * 2 * bool(self.tables_of(kind))
        if kind in NUMBERS and depth < 2:
            ways += [lambda row, kind: self.push_result(row, kind, depth + 1)] * 3
        self.random.choice(ways)(row, kind)

    def push_constant(self, row, kind):
        if kind in NUMBERS:
            row.emit(kind + ".const", random_number(self.random, kind))
        elif kind == FUNCREF and self.shape.functions and self.random.random() < 0.7:
            row.emit("ref.func", self.random.randrange(len(self.shape.functions)))
        else:
            row.emit("ref.null", "func" if kind == FUNCREF else "extern")
        row.stack.append(kind)

    def push_local(self, row, kind):
        self.put(row, [], [kind], "local.get", self.local_of(kind))

    def local_of(self, kind):
        return self.random.choice([n for n, free in enumerate(self.free) if free == kind])

    def push_global(self, row, kind):
        there = [n for n, item in enumerate(self.shape.globals) if item["val"] == kind and n > SUM]
        self.put(row, [], [kind], "global.get", self.random.choice(there))

    def push_element(self, row, kind):
        table = self.random.choice(self.tables_of(kind) or self.tables_there(kind))
        self.push_place(row, self.shape.tables[table]["min"])
        self.put(row, [I32], [kind], "table.get", table)

    def push_result(self, row, kind, depth):
        """Pushes what an operator gives."""
        name = self.random.choice([name for name, (_, _, result) in OPERATORS.items() if result == kind])
        operands = OPERATORS[name][1]
        for operand in operands:
            self.push(row, operand, depth)
        self.operator(row, name)

    def operator(self, row, name):
        """An operator on operands that are there; a divisor is seldom left to be 0."""
        _, operands, result = OPERATORS[name]
        if name[4:] in TRAPPING and not self.risky() and self.random.random() < 0.95:
            row.emit(operands[0] + ".const", self.random.choice((1, 3, 15, 256)))
            row.emit(operands[0] + ".or")
        self.put(row, operands, [result], name)

    def operate(self, row, depth):
        name = self.random.choice(list(OPERATORS))
        operands = OPERATORS[name][1]
        if name[4:] == "rem_s" and self.random.random() < 0.2 or name[4:] == "div_s" and self.risky():
            least = -1 << (31 if name[:3] == I32 else 63)
            row.code += [[name[:3] + ".const", least], [name[:3] + ".const", -1]]
            self.put(row, [], [name[:3]], name)
        else:
            self.need(row, operands)
            self.operator(row, name)

    def keep_or_drop(self, row):
        """Takes the topmost operand off: into the sum, a local, a global or the memory, or for nothing."""
        kind = row.stack[-1]
        ways = [self.drop] + [self.add_up] * 4 * (kind in NUMBERS)
        ways += [self.pop_local] * 2 * (kind in self.free)
        ways += [self.pop_global] * 3 * bool(self.variables(kind))
        ways += [self.pop_store] * 3 * (kind in NUMBERS and self.has_memory())
        self.random.choice(ways)(row)

    def drop(self, row):
        self.put(row, row.stack[-1:], [], "drop")

    def add_up(self, row):
        if row.stack.pop() == I32:
            row.emit("i64.extend_i32_s")
        row.code += [["global.get", SUM], ["i64.const", FACTOR], ["i64.mul"], ["i64.add"], ["global.set", SUM]]

    def pop_local(self, row):
        self.put(row, row.stack[-1:], [], "local.set", self.local_of(row.stack[-1]))

    def pop_global(self, row):
        self.put(row, row.stack[-1:], [], "global.set", self.random.choice(self.variables(row.stack[-1])))

    def pop_store(self, row):
        kind = row.stack.pop()
        kept = self.local_of(kind)
        row.emit("local.set", kept)
        self.write(row, kind, lambda: row.emit("local.get", kept))

    def variables(self, kind=None):
        """The globals that code may set, of this type or of any."""
        return [n for n, item in enumerate(self.shape.globals)
                if n > SUM and item.get("mut") and kind in (None, item["val"])]

    def set_local(self, row, depth):
        local = self.random.randrange(len(self.free))
        kind = self.free[local]
        self.need(row, [kind])
        if self.random.random() < 0.5:
            self.put(row, [kind], [kind], "local.tee", local)
        else:
            self.put(row, [kind], [], "local.set", local)

    def set_global(self, row, depth):
        number = self.random.choice(self.variables())
        kind = self.shape.globals[number]["val"]
        self.need(row, [kind])
        self.put(row, [kind], [], "global.set", number)

    def select(self, row, depth):
        kind = self.random.choice(NUMBERS)
        self.need(row, [kind, kind, I32])
        self.put(row, [kind, kind, I32], [kind], "select")

    def test_reference(self, row, depth):
        kind = self.random.choice(REFERENCES)
        self.need(row, [kind])
        self.put(row, [kind], [I32], "ref.is_null")

    # Memories and tables.

    def has_memory(self):
        """Whether there is one to work on: on one that may be empty most work is risky."""
        return bool(self.shape.memories) and (self.shape.memories[0]["min"] > 0 or self.risky())

    def push_address(self, row, width):
        """Pushes the address of an access of so many bytes, and gives its offset: mostly within the memory."""
        end = self.shape.memories[0]["min"] * PAGE
        draw = self.random.random()
        if self.risky():
            if draw < 0.5:
                self.push(row, I32)
                last = max(end - width, 0)
                return self.random.choice((0, 1, 7, last + 1, end, 1 << 31, (1 << 32) - 8, (1 << 32) - 1))
            row.emit("i32.const", self.random.choice((-1, -8, -1 << 31)))  # with the offset 2^32 or near it
            row.stack.append(I32)
            return self.random.choice((1, 8, 9, 1 << 31, (1 << 31) + 1))
        if draw < 0.6 or end == 0:
            row.emit("i32.const", self.random.randrange(64))
            offset = self.random.randrange(64)
        elif draw < 0.8:
            self.push(row, I32)
            row.stack.pop()
            row.code += [["i32.const", 0xFFF], ["i32.and"]]
            offset = self.random.choice((0, self.random.randrange(end - 0xFFF - width)))
        else:
            past = self.risky()
            at = end - width - self.random.randrange(9) + 9 * past
            offset = self.random.choice((0, at, self.random.randrange(at + 1)))
            row.emit("i32.const", at - offset)
        row.stack.append(I32)
        return offset

    def load(self, row, depth):
        name = self.random.choice(list(LOADS))
        offset = self.push_address(row, 8)
        self.put(row, [I32], [name[:3]], name, 0, offset)

    def store(self, row, depth):
        kind = self.random.choice(NUMBERS)
        self.write(row, kind, lambda: (self.push(row, kind), row.stack.pop()))

    def write(self, row, kind, push_value):
        """A store of a value that is pushed so."""
        name = self.random.choice([name for name in STORES if name.startswith(kind)])
        bytes_written = int(name.split("store")[1] or kind[1:]) // 8
        offset = self.push_address(row, bytes_written)
        row.stack.pop()
        push_value()
        row.emit(name, 0, offset)

    def span(self, *limits):
        """Places, one below each limit, and a length: ranges that end at or before their limits, but for risky ones."""
        least = min(limits)
        length = min(self.random.choice((0, 1, self.random.randrange(9), self.random.randrange(300), least)), least)
        lasts = [limit - length for limit in limits]
        places = [self.random.choice((0, last, self.random.randrange(last + 1))) for last in lasts]
        if self.risky():
            which = self.random.randrange(len(limits))
            way = self.random.randrange(4)
            if way == 0:
                length = self.random.choice((least + 1, (1 << 32) - 1, 1 << 31))
            elif way == 1:
                length, places[which] = 0, limits[which] + 1
            else:
                places[which] = self.random.choice((lasts[which] + 1, (1 << 32) - 1, -length % (1 << 32)))
        return places, length

    def push_numbers(self, row, *numbers):
        for number in numbers:
            row.emit("i32.const", number)

    def work_on_memory(self, row, depth):
        ways = (self.memory_size, self.memory_grow, self.memory_fill, self.memory_copy,
                self.memory_init, self.data_drop)
        self.random.choices(ways, (1, 1, 2, 2, 2, 0.4))[0](row, self.shape.memories[0]["min"] * PAGE)

    def memory_size(self, row, end):
        self.put(row, [], [I32], "memory.size", 0)

    def memory_grow(self, row, end):
        self.grow(row, self.shape.memories[0], (1 << 16,), "memory.grow", 0)

    def memory_fill(self, row, end):
        (place,), length = self.span(end)
        self.push_numbers(row, place)
        self.push(row, I32)
        row.stack.pop()
        self.push_numbers(row, length)
        row.emit("memory.fill", 0)

    def memory_copy(self, row, end):
        places, length = self.span(end, end)
        self.push_numbers(row, *places, length)
        row.emit("memory.copy", 0, 0)

    def memory_init(self, row, end):
        if self.shape.datas:
            segment = self.random.randrange(len(self.shape.datas))
            places, length = self.span(end, self.shape.datas[segment])
            self.push_numbers(row, *places, length)
            row.emit("memory.init", 0, segment)

    def data_drop(self, row, end):
        if self.shape.datas:
            segment = self.random.randrange(len(self.shape.datas))
            row.emit("data.drop", segment)
            if self.random.random() < 0.3:
                self.push_numbers(row, 0, 0, self.random.randrange(2))
                row.emit("memory.init", 0, segment)

    def grow(self, row, limits, deltas, *instruction):
        """By little, or by more than there may be: what has no maximum would else take much memory."""
        few = (0, 1, 2, 3) if "max" in limits else (0, 1)
        row.emit("i32.const", self.random.choice((*few, (1 << 32) - 1, *deltas)))
        row.stack.append(I32)
        self.put(row, [I32], [I32], *instruction)

    def tables_there(self, *kinds):
        return [n for n, table in enumerate(self.shape.tables) if table["ref"] in kinds]

    def tables_of(self, *kinds):
        """The tables of these types to work on: on one that may be empty most work is risky."""
        tables = self.tables_there(*kinds)
        return tables if self.risky() else [n for n in tables if self.shape.tables[n]["min"]]

    def push_place(self, row, size):
        """Pushes a place in a table of at least so many elements."""
        if size and not self.risky():
            if self.random.random() < 0.6:
                row.emit("i32.const", self.random.randrange(size))
            else:
                self.push(row, I32, 1)
                row.stack.pop()
                row.code += [["i32.const", size], ["i32.rem_u"]]
        else:
            row.emit("i32.const", self.random.choice((size, size + 1, (1 << 32) - 1, 1 << 31)))
        row.stack.append(I32)

    def work_on_table(self, row, depth):
        tables = self.tables_of(*REFERENCES)
        if not tables:
            return
        number = self.random.choice(tables)
        table = self.shape.tables[number]
        ways = (self.table_get, self.table_set, self.table_size, self.table_grow,
                self.table_fill, self.table_copy, self.table_init, self.elem_drop)
        self.random.choices(ways, (1, 3, 1, 1, 1, 2, 2, 0.4))[0](row, number, table["ref"], table["min"])

    def table_get(self, row, table, kind, end):
        self.push_place(row, end)
        self.put(row, [I32], [kind], "table.get", table)

    def table_set(self, row, table, kind, end):
        self.push_place(row, end)
        self.push(row, kind)
        self.put(row, [I32, kind], [], "table.set", table)

    def table_size(self, row, table, kind, end):
        self.put(row, [], [I32], "table.size", table)

    def table_grow(self, row, table, kind, end):
        self.need(row, [kind])
        row.stack.pop()
        self.grow(row, self.shape.tables[table], (), "table.grow", table)

    def table_fill(self, row, table, kind, end):
        (place,), length = self.span(end)
        self.push_numbers(row, place)
        self.push(row, kind)
        row.stack.pop()
        self.push_numbers(row, length)
        row.emit("table.fill", table)

    def table_copy(self, row, table, kind, end):
        other = self.random.choice(self.tables_there(kind))
        places, length = self.span(end, self.shape.tables[other]["min"])
        self.push_numbers(row, *places, length)
        row.emit("table.copy", table, other)

    def table_init(self, row, table, kind, end):
        fitting = self.segments_of(kind)
        if fitting:
            segment = self.random.choice(fitting)
            places, length = self.span(end, self.shape.elements[segment][1])
            self.push_numbers(row, *places, length)
            row.emit("table.init", table, segment)

    def elem_drop(self, row, table, kind, end):
        fitting = self.segments_of(kind)
        if fitting:
            segment = self.random.choice(fitting)
            row.emit("elem.drop", segment)
            if self.random.random() < 0.3:
                self.push_numbers(row, 0, 0, self.random.randrange(2))
                row.emit("table.init", table, segment)

    def segments_of(self, kind):
        return [n for n, (ref, _) in enumerate(self.shape.elements) if ref == kind]
