"""Makes random code that is well typed, over the spaces of a module and the locals of a function.

Each part leaves the operands below it alone: an expression adds one operand, a statement none. So code is typed by the way
in which it is made; what is to be badly typed is spoilt afterwards.
"""

from arithmetic import LOADS, OPERATORS, STORES
from value_types import RefType, is_reference, matches, top

NUMBERS = [0, 0, 1, 1, 2, 3, -1, 4, 7, 8, 31, 32, 33, 63, 64, 65, 127, 128, 255, 256, 32767, 65535, 65536, 65537]
LARGE = [2**31 - 1, -(2**31), 2**32 - 1]
LARGER = [2**63 - 1, -(2**63), 2**64 - 1, 2**32, -(2**31) - 1]
NEAR = [0, 0, 1, 2, 3, 4, 5, 8]
FAR = [16, 60, 64, 65, 65528, 65532, 65535, 65536, 65537, 2**31, 2**32 - 1]
FIRST = [0, 0, 0, 1]
BEHIND = [1, 2, 3, 4, 5, 9, 2**32 - 1]
GROWTHS = [0, 1, 1, 2, 3, 70000, 2**32 - 1]


class CodeMaker:
    def __init__(self, rng, spaces, place, ty, local_types):
        self.rng = rng
        self.spaces = spaces
        self.place = place
        self.results = ty.results
        self.locals = [*ty.params, *local_types]
        self.labels = [ty.results]

    def body(self):
        """A whole body of a function."""
        code = [one for _ in range(self.pick([0, 1, 2, 3, 5, 8])) for one in self.statement(2)]
        return code + [one for ty in self.results for one in self.result(ty)]

    def result(self, ty):
        """Code for a result of the function: mostly a local, which tells what came before."""
        local = self.of_local(ty, 0) if self.chance(0.5) else None
        return local or self.expression(ty, 3)

    # Small choices

    def pick(self, entries):
        return self.rng.choice(entries)

    def chance(self, share):
        return self.rng.random() < share

    def constant(self, kind, among=None):
        pool = among or (NUMBERS + LARGE + (LARGER if kind == "i64" else []))
        return [[kind + ".const", self.pick(pool)]]

    def places_of(self, entries, fits):
        return [place for place, entry in enumerate(entries) if fits(entry)]

    def small(self, depth, likely=NEAR, rare=FAR):
        """An i32 that is mostly one of the likely numbers: a place or a count."""
        if depth > 0 and self.chance(0.05):
            return self.expression("i32", depth)
        return self.constant("i32", rare if self.chance(0.06) else likely)

    def entry(self, depth):
        """The place of an element, or how many there are."""
        return self.small(depth, FIRST, BEHIND)

    def callees(self):
        """The functions that are called: mostly those before the function itself, so that most calls end."""
        return range(self.spaces.func_count() if self.chance(0.05) else self.place)

    def expressions(self, types, depth):
        return [one for ty in types for one in self.expression(ty, depth)]

    # Expressions

    def expression(self, ty, depth):
        """Code that adds one operand of a type, or that does not go on."""
        makers = [self.of_local, self.of_global]
        if depth > 0:
            makers += [self.of_call, self.of_block, self.of_indirect, self.of_table, self.of_tee, self.of_select]
        if ty in ("i32", "i64"):
            makers += [self.of_constant] * 2 + ([self.of_operator, self.of_operator, self.of_load] if depth > 0 else [])
        if ty == "i32" and depth > 0:
            makers += [self.of_size, self.of_growth, self.of_null_test]
        if is_reference(ty):
            makers += [self.of_null, self.of_function] * 2
        self.rng.shuffle(makers)
        for maker in makers:
            code = maker(ty, depth - 1)
            if code is not None:
                return code
        for maker in (self.of_null, self.of_function, self.of_constant):
            code = maker(ty, depth)
            if code is not None:
                return code
        return [["unreachable"]]

    def of_constant(self, ty, _depth):
        return self.constant(ty) if ty in ("i32", "i64") else None

    def of_local(self, ty, _depth):
        places = self.places_of(self.locals, lambda local: matches(local, ty))
        return [["local.get", self.pick(places)]] if places else None

    def of_tee(self, ty, depth):
        places = self.places_of(self.locals, lambda local: local == ty)
        if not places:
            return None
        return self.expression(ty, depth) + [["local.tee", self.pick(places)]]

    def of_global(self, ty, _depth):
        places = self.places_of(self.spaces.globals, lambda entry: matches(entry.content, ty))
        return [["global.get", self.pick(places)]] if places else None

    def of_select(self, ty, depth):
        if is_reference(ty):
            return None
        return self.expressions((ty, ty, "i32"), depth) + [["select"]]

    def of_operator(self, ty, depth):
        names = [name for name, (_params, result, _work) in OPERATORS.items() if result == ty]
        name = self.pick(names)
        return self.expressions(OPERATORS[name][0], depth) + [[name]]

    def of_load(self, ty, depth):
        if not self.spaces.memories:
            return None
        name = self.pick([name for name, entry in LOADS.items() if entry[0] == ty])
        return self.small(depth) + [[name, self.memory(), self.offset()]]

    def of_size(self, _ty, _depth):
        sizes = [["memory.size", place] for place in range(len(self.spaces.memories))]
        sizes += [["table.size", place] for place in range(len(self.spaces.tables))]
        return [self.pick(sizes)] if sizes else None

    def of_growth(self, _ty, depth):
        if self.spaces.memories and self.chance(0.5):
            return self.constant("i32", GROWTHS) + [["memory.grow", self.memory()]]
        if not self.spaces.tables:
            return None
        table = self.table()
        element = self.spaces.tables[table].element
        return self.expression(element, depth) + self.constant("i32", GROWTHS) + [["table.grow", table]]

    def of_null_test(self, _ty, depth):
        reference = self.pick([RefType(True, heap) for heap in ("func", "extern", "any")])
        return self.expression(reference, depth) + [["ref.is_null"]]

    def of_null(self, ty, _depth):
        return [["ref.null", top(ty.heap)]] if is_reference(ty) and ty.nullable else None

    def of_function(self, ty, _depth):
        if not is_reference(ty):
            return None
        count = self.spaces.func_count()
        places = [place for place in range(count) if matches(RefType(False, self.spaces.func_type(place)), ty)]
        return [["ref.func", self.pick(places)]] if places else None

    def of_table(self, ty, depth):
        places = self.places_of(self.spaces.tables, lambda table: matches(table.element, ty))
        return self.entry(depth) + [["table.get", self.pick(places)]] if places else None

    def of_call(self, ty, depth):
        types = {place: self.spaces.func_type(place) for place in self.callees()}
        places = [place for place, one in types.items() if len(one.results) == 1 and matches(one.results[0], ty)]
        if not places:
            return None
        place = self.pick(places)
        return self.expressions(types[place].params, depth) + [["call", place]]

    def of_indirect(self, ty, depth):
        numbers = self.places_of(self.spaces.types, lambda called: called.results == (ty,))
        return self.indirect(self.pick(numbers), depth) if numbers else None

    def of_block(self, ty, depth):
        numbers = self.places_of(self.spaces.types, lambda block: block.results == (ty,))
        return self.block(self.pick(numbers), depth) if numbers else None

    # Parts of statements and expressions

    def memory(self):
        return self.rng.randrange(len(self.spaces.memories))

    def table(self):
        return self.rng.randrange(len(self.spaces.tables))

    def offset(self):
        return self.pick([1, 2, 7, 65535, 2**32 - 1]) if self.chance(0.15) else 0

    def indirect(self, number, depth):
        tables = self.places_of(self.spaces.tables, lambda table: matches(table.element, RefType(True, "func")))
        if not tables:
            return None
        arguments = self.expressions(self.spaces.types[number].params, depth)
        return arguments + self.entry(depth) + [["call_indirect", number, self.pick(tables)]]

    def block(self, number, depth):
        """A block, a loop or an `if` of a type, behind its operands."""
        ty = self.spaces.types[number]
        form = self.pick(["block", "loop", "loop", "if"])
        code = self.expressions(ty.params, depth)
        if form == "if":
            lists = [self.inner(ty, ty.results, depth), self.inner(ty, ty.results, depth)]
            return code + self.expression("i32", depth) + [["if", number, *lists]]
        carried = ty.params if form == "loop" else ty.results
        return code + [[form, number, self.inner(ty, carried, depth, form == "loop")]]

    def inner(self, ty, carried, depth, is_loop=False):
        self.labels.append(carried)
        if ty.params == ty.results and self.chance(0.4):
            code = self.statements(depth)
        else:
            code = [["drop"] for _ in ty.params] + self.statements(depth)
            code += self.round(depth) if is_loop and self.chance(0.7) else []
            code += self.expressions(ty.results, depth)
        self.labels.pop()
        return code

    def round(self, depth):
        """Goes round once more, mostly as often as a local says that counts down."""
        counters = self.places_of(self.locals, lambda local: local == "i32")
        code = self.expressions(self.labels[-1], depth)
        if counters and self.chance(0.8):
            counter = self.pick(counters)
            code += [["local.get", counter], ["i32.const", 1], ["i32.sub"], ["local.tee", counter]]
        else:
            code += self.expression("i32", depth)
        return code + [["br_if", 0]] + [["drop"] for _ in self.labels[-1]]

    # Statements

    def statements(self, depth):
        count = self.pick([0, 1, 1, 2, 3]) if depth > 0 else self.pick([0, 0, 0, 1])
        return [one for _ in range(count) for one in self.statement(depth - 1)]

    def statement(self, depth):
        makers = [self.nop, self.dropped, self.local_set, self.global_set, self.global_set, self.store, self.store]
        makers += [self.call, self.call, self.call, self.structured, self.branch_if, self.fill, self.copy, self.init]
        makers += [self.drop_segment, self.table_set, self.call_of_type, self.call_of_type, self.init, self.copy]
        makers += [self.drop_segment, self.init, self.nothing, self.around, self.growth, self.growth, self.switch]
        makers += [self.kept]
        if self.chance(0.05):
            makers = [self.leave]
        self.rng.shuffle(makers)
        for maker in makers:
            code = maker(max(depth, 0))
            if code is not None:
                return code
        return [["nop"]]

    def nop(self, _depth):
        return [["nop"]] if self.chance(0.2) else None

    def dropped(self, depth):
        kind = self.pick(["i32", "i64", "f32", "f64", "v128", RefType(True, "func"), RefType(True, "extern")])
        return self.expression(kind, depth) + [["drop"]]

    def local_set(self, depth):
        place = self.rng.randrange(len(self.locals)) if self.locals else None
        return None if place is None else self.expression(self.locals[place], depth) + [["local.set", place]]

    def global_set(self, depth):
        places = self.places_of(self.spaces.globals, lambda entry: entry.variable)
        if not places:
            return None
        place = self.pick(places)
        return self.expression(self.spaces.globals[place].content, depth) + [["global.set", place]]

    def store(self, depth):
        if not self.spaces.memories:
            return None
        name = self.pick(list(STORES))
        return self.small(depth) + self.expression(STORES[name][0], depth) + [[name, self.memory(), self.offset()]]

    def call(self, depth):
        callees = list(self.callees())
        if not callees:
            return None
        place = self.pick(callees[: self.spaces.imported_funcs] or callees) if self.chance(0.5) else self.pick(callees)
        ty = self.spaces.func_type(place)
        return self.expressions(ty.params, depth) + [["call", place]] + [["drop"] for _ in ty.results]

    def call_of_type(self, depth):
        number = self.rng.randrange(len(self.spaces.types))
        code = self.indirect(number, depth)
        return None if code is None else code + [["drop"] for _ in self.spaces.types[number].results]

    def structured(self, depth):
        number = self.rng.randrange(len(self.spaces.types))
        return self.block(number, depth) + [["drop"] for _ in self.spaces.types[number].results]

    def branch_if(self, depth):
        label = self.rng.randrange(len(self.labels))
        carried = self.labels[-1 - label]
        below = self.below()
        code = self.expressions((*below, *carried, "i32"), depth) + [["br_if", label]]
        return code + [["drop"] for _ in (*carried, *below)]

    def below(self):
        """Types of operands that a branch leaves behind."""
        return [self.pick(["i32", "i64", RefType(True, "extern")]) for _ in range(self.pick([0, 0, 1, 2]))]

    def leave(self, depth):
        """Code that does not go on, over operands that it leaves behind."""
        return self.expressions(self.below(), depth) + self.leaving(depth)

    def leaving(self, depth):
        label = self.rng.randrange(len(self.labels))
        carried = self.labels[-1 - label]
        form = self.pick(["br", "br", "return", "br_table", "br_table", "unreachable"])
        if form == "unreachable":
            return [["unreachable"]]
        if form == "return":
            return self.expressions(self.results, depth) + [["return"]]
        if form == "br":
            return self.expressions(carried, depth) + [["br", label]]
        like = [other for other in range(len(self.labels)) if self.labels[-1 - other] == carried]
        listed = [self.pick(like) for _ in range(self.pick([0, 1, 2, 3]))]
        places = list(range(len(listed) + 2))
        code = self.expressions(carried, depth) + self.small(depth, places, BEHIND)
        return code + [["br_table", listed, self.pick(like)]]

    def kept(self, _depth):
        """A local is set to a number that a block leaves alone which branches over operands of its own."""
        places = self.places_of(self.locals, lambda local: local == "i32")
        empty = self.places_of(self.spaces.types, lambda ty: not ty.params and not ty.results)
        if not places or not empty:
            return None
        leave = self.pick([[["br", 0]], [["i32.const", self.rng.randrange(2)], ["br_if", 0], ["drop"]]])
        block = ["block", self.pick(empty), [["i32.const", 44], *leave]]
        return [["i32.const", self.rng.randrange(100)], block, ["local.set", self.pick(places)]]

    def switch(self, depth):
        """A branch table out of three blocks: a local tells which of them was left."""
        places = self.places_of(self.locals, lambda local: local == "i32")
        empty = self.places_of(self.spaces.types, lambda ty: not ty.params and not ty.results)
        if not places or not empty:
            return None
        set_local, ty = ["local.set", self.pick(places)], self.pick(empty)
        listed = [self.rng.randrange(3) for _ in range(self.pick([1, 2, 2, 3]))]
        code = self.small(depth, list(range(len(listed) + 2)), BEHIND) + [["br_table", listed, self.rng.randrange(3)]]
        code = [["block", ty, code], ["i32.const", 11], set_local, ["br", 1]]
        code = [["block", ty, code], ["i32.const", 22], set_local]
        return [["i32.const", 33], set_local, ["block", ty, code]]

    def fill(self, depth):
        if self.spaces.memories and self.chance(0.5):
            code = self.small(depth) + self.expression("i32", depth) + self.small(depth)
            return code + [["memory.fill", self.memory()]]
        if not self.spaces.tables:
            return None
        table = self.table()
        element = self.expression(self.spaces.tables[table].element, depth)
        return self.entry(depth) + element + self.entry(depth) + [["table.fill", table]]

    def nothing(self, _depth):
        """A bulk instruction of no length, with its places at an end or past it."""
        places = [["i32.const", self.pick([0, 1, 2, 3, 4, 5, 6, 65536, 65537, 131073])] for _ in range(2)]
        none = [["i32.const", 0]]
        forms = []
        if self.spaces.memories:
            forms.append([places[0], ["i32.const", 7], *none, ["memory.fill", self.memory()]])
            forms.append([*places, *none, ["memory.copy", self.memory(), self.memory()]])
        if self.spaces.memories and self.spaces.datas:
            forms.append([*places, *none, ["memory.init", self.memory(), self.rng.randrange(self.spaces.datas)]])
        for table, ty in enumerate(self.spaces.tables):
            element = self.of_null(ty.element, 0)
            if element:
                forms.append([places[0], *element, *none, ["table.fill", table]])
            forms.append([*places, *none, ["table.copy", table, table]])
        return self.pick(forms) if forms and self.chance(0.3) else None

    def entries(self, depth):
        return self.entry(depth) + self.entry(depth) + self.small(depth, [0, 1, 1, 2], BEHIND)

    def around(self, depth):
        """Statements with more operands below them, so that what branches has operands to leave behind."""
        kinds = self.below()
        return self.expressions(kinds, depth) + self.statements(depth) + [["drop"] for _ in kinds]

    def copy(self, depth):
        if self.spaces.memories and self.chance(0.5):
            code = self.small(depth) + self.small(depth) + self.small(depth)
            return code + [["memory.copy", self.memory(), self.memory()]]
        if not self.spaces.tables:
            return None
        source = self.table()
        element = self.spaces.tables[source].element
        places = self.places_of(self.spaces.tables, lambda table: matches(element, table.element))
        return self.entries(depth) + [["table.copy", self.pick(places), source]]

    def init(self, depth):
        if self.spaces.datas and self.chance(0.5):
            return self.init_memory(depth, self.rng.randrange(self.spaces.datas))
        return self.init_table(depth, self.rng.randrange(len(self.spaces.elements))) if self.spaces.elements else None

    def init_memory(self, depth, segment):
        if not self.spaces.memories:
            return None
        code = self.small(depth) + self.entry(depth) + self.small(depth, [0, 1, 1, 2], BEHIND)
        return code + [["memory.init", self.memory(), segment]]

    def init_table(self, depth, segment):
        element = self.spaces.elements[segment]
        places = self.places_of(self.spaces.tables, lambda table: matches(element, table.element))
        return self.entries(depth) + [["table.init", self.pick(places), segment]] if places else None

    def drop_segment(self, depth):
        """Drops a segment, which is now and then asked for at once."""
        drops = [("data.drop", self.init_memory, place) for place in range(self.spaces.datas)]
        drops += [("elem.drop", self.init_table, place) for place in range(len(self.spaces.elements))]
        if not drops:
            return None
        name, init, place = self.pick(drops)
        after = init(depth, place) if self.chance(0.4) else None
        return [[name, place], *(after or [])]

    def growth(self, depth):
        code = self.of_growth("i32", depth)
        return None if code is None else code + [["drop"]]

    def table_set(self, depth):
        if not self.spaces.tables:
            return None
        table = self.table()
        element = self.expression(self.spaces.tables[table].element, depth)
        return self.entry(depth) + element + [["table.set", table]]


def constant_of(rng, ty, spaces, globals_there):
    """A constant expression of a type, or None."""
    choices = []
    if ty in ("i32", "i64"):
        choices.append([ty + ".const", rng.choice(NUMBERS)])
    elif ty in ("f32", "f64"):
        choices.append([ty + ".bits", rng.choice([0, 1, 2**31, 2**32 - 1])])
    elif ty == "v128":
        choices.append(["v128.hex", "%032x" % rng.getrandbits(128)])
    else:
        if ty.nullable:
            choices.append(["ref.null", top(ty.heap)])
        for place in range(spaces.func_count()):
            if matches(RefType(False, spaces.func_type(place)), ty):
                choices.append(["ref.func", place])
    for place in range(globals_there):
        entry = spaces.globals[place]
        if not entry.variable and matches(entry.content, ty):
            choices.append(["global.get", place])
    return rng.choice(choices) if choices else None
