"""Makes random types and random modules, as they stand in a script; most of the modules are valid."""

from code_typing import Spaces
from module_reader import ModuleReader
from random_code import CodeMaker, constant_of
from reading import TypeReader, read_types

KINDS = ("func", "table", "memory", "global", "tag")
SIMPLE = ["i32", "i32", "i32", "i64", "i64", "f32", "f64", "v128", "funcref", "externref", "anyref"]
REFERENCES = ["funcref", "funcref", "funcref", "externref", "anyref"]
HEAPS = ["func", "nofunc", "extern", "noextern", "any", "eq", "i31", "none"]
FIRST_TYPES = [
    {},
    {"params": ["i32"], "results": ["i32"]},
    {"results": ["i32"]},
    {"params": ["i32", "i64"], "results": ["i32", "i64"]},
    {"params": ["i32"]},
    {"results": ["i32"], "final": False},
    {"results": ["i32"], "super": 5},
]


def chance(rng, share):
    return rng.random() < share


def random_type_number(rng, count):
    return rng.choice([0, 0, 1, 1, 2, 3, 4, 5, 6, rng.randrange(count)])


def random_value_type(rng, count):
    """A value type over so many function types."""
    if chance(rng, 0.75):
        return rng.choice(SIMPLE)
    return random_reference(rng, count)


def random_reference(rng, count):
    if chance(rng, 0.5):
        return rng.choice(REFERENCES)
    heap = rng.choice(HEAPS)
    if count and chance(rng, 0.5):
        heap = rng.choice([5, 6, rng.randrange(count)]) if count > 6 else rng.randrange(count)
    reference = {"ref": heap}
    if chance(rng, 0.6):
        reference["null"] = chance(rng, 0.6)
    return reference


def random_types(rng):
    """A list of types that makes a script, of which the first are always the same."""
    types = list(FIRST_TYPES)
    for _ in range(rng.randrange(5)):
        params = [random_value_type(rng, len(types)) for _ in range(rng.randrange(3))]
        results = [random_value_type(rng, len(types)) for _ in range(rng.choice([0, 1, 1, 2, 3]))]
        entry = {"params": params, "results": results}
        if chance(rng, 0.3):
            entry["final"] = chance(rng, 0.3)
        types.append(entry)
        open_types = [place for place, one in enumerate(types) if one.get("final") is False]
        if chance(rng, 0.4) and open_types:
            above = rng.choice(open_types)
            types.append({**types[above], "super": above, "final": chance(rng, 0.5)})
    return types


def random_memory_type(rng):
    """The keys of a memory type: small, of pages of either size."""
    if chance(rng, 0.3):
        minimum = rng.choice([0, 1, 2, 16, 70])
        keys = {"min": minimum, "page": 0}
    else:
        minimum = rng.choice([0, 1, 1, 1, 2])
        keys = {"min": minimum}
        if chance(rng, 0.2):
            keys["page"] = 16
    if chance(rng, 0.5):
        keys["max"] = minimum + rng.choice([0, 1, 2, 3])
    return keys


def random_table_type(rng, count):
    minimum = rng.choice([0, 1, 2, 2, 3, 3, 4, 4])
    keys = {"ref": random_reference(rng, count), "min": minimum}
    if chance(rng, 0.5):
        keys["max"] = minimum + rng.choice([0, 1, 2, 3])
    return keys


def random_global_type(rng, count):
    keys = {"val": random_value_type(rng, count)}
    if chance(rng, 0.7):
        keys["mut"] = chance(rng, 0.7)
    return keys


def a_nullable(reference):
    return {**reference, "null": True} if isinstance(reference, dict) else reference


class ModuleMaker:
    """Makes modules over some types; the types in `bodies` are those of functions of the host, which modules import."""

    def __init__(self, rng, types, bodies):
        self.rng = rng
        self.types = types
        self.bodies = bodies
        self.read = read_types(types)
        self.reader = TypeReader(self.read)

    def few(self, make, *counts):
        return [make() for _ in range(self.rng.choice(counts))]

    def type_number(self):
        return random_type_number(self.rng, len(self.types))

    def module(self):
        rng, count = self.rng, len(self.types)
        module = {
            "imports": [{"module": "h", "name": "body", "func": number} for number in self.bodies]
            + self.few(self.import_entry, 0, 0, 1, 1, 2, 3),
            "functions": self.few(self.function, 1, 2, 3, 4),
            "tables": self.few(lambda: random_table_type(rng, count), 0, 1, 1, 2),
            "memories": self.few(lambda: random_memory_type(rng), 0, 1, 1, 2),
            "globals": self.few(lambda: random_global_type(rng, count), 0, 1, 2, 3),
            "tags": self.few(self.type_number, 0, 0, 1),
        }
        self.give_constants(module)
        self.give_segments(module)
        self.give_code(module)
        self.give_exports(module)
        return {key: content for key, content in module.items() if content != [] or chance(rng, 0.1)}

    def import_entry(self):
        rng, count = self.rng, len(self.types)
        kind = rng.choice(["func", "func", "func", "table", "memory", "global", "tag"])
        asked = self.type_number()
        if kind == "table":
            asked = random_table_type(rng, count)
        elif kind == "memory":
            asked = random_memory_type(rng)
        elif kind == "global":
            asked = random_global_type(rng, count)
        return {"module": rng.choice(["h", "host", ""]), "name": kind, kind: asked}

    def function(self):
        count = len(self.types)
        pool = ["i32", "i32", "i64", "f32", "f64", "v128", "funcref", "externref", "anyref"]
        extra = [a_nullable(random_value_type(self.rng, count)) for _ in range(self.rng.randrange(3))]
        return {"type": self.type_number(), "locals": pool + extra}

    def spaces(self, module):
        """The spaces of a module whose constants, segments and code need not stand there yet."""
        whole = {key: content for key, content in module.items() if key not in ("elements", "datas", "exports", "start")}
        whole["globals"] = [{"init": ["i32.const", 0], **entry} for entry in module["globals"]]
        whole.update({key: module[key] for key in ("elements", "datas") if key in module})
        return Spaces(ModuleReader(self.read).module(whole))

    def give_constants(self, module):
        """Gives each table and global its start value; those that can have none are made of another type."""
        spaces = self.spaces(module)
        for entry in module["tables"]:
            element = self.reader.reference(entry["ref"])
            init = constant_of(self.rng, element, spaces, spaces.imported_globals)
            if init is None:
                entry["ref"] = "funcref"
            elif not element.nullable or chance(self.rng, 0.6):
                entry["init"] = init
        spaces = self.spaces(module)
        for place, entry in enumerate(module["globals"]):
            content = self.reader.value_type(entry["val"])
            init = constant_of(self.rng, content, spaces, spaces.imported_globals + place)
            if init is None:
                entry["val"], init = "i64", ["i64.const", 5]
                module["globals"][place]["init"] = init
                spaces = self.spaces(module)
            entry["init"] = init

    def give_segments(self, module):
        rng, spaces = self.rng, self.spaces(module)
        everything = len(spaces.globals)

        def offset():
            init = constant_of(rng, "i32", spaces, everything if chance(rng, 0.3) else 0)
            if init[0] == "global.get" or chance(rng, 0.2):
                return init
            return ["i32.const", rng.choice([0, 0, 0, 1, 2, 65534])]

        def element():
            table = rng.randrange(len(spaces.tables)) if spaces.tables else None
            ty = random_reference(rng, len(self.types))
            if table is not None and chance(rng, 0.7):
                ty = self.table_references(module)[table]
            items = self.few(lambda: constant_of(rng, self.reader.reference(ty), spaces, everything), 0, 1, 1, 2, 3)
            segment = {"ref": ty, "items": [one for one in items if one is not None]}
            if table is not None and chance(rng, 0.6) and ty == self.table_references(module)[table]:
                segment.update(table=table, offset=offset())
            elif chance(rng, 0.3):
                segment["declared"] = True
            return segment

        def data():
            segment = {"bytes": bytes(rng.getrandbits(8) for _ in range(rng.randrange(6))).hex()}
            if spaces.memories and chance(rng, 0.6):
                segment.update(memory=rng.randrange(len(spaces.memories)), offset=offset())
            return segment

        module["elements"] = self.few(element, 0, 0, 1, 2, 3)
        module["datas"] = self.few(data, 0, 0, 1, 2, 3)

    def table_references(self, module):
        imported = [entry["table"]["ref"] for entry in module["imports"] if "table" in entry]
        return imported + [entry["ref"] for entry in module["tables"]]

    def give_code(self, module):
        spaces = self.spaces(module)
        for place, function in enumerate(module["functions"]):
            local_types = self.reader.value_list(function["locals"])
            maker = CodeMaker(self.rng, spaces, spaces.imported_funcs + place, self.read[function["type"]], local_types)
            function["code"] = maker.body()
        starts = [place for place in range(spaces.func_count()) if not any(spaces.func_type(place)[2:4])]
        if starts and chance(self.rng, 0.25):
            module["start"] = self.rng.choice(starts)

    def give_exports(self, module):
        """Exports by names that tell what they are: t1 is the first function of type 1, m0 memory 0, and so on."""
        spaces = self.spaces(module)
        exports = []
        for place in range(spaces.func_count()):
            name = "t%d" % self.read.index(spaces.func_type(place))
            if all(entry["name"] != name for entry in exports):
                exports.append({"name": name, "func": place})
            exports.append({"name": "f%d" % place, "func": place})
        counts = {"table": len(spaces.tables), "memory": len(spaces.memories), "global": len(spaces.globals)}
        counts["tag"] = spaces.tags
        for kind, count in counts.items():
            exports += [{"name": "%s%d" % (kind, place), kind: place} for place in range(count)]
        self.rng.shuffle(exports)
        module["exports"] = exports
