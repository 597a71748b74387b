"""Random sessions for the comparison with V8 (compare.py): modules that are linked to one another and to objects of the host, calls of their
functions, and at the end reads of all that is left. The language is that of docs/SESSIONS.md.

What a module defines it exports, by kind and index: "f3" is function 3, "m0" memory 0.
"""

from dataclasses import dataclass
from random import Random

from random_code import (
    EXTERNREF, FUNCREF, I32, I64, NULL_PROBE, NUMBERS, PAGE, REFERENCES, ROUNDS, SUM, Shape, Types,
    Writer, random_number)

LETTERS = {"func": "f", "table": "t", "memory": "m", "global": "g"}
COMMON = {ROUNDS: {"val": I32, "mut": True}, NULL_PROBE: {"val": I32, "mut": True}, SUM: {"val": I64, "mut": True}}


@dataclass
class Thing:
    """An object that a reply of the session gives, with its type as an import asks for it."""

    kind: str
    reply: int
    type: object


def takes_value(thing, wanted):
    """Whether V8 takes what is no global for the value of the global that this import asks for: a constant of a reference type."""
    return thing.kind == "global" and not wanted["mut"] and wanted["val"] in REFERENCES


class SessionWriter:
    """Writes the session of a seed."""

    def __init__(self, seed):
        self.random = Random(seed)
        self.types = Types(self.random)
        self.commands, self.modules, self.things = [], [], []
        self.danger = self.random.choice((0, 0.01, 0.03, 0.15))

    def session(self):
        for wanted in COMMON.values():
            self.do("global_new", **wanted, init={wanted["val"]: 0})
        for _ in range(self.random.randrange(4)):
            self.host_object()
        for number in range(self.random.choice((1, 1, 2, 2, 3))):
            self.module(number)
            if self.random.random() < 0.3:
                self.host_object()
        functions = [thing for thing in self.things if thing.kind == "func"]
        self.calls(self.random.choices(functions, k=self.random.randrange(2, 8)))
        self.reads()
        return {"types": self.types.items, "modules": self.modules, "commands": self.commands}

    def do(self, command, **keys):
        """Adds a command, and gives the number of its reply."""
        self.commands.append({"do": command, **keys})
        return len(self.commands) - 1

    # Objects.

    def limits(self, mins, most):
        """A minimum and mostly a maximum, which is there where the minimum is 0: growth would else have no near end."""
        least = self.random.choice(mins)
        if least and self.random.random() < 0.25:
            return {"min": least}
        return {"min": least, "max": least + self.random.randrange(most)}

    def memory_type(self):
        return self.limits((0, *[1] * 13, 2, 2), 4)

    def table_type(self):
        kind = self.random.choices(REFERENCES, (3, 1))[0]
        return {"ref": kind, **self.limits((0, 1, 2, 2, 3, 3, 4, 4, 5, 5, 8, 8, 10), 6)}

    def global_type(self):
        kind = self.random.choices(NUMBERS + REFERENCES, (4, 4, 2, 1))[0]
        return {"val": kind, "mut": self.random.random() < 0.75}

    def host_object(self):
        kind = self.random.choice(("table", "memory", "global"))
        if kind == "memory":
            wanted = self.memory_type()
            reply = self.do("memory_new", **wanted)
            for place in (0, wanted["min"] * PAGE - 128) if wanted["min"] else ():
                self.do("memory_write", memory=reply, at=place, bytes=self.random.randbytes(128).hex())
        elif kind == "table":
            wanted = self.table_type()
            reply = self.do("table_new", **wanted, init=self.operand(wanted["ref"]))
        else:
            wanted = self.global_type()
            reply = self.do("global_new", **wanted, init=self.operand(wanted["val"]))
        self.things.append(Thing(kind, reply, wanted))

    def operand(self, kind):
        """An operand of this type."""
        if kind in NUMBERS:
            return {kind: random_number(self.random, kind)}
        if kind == EXTERNREF:
            return {"extern": self.random.choice((None, 0, 1, 7, (1 << 32) - 1))}
        functions = [thing for thing in self.things if thing.kind == "func"]
        if functions and self.random.random() < 0.7:
            return {"name": self.random.choice(functions).reply}
        return {"func": None}

    def code_writer(self, shape, signature):
        return Writer(self.random, self.types, shape, signature, self.danger)

    # Modules.

    def module(self, number):
        """A module and its instance, the exports of this, and some calls."""
        shape, imported = Shape(), self.imported()
        module = {"imports": [], "exports": []}
        for place, (thing, wanted) in enumerate(imported):
            module["imports"].append({"module": "host", "name": "i%d" % place, thing.kind: wanted})
            self.add_to_shape(shape, thing.kind, wanted)
        counts = {kind: len(self.space(shape, kind)) for kind in LETTERS}
        shape.imported_globals = counts["global"]
        self.define(module, shape)
        self.export(module, shape, counts)
        self.modules.append(module)
        names = [thing.reply for thing, _ in imported]
        places = [place for place in range(len(COMMON), len(names)) if not takes_value(*imported[place])]
        if places and self.random.random() < 0.04:
            names[self.random.choice(places)] = self.random.choice(self.things).reply
        self.do("global_set", **{"global": ROUNDS}, value={I32: 300})
        instance = self.do("instantiate", module=number, imports=names)
        things = []
        for entry in module["exports"]:
            kind = next(key for key in LETTERS if key in entry)
            reply = self.do("get_export", instance=instance, name=entry["name"])
            if entry["name"][0] != "r":
                things.append(Thing(kind, reply, self.space(shape, kind)[entry[kind]]))
        self.things += things
        functions = [thing for thing in things if thing.kind == "func"]
        self.calls(functions + self.random.choices(functions, k=self.random.randrange(4)))

    def space(self, shape, kind):
        return {"func": shape.functions, "table": shape.tables, "memory": shape.memories, "global": shape.globals}[kind]

    def add_to_shape(self, shape, kind, wanted):
        if kind == "func":
            item = self.types.items[wanted]
            wanted = (item["params"], item["results"])
        self.space(shape, kind).append(wanted)

    def imported(self):
        """The globals of all code, and some things that are there, each with the type that is asked for."""
        chosen = [(Thing("global", number, wanted), wanted) for number, wanted in COMMON.items()]
        memories = 0
        for thing in self.random.sample(self.things, self.random.randrange(min(len(self.things), 6) + 1)):
            memories += thing.kind == "memory"
            if thing.kind != "memory" or memories == 1:
                chosen.append((thing, self.asked(thing)))
        return chosen

    def asked(self, thing):
        """A type that the thing matches, and seldom one with a minimum that is not reached."""
        if thing.kind == "func":
            return self.types.number(*thing.type)
        if thing.kind == "global":
            return thing.type
        wanted = dict(thing.type)
        wanted["min"] = self.random.choice((wanted["min"], wanted["min"], max(wanted["min"] - 1, 0)))
        if "max" in wanted:
            wanted["max"] += self.random.choice((0, 1))
            if self.random.random() < 0.3:
                del wanted["max"]
        if self.random.random() < 0.01:
            wanted.update(min=20, max=40)
        return wanted

    def define(self, module, shape):
        random = self.random
        signatures = [(self.some_types(3), self.some_types(3)) for _ in range(random.randrange(1, 5))]
        signatures += random.choices(signatures, k=random.randrange(4))
        starts = random.random() < 0.15
        if starts:
            signatures.append(([], []))
        first = len(shape.functions)
        shape.functions += signatures
        module["tables"] = [self.table_type() for _ in range(random.choice((0, 1, 1, 2)))]
        shape.tables += module["tables"]
        module["memories"] = [self.memory_type()] if not shape.memories and random.random() < 0.85 else []
        shape.memories += module["memories"]
        module["globals"] = [self.global_entry(shape) for _ in range(random.randrange(5))]
        shape.globals += [{"val": item["val"], "mut": item["mut"]} for item in module["globals"]]
        module["elements"] = [self.element(shape) for _ in range(random.randrange(6))]
        module["elements"].append(self.declaration(shape, first))
        module["datas"] = [self.filling(shape)] if module["memories"] and shape.memories[0]["min"] else []
        module["datas"] += [self.data(shape) for _ in range(random.randrange(4))]
        module["functions"] = []
        for signature in signatures:
            body = self.code_writer(shape, signature).body()
            module["functions"].append({"type": self.types.number(*signature), **body})
        if random.random() < 0.06:
            self.endless(module, shape)
        if starts:
            module["start"] = first + len(signatures) - 1

    def endless(self, module, shape):
        """A function that calls itself without an end, and does nothing else."""
        number = len(shape.functions)
        shape.functions.append(([I64], [I64]))
        code = [["local.get", 0], ["i64.const", 1], ["i64.add"], ["call", number]]
        module["functions"].append({"type": self.types.number([I64], [I64]), "code": code})

    def some_types(self, most):
        return self.random.choices(NUMBERS + REFERENCES, (8, 8, 2, 1), k=self.random.randrange(most + 1))

    def constant(self, shape, kind):
        """A constant of this type; of globals it may name one that is imported and constant."""
        fixed = self.constant_globals(shape, kind)
        if fixed and self.random.random() < 0.4:
            return ["global.get", self.random.choice(fixed)]
        if kind in NUMBERS:
            return [kind + ".const", random_number(self.random, kind)]
        if kind == FUNCREF and self.random.random() < 0.8:
            return ["ref.func", self.random.randrange(len(shape.functions))]
        return ["ref.null", "func" if kind == FUNCREF else "extern"]

    def constant_globals(self, shape, kind):
        imported = shape.globals[:shape.imported_globals]
        return [n for n, item in enumerate(imported) if item["val"] == kind and not item["mut"]]

    def global_entry(self, shape):
        wanted = self.global_type()
        return {**wanted, "init": self.constant(shape, wanted["val"])}

    def place(self, shape, end, length):
        """Where an active segment is written: seldom past the end, or where a constant global says."""
        fixed = self.constant_globals(shape, I32)
        if fixed and self.random.random() < 0.1:
            return ["global.get", self.random.choice(fixed)]
        if end < length or self.random.random() < self.danger / 4:
            return ["i32.const", self.random.choice((max(end - length, 0) + 1, (1 << 32) - 1, end + 1))]
        return ["i32.const", self.random.choice((0, end - length, self.random.randrange(end - length + 1)))]

    def element(self, shape):
        kind = self.random.choices(REFERENCES, (4, 1))[0]
        items = [self.constant(shape, kind) for _ in range(self.random.randrange(7))]
        segment = {"ref": kind, "items": items}
        tables = [n for n, table in enumerate(shape.tables) if table["ref"] == kind]
        way = self.random.choices(("active", "passive", "declared"), (6, 3, 1))[0]
        if way == "active" and tables:
            segment["table"] = self.random.choice(tables)
            end = shape.tables[segment["table"]]["min"]
            if self.random.random() < 0.6:
                items += [self.constant(shape, kind) for _ in range(end)]
            if self.random.random() > self.danger / 4:
                del items[end:]
            segment["offset"] = self.place(shape, end, len(items))
        elif way == "declared":
            segment["declared"] = True
        shape.elements.append((kind, 0 if len(segment) > 2 else len(items)))
        return segment

    def declaration(self, shape, imported):
        """The segment by which the standard lets code refer to the imported functions."""
        shape.elements.append((FUNCREF, 0))
        return {"ref": FUNCREF, "declared": True, "items": [["ref.func", n] for n in range(imported)]}

    def data(self, shape):
        held = self.random.randbytes(self.random.choice((0, 1, 8, 40, 128)))
        segment = {"bytes": held.hex()}
        if shape.memories and self.random.random() < 0.6:
            end = shape.memories[0]["min"] * PAGE
            if len(held) > end:
                segment["bytes"], held = "", b""
            segment.update(memory=0, offset=self.place(shape, end, len(held)))
        shape.datas.append(0 if "memory" in segment else len(held))
        return segment

    def filling(self, shape):
        """A segment that fills the begin of a new memory, where most accesses are."""
        shape.datas.append(0)
        return {"bytes": self.random.randbytes(128).hex(), "memory": 0, "offset": ["i32.const", 0]}

    def export(self, module, shape, imported):
        """Exports all that is defined, and some imported functions again."""
        for kind, letter in LETTERS.items():
            for index in range(imported[kind], len(self.space(shape, kind))):
                module["exports"].append({"name": letter + str(index), kind: index})
        for index in range(imported["func"]):
            if self.random.random() < 0.3:
                module["exports"].append({"name": "r%d" % index, "func": index})

    # Calls and reads.

    def calls(self, functions):
        for thing in functions:
            self.do("global_set", **{"global": ROUNDS}, value={I32: self.random.choice((300, 300, 40))})
            self.do("call", func=thing.reply, args=[self.operand(kind) for kind in thing.type[0]])
            self.do("global_get", **{"global": SUM})
            if self.random.random() < 0.2:
                self.touch()

    def touch(self):
        """A change by the host."""
        thing = self.random.choice(self.things)
        if thing.kind == "memory":
            self.do("memory_grow", memory=thing.reply, delta=self.random.choice((0, 1, 1 << 17)))
        elif thing.kind == "global" and thing.type["mut"]:
            self.do("global_set", **{"global": thing.reply}, value=self.operand(thing.type["val"]))
        elif thing.kind == "table":
            value = self.operand(thing.type["ref"])
            if self.random.random() < 0.6:
                self.do("table_set", table=thing.reply, at=self.random.randrange(thing.type["min"] + 2), value=value)
            else:
                self.do("table_grow", table=thing.reply, delta=self.random.choice((0, 1, (1 << 32) - 1)), value=value)

    def reads(self):
        """Reads what all objects hold."""
        for thing in self.things:
            if thing.kind == "global":
                self.do("global_get", **{"global": thing.reply})
            elif thing.kind == "memory":
                self.do("memory_size", memory=thing.reply)
                for page in range(thing.type.get("max", thing.type["min"] + 2)):
                    self.do("memory_read", memory=thing.reply, at=page * PAGE, len=PAGE)
            elif thing.kind == "table":
                self.do("table_size", table=thing.reply)
                for place in range(thing.type.get("max", thing.type["min"] + 3) + 1):
                    self.do("table_get", table=thing.reply, at=place)
        self.do("global_get", **{"global": ROUNDS})
