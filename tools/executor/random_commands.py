"""Makes random commands of a session and random bodies of its host, of which many are refused.

What a name stands for is known exactly for the commands of a session, whose replies are there, and guessed for those that a
body asks for.
"""

from machine import GuestFunction
from random_code import LARGE, LARGER, NUMBERS
from random_modules import chance, random_global_type, random_memory_type, random_table_type
from reading import TypeReader
from value_types import FuncType, RefType, kind, top

PLACES = [0, 0, 0, 1, 1, 2, 3, 4, 16, 60, 64, 70, 65535, 65536, 65537, 2**32, 2**64 - 1]
LENGTHS = [0, 0, 1, 1, 2, 3, 4, 16, 65536, 2**64 - 1]
DELTAS = [0, 0, 1, 1, 1, 2, 3, 65536, 2**32 - 1, 2**32, 2**64 - 1]
OBJECTS = ("memory_new", "table_new", "global_new", "tag_new", "func_new")
MEMORY_WORK = ("memory_read", "memory_read", "memory_write", "memory_write", "memory_size", "memory_grow", "memory_grow")
TABLE_WORK = ("table_get", "table_get", "table_set", "table_size", "table_grow", "table_copy", "table_fill", "table_grow")
GLOBAL_WORK = ("global_get", "global_get", "global_set", "global_set")
STORED = {"memory": 0, "table": 1, "global": 2, "func": 3, "tag": 3}
METER_WORK = ("get_fuel", "set_fuel", "yield_interval", "set_epoch_deadline")
NESTED = ("call",) * 8 + ("get_export",) * 3 + MEMORY_WORK + TABLE_WORK + GLOBAL_WORK + METER_WORK + OBJECTS[:4]


def literal(rng, ty):
    """A literal operand of about this type."""
    if ty in ("i32", "i64"):
        return {ty: rng.choice(NUMBERS + LARGE + (LARGER[:3] if ty == "i64" else []))}
    if ty in ("f32", "f64"):
        return {ty: rng.choice([0, 1, 2**31, 2**32 - 1])}
    if ty == "v128":
        return {"v128": "%032x" % rng.getrandbits(128)}
    family = top(ty.heap)
    if family == "func" or chance(rng, 0.25):
        return {family: None}
    return {family: rng.choice([0, 1, 7, 2**31 - 1])}


def near_reference(ty):
    """A reference type a little above or below another one; a number type is as it was."""
    near = {5: 6, 6: 5, "func": 5, "any": "i31", "eq": "any", "i31": "eq", "extern": "noextern"}
    if isinstance(ty, str) and not ty.endswith("ref"):
        return ty
    reference = ty if isinstance(ty, dict) else {"ref": ty.removesuffix("ref")}
    return {**reference, "ref": near.get(reference["ref"], reference["ref"])}


def any_literal(rng):
    references = [RefType(True, heap) for heap in ("func", "extern", "any")]
    return literal(rng, rng.choice(["i32", "i64", "f32", "f64", "v128", *references]))


class SessionScope:
    """The names of the session's own commands: its replies so far."""

    def __init__(self, rng, machine):
        self.rng = rng
        self.machine = machine

    def replies_of(self, fits):
        return [place for place, reply in enumerate(self.machine.replies) if fits(reply)]

    def known(self, wanted):
        """Names that give an object of a kind, or an instance."""
        word = "instance" if wanted == "instance" else "object"
        names = self.replies_of(lambda reply: reply[0] == word and reply[1] == wanted)
        if wanted == "func":
            names += [{"value": pair} for pair in self.values(lambda value: value[0] == "func" and value[1] is not None)]
        return names

    def values(self, fits):
        replies = enumerate(self.machine.replies)
        lists = [(place, reply[1]) for place, reply in replies if reply[0] == "values"]
        return [[place, index] for place, values in lists for index, value in enumerate(values) if fits(value)]

    def named_values(self, ty):
        """Names that give a value of a type."""
        names = [{"value": pair} for pair in self.values(lambda value: self.machine.fits(value, ty))]
        if isinstance(ty, RefType) and top(ty.heap) == "func":
            handles = self.machine.replies
            places = [place for place in self.known("func") if isinstance(place, int)]
            names += [place for place in places if self.machine.fits(handles[place][1:], ty)]
        return names

    def func_type(self, name):
        """The type of the function that a name gives."""
        if isinstance(name, int):
            place = self.machine.replies[name][2]
        else:
            reply, index = name["value"]
            place = self.machine.replies[reply][1][index][1]
        return self.machine.objects["func"][place].type

    def guests(self):
        """Names of functions of instances."""
        names = [name for name in self.known("func") if isinstance(name, int)]
        functions = self.machine.objects["func"]
        return [name for name in names if isinstance(functions[self.machine.replies[name][2]], GuestFunction)]

    def export_names(self, name):
        return list(self.machine.instances[self.machine.replies[name][2]].exports)

    def wild(self):
        """A name of anything."""
        count = len(self.machine.replies) + 2
        names = [self.rng.randrange(count), self.rng.randrange(count), {"value": [self.rng.randrange(count), 0]}]
        values = self.values(lambda value: chance(self.rng, 1.0 if value[0] == "func" else 0.2))
        if values:
            names += [{"value": self.rng.choice(values)}] * 3
        return self.rng.choice([*names, {"arg": 0}, {"stored": 0}, {"caller": True}])


class BodyScope:
    """The names of a body of the host: its parameters, what is stored, and what its operations so far may have given."""

    def __init__(self, rng, params, types):
        self.rng = rng
        self.params = params
        self.types = types
        self.given = []

    def known(self, wanted):
        names = [place for place, given in enumerate(self.given) if given[0] == wanted]
        if wanted == "func":
            names += [{"arg": place} for place, ty in enumerate(self.params) if kind(ty) == "func"]
        return names + [{"caller": True} if wanted == "instance" else {"stored": STORED[wanted]}]

    def named_values(self, ty):
        names = [{"arg": place} for place, param in enumerate(self.params) if kind(param) == kind(ty)]
        for place, given in enumerate(self.given):
            if given[0] == "values":
                names += [{"value": [place, index]} for index, one in enumerate(given[1]) if kind(one) == kind(ty)]
            if given[0] == "func" and kind(ty) == "func":
                names.append(place)
        return names

    def func_type(self, name):
        if isinstance(name, int) and name < len(self.given) and isinstance(self.given[name][-1], FuncType):
            return self.given[name][-1]
        return self.rng.choice(self.types[:5])

    def export_names(self, _name):
        return ["t0", "t1", "t2", "t4", "f0", "f1", "table0", "memory0", "global0"]

    def wild(self):
        names = [self.rng.randrange(3), {"value": [self.rng.randrange(2), 0]}, {"arg": self.rng.randrange(3)}]
        return self.rng.choice([*names, {"stored": self.rng.randrange(3)}, {"caller": True}])

    def note(self, command):
        """Keeps what the operation may give."""
        do = command["do"]
        given = ("nothing",)
        if do == "get_export":
            given = self.of_export(command["name"])
        elif do == "call":
            given = ("values", self.called.results)
        elif do.endswith("_new"):
            given = (do.removesuffix("_new"),)
        self.given.append(given)

    def of_export(self, name):
        if name[:1] == "t" and name[1:].isdigit() and int(name[1:]) < len(self.types):
            return ("func", self.types[int(name[1:])])
        return ("func", None) if name[:1] == "f" else (name.rstrip("0123456789"),)


class CommandMaker:
    """Makes commands; `wrong` is the share of names, values and numbers that are no fitting ones."""

    def __init__(self, rng, types, module_count, body_types, wrong):
        self.rng = rng
        self.types = types
        self.module_count = module_count
        self.body_types = body_types
        self.wrong = wrong
        self.guest_types = []
        self.reader = TypeReader(types)

    def errs(self):
        return chance(self.rng, self.wrong)

    def name(self, scope, wanted):
        names = scope.known(wanted)
        return scope.wild() if not names or self.errs() else self.rng.choice(names)

    def operand(self, scope, ty):
        """An operand of a type, as JSON."""
        if self.errs():
            return any_literal(self.rng) if chance(self.rng, 0.6) else {"name": scope.wild()}
        names = scope.named_values(ty)
        needs_name = isinstance(ty, RefType) and top(ty.heap) == "func" and not ty.nullable
        if names and (needs_name or chance(self.rng, 0.4)):
            return {"name": self.rng.choice(names)}
        return literal(self.rng, ty)

    def command(self, do, scope):
        make = getattr(self, do, None) or getattr(self, do.split("_")[0] + "_work")
        return {"do": do, **make(scope, do)}

    def number(self, pool, least=0):
        return max(least, self.rng.choice(pool[:5] if not self.errs() else pool))

    def memory_new(self, _scope, _do):
        return random_memory_type(self.rng)

    def table_new(self, scope, _do):
        keys = random_table_type(self.rng, len(self.types))
        return {**keys, "init": self.operand(scope, self.reader.reference(keys["ref"]))}

    def global_new(self, scope, _do):
        keys = random_global_type(self.rng, len(self.types))
        return {**keys, "init": self.operand(scope, self.reader.value_type(keys["val"]))}

    def tag_new(self, _scope, _do):
        return {"type": self.rng.randrange(len(self.types))}

    def func_new(self, scope, _do):
        if not self.body_types or self.errs():
            keys = {"type": self.rng.randrange(len(self.types)), "body": self.rng.randrange(len(self.body_types) + 2)}
        else:
            body = self.rng.randrange(len(self.body_types))
            keys = {"type": self.body_types[body], "body": body}
        kinds = [self.rng.choice(["func", "func", "memory", "table", "global"]) for _ in range(self.rng.randrange(4))]
        if kinds:
            keys["stored"] = [self.name(scope, wanted) for wanted in kinds if scope.known(wanted) or self.errs()]
        return keys

    def memory_work(self, scope, do):
        keys = {"memory": self.name(scope, "memory")}
        if do == "memory_read":
            keys.update(at=self.number(PLACES), len=self.number(LENGTHS))
        elif do == "memory_write":
            count = self.rng.choice([0, 1, 2, 4])
            keys.update(at=self.number(PLACES), bytes=bytes(self.rng.getrandbits(8) for _ in range(count)).hex())
        elif do == "memory_grow":
            keys["delta"] = self.number(DELTAS)
        return keys

    def element_type(self, scope, name):
        if isinstance(scope, SessionScope) and isinstance(name, int) and name < len(scope.machine.replies):
            reply = scope.machine.replies[name]
            if reply[:2] == ("object", "table"):
                return scope.machine.objects["table"][reply[2]].type.element
        return RefType(True, self.rng.choice(["func", "func", "extern", "any"]))

    def table_work(self, scope, do):
        table = self.name(scope, "table")
        if do == "table_copy":
            other = table if chance(self.rng, 0.4) else self.name(scope, "table")
            keys = {"dst": table, "dst_at": self.number(PLACES), "src": other, "src_at": self.number(PLACES)}
            return {**keys, "len": self.number(LENGTHS)}
        keys = {"table": table}
        if do in ("table_get", "table_set", "table_fill"):
            keys["at"] = self.number(PLACES)
        if do in ("table_set", "table_fill", "table_grow"):
            keys["value"] = self.operand(scope, self.element_type(scope, table))
        if do == "table_grow":
            keys["delta"] = self.number(DELTAS)
        if do == "table_fill":
            keys["len"] = self.number(LENGTHS)
        return keys

    def global_work(self, scope, do):
        name = self.name(scope, "global")
        if do == "global_get":
            return {"global": name}
        ty = "i32"
        if isinstance(scope, SessionScope) and isinstance(name, int) and name < len(scope.machine.replies):
            reply = scope.machine.replies[name]
            if reply[:2] == ("object", "global"):
                ty = scope.machine.objects["global"][reply[2]].type.content
        return {"global": name, "value": self.operand(scope, ty)}

    def get_export(self, scope, _do):
        name = self.name(scope, "instance")
        known = not isinstance(scope, SessionScope) or name in scope.known("instance")
        exports = scope.export_names(name) if known else []
        if not exports or self.errs():
            exports = ["", "f9", "nothing", "t0"]
        return {"instance": name, "name": self.rng.choice(exports)}

    def get_fuel(self, _scope, _do):
        return {}

    def set_fuel(self, _scope, _do):
        return {"fuel": self.rng.choice([0, 1, 2, 5, 10, 20, 40, 100, 1000, 2**63 - 1, 2**63, 2**64 - 1])}

    def yield_interval(self, _scope, _do):
        return {"interval": self.rng.choice([None, 0, 1, 10, 2**64 - 1])}

    def set_epoch_deadline(self, _scope, _do):
        return {"ticks": self.rng.choice([0, 1, 2, 3, 5, 8, 20, 100, 2**64 - 1])}

    def callee(self, scope):
        """The name of a function, mostly of one of a guest."""
        if isinstance(scope, SessionScope) and chance(self.rng, 0.8) and scope.guests():
            return self.rng.choice(scope.guests())
        return self.name(scope, "func")

    def call(self, scope, _do):
        name = self.callee(scope)
        known = not isinstance(scope, SessionScope) or name in scope.known("func")
        ty = scope.func_type(name) if known else self.rng.choice(self.types)
        scope.called = ty
        args = [self.operand(scope, param) for param in ty.params]
        if self.errs():
            args = args[1:] if chance(self.rng, 0.5) else [*args, any_literal(self.rng)]
        keys = {"func": name}
        if args or chance(self.rng, 0.1):
            keys["args"] = args
        if chance(self.rng, 0.15):
            keys["results"] = len(ty.results) + (self.errs() and self.rng.choice([-1, 1, 2**63]))
            keys["results"] = max(0, keys["results"])
        return keys

    def instantiate(self, scope, _do):
        if not self.module_count or self.errs() and chance(self.rng, 0.2):
            return {"module": self.module_count}
        return self.instantiate_module(scope, self.rng.randrange(self.module_count))

    def instantiate_module(self, scope, module):
        imports = [self.import_name(scope, asked) for asked in scope.machine.modules[module].imports]
        if self.errs() and chance(self.rng, 0.3):
            imports = imports[1:] if chance(self.rng, 0.5) else [*imports, scope.wild()]
        keys = {"module": module}
        if imports or chance(self.rng, 0.1):
            keys["imports"] = imports
        return keys

    def fitting(self, scope, asked):
        """Names of objects that match an import."""
        names = [name for name in scope.known(asked.kind) if isinstance(name, int)]
        return [name for name in names if scope.machine.has_type(scope.machine.replies[name][1:], asked)]

    def import_name(self, scope, asked):
        if self.errs():
            return scope.wild()
        names = (chance(self.rng, 0.85) and self.fitting(scope, asked)) or scope.known(asked.kind)
        return self.rng.choice(names) if names else scope.wild()

    def of_import(self, scope, entry, asked):
        """A command that makes an object for an import, or one of nearly that type."""
        if asked.kind == "tag":
            return {"do": "tag_new", "type": self.near_type(entry["tag"])}
        if asked.kind == "func":
            bodies = [body for body, number in enumerate(self.body_types) if number == entry["func"]]
            keys = {"do": "func_new", **self.func_new(scope, "func_new"), "type": self.near_type(entry["func"])}
            keys["body"] = self.rng.choice(bodies) if bodies else self.rng.randrange(len(self.body_types) + 1)
            return keys
        if asked.kind in ("memory", "table") and scope.known(asked.kind) and chance(self.rng, 0.4):
            return self.small_growth(scope, asked.kind)
        command = {"do": asked.kind + "_new", **self.near(entry[asked.kind])}
        if asked.kind == "memory":
            return command
        wanted = asked.type.element if asked.kind == "table" else asked.type.content
        return {**command, "init": self.operand(scope, wanted)}

    def small_growth(self, scope, wanted):
        """Grows a memory or a table by one, which may then be large enough."""
        do = wanted + "_grow"
        return {"do": do, **getattr(self, wanted + "_work")(scope, do), "delta": 1}

    def near_type(self, number):
        """The number of a type or, now and then, of its supertype or subtype."""
        return {5: 6, 6: 5}.get(number, number) if chance(self.rng, 0.3) else number

    def near(self, keys):
        """The keys of a type that is the one that is asked for, or one that differs a little."""
        keys = dict(keys)
        form = self.rng.choice(["same", "same", "same", "size", "most", "page", "mut", "ref"])
        if form == "size" and "min" in keys:
            keys["min"] = max(0, keys["min"] + self.rng.choice([-1, 1]))
        elif form == "most" and "min" in keys:
            keys["max"] = keys["min"] + self.rng.choice([0, 1, 2])
        elif form == "page" and "min" in keys and "ref" not in keys:
            keys["page"] = 0 if keys.get("page", 16) else 16
        elif form == "mut" and "val" in keys:
            keys["mut"] = not keys.get("mut", False)
        elif form == "ref":
            for key in keys.keys() & {"ref", "val"}:
                keys[key] = near_reference(keys[key])
        if "max" in keys and keys["max"] < keys["min"]:
            keys["max"] = keys["min"]
        return keys

    # Bodies of the host

    def body(self, number):
        """A body for functions of a type."""
        rng, ty = self.rng, self.types[number]
        scope = BodyScope(rng, ty.params, self.types)
        actions = self.call_back(scope) if self.guest_types and chance(rng, 0.6) else []
        for _ in range(rng.choice([0, 1, 1, 2, 3, 5])):
            if chance(rng, 0.3):
                actions.append({"note": self.parts()})
            elif scope.known("func") and chance(rng, 0.3) or chance(rng, 0.7):
                command = self.command(self.next_operation(scope), scope)
                scope.note(command)
                actions.append({"do": command})
            elif self.errs():
                actions.append({"fail": True})
        if ty.results and not self.errs() or chance(rng, 0.2):
            values = [self.operand(scope, result) for result in ty.results]
            actions.append({"return": values[1:] if self.errs() else values})
        if chance(rng, 0.3):
            actions.append({"note": ["end ", {"last": True}]})
        return actions

    def call_back(self, scope):
        """Looks for a function that the caller exports, and calls it once or twice."""
        name = "t%d" % self.rng.choice(self.guest_types)
        commands = [{"do": "get_export", "instance": {"caller": True}, "name": name}]
        scope.note(commands[0])
        for _ in range(self.rng.choice([1, 1, 2])):
            scope.called = scope.func_type(0)
            args = [self.operand(scope, param) for param in scope.called.params]
            commands.append({"do": "call", "func": 0, "args": args})
            scope.note(commands[-1])
        actions = [{"do": command} for command in commands]
        return actions + [{"note": ["called back: ", {"last": True}]}] if chance(self.rng, 0.7) else actions

    def next_operation(self, scope):
        """Mostly a call where there is a function, and else a function that the caller exports."""
        if any(given[0] == "func" for given in scope.given) and chance(self.rng, 0.6):
            return "call"
        return "get_export" if chance(self.rng, 0.5) else self.rng.choice(NESTED)

    def parts(self):
        parts = ["a", " b ", "", "\u00fc\t\"", {"arg": 0}, {"arg": 1}, {"data": True}, {"last": True}, {"last": True}]
        return [self.rng.choice(parts) for _ in range(self.rng.randrange(4))]
