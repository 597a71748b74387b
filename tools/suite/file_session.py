"""One file of the suite as one session: its modules, linked over what they import, and a line for each assertion.

Each command of the session that an assertion stands on has what the suite expects of its line. A module that is not in the
profile is left out with a reason, and with it what speaks of it. `spectest`, the host of the suite, is made of objects of
the host, each where it is first asked for.
"""

import os
import sys
from collections import namedtuple

from expected import IMPORT_TYPE, INSTANCE, NO_EXPORT, OK, Unsaid, Values, operand, trap

sys.path.insert(0, os.path.join(os.path.dirname(os.path.abspath(__file__)), "..", "binary"))
import reader  # noqa: E402
from to_session import shifted  # noqa: E402

TURNS = 1000000000
DEEPEST = 127
# An assertion: what it is, its line in the file, what is expected of the line of a command, the number of that command,
# whether it may run into a body that stands for one outside of the profile, and whether it looks at what a segment left.
Assertion = namedtuple("Assertion", "kind line expected reply may_leave old_segment")
Instance = namedtuple("Instance", "reply declaration replaced")

# What stands in constant expressions of integers: additions, subtractions and multiplications take nothing behind the code.
SUMS = {0x6A, 0x6B, 0x6C, 0x7C, 0x7D, 0x7E}
CONSTANTS = {
    **dict.fromkeys(SUMS), 0x41: lambda cursor: cursor.signed(32), 0x42: lambda cursor: cursor.signed(64),
    0x23: lambda cursor: cursor.unsigned(),
}

HOST_FUNCTIONS = {
    "print": [], "print_i32": ["i32"], "print_i64": ["i64"], "print_f32": ["f32"], "print_f64": ["f64"],
    "print_i32_f32": ["i32", "f32"], "print_f64_f64": ["f64", "f64"],
}
HOST_GLOBALS = {
    "global": ("i32", 666), "global_i32": ("i32", 666), "global_i64": ("i64", 666),
    "global_f32": ("f32", 0x4426A666), "global_f64": ("f64", 0x4084D4CCCCCCCCCD),
}


def nested(value):
    """How deep a JSON value is nested."""
    depth, level = 0, [value]
    while level:
        depth += 1
        inner = []
        for one in level:
            inner += one.values() if isinstance(one, dict) else one
        level = [one for one in inner if isinstance(one, (dict, list))]
    return depth


def one_line(name):
    """A name as a session can have it: one line of text. Two characters stand for the two that end a line."""
    return name.replace("\n", "\u240a").replace("\r", "\u240d")


def kind_of(entry):
    return next(kind for kind in ("func", "table", "memory", "global", "tag") if kind in entry)


def has_sum(data, at):
    """Whether the constant at this place has more than one instruction: those of the extended constant expressions."""
    cursor, found = reader.Cursor(data, at), set()
    while True:
        code = cursor.take(1)[0]
        if code not in CONSTANTS:
            return code == 0x0B and bool(found & SUMS)
        found.add(code)
        if code not in SUMS:
            CONSTANTS[code](cursor)


class PartReader(reader.Reader):
    """A reader that puts `unreachable` in place of a body with a code that is not in the profile."""

    def __init__(self, data):
        super().__init__(data)
        self.replaced = set()  # which bodies

    def constant(self):
        at = self.cursor.at
        try:
            return super().constant()
        except reader.Fault:
            if has_sum(self.cursor.data, at):
                raise Unsaid("a sum, difference or product in a constant expression") from None
            raise

    def body(self):
        outside, at = self.cursor, self.cursor.at
        try:
            super().body()
        except reader.Fault as fault:
            if not str(fault).startswith("unsupported"):
                raise
            self.cursor, outside.at = outside, at
            outside.part()
            self.replaced.add(len(self.bodies))
            self.bodies.append(([], [["unreachable"]]))


def leaves_profile(declaration, replaced):
    """Which functions of a module may run into a replaced body: by a call, or through a table, or out of the module."""
    module = declaration["module"]
    imported = sum("func" in entry for entry in module.get("imports", []))
    leave = {imported + place for place in replaced}
    functions = module.get("functions", [])
    calls = [called(function["code"]) for function in functions]
    grown = bool(replaced)
    while grown:
        more = {
            imported + place for place, found in enumerate(calls)
            if None in found or any(target < imported or target in leave for target in found)
        } - leave
        leave |= more
        grown = bool(more)
    return leave


def called(code):
    """The functions that code calls by their index, and none for one through a table."""
    found, todo = set(), [code]
    while todo:
        for instruction in todo.pop():
            if instruction[0] in ("block", "loop", "if"):
                todo += instruction[2:]
            elif instruction[0] == "call":
                found.add(instruction[1])
            elif instruction[0] == "call_indirect":
                found.add(None)
    return found


def read_module(data, kind=reader.Reader):
    """The declaration that bytes spell, with the bodies that a reader replaced; or the reason why there is none."""
    found = kind(data).module()
    declaration = found.declaration()
    module = declaration["module"]
    for entry in module.get("imports", []) + module.get("exports", []):
        entry.update({key: one_line(entry[key]) for key in ("module", "name") if key in entry})
    if nested(module) + 2 > DEEPEST:
        raise Unsaid("code nested deeper than the JSON of a session may be")
    return declaration, getattr(found, "replaced", set())


class FileSession:
    def __init__(self, folder):
        self.folder = folder
        self.types, self.modules, self.commands = [], [], []
        self.assertions, self.left_out = [], []  # of what is left out: kind, line, reason
        self.by_name, self.registered, self.host, self.exports = {}, {}, {}, {}
        self.newest = "no module"  # an instance, or the reason why there is none
        self.apart = []  # assertions that a module is invalid or malformed, which no session of others can hold
        self.part_modules = 0  # modules of which a body was replaced
        self.old_segment = False  # whether the newest assertion was that a segment does not fit
        self.unread = []  # modules of the suite that the reader refuses: kind, line, what it says

    def script(self):
        return {
            "engine": {"turns": TURNS}, "types": self.types, "modules": self.modules, "host": [[]],
            "commands": self.commands,
        }

    def add(self, command):
        """Adds a command, and says which number its reply has."""
        self.commands.append(command)
        return len(self.commands) - 1

    def bytes_of(self, command):
        with open(os.path.join(self.folder, command["filename"]), "rb") as file:
            return file.read()

    # Objects

    def type_number(self, params):
        self.types.append({"params": params})
        return len(self.types) - 1

    def host_object(self, name):
        """The object of the suite's host under this name."""
        if name in self.host:
            return self.host[name]
        if name in HOST_FUNCTIONS:
            command = {"do": "func_new", "type": self.type_number(HOST_FUNCTIONS[name]), "body": 0}
        elif name in HOST_GLOBALS:
            kind, value = HOST_GLOBALS[name]
            command = {"do": "global_new", "val": kind, "init": {kind: value}}
        elif name == "table":
            command = {"do": "table_new", "ref": "funcref", "min": 10, "max": 20, "init": {"func": None}}
        elif name == "memory":
            command = {"do": "memory_new", "min": 1, "max": 2}
        else:
            raise Unsaid("an import that the suite's host has not: no session can give it")
        self.host[name] = self.add(command)
        return self.host[name]

    def export(self, instance, name):
        """The reply that is the export of this name, or none."""
        if (instance.reply, name) not in self.exports:
            if not any(entry["name"] == name for entry in instance.declaration["module"].get("exports", [])):
                return None
            self.exports[instance.reply, name] = self.add({"do": "get_export", "instance": instance.reply, "name": name})
        return self.exports[instance.reply, name]

    def imported(self, entry, declaration):
        """The reply that is given for an import."""
        if entry["module"] == "spectest":
            kind = kind_of(entry)
            wanted = declaration["types"][entry["func"]] if kind == "func" else {}
            if entry["name"] == "print" and wanted.get("params") and not wanted["results"]:
                # An old `print` took any arguments: then each type has one of its own.
                return self.add({"do": "func_new", "type": self.type_number(wanted["params"]), "body": 0})
            return self.host_object(entry["name"])
        instance = self.registered.get(entry["module"])
        if not isinstance(instance, Instance):
            raise Unsaid(instance or "an import of a module that is not there: a session gives imports by their place")
        found = self.export(instance, entry["name"])
        if found is None:
            raise Missing(instance, entry["name"])
        return found

    # Modules

    def instantiation(self, command):
        """Adds the instantiation of a module, and says its reply, its declaration, and what may leave the profile."""
        try:
            declaration, replaced = read_module(self.bytes_of(command), PartReader)
        except reader.Fault as fault:
            if str(fault).startswith("unsupported"):
                raise Unsaid("not in the profile") from None
            raise
        imports = [self.imported(entry, declaration) for entry in declaration["module"].get("imports", [])]
        moved = shifted(declaration, len(self.types))
        self.types += moved["types"]
        self.modules.append(moved["module"])
        self.part_modules += bool(replaced)
        reply = self.add({"do": "instantiate", "module": len(self.modules) - 1, "imports": imports})
        return reply, declaration, leaves_profile(declaration, replaced)

    def instance(self, command):
        """The instance that an action or a `register` speaks of."""
        instance = self.by_name[command["module"]] if "module" in command else self.newest
        if not isinstance(instance, Instance):
            raise Unsaid(instance)
        return instance

    def module(self, command):
        try:
            self.newest = Instance(*self.instantiation(command))
            self.hold(command, INSTANCE, self.newest.reply)
        except (Unsaid, Missing, reader.Fault) as reason:
            self.newest = "of a module that is left out: %s" % reason
            raise
        finally:
            if "name" in command:
                self.by_name[command["name"]] = self.newest

    def register(self, command):
        """Gives an instance a name for imports. It asserts nothing."""
        try:
            self.registered[command["as"]] = self.instance({"module": command["name"]} if "name" in command else {})
        except Unsaid as reason:
            self.registered[command["as"]] = str(reason)

    # Assertions

    def hold(self, command, expected, reply, may_leave=False):
        row = Assertion(command["type"], command["line"], expected, reply, may_leave, self.old_segment)
        self.assertions.append(row)

    def hold_action(self, command, expected):
        reply = self.action(command["action"])
        self.hold(command, expected, reply, self.may_leave(command["action"]))

    def may_leave(self, action):
        """Whether an action may run into a body that stands for one outside of the profile."""
        instance = self.instance(action)
        exports = instance.declaration["module"].get("exports", [])
        number = next(entry.get("func") for entry in exports if entry["name"] == one_line(action["field"]))
        return number in instance.replaced

    def action(self, action):
        """Adds a call, or the reading of a global, and says its reply."""
        instance = self.instance(action)
        operands = [operand(value) for value in action.get("args", [])]
        found = self.export(instance, one_line(action["field"]))
        if found is None:
            raise Unsaid("an export that is not there")
        if action["type"] == "get":
            return self.add({"do": "global_get", "global": found})
        return self.add({"do": "call", "func": found, "args": operands})

    def plain_action(self, command):
        self.hold_action(command, OK)

    def assert_return(self, command):
        if "expected" not in command:
            raise Unsaid("one of several results")
        self.hold_action(command, Values(command["expected"]))

    def assert_trap(self, command):
        self.hold_action(command, trap(command["text"]))

    def assert_uninstantiable(self, command):
        expected = trap(command["text"])
        self.hold(command, expected, self.instantiation(command)[0])

    def assert_unlinkable(self, command):
        """An import that does not match, or is not there. A segment that does not fit was refused once, and is a trap."""
        is_old = "does not fit" in command["text"]
        expected = trap(command["text"]) if is_old else IMPORT_TYPE
        try:
            self.hold(command, expected, self.instantiation(command)[0])
        except Missing as missing:
            name = {"do": "get_export", "instance": missing.instance.reply, "name": missing.name}
            self.hold(command, NO_EXPORT, self.add(name))

    def say_apart(self, command):
        self.apart.append(command)

    def take(self, command):
        """Takes one command of the suite."""
        kinds = {
            "module": self.module, "register": self.register, "action": self.plain_action,
            "assert_return": self.assert_return, "assert_trap": self.assert_trap, "assert_exhaustion": self.assert_trap,
            "assert_uninstantiable": self.assert_uninstantiable, "assert_unlinkable": self.assert_unlinkable,
            "assert_invalid": self.say_apart, "assert_malformed": self.say_apart,
        }
        kind = command["type"]
        try:
            if kind not in kinds:
                raise Unsaid("a form that is not known here: %s" % kind)
            kinds[kind](command)
            self.old_segment = kind == "assert_unlinkable" and "does not fit" in command["text"]
        except (Unsaid, Missing) as reason:
            self.left_out.append((kind, command["line"], str(reason)))
        except reader.Fault as fault:
            self.unread.append((kind, command["line"], str(fault)))


class Missing(Exception):
    """An import whose module is there, and has no export of that name."""

    def __init__(self, instance, name):
        super().__init__("an import that is not there")
        self.instance, self.name = instance, name
