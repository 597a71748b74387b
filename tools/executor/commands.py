"""Commands and the operations that bodies ask for: names, conditions in their order, and what each command does.

Written from the rules of the session language alone. First all names are resolved, then the conditions are looked at from
left to right, then the outside is asked, and then the command acts, in a turn of its own.
"""

from machine import Ended, Global, HostFunction, Memory, NoTurnLeft, Table, refuse, trap
from value_types import kind, matches


class NoName(Exception):
    """A name gives nothing of the needed kind."""


class ReplyScope:
    """The names of an outermost command."""

    def __init__(self, replies):
        self.replies = replies

    def item(self, name):
        """A value, an object or an instance, each as a pair of a word and the thing itself."""
        form, content = name
        if form == "reply":
            return reply_item(self.replies, content)
        if form == "value":
            return reply_value(self.replies, content)
        raise NoName


class ActivationScope:
    """The names of an operation that a body of the host asks for."""

    def __init__(self, activation):
        self.activation = activation

    def item(self, name):
        form, content = name
        if form == "reply":
            return reply_item(self.activation.replies, content)
        if form == "value":
            return reply_value(self.activation.replies, content)
        if form == "arg":
            return "value", place_in(self.activation.arguments, content)
        if form == "stored":
            return "object", place_in(self.activation.function.stored, content)
        if self.activation.caller is None:
            raise NoName
        return "instance", self.activation.caller


def place_in(items, place):
    if place >= len(items):
        raise NoName
    return items[place]


def reply_item(replies, place):
    word, *rest = place_in(replies, place)
    if word == "object":
        return "object", tuple(rest)
    if word == "instance":
        return "instance", rest[1]
    raise NoName


def reply_value(replies, places):
    reply = place_in(replies, places[0])
    if reply[0] != "values":
        raise NoName
    return "value", place_in(reply[1], places[1])


class Names:
    """What names and operands stand for in a scope."""

    def __init__(self, scope):
        self.scope = scope

    def object(self, name):
        """The handle of an object: its kind and its place."""
        word, content = self.scope.item(name)
        if word == "value" and content[0] == "func" and content[1] is not None:
            return content
        if word != "object":
            raise NoName
        return content

    def of_kind(self, kind, name):
        """The place of an object of this kind."""
        object_kind, place = self.object(name)
        if object_kind != kind:
            raise NoName
        return place

    def instance(self, name):
        word, content = self.scope.item(name)
        if word != "instance":
            raise NoName
        return content

    def value(self, operand):
        """The value of an operand: its kind and its content."""
        if operand.name is None:
            return operand.value
        word, content = self.scope.item(operand.name)
        if word == "value" or word == "object" and content[0] == "func":
            return content
        raise NoName


NAMED_KINDS = {"memory": "memory", "table": "table", "dst": "table", "src": "table", "global": "global", "func": "func"}
OPERAND_KEYS = ("init", "value")
WORDS = {"len": "length", "bytes": "content", "type": "ty", "global": "variable"}


def resolved(keys, names):
    """The keys of a command with what their names stand for."""
    found = {WORDS.get(key, key): content for key, content in keys.items()}
    for key, content in keys.items():
        if key in NAMED_KINDS:
            found[WORDS.get(key, key)] = names.of_kind(NAMED_KINDS[key], content)
        elif key in OPERAND_KEYS:
            found[key] = names.value(content)
        elif key == "args":
            found[key] = [names.value(operand) for operand in content]
        elif key in ("stored", "imports"):
            found[key] = [names.object(name) for name in content]
        elif key == "instance":
            found[key] = names.instance(content)
    return found


class Commands:
    def __init__(self, machine, instantiation):
        self.machine = machine
        self.instantiation = instantiation

    def outermost(self, command):
        """The reply of a command of the session."""
        self.machine.turns = self.machine.engine.turns
        try:
            return self.perform(0, command, ReplyScope(self.machine.replies))
        except NoTurnLeft:
            return ("refused", "TurnLimit")

    def nested(self, depth, activation, command):
        """The reply of an operation of a body at this depth."""
        return self.perform(depth, command, ActivationScope(activation))

    def perform(self, depth, command, scope):
        try:
            keys = resolved(command.keys, Names(scope))
        except NoName:
            return ("refused", "NoReply")
        try:
            if command.do == "call":
                return self.call(depth, **keys)
            return getattr(self, command.do)(**keys)
        except Ended as ended:
            return ended.reply

    def object(self, kind, place):
        return self.machine.objects[kind][place]

    def act(self):
        self.machine.take_turn()

    def appended(self, kind, entry):
        self.act()
        return ("object", *self.machine.append(kind, entry))

    def demand_type(self, value, ty):
        """That a value matches a type; what is no reference matches no type of references."""
        if not self.machine.fits(value, ty):
            refuse("TypeMismatch")

    def demand_growth(self, grown, size, delta):
        if not self.machine.may_grow(grown, size, delta):
            refuse("GrowFailed")

    # Objects

    def func_new(self, ty, body, stored):
        return self.appended("func", HostFunction(ty, body, stored))

    def tag_new(self, ty):
        return self.appended("tag", ty)

    def memory_new(self, ty):
        memory = Memory(ty)
        self.demand_growth(memory, 0, ty.minimum)
        reply = self.appended("memory", memory)
        memory.grow(ty.minimum)
        return reply

    def memory_range(self, memory, at, length):
        data = self.object("memory", memory).bytes
        if at + length > len(data):
            refuse("MemoryAccessError")
        return data

    def memory_read(self, memory, at, length):
        data = self.memory_range(memory, at, length)
        self.act()
        return ("bytes", bytes(data[at : at + length]))

    def memory_write(self, memory, at, content):
        data = self.memory_range(memory, at, len(content))
        self.act()
        data[at : at + len(content)] = content
        return ("done",)

    def memory_size(self, memory):
        self.act()
        return ("number", self.object("memory", memory).size())

    def memory_grow(self, memory, delta):
        grown = self.object("memory", memory)
        size = grown.size()
        self.demand_growth(grown, size, delta)
        self.act()
        grown.grow(delta)
        return ("number", size)

    def table_new(self, ty, init):
        self.demand_type(init, ty.element)
        table = Table(ty)
        self.demand_growth(table, 0, ty.minimum)
        reply = self.appended("table", table)
        table.grow(ty.minimum, init[1])
        return reply

    def table_get(self, table, at):
        self.act()
        found = self.object("table", table)
        if at >= found.size():
            return ("absent",)
        return ("values", [(found.kind, found.items[at])])

    def table_set(self, table, at, value):
        found = self.object("table", table)
        self.demand_type(value, found.type.element)
        if at >= found.size():
            trap("TableOutOfBounds")
        self.act()
        found.items[at] = value[1]
        return ("done",)

    def table_size(self, table):
        self.act()
        return ("number", self.object("table", table).size())

    def table_grow(self, table, delta, value):
        grown = self.object("table", table)
        self.demand_type(value, grown.type.element)
        size = grown.size()
        self.demand_growth(grown, size, delta)
        self.act()
        grown.grow(delta, value[1])
        return ("number", size)

    def table_copy(self, dst, dst_at, src, src_at, length):
        target, source = self.object("table", dst), self.object("table", src)
        if dst_at + length > target.size() or src_at + length > source.size():
            trap("TableOutOfBounds")
        if not matches(source.type.element, target.type.element):
            refuse("TypeMismatch")
        self.act()
        target.items[dst_at : dst_at + length] = source.items[src_at : src_at + length]
        return ("done",)

    def table_fill(self, table, at, value, length):
        filled = self.object("table", table)
        self.demand_type(value, filled.type.element)
        if at + length > filled.size():
            trap("TableOutOfBounds")
        self.act()
        filled.items[at : at + length] = [value[1]] * length
        return ("done",)

    def global_new(self, ty, init):
        self.demand_type(init, ty.content)
        return self.appended("global", Global(ty, init[1]))

    def global_get(self, variable):
        self.act()
        found = self.object("global", variable)
        return ("values", [(kind(found.type.content), found.content)])

    def global_set(self, variable, value):
        found = self.object("global", variable)
        if not found.type.variable:
            refuse("ImmutableGlobal")
        self.demand_type(value, found.type.content)
        self.act()
        found.content = value[1]
        return ("done",)

    def get_export(self, instance, name):
        exports = self.machine.instances[instance].exports
        if name not in exports:
            refuse("NoExport")
        self.act()
        return ("object", *exports[name])

    # Fuel and epochs

    def demand_fuel(self):
        if not self.machine.engine.fuel:
            refuse("FuelNotConfigured")

    def get_fuel(self):
        self.demand_fuel()
        self.act()
        return ("number", max(0, self.machine.fuel))

    def set_fuel(self, fuel):
        self.demand_fuel()
        self.act()
        self.machine.fuel = fuel
        return ("done",)

    def yield_interval(self, interval):
        self.demand_fuel()
        if interval == 0:
            refuse("FuelInterval")
        self.act()
        self.machine.fuel = max(0, self.machine.fuel)
        return ("done",)

    def set_epoch_deadline(self, ticks):
        reading = self.machine.read_epoch()
        self.act()
        self.machine.set_deadline(reading, ticks)
        return ("done",)

    # Calls

    def call(self, depth, func, args, results):
        ty = self.object("func", func).type
        if len(args) != len(ty.params):
            refuse("ArgumentCount")
        if results is not None and results != len(ty.results):
            refuse("ResultCount")
        if not self.machine.all_fit(args, ty.params):
            refuse("TypeMismatch")
        return ("values", self.machine.entry(depth, func, args))

    def instantiate(self, module, imports):
        if module >= len(self.machine.modules):
            return ("refused", "NoReply")
        return ("instance", "instance", self.instantiation.make(self.machine.modules[module], imports))

