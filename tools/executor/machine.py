"""The machine: its store, its turns, what it asks outside, the checks of fuel and epochs, and the entering of functions.

Written from the rules of the session language alone, as plain recursion: a call of a function is a call in here, and what
ends a run is an exception. Within the store and in code a value is its content alone; the types say of what kind it is.
"""

from collections import namedtuple

import value_types
from outside import Asked, CountedEpochs
from value_types import FuncType, func_matches, kind

Instance = namedtuple("Instance", "module func table memory global_ tag elements datas exports")
GuestFunction = namedtuple("GuestFunction", "type instance code locals")
HostFunction = namedtuple("HostFunction", "type body stored")

LATEST_DEADLINE = 2**64 - 2
MOST_TABLE = 2**32 - 1
MOST_MEMORY = 2**32
MOST_PAGES = 2**32 - 1
DEFAULT_LIMIT = 10000
TOO_LARGE = 2**28


class Ended(Exception):
    """A trap or a refusal, as the reply that it is."""

    def __init__(self, *reply):
        super().__init__(reply)
        self.reply = reply


class NoTurnLeft(Exception):
    """The outermost command made all its turns, and another is due."""


class TooLarge(Exception):
    """An object is larger than is tried here; the program may find room for it or not."""


def refuse(*words):
    raise Ended("refused", *words)


def trap(name):
    raise Ended("trap", name)


class Memory:
    """A memory, of no pages as it is made."""

    def __init__(self, ty):
        self.type = ty
        self.page = 1 << ty.page
        self.bytes = bytearray()

    def size(self):
        return len(self.bytes) // self.page

    def grow(self, pages):
        if len(self.bytes) + pages * self.page > TOO_LARGE:
            raise TooLarge
        self.bytes.extend(bytes(pages * self.page))

    def is_in_range(self, size):
        return size * self.page <= MOST_MEMORY and size <= MOST_PAGES

    def maximum(self):
        return self.type.maximum


class Table:
    """A table, of no elements as it is made."""

    def __init__(self, ty):
        self.type = ty
        self.kind = kind(ty.element)
        self.items = []

    def size(self):
        return len(self.items)

    def grow(self, count, init):
        if len(self.items) + count > TOO_LARGE // 8:
            raise TooLarge
        self.items.extend([init] * count)

    def is_in_range(self, size):
        return size <= MOST_TABLE

    def maximum(self):
        return self.type.maximum


class Global:
    def __init__(self, ty, content):
        self.type = ty
        self.content = content


class Activation:
    """One call of a host function: what its body sees."""

    def __init__(self, function, arguments, caller):
        self.function = function
        self.arguments = arguments
        self.caller = caller
        self.replies = []
        self.place = 0


class Machine:
    def __init__(self, script):
        self.engine = script.engine
        self.modules = script.modules
        self.bodies = script.host
        self.asked = Asked(script.data)
        self.epochs = CountedEpochs()
        self.limited = script.data.limiter is not None
        self.hooked = script.data.hook is not None
        self.behaving = script.data.deadline is not None
        limiter = script.data.limiter
        self.limits = {"instance": DEFAULT_LIMIT, "memory": DEFAULT_LIMIT, "table": DEFAULT_LIMIT}
        if limiter:
            self.limits = {"instance": limiter.instances, "memory": limiter.memories, "table": limiter.tables}
        self.counts = {"instance": 0, "memory": 0, "table": 0}
        self.objects = {"func": [], "table": [], "memory": [], "global": [], "tag": []}
        self.instances = []
        self.replies = []
        self.notes = []
        self.fuel = 0
        self.deadline = 0
        self.turns = 0
        self.code = self.host = self.commands = None

    # Turns and askings

    def take_turn(self):
        if self.turns == 0:
            raise NoTurnLeft
        self.turns -= 1

    def read_epoch(self):
        self.take_turn()
        return self.epochs.read()

    def set_deadline(self, reading, ticks):
        self.deadline = min(reading + ticks, LATEST_DEADLINE)

    def pass_hook(self, event):
        """Tells the hook, where there is one."""
        if self.hooked:
            self.take_turn()
            if not self.asked.hook(event):
                refuse("HookFault")

    def may_grow(self, grown, current, delta):
        """Whether a memory or a table grows from this size; the limiter is asked where it is due."""
        if delta == 0:
            return True
        if not grown.is_in_range(current + delta):
            return False
        if self.limited:
            self.take_turn()
            answer = self.asked.growth()
            if answer == "fault":
                refuse("LimiterFault")
            if answer == "no":
                return False
        return grown.maximum() is None or current + delta <= grown.maximum()

    def check_fuel(self):
        if self.engine.fuel and self.fuel <= 0:
            trap("OutOfFuel")

    def check(self):
        """The check before a guest function and before each round of a loop."""
        self.check_fuel()
        if not self.engine.epochs or self.read_epoch() < self.deadline:
            return
        if not self.behaving:
            trap("Interrupt")
        self.take_turn()
        answer = self.asked.deadline()
        if answer == "fault":
            refuse("EpochFault")
        if answer == "interrupt":
            trap("Interrupt")
        self.set_deadline(self.read_epoch(), answer)

    # Values and types

    def fits(self, value, ty):
        """Whether a value, with its kind, matches a type."""
        value_kind, content = value
        if value_kind in value_types.NUMBERS or ty in value_types.NUMBERS:
            return value_kind == ty
        if content is None:
            return ty.nullable and value_kind == value_types.top(ty.heap)
        if value_kind == "func":
            if isinstance(ty.heap, FuncType):
                return func_matches(self.objects["func"][content].type, ty.heap)
            return ty.heap == "func"
        return ty.heap in (("extern",) if value_kind == "extern" else ("any", "eq", "i31"))

    def all_fit(self, values, types):
        return len(values) == len(types) and all(map(self.fits, values, types))

    def has_type(self, entity, wanted):
        """Whether an object may be imported where a kind and a type are asked for."""
        (object_kind, place), (wanted_kind, declared) = entity, wanted
        if object_kind != wanted_kind:
            return False
        actual = self.objects[object_kind][place]
        if object_kind == "func":
            return func_matches(actual.type, declared)
        if object_kind == "tag":
            return actual == declared
        if object_kind == "global":
            return value_types.global_matches(declared, actual.type)
        if object_kind == "memory" and actual.type.page != declared.page:
            return False
        if object_kind == "table" and actual.type.element != declared.element:
            return False
        return value_types.limits_match(declared, actual.maximum(), actual.size())

    def append(self, object_kind, entry):
        """The handle of a new object."""
        self.objects[object_kind].append(entry)
        return object_kind, len(self.objects[object_kind]) - 1

    # Entering

    def entry(self, depth, place, arguments, caller=None):
        """A call from outside of a function by its place: its results with their kinds."""
        self.pass_hook("CallingWasm")
        return self.behind("ReturningFromWasm", lambda: self.enter(depth, place, arguments, caller))

    def behind(self, event, work):
        """What the work ends in, once the hook was told of its end; a hook that fails stands in place of it."""
        try:
            results = work()
        except Ended:
            self.pass_hook(event)
            raise
        self.pass_hook(event)
        return results

    def enter(self, depth, place, arguments, caller):
        """Enters a function at a depth; the caller is the instance whose code called, if there is one."""
        if depth == self.engine.frames:
            trap("StackOverflow")
        function = self.objects["func"][place]
        if isinstance(function, HostFunction):
            return self.enter_host(depth, function, arguments, caller)
        self.check()
        contents = self.code.body(depth + 1, function, [content for _kind, content in arguments])
        return list(zip(map(kind, function.type.results), contents))

    def enter_host(self, depth, function, arguments, caller):
        if function.body >= len(self.bodies):
            refuse("NoHostBody")
        self.pass_hook("CallingHost")
        activation = Activation(function, arguments, caller)
        return self.behind("ReturningFromHost", lambda: self.steps(depth, activation))

    def steps(self, depth, activation):
        while True:
            self.take_turn()
            answer, content = self.host.step(activation)
            if answer == "fail":
                refuse("HostFault")
            if answer == "return":
                if not self.all_fit(content, activation.function.type.results):
                    refuse("HostResultType")
                return content
            activation.replies.append(self.commands.nested(depth + 1, activation, content))
