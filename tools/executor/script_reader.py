"""Reads a whole script: engine, types, modules, what the host keeps, its bodies, and the commands.

Written from the rules of the session language alone.
"""

from collections import namedtuple

from module_reader import read_modules
from reading import Members, TypeReader, U32, demand, hexadecimal, integer, items, line, number, one_of, only_null
from reading import only_true, read_types, sole, text, truth, vector

Engine = namedtuple("Engine", "fuel epochs frames turns")
Limiter = namedtuple("Limiter", "instances tables memories answers")
HostData = namedtuple("HostData", "number limiter hook deadline")
Script = namedtuple("Script", "engine types modules data host commands")
Operand = namedtuple("Operand", "value name")
Command = namedtuple("Command", "do keys")

DEFAULT_COUNT = 10000
MOST_FRAMES = 1024
MOST_TURNS = 1000000000
DEFAULT_TURNS = 10000000


def pair(value):
    demand(isinstance(value, list) and len(value) == 2)
    return number(value[0]), number(value[1])


NAMES = {"value": pair, "arg": number, "stored": number, "caller": only_true}


def name(value):
    """A name, as its form and what it points at."""
    return sole(value, NAMES) if isinstance(value, dict) else ("reply", number(value))


def or_null(most):
    return lambda value: None if value is None else number(value, most)


VALUES = {
    "i32": lambda value: integer(value, 32),
    "i64": lambda value: integer(value, 64),
    "f32": lambda value: number(value, U32),
    "f64": number,
    "v128": vector,
    "func": only_null,
    "extern": or_null(2**64 - 1),
    "any": or_null(2**31 - 1),
    "name": name,
}


def operand(value):
    kind, content = sole(value, VALUES)
    return Operand(None, content) if kind == "name" else Operand((kind, content), None)


def names(value):
    return items(value, name)


def operands(value):
    return items(value, operand)


PLAIN_KEYS = {
    "memory_read": {"memory": name, "at": number, "len": number},
    "memory_write": {"memory": name, "at": number, "bytes": hexadecimal},
    "memory_size": {"memory": name},
    "memory_grow": {"memory": name, "delta": number},
    "table_get": {"table": name, "at": number},
    "table_set": {"table": name, "at": number, "value": operand},
    "table_size": {"table": name},
    "table_grow": {"table": name, "delta": number, "value": operand},
    "table_copy": {"dst": name, "dst_at": number, "src": name, "src_at": number, "len": number},
    "table_fill": {"table": name, "at": number, "value": operand, "len": number},
    "global_get": {"global": name},
    "global_set": {"global": name, "value": operand},
    "get_export": {"instance": name, "name": line},
    "get_fuel": {},
    "set_fuel": {"fuel": number},
    "yield_interval": {"interval": or_null(2**64 - 1)},
    "set_epoch_deadline": {"ticks": number},
}


class CommandReader:
    """Reads commands over a list of function types. A reader of tapes puts its own reader in the place of one of these."""

    own = {}

    def __init__(self, types):
        self.reader = TypeReader(types)

    def of(self, read):
        return self.own.get(read, read)

    def special(self, do, members):
        """The keys of a command that holds a type, or of which some may be left out."""
        reader = self.reader
        if do == "memory_new":
            return {"type": reader.memory_of(members)}
        if do == "table_new":
            return {"type": reader.table_of(members), "init": members.take("init", self.of(operand))}
        if do == "global_new":
            return {"type": reader.global_of(members), "init": members.take("init", self.of(operand))}
        if do == "tag_new":
            return {"type": members.take("type", reader.func_type)}
        if do == "call":
            keys = {"func": members.take("func", name), "args": members.option("args", self.of(operands), [])}
            return {**keys, "results": members.option("results", number)}
        if do == "func_new":
            keys = {"type": members.take("type", reader.func_type), "body": members.take("body", number)}
            return {**keys, "stored": members.option("stored", names, [])}
        demand(do == "instantiate")
        return {"module": members.take("module", number), "imports": members.option("imports", names, [])}

    def command(self, value):
        members = Members(value)
        do = members.take("do", text)
        if do in PLAIN_KEYS:
            keys = {key: members.take(key, self.of(read)) for key, read in PLAIN_KEYS[do].items()}
        else:
            keys = self.special(do, members)
        members.end()
        return Command(do, keys)

    def operation(self, value):
        """A command that a body of the host may ask for."""
        command = self.command(value)
        demand(command.do not in ("func_new", "instantiate"))
        return command

    def action(self, value):
        readers = {"note": parts, "do": self.operation, "return": operands, "fail": only_true}
        return sole(value, readers)

    def bodies(self, value):
        return items(value, lambda body: items(body, self.action))


def part(value):
    if isinstance(value, str):
        return ("text", line(value))
    return sole(value, {"arg": number, "data": only_true, "last": only_true})


def parts(value):
    return items(value, part)


def read_engine(value):
    members = Members(value)
    engine = Engine(
        members.option("fuel", truth, False),
        members.option("epochs", truth, False),
        members.option("frames", lambda frames: number(frames, MOST_FRAMES, 1), MOST_FRAMES),
        members.option("turns", lambda turns: number(turns, MOST_TURNS, 1), DEFAULT_TURNS),
    )
    members.end()
    return engine


def answers(words):
    return lambda value: items(value, lambda answer: one_of(answer, words))


def read_limiter(value):
    members = Members(value)
    counts = [members.option(key, number, DEFAULT_COUNT) for key in ("instances", "tables", "memories")]
    limiter = Limiter(*counts, members.option("answers", answers(("yes", "no", "fault")), []))
    members.end()
    return limiter


def deadline_answer(value):
    return one_of(value, ("interrupt", "fault")) if isinstance(value, str) else number(value)


def read_data(value):
    members = Members(value)
    data = HostData(
        members.option("number", lambda number_read: integer(number_read, 64), 0),
        members.option("limiter", read_limiter),
        members.option("hook", answers(("ok", "fault"))),
        members.option("deadline", lambda value: items(value, deadline_answer)),
    )
    members.end()
    return data


def read_script(value):
    """The script that a JSON value is, or BadScript."""
    members = Members(value)
    engine = members.option("engine", read_engine, Engine(False, False, MOST_FRAMES, DEFAULT_TURNS))
    types = members.option("types", read_types, [])
    commands = CommandReader(types)
    modules = members.option("modules", lambda value: read_modules(value, types), [])
    data = members.option("data", read_data, HostData(0, None, None, None))
    host = members.option("host", commands.bodies, [])
    listed = members.take("commands", lambda value: items(value, commands.command))
    members.end()
    return Script(engine, types, modules, data, host, listed)
