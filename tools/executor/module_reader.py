"""Reads the modules of a script into declarations, which need not be valid yet.

Written from the rules of the session language alone. Code is a tree: a block, a loop or a branch of an `if` holds its list
of instructions itself, each a tuple of the instruction's name and its immediates.
"""

from collections import namedtuple

import value_types
from arithmetic import LOADS, OPERATORS, STORES
from reading import BadScript, Members, TypeReader, demand, hexadecimal, index, integer, items, line, number, one_of
from reading import only_true, vector

Module = namedtuple("Module", "types imports functions tables memories globals tags exports elements datas start")
Import = namedtuple("Import", "kind type")
Function = namedtuple("Function", "type locals code")
Table = namedtuple("Table", "type init")
Global = namedtuple("Global", "type init")
Export = namedtuple("Export", "name kind index")
Element = namedtuple("Element", "type mode table offset items")
Data = namedtuple("Data", "mode memory offset bytes")

KINDS = ("func", "table", "memory", "global", "tag")
TOPS = ("func", "extern", "any")


def top(value):
    return one_of(value, TOPS)


def i32(value):
    return integer(value, 32)


def i64(value):
    return integer(value, 64)


IMMEDIATES = {name: () for name in ("unreachable", "nop", "return", "drop", "select", "ref.is_null", *OPERATORS)}
IMMEDIATES.update({name: (index,) for name in ("br", "br_if", "call", "local.get", "local.set", "local.tee")})
IMMEDIATES.update({name: (index,) for name in ("global.get", "global.set", "memory.size", "memory.grow", "memory.fill")})
IMMEDIATES.update({name: (index,) for name in ("data.drop", "ref.func", "table.get", "table.set", "table.size")})
IMMEDIATES.update({name: (index,) for name in ("table.grow", "table.fill", "elem.drop")})
IMMEDIATES.update({name: (index, index) for name in ("call_indirect", "memory.copy", "memory.init", *LOADS, *STORES)})
IMMEDIATES.update({name: (index, index) for name in ("table.copy", "table.init")})
IMMEDIATES.update({"i32.const": (i32,), "i64.const": (i64,), "ref.null": (top,)})

CONSTANTS = {
    "i32.const": i32,
    "i64.const": i64,
    "f32.bits": index,
    "f64.bits": number,
    "v128.hex": vector,
    "ref.null": top,
    "ref.func": index,
    "global.get": index,
}


def labels(value):
    return items(value, index)


def code(value):
    return items(value, instruction)


IMMEDIATES.update({"block": (index, code), "loop": (index, code), "if": (index, code, code), "br_table": (labels, index)})


def named(value, table):
    """The name at the head of a list, the readers that a table has for it, and the rest of the list."""
    demand(isinstance(value, list) and value and isinstance(value[0], str) and value[0] in table)
    return value[0], table[value[0]], value[1:]


def instruction(value):
    name, readers, rest = named(value, IMMEDIATES)
    demand(len(rest) == len(readers))
    return (name, *(read(part) for read, part in zip(readers, rest)))


def constant(value):
    name, read, rest = named(value, CONSTANTS)
    demand(len(rest) == 1)
    return (name, read(rest[0]))


class ModuleReader:
    def __init__(self, types):
        self.types = types
        self.reader = TypeReader(types)

    def import_entry(self, value):
        members = Members(value)
        members.take("module", line)
        members.take("name", line)
        kind = members.only(KINDS)
        readers = {"func": self.reader.func_type, "tag": self.reader.func_type}
        readers["table"] = self.reader.whole(self.reader.table_of)
        readers["memory"] = self.reader.whole(self.reader.memory_of)
        readers["global"] = self.reader.whole(self.reader.global_of)
        entry = Import(kind, members.take(kind, readers[kind]))
        members.end()
        return entry

    def function(self, value):
        members = Members(value)
        type_number = members.take("type", index)
        local_types = members.option("locals", self.reader.value_list, [])
        entry = Function(type_number, local_types, members.option("code", code, []))
        members.end()
        return entry

    def table(self, value):
        members = Members(value)
        type_read = self.reader.table_of(members)
        null = ("ref.null", value_types.top(type_read.element.heap))
        entry = Table(type_read, members.option("init", constant, null))
        members.end()
        return entry

    def global_entry(self, value):
        members = Members(value)
        entry = Global(self.reader.global_of(members), members.take("init", constant))
        members.end()
        return entry

    def export(self, value):
        members = Members(value)
        name = members.take("name", line)
        kind = members.only(KINDS)
        entry = Export(name, kind, members.take(kind, index))
        members.end()
        return entry

    def element(self, value):
        members = Members(value)
        reference = members.take("ref", self.reader.reference)
        content = members.take("items", lambda entries: items(entries, constant))
        mode, table, offset = "passive", None, None
        if members.has("table") or members.has("offset"):
            mode, table, offset = "active", members.take("table", index), members.take("offset", constant)
        elif members.option("declared", only_true):
            mode = "declared"
        members.end()
        return Element(reference, mode, table, offset, content)

    def data(self, value):
        members = Members(value)
        content = members.take("bytes", hexadecimal)
        mode, memory, offset = "passive", None, None
        if members.has("memory") or members.has("offset"):
            mode, memory, offset = "active", members.take("memory", index), members.take("offset", constant)
        members.end()
        return Data(mode, memory, offset, content)

    def module(self, value):
        members = Members(value)
        readers = [("imports", self.import_entry), ("functions", self.function), ("tables", self.table)]
        readers += [("memories", self.reader.whole(self.reader.memory_of)), ("globals", self.global_entry)]
        readers += [("tags", index), ("exports", self.export), ("elements", self.element), ("datas", self.data)]
        parts = [members.option(key, lambda value, read=read: items(value, read), []) for key, read in readers]
        start = members.option("start", index)
        members.end()
        return Module(self.types, *parts, start)


def read_modules(value, types):
    """The declarations of a list of modules."""
    try:
        return items(value, ModuleReader(types).module)
    except RecursionError:
        raise BadScript from None
