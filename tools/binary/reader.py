#!/usr/bin/env python3
"""A slow reader of WebAssembly's binary format, narrowed to the modules that this project knows.

python3 tools/binary/reader.py < FILE.wasm             the one line that says what the bytes are
python3 tools/binary/reader.py --data < FILE.wasm      the types and the module as a script has them, in JSON

It needs nothing but Python. It was written from the rules below alone, apart from the project's own reader and without a
look at it, so that a difference between the two shows a fault in one of them or a gap in the rules. The rules are those of
the binary format in the WebAssembly core specification (its chapter 5), narrowed as follows.

**What there is.** The header of version 1; sections at most once and in the order type, import, function, table, memory,
tag, global, export, start, element, data count, code, data; custom sections, whose content after the name is skipped.
Types are function types, final or not, with at most one supertype before them. Tables may have a constant. There are 124
instructions (`PLAIN`, `STRUCTURED` and the tables beside them); alignment may carry 64 to name a memory. A constant is one
instruction and its end. Block types that are no index mean the first type that is final, has no supertype, no parameters
and just those results; where there is none it is appended behind the declared types.

**What the line says.** Bytes are read from left to right, within the sizes given, and the first fault is the answer:

  module types T imports I functions F exports E    they spell a module, with so many of each (T with appended types)
  unsupported AT CODE    at this place stands a code that its table has not, and all before it is right. A code is a byte
                         that the format offers a choice of, the number that begins an element or a data segment, or the
                         number behind `fc`, which then counts 64,512 more
  index AT               here stands the index of a type that is not there: none of the type section, and within the type
                         section none of an earlier entry
  alignment AT           here stands an alignment above that of the instruction's width
  refused AT             the type that begins here is none: its supertype is final or does not match, it is nested more
                         than 32 deep or larger than 65,536, or its limits are wrong
  malformed              all else that is no module

A number is tested against what bounds it as soon as it is read: a size that passes its part is malformed before its
content is looked at, and a count of locals that brings a body past 1,000,000 before the type behind it; the counts of
functions and of bodies, and of a data count and of segments, are compared at the second of the two, or at the end where
that section is missing. A count of a list is no bound: its entries are read one by one.
"""

import json
import sys

HEADER = b"\0asm\1\0\0\0"
MOST_LOCALS = 1000000
LARGEST_DEPTH = 32
LARGEST_SIZE = 65536

# The sections by their ids, in the order in which they come.
ORDER = [1, 2, 3, 4, 5, 13, 6, 7, 8, 9, 12, 10, 11]

NUMBER_TYPES = {0x7F: "i32", 0x7E: "i64", 0x7D: "f32", 0x7C: "f64", 0x7B: "v128"}
HEAP_TYPES = {
    0x70: "func", 0x73: "nofunc", 0x6F: "extern", 0x72: "noextern", 0x6E: "any", 0x6D: "eq", 0x6C: "i31", 0x71: "none",
}
NULLABLE, NON_NULL = 0x63, 0x64
SHORT_NAMES = {"func": "funcref", "extern": "externref", "any": "anyref"}
HEAPS = {name: heap for heap, name in SHORT_NAMES.items()}
TOPS = {
    "func": "func", "nofunc": "func", "extern": "extern", "noextern": "extern",
    "any": "any", "eq": "any", "i31": "any", "none": "any",
}
# What each heap type matches besides itself; `nofunc` and the types of the module are dealt with apart.
ABOVE = {
    "func": (), "extern": (), "noextern": ("extern",), "any": (), "eq": ("any",), "i31": ("eq", "any"),
    "none": ("i31", "eq", "any"),
}

# Instructions without immediates.
PLAIN = {0x00: "unreachable", 0x01: "nop", 0x0F: "return", 0x1A: "drop", 0x1B: "select", 0xD1: "ref.is_null"}
COMPARISONS = "eqz eq ne lt_s lt_u gt_s gt_u le_s le_u ge_s ge_u".split()
ARITHMETIC = "clz ctz popcnt add sub mul div_s div_u rem_s rem_u and or xor shl shr_s shr_u rotl rotr".split()
for first, names in (
    (0x45, ["i32." + name for name in COMPARISONS]),
    (0x50, ["i64." + name for name in COMPARISONS]),
    (0x67, ["i32." + name for name in ARITHMETIC]),
    (0x79, ["i64." + name for name in ARITHMETIC]),
    (0xA7, ["i32.wrap_i64"]),
    (0xAC, ["i64.extend_i32_s", "i64.extend_i32_u"]),
    (0xC0, ["i32.extend8_s", "i32.extend16_s", "i64.extend8_s", "i64.extend16_s", "i64.extend32_s"]),
):
    PLAIN.update({first + place: name for place, name in enumerate(names)})

# Instructions with one index that is tested by the validator alone, as all indices are but those of types.
INDEXED = {
    0x0C: "br", 0x0D: "br_if", 0x10: "call", 0x20: "local.get", 0x21: "local.set", 0x22: "local.tee",
    0x23: "global.get", 0x24: "global.set", 0x25: "table.get", 0x26: "table.set", 0x3F: "memory.size",
    0x40: "memory.grow", 0xD2: "ref.func",
}
# Loads and stores, each with the exponent of its width in bytes.
ACCESSES = {
    0x28: ("i32.load", 2), 0x29: ("i64.load", 3), 0x2C: ("i32.load8_s", 0), 0x2D: ("i32.load8_u", 0),
    0x2E: ("i32.load16_s", 1), 0x2F: ("i32.load16_u", 1), 0x30: ("i64.load8_s", 0), 0x31: ("i64.load8_u", 0),
    0x32: ("i64.load16_s", 1), 0x33: ("i64.load16_u", 1), 0x34: ("i64.load32_s", 2), 0x35: ("i64.load32_u", 2),
    0x36: ("i32.store", 2), 0x37: ("i64.store", 3), 0x3A: ("i32.store8", 0), 0x3B: ("i32.store16", 1),
    0x3C: ("i64.store8", 0), 0x3D: ("i64.store16", 1), 0x3E: ("i64.store32", 2),
}
STRUCTURED = {0x02: "block", 0x03: "loop", 0x04: "if"}
# By the number behind `fc`: the name, how many indices follow, and whether a script has them the other way round.
PREFIXED = {
    8: ("memory.init", 2, True), 9: ("data.drop", 1, False), 10: ("memory.copy", 2, False), 11: ("memory.fill", 1, False),
    12: ("table.init", 2, True), 13: ("elem.drop", 1, False), 14: ("table.copy", 2, False), 15: ("table.grow", 1, False),
    16: ("table.size", 1, False), 17: ("table.fill", 1, False),
}
WANT_DATA_COUNT = (8, 9)
EXPORT_KINDS = {0: "func", 1: "table", 2: "memory", 3: "global", 4: "tag"}


class Fault(Exception):
    """The first fault, as the line that says it."""


def malformed():
    return Fault("malformed")


class Cursor:
    """A place among the bytes, and the end of the part that it may read up to."""

    def __init__(self, data, at=0, end=None):
        self.data, self.at, self.end = data, at, len(data) if end is None else end

    def byte(self):
        if self.at >= self.end:
            raise malformed()
        self.at += 1
        return self.data[self.at - 1]

    def peek(self):
        """The byte that comes next, or none at the end."""
        return self.data[self.at] if self.at < self.end else None

    def take(self, count):
        if count > self.end - self.at:
            raise malformed()
        self.at += count
        return self.data[self.at - count : self.at]

    def exactly(self, wanted):
        """Bytes with one possibility."""
        for byte in wanted:
            if self.byte() != byte:
                raise malformed()

    def choice(self, table):
        """A byte that a table gives more than one value."""
        at, code = self.at, self.byte()
        if code not in table:
            raise unsupported(at, code)
        return code

    def unsigned(self, bits=32):
        """The specification's uN: seven bits a byte, the lowest first; padding is taken, and bits past N must be 0."""
        value, shift = 0, 0
        while True:
            byte = self.byte()
            if byte < 0x80:
                if byte >= 1 << (bits - shift):
                    raise malformed()
                return value + (byte << shift)
            if bits - shift <= 7:
                raise malformed()
            value += (byte - 0x80) << shift
            shift += 7

    def signed(self, bits):
        """The specification's sN: as uN, and the last byte has the sign; bits past N must repeat it."""
        value, shift = 0, 0
        while True:
            byte = self.byte()
            if byte < 0x80:
                last = byte - 0x80 if byte & 0x40 else byte
                if not -(1 << (bits - shift - 1)) <= last < 1 << (bits - shift - 1):
                    raise malformed()
                return value + (last << shift)
            if bits - shift <= 7:
                raise malformed()
            value += (byte - 0x80) << shift
            shift += 7

    def listed(self, read):
        """A count and so many entries, read one by one."""
        out = []
        for _ in range(self.unsigned()):
            out.append(read())
        return out

    def held(self):
        """A count and so many bytes."""
        return self.take(self.unsigned())

    def name(self):
        try:
            return self.held().decode("utf-8")
        except UnicodeDecodeError:
            raise malformed() from None

    def part(self):
        """A size and the part of so many bytes, over which a cursor of its own goes."""
        size = self.unsigned()
        at = self.at
        self.take(size)
        return Cursor(self.data, at, at + size)

    def finish(self):
        if self.at != self.end:
            raise malformed()


def unsupported(at, code):
    return Fault("unsupported %d %d" % (at, code))


class Types:
    """The types of the module: as a script writes them, and what is needed to compare them by structure.

    Each has a key; two types with one key are equal in all five parts. A key stands for a type within other types.
    """

    def __init__(self):
        self.items = []  # as a script has them
        self.keys = []  # the key of each item
        self.numbers = {}  # of a structure, its key
        self.facts = []  # by key: finality, the key of the supertype, parameters, results, depth, size
        self.first_plain = {}  # of results, the first final type without supertype and parameters
        self.declared = 0  # how many the type section has; only these have an index in the bytes

    def inner(self, value_type):
        """A value type with the key of a type in place of its number."""
        if isinstance(value_type, dict) and isinstance(value_type["ref"], int):
            return (value_type["null"], self.keys[value_type["ref"]])
        if isinstance(value_type, str):
            return (True, HEAPS.get(value_type, value_type))
        return (value_type["null"], value_type["ref"])

    def add(self, at, final, above, params, results):
        """Adds the type of these parts, which begins at this place."""
        parents = None if above is None else self.keys[above]
        within = [tuple(map(self.inner, row)) for row in (params, results)]
        if above is not None and not self.may_extend(parents, *within):
            raise Fault("refused %d" % at)
        depth, size = self.extent(parents, *within)
        if depth > LARGEST_DEPTH or size > LARGEST_SIZE:
            raise Fault("refused %d" % at)
        structure = (final, parents, *within)
        if structure not in self.numbers:
            self.numbers[structure] = len(self.facts)
            self.facts.append((*structure, depth, size))
        item = {"params": params, "results": results}
        if not final:
            item["final"] = False
        if above is not None:
            item["super"] = above
        if final and above is None and not params:
            self.first_plain.setdefault(within[1], len(self.items))
        self.items.append(item)
        self.keys.append(self.numbers[structure])

    def extent(self, parent, params, results):
        """The depth and the size of a type: 1 more than the depth of what is in it; 1, its rows, and the sizes in it."""
        inside = [heap for _null, heap in (*params, *results) if isinstance(heap, int)]
        if parent is not None:
            inside.append(parent)
        depth = 1 + max((self.facts[key][4] for key in inside), default=0)
        return depth, 1 + len(params) + len(results) + sum(self.facts[key][5] for key in inside)

    def may_extend(self, parent, params, results):
        final, _above, parent_params, parent_results, _depth, _size = self.facts[parent]
        if final or len(params) != len(parent_params) or len(results) != len(parent_results):
            return False
        return all(map(self.matches, parent_params, params)) and all(map(self.matches, results, parent_results))

    def matches(self, one, other):
        """Whether a value type, with keys in place of numbers, matches another."""
        (one_null, one_heap), (other_null, other_heap) = one, other
        if one_null and not other_null:
            return False
        if one_heap == other_heap:
            return True
        if isinstance(one_heap, int):
            if other_heap == "func":
                return True
            above = self.facts[one_heap][1]
            return isinstance(other_heap, int) and above is not None and self.matches((False, above), (False, other_heap))
        if one_heap == "nofunc":
            return isinstance(other_heap, int) or other_heap == "func"
        return other_heap in ABOVE.get(one_heap, ())

    def plain(self, at, results):
        """The number of the first final type without supertype and parameters and with these results, or a new one."""
        key = tuple(map(self.inner, results))
        if key not in self.first_plain:
            self.add(at, True, None, [], results)
        return self.first_plain[key]


def reference(heap, null):
    """A reference type as a script has it. Those that are words of their own are written so."""
    if null and heap in SHORT_NAMES:
        return SHORT_NAMES[heap]
    return {"ref": heap, "null": null}


class Reader:
    def __init__(self, data):
        self.cursor = Cursor(data)
        self.types = Types()
        self.imports, self.tables, self.memories, self.globals, self.tags = [], [], [], [], []
        self.exports, self.elements, self.datas = [], [], []
        self.function_types, self.bodies = [], []  # of a body: runs of locals, and code
        self.start, self.data_count = None, None
        self.all_locals = 0

    # Types

    def type_index(self, read):
        """An index of the type section, by a reader of numbers."""
        at, number = self.cursor.at, read()
        if number >= self.types.declared:
            raise Fault("index %d" % at)
        return number

    def heap_type(self):
        c = self.cursor
        if c.peek() is not None and 0x40 <= c.peek() <= 0x7F:
            return HEAP_TYPES[c.choice(HEAP_TYPES)]
        return self.signed_index()

    def signed_index(self):
        at, number = self.cursor.at, self.cursor.signed(33)
        if number < 0:
            raise malformed()
        if number >= self.types.declared:
            raise Fault("index %d" % at)
        return number

    def reference_type(self, others=()):
        """A reference type; where another byte may stand in its place, that byte."""
        code = self.cursor.choice({*HEAP_TYPES, NULLABLE, NON_NULL, *others})
        if code in others:
            return code
        if code in HEAP_TYPES:
            return reference(HEAP_TYPES[code], True)
        return reference(self.heap_type(), code == NULLABLE)

    def value_type(self):
        found = self.reference_type(NUMBER_TYPES)
        return NUMBER_TYPES[found] if isinstance(found, int) else found

    def type_entry(self):
        c = self.cursor
        at, form, above = c.at, c.choice({0x60, 0x50, 0x4F}), None
        if form != 0x60:
            count = c.unsigned()
            if count > 1:
                raise malformed()
            if count == 1:
                above = self.type_index(c.unsigned)
            c.exactly(b"\x60")
        params, results = c.listed(self.value_type), c.listed(self.value_type)
        self.types.add(at, form != 0x50, above, params, results)
        self.types.declared = len(self.types.items)

    def limits(self):
        c = self.cursor
        if c.choice({0, 1}) == 0:
            return {"min": c.unsigned()}
        return {"min": c.unsigned(), "max": c.unsigned()}

    def table_type(self, element=None, at=None):
        """A table type, whose element may have been read already."""
        at = self.cursor.at if at is None else at
        element = self.reference_type() if element is None else element
        limits = self.limits()
        if limits["min"] > limits.get("max", limits["min"]):
            raise Fault("refused %d" % at)
        return {"ref": element, **limits}

    def memory_type(self):
        at, limits = self.cursor.at, self.limits()
        if max(limits.values()) > 65536 or limits["min"] > limits.get("max", limits["min"]):
            raise Fault("refused %d" % at)
        return limits

    def global_type(self):
        return {"val": self.value_type(), "mut": self.cursor.choice({0, 1}) == 1}

    def tag_type(self):
        self.cursor.exactly(b"\0")
        return self.type_index(self.cursor.unsigned)

    # Constants

    def constant(self):
        c = self.cursor
        code = c.choice({0x41, 0x42, 0x43, 0x44, 0xFD, 0x23, 0xD0, 0xD2})
        if code == 0x41:
            found = ["i32.const", c.signed(32)]
        elif code == 0x42:
            found = ["i64.const", c.signed(64)]
        elif code == 0x43:
            found = ["f32.bits", int.from_bytes(c.take(4), "little")]
        elif code == 0x44:
            found = ["f64.bits", int.from_bytes(c.take(8), "little")]
        elif code == 0xFD:
            c.exactly(b"\x0c")
            found = ["v128.hex", c.take(16)[::-1].hex()]
        elif code == 0xD0:
            found = ["ref.null", self.null_family()]
        else:
            found = ["global.get" if code == 0x23 else "ref.func", c.unsigned()]
        c.exactly(b"\x0b")
        return found

    def null_family(self):
        """Of a null, the top of its heap type: all that a declaration keeps of it."""
        heap = self.heap_type()
        return "func" if isinstance(heap, int) else TOPS[heap]

    # Sections

    def import_entry(self):
        c = self.cursor
        entry = {"module": c.name(), "name": c.name()}
        kind = c.choice(EXPORT_KINDS)
        readers = [lambda: self.type_index(c.unsigned), self.table_type, self.memory_type, self.global_type, self.tag_type]
        entry[EXPORT_KINDS[kind]] = readers[kind]()
        self.imports.append(entry)

    def table_entry(self):
        c = self.cursor
        at, found = c.at, self.reference_type((0x40,))
        if found == 0x40:
            c.exactly(b"\0")
            table = self.table_type()
            table["init"] = self.constant()
        else:
            table = self.table_type(found, at)
        self.tables.append(table)

    def global_entry(self):
        self.globals.append({**self.global_type(), "init": self.constant()})

    def export_entry(self):
        c = self.cursor
        name, kind = c.name(), c.choice(EXPORT_KINDS)
        self.exports.append({"name": name, EXPORT_KINDS[kind]: c.unsigned()})

    def element_entry(self):
        c = self.cursor
        at, kind = c.at, c.unsigned()
        if kind > 7:
            raise unsupported(at, kind)
        segment = {}
        if kind & 1 == 0:  # written at once, into table 0 where no table is named
            segment["table"] = c.unsigned() if kind & 2 else 0
            segment["offset"] = self.constant()
        elif kind & 2:
            segment["declared"] = True
        if kind & 4:
            segment["ref"] = "funcref" if kind == 4 else self.reference_type()
            segment["items"] = c.listed(self.constant)
        else:
            if kind:
                c.exactly(b"\0")
            segment["ref"] = reference("func", False)
            segment["items"] = c.listed(lambda: ["ref.func", c.unsigned()])
        self.elements.append(segment)

    def data_entry(self):
        c = self.cursor
        at, kind = c.at, c.unsigned()
        if kind > 2:
            raise unsupported(at, kind)
        segment = {}
        if kind != 1:
            segment["memory"] = c.unsigned() if kind == 2 else 0
            segment["offset"] = self.constant()
        segment["bytes"] = c.held().hex()
        self.datas.append(segment)

    def counted(self, wanted, read):
        """A list whose count another section has given."""
        count = self.cursor.unsigned()
        if wanted is not None and count != wanted:
            raise malformed()
        for _ in range(count):
            read()

    def section(self, number):
        c = self.cursor
        lists = {
            1: self.type_entry, 2: self.import_entry, 4: self.table_entry, 6: self.global_entry, 7: self.export_entry,
            9: self.element_entry, 5: lambda: self.memories.append(self.memory_type()),
            3: lambda: self.function_types.append(self.type_index(c.unsigned)),
            13: lambda: self.tags.append(self.tag_type()),
        }
        if number in lists:
            c.listed(lists[number])
        elif number == 8:
            self.start = c.unsigned()
        elif number == 12:
            self.data_count = c.unsigned()
        elif number == 10:
            self.counted(len(self.function_types), self.body)
        else:
            self.counted(self.data_count, self.data_entry)

    def module(self):
        """Reads all bytes, or raises the first fault."""
        whole = self.cursor
        whole.exactly(HEADER)
        last = -1
        while whole.at < whole.end:
            number = whole.byte()
            if number:
                if number not in ORDER or ORDER.index(number) <= last:
                    raise malformed()
                last = ORDER.index(number)
            self.cursor = whole.part()
            if number:
                self.section(number)
                self.cursor.finish()
            else:
                self.cursor.name()
        if len(self.bodies) != len(self.function_types) or (self.data_count or 0) > len(self.datas):
            raise malformed()
        return self

    # Code

    def body(self):
        outside = self.cursor
        self.cursor = outside.part()
        runs, count = [], 0
        for _ in range(self.cursor.unsigned()):
            many = self.cursor.unsigned()
            count += many
            if count > MOST_LOCALS:
                raise malformed()
            runs.append((many, self.value_type()))
        self.all_locals += count
        self.bodies.append((runs, self.code()))
        self.cursor.finish()
        self.cursor = outside

    def code(self):
        """The instructions of a body up to its end, nested as a script has them. What is open is a list, for the format
        sets no bound to nesting."""
        outermost, opened = [], []
        into = outermost  # the list that instructions go to
        while True:
            code = self.cursor.choice(CODES)
            if code in STRUCTURED:
                instruction = [STRUCTURED[code], self.block_type(), []]
                into.append(instruction)
                opened.append((instruction, into))
                into = instruction[2]
            elif code == 0x05:
                if not opened or opened[-1][0][0] != "if" or len(opened[-1][0]) == 4:
                    raise malformed()
                into = []
                opened[-1][0].append(into)
            elif code == 0x0B:
                if not opened:
                    return outermost
                instruction, into = opened.pop()
                if instruction[0] == "if" and len(instruction) == 3:
                    instruction.append([])
            else:
                into.append(self.instruction(code))

    def block_type(self):
        c = self.cursor
        at, first = c.at, c.peek()
        if first is None or not 0x40 <= first <= 0x7F:
            return self.signed_index()
        code = self.reference_type({0x40, *NUMBER_TYPES})
        if code == 0x40:
            return self.types.plain(at, [])
        return self.types.plain(at, [NUMBER_TYPES[code] if isinstance(code, int) else code])

    def instruction(self, code):
        c = self.cursor
        if code in PLAIN:
            return [PLAIN[code]]
        if code in INDEXED:
            return [INDEXED[code], c.unsigned()]
        if code in ACCESSES:
            return self.access(*ACCESSES[code])
        if code == 0x0E:
            return ["br_table", c.listed(c.unsigned), c.unsigned()]
        if code == 0x11:
            return ["call_indirect", self.type_index(c.unsigned), c.unsigned()]
        if code in (0x41, 0x42):
            return ["i32.const", c.signed(32)] if code == 0x41 else ["i64.const", c.signed(64)]
        if code == 0xD0:
            return ["ref.null", self.null_family()]
        at, number = c.at, c.unsigned()
        if number not in PREFIXED:
            raise unsupported(at, 64512 + number)
        if number in WANT_DATA_COUNT and self.data_count is None:
            raise malformed()
        name, count, turned = PREFIXED[number]
        indices = [c.unsigned() for _ in range(count)]
        return [name, *(indices[::-1] if turned else indices)]

    def access(self, name, width):
        c = self.cursor
        at, exponent = c.at, c.unsigned()
        named = 64 <= exponent < 128
        if (exponent - 64 if named else exponent) > width:
            raise Fault("alignment %d" % at)
        memory = c.unsigned() if named else 0
        return [name, memory, c.unsigned()]

    # What was read

    def line(self):
        counts = (len(self.types.items), len(self.imports), len(self.bodies), len(self.exports))
        return "module types %d imports %d functions %d exports %d" % counts

    def declaration(self):
        """The types and the module as a script has them."""
        functions = []
        for number, (runs, code) in zip(self.function_types, self.bodies):
            local_types = [value_type for many, value_type in runs for _ in range(many)]
            functions.append({"type": number, "locals": local_types, "code": code})
        parts = {
            "imports": self.imports, "functions": functions, "tables": self.tables, "memories": self.memories,
            "globals": self.globals, "tags": self.tags, "exports": self.exports, "elements": self.elements,
            "datas": self.datas,
        }
        module = {key: part for key, part in parts.items() if part}
        if self.start is not None:
            module["start"] = self.start
        return {"types": self.types.items, "module": module}


CODES = {*PLAIN, *INDEXED, *ACCESSES, *STRUCTURED, 0x05, 0x0B, 0x0E, 0x11, 0x41, 0x42, 0xD0, 0xFC}


def read(data):
    """The reader that has read all of these bytes; or `Fault`."""
    return Reader(data).module()


def line_of(data):
    try:
        return read(data).line()
    except Fault as fault:
        return str(fault)


def main():
    if sys.argv[1:] not in ([], ["--data"]):
        sys.exit(__doc__.split("\n\n")[1])
    data = sys.stdin.buffer.read()
    try:
        reader = read(data)
    except Fault as fault:
        print(fault)
        return 1
    print(json.dumps(reader.declaration(), ensure_ascii=False) if sys.argv[1:] else reader.line())
    return 0


if __name__ == "__main__":
    sys.exit(main())
