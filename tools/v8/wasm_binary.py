"""Modules of sessions in the binary format of WebAssembly: what docs/SESSIONS.md describes as data, as V8 reads it.

There is no form here for tags, pages of one byte, vectors, `anyref`, references to one type, and for what V8 reads in
other forms by version: an `init` of a table, and a final type with a supertype.
"""

import struct

VALUE_TYPES = {"i32": 0x7F, "i64": 0x7E, "f32": 0x7D, "f64": 0x7C, "funcref": 0x70, "externref": 0x6F}
FAMILIES = {"func": 0x70, "extern": 0x6F}
KINDS = {"func": 0, "table": 1, "memory": 2, "global": 3}

COMPARISONS = "eq ne lt_s lt_u gt_s gt_u le_s le_u ge_s ge_u".split()
COUNTS = "clz ctz popcnt".split()
ARITHMETIC = "add sub mul div_s div_u rem_s rem_u and or xor shl shr_s shr_u rotl rotr".split()

# The operators on integers, each with its opcode, its operands and its result.
OPERATORS = {}


def add_operators(first, kind, names, operands, result):
    for code, name in enumerate(names, first):
        OPERATORS["%s.%s" % (kind, name)] = (code, [kind] * operands, result)


for width, (test, count, extend) in {"i32": (0x45, 0x67, 0xC0), "i64": (0x50, 0x79, 0xC2)}.items():
    add_operators(test, width, ["eqz"], 1, "i32")
    add_operators(test + 1, width, COMPARISONS, 2, "i32")
    add_operators(count, width, COUNTS, 1, width)
    add_operators(count + 3, width, ARITHMETIC, 2, width)
    add_operators(extend, width, ["extend8_s", "extend16_s", "extend32_s"][: 2 if width == "i32" else 3], 1, width)
OPERATORS["i32.wrap_i64"] = (0xA7, ["i64"], "i32")
OPERATORS["i64.extend_i32_s"] = (0xAC, ["i32"], "i64")
OPERATORS["i64.extend_i32_u"] = (0xAD, ["i32"], "i64")

# Loads and stores, each with its opcode.
LOADS = {
    "i32.load": 0x28, "i64.load": 0x29, "i32.load8_s": 0x2C, "i32.load8_u": 0x2D, "i32.load16_s": 0x2E,
    "i32.load16_u": 0x2F, "i64.load8_s": 0x30, "i64.load8_u": 0x31, "i64.load16_s": 0x32, "i64.load16_u": 0x33,
    "i64.load32_s": 0x34, "i64.load32_u": 0x35,
}
STORES = {
    "i32.store": 0x36, "i64.store": 0x37, "i32.store8": 0x3A, "i32.store16": 0x3B, "i64.store8": 0x3C,
    "i64.store16": 0x3D, "i64.store32": 0x3E,
}

# Instructions whose immediates are indices, written in the order in which a session has them.
INDEXED = {
    "br": b"\x0c", "br_if": b"\x0d", "call": b"\x10", "call_indirect": b"\x11", "local.get": b"\x20",
    "local.set": b"\x21", "local.tee": b"\x22", "global.get": b"\x23", "global.set": b"\x24", "table.get": b"\x25",
    "table.set": b"\x26", "memory.size": b"\x3f", "memory.grow": b"\x40", "ref.func": b"\xd2", "data.drop": b"\xfc\x09",
    "memory.copy": b"\xfc\x0a", "memory.fill": b"\xfc\x0b", "elem.drop": b"\xfc\x0d", "table.copy": b"\xfc\x0e",
    "table.grow": b"\xfc\x0f", "table.size": b"\xfc\x10", "table.fill": b"\xfc\x11",
}
# Such that have them the other way round: the segment comes first.
SEGMENT_FIRST = {"memory.init": b"\xfc\x08", "table.init": b"\xfc\x0c"}
BARE = {
    "unreachable": b"\x00", "nop": b"\x01", "return": b"\x0f", "drop": b"\x1a", "select": b"\x1b",
    "ref.is_null": b"\xd1",
}
STRUCTURED = {"block": b"\x02", "loop": b"\x03", "if": b"\x04"}
ELSE, END = b"\x05", b"\x0b"


def unsigned(number):
    """A number in LEB128."""
    out = bytearray()
    while number > 0x7F:
        out.append(number & 0x7F | 0x80)
        number >>= 7
    out.append(number)
    return bytes(out)


def signed(number, width):
    """An integer of this width, which a session may write with a sign or without one, in signed LEB128."""
    number &= (1 << width) - 1
    number -= (number >> (width - 1)) << width
    out = bytearray()
    while not -0x40 <= number < 0x40:
        out.append(number & 0x7F | 0x80)
        number >>= 7
    out.append(number & 0x7F)
    return bytes(out)


def vector(items):
    return unsigned(len(items)) + b"".join(items)


def text(line):
    return unsigned(len(line.encode())) + line.encode()


def constant(instruction):
    """A constant instruction, without the end of an expression."""
    name, immediate = instruction
    if name == "i32.const":
        return b"\x41" + signed(immediate, 32)
    if name == "i64.const":
        return b"\x42" + signed(immediate, 64)
    if name == "f32.bits":
        return b"\x43" + struct.pack("<I", immediate)
    if name == "f64.bits":
        return b"\x44" + struct.pack("<Q", immediate)
    if name == "ref.null":
        return b"\xd0" + bytes([FAMILIES[immediate]])
    return INDEXED[name] + unsigned(immediate)


def instruction_bytes(instruction):
    name, immediates = instruction[0], instruction[1:]
    if name in OPERATORS:
        return bytes([OPERATORS[name][0]])
    if name in LOADS or name in STORES:
        memory, offset = immediates
        if memory != 0:
            raise ValueError("no module here has two memories")
        return bytes([(LOADS.get(name) or STORES[name]), 0]) + unsigned(offset)
    if name in STRUCTURED:
        inner = ELSE.join(code_bytes(code) for code in immediates[1:])
        return STRUCTURED[name] + signed(immediates[0], 33) + inner + END
    if name == "br_table":
        return b"\x0e" + vector([unsigned(label) for label in immediates[0]]) + unsigned(immediates[1])
    if name in SEGMENT_FIRST:
        return SEGMENT_FIRST[name] + unsigned(immediates[1]) + unsigned(immediates[0])
    if name in BARE:
        return BARE[name]
    if name in INDEXED:
        return INDEXED[name] + b"".join(unsigned(index) for index in immediates)
    return constant(instruction)


def code_bytes(code):
    return b"".join(instruction_bytes(instruction) for instruction in code)


def expression(instruction):
    return constant(instruction) + END


def function_type(item):
    rows = [[bytes([VALUE_TYPES[name]]) for name in item.get(key, [])] for key in ("params", "results")]
    above = [unsigned(item["super"])] if "super" in item else []
    return (b"" if item.get("final", True) else b"\x50" + vector(above)) + b"\x60" + vector(rows[0]) + vector(rows[1])


def limits(item):
    if "max" in item:
        return b"\x01" + unsigned(item["min"]) + unsigned(item["max"])
    return b"\x00" + unsigned(item["min"])


def table_type(item):
    return bytes([VALUE_TYPES[item["ref"]]]) + limits(item)


def global_type(item):
    return bytes([VALUE_TYPES[item["val"]], item.get("mut", False)])


IMPORTED = {"func": unsigned, "table": table_type, "memory": limits, "global": global_type}


def kind_of(entry):
    """Which kind of object an import or an export is of."""
    return next(kind for kind in KINDS if kind in entry)


def import_entry(entry):
    kind = kind_of(entry)
    return text(entry["module"]) + text(entry["name"]) + bytes([KINDS[kind]]) + IMPORTED[kind](entry[kind])


def export_entry(entry):
    kind = kind_of(entry)
    return text(entry["name"]) + bytes([KINDS[kind]]) + unsigned(entry[kind])


def element_entry(segment):
    items = bytes([VALUE_TYPES[segment["ref"]]]) + vector([expression(item) for item in segment["items"]])
    if "table" in segment:
        return b"\x06" + unsigned(segment["table"]) + expression(segment["offset"]) + items
    return (b"\x07" if segment.get("declared") else b"\x05") + items


def data_entry(segment):
    held = bytes.fromhex(segment["bytes"])
    if "memory" in segment:
        return b"\x02" + unsigned(segment["memory"]) + expression(segment["offset"]) + unsigned(len(held)) + held
    return b"\x01" + unsigned(len(held)) + held


def function_body(function):
    declared = [b"\x01" + bytes([VALUE_TYPES[local]]) for local in function.get("locals", [])]
    body = vector(declared) + code_bytes(function.get("code", [])) + END
    return unsigned(len(body)) + body


def binary(types, module):
    """The bytes of a module of a session that has these types."""

    def entries(key, encode):
        return [encode(item) for item in module.get(key, [])]

    datas = entries("datas", data_entry)
    parts = [
        (1, [function_type(item) for item in types]),
        (2, entries("imports", import_entry)),
        (3, entries("functions", lambda function: unsigned(function["type"]))),
        (4, entries("tables", table_type)),
        (5, entries("memories", limits)),
        (6, entries("globals", lambda item: global_type(item) + expression(item["init"]))),
        (7, entries("exports", export_entry)),
        (8, unsigned(module["start"]) if "start" in module else []),
        (9, entries("elements", element_entry)),
        (12, unsigned(len(datas)) if datas else []),
        (10, entries("functions", function_body)),
        (11, datas),
    ]
    out = b"\0asm\1\0\0\0"
    for number, part in parts:
        if part:
            held = part if isinstance(part, bytes) else vector(part)
            out += bytes([number]) + unsigned(len(held)) + held
    return out
