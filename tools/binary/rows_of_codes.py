"""Rows of each code of the format: the 124 that are read, and those that are not."""

from vector_table import code, hand, wat


def operators():
    """Each operator on integers by its text, with what it wants on the stack."""
    tests = "eq ne lt_s lt_u gt_s gt_u le_s le_u ge_s ge_u".split()
    binary = "add sub mul div_s div_u rem_s rem_u and or xor shl shr_s shr_u rotl rotr".split()
    for kind in ("i32", "i64"):
        for name in (
            "eqz",
            "clz",
            "ctz",
            "popcnt",
            "extend8_s",
            "extend16_s",
            *(["extend32_s"] if kind == "i64" else []),
        ):
            yield "%s.%s" % (kind, name), [kind]
        for name in tests + binary:
            yield "%s.%s" % (kind, name), [kind, kind]
    yield "i32.wrap_i64", ["i64"]
    yield "i64.extend_i32_s", ["i32"]
    yield "i64.extend_i32_u", ["i32"]


def rows_of_codes():
    """Each code once: 124, of which else and end come with if."""

    def one(text, script, appended=0, before=(), types="", more="", extra=None, type_list=({},), drop=True):
        """A function whose code is this text, behind constants for its operands; the script has the same."""
        front = " ".join("(%s.const 1)" % kind for kind in before)
        pushed = [["%s.const" % kind, 1] for kind in before]
        tail, dropped = (" drop", [["drop"]]) if drop else ("", [])
        function = {"type": 0, "code": [*pushed, *script, *dropped]}
        module = {**(extra or {}), "functions": [function]}
        wat(
            "the code " + text,
            "(module (type (func)) %s %s (func (type 0) %s %s%s))" % (types, more, front, text, tail),
            {"types": list(type_list), "module": module},
            appended,
        )

    for name, kinds in operators():
        one(name, [[name]], before=kinds)
    one("unreachable", [["unreachable"]], drop=False)
    one("nop", [["nop"]], drop=False)
    one("block (type 0) end", [["block", 0, []]], drop=False)
    one("loop (type 0) nop end", [["loop", 0, [["nop"]]]], drop=False)
    one("if (type 0) nop else unreachable end", [["if", 0, [["nop"]], [["unreachable"]]]], before=["i32"], drop=False)
    one("if (type 0) nop end", [["if", 0, [["nop"]], []]], before=["i32"], drop=False)
    one("br 0", [["br", 0]], drop=False)
    one("br_if 0", [["br_if", 0]], before=["i32"], drop=False)
    one("br_table 0 0 0", [["br_table", [0, 0], 0]], before=["i32"], drop=False)
    one("br_table 0", [["br_table", [], 0]], before=["i32"], drop=False)
    one("return", [["return"]], drop=False)
    one("call 0", [["call", 0]], drop=False)
    tables = {"tables": [{"ref": "funcref", "min": 1}, {"ref": "externref", "min": 1}]}
    text = "(table 1 funcref) (table 1 externref)"
    one("call_indirect (type 0)", [["call_indirect", 0, 0]], before=["i32"], drop=False, more=text, extra=tables)
    one("drop", [["drop"]], before=["i32"], drop=False)
    one("select", [["select"]], before=["i64", "i64", "i32"])
    for name, before, drop in (("local.get", [], True), ("local.set", ["i32"], False), ("local.tee", ["i32"], True)):
        front = " ".join("(%s.const 1)" % kind for kind in before)
        pushed = [["%s.const" % kind, 1] for kind in before]
        dropped = [["drop"]] if drop else []
        wat(
            "the code %s 2" % name,
            "(module (type (func)) (func (type 0) (local i64 i64 i32) %s %s 2 %s))"
            % (front, name, "drop" if drop else ""),
            {
                "types": [{}],
                "module": {
                    "functions": [{"type": 0, "locals": ["i64", "i64", "i32"], "code": [*pushed, [name, 2], *dropped]}]
                },
            },
        )
    globals_ = {
        "globals": [{"val": "i64", "init": ["i64.const", 0]}, {"val": "i32", "mut": True, "init": ["i32.const", 0]}]
    }
    text_globals = "(global i64 (i64.const 0)) (global (mut i32) (i32.const 0))"
    one("global.get 1", [["global.get", 1]], more=text_globals, extra=globals_)
    one("global.set 1", [["global.set", 1]], before=["i32"], more=text_globals, extra=globals_, drop=False)
    one("table.get 1", [["table.get", 1]], before=["i32"], more=text, extra=tables)
    null = [["i32.const", 1], ["ref.null", "extern"]]
    one("i32.const 1 ref.null extern table.set 1", [*null, ["table.set", 1]], more=text, extra=tables, drop=False)
    memories = {"memories": [{"min": 1}, {"min": 1}]}
    text_memories = "(memory 1) (memory 1)"
    for kind in ("i32", "i64"):
        for name in (
            "load",
            "load8_s",
            "load8_u",
            "load16_s",
            "load16_u",
            *(["load32_s", "load32_u"] if kind == "i64" else []),
        ):
            one(
                "%s.%s offset=300" % (kind, name),
                [["%s.%s" % (kind, name), 0, 300]],
                before=["i32"],
                more=text_memories,
                extra=memories,
            )
        for name in ("store", "store8", "store16", *(["store32"] if kind == "i64" else [])):
            one(
                "%s.%s offset=300" % (kind, name),
                [["%s.%s" % (kind, name), 0, 300]],
                before=["i32", kind],
                more=text_memories,
                extra=memories,
                drop=False,
            )
    one("i32.load 1 offset=5 align=1", [["i32.load", 1, 5]], before=["i32"], more=text_memories, extra=memories)
    one(
        "i64.store32 1 offset=70000",
        [["i64.store32", 1, 70000]],
        before=["i32", "i64"],
        more=text_memories,
        extra=memories,
        drop=False,
    )
    one("memory.size 1", [["memory.size", 1]], more=text_memories, extra=memories)
    one("memory.grow 1", [["memory.grow", 1]], before=["i32"], more=text_memories, extra=memories)
    one("i32.const -2147483648", [["i32.const", -(2**31)]])
    one("i64.const 9223372036854775807", [["i64.const", 2**63 - 1]])
    one("ref.null func", [["ref.null", "func"]])
    one("ref.null extern ref.is_null", [["ref.null", "extern"], ["ref.is_null"]])
    one("ref.func 0", [["ref.func", 0]])
    three = ["i32", "i32", "i32"]
    datas = {**memories, "datas": [{"bytes": "61"}, {"bytes": "62"}]}
    text_datas = text_memories + ' (data "a") (data "b")'
    one("memory.init 1 0", [["memory.init", 1, 0]], before=three, more=text_datas, extra=datas, drop=False)
    one("data.drop 1", [["data.drop", 1]], more=text_datas, extra=datas, drop=False)
    one("memory.copy 1 0", [["memory.copy", 1, 0]], before=three, more=text_memories, extra=memories, drop=False)
    one("memory.fill 1", [["memory.fill", 1]], before=three, more=text_memories, extra=memories, drop=False)
    elements = {**tables, "elements": [{"ref": "externref", "items": []}, {"ref": "externref", "items": []}]}
    text_elements = text + " (elem externref) (elem externref)"
    one("table.init 1 0", [["table.init", 1, 0]], before=three, more=text_elements, extra=elements, drop=False)
    one("elem.drop 1", [["elem.drop", 1]], more=text_elements, extra=elements, drop=False)
    two_of = {"tables": [{"ref": "funcref", "min": 1}, {"ref": "funcref", "min": 1}]}
    one(
        "table.copy 1 0",
        [["table.copy", 1, 0]],
        before=three,
        more="(table 1 funcref) (table 1 funcref)",
        extra=two_of,
        drop=False,
    )
    one(
        "ref.null extern i32.const 1 table.grow 1",
        [["ref.null", "extern"], ["i32.const", 1], ["table.grow", 1]],
        more=text,
        extra=tables,
    )
    one("table.size 1", [["table.size", 1]], more=text, extra=tables)
    one(
        "i32.const 1 ref.null extern i32.const 0 table.fill 1",
        [*null, ["i32.const", 0], ["table.fill", 1]],
        more=text,
        extra=tables,
        drop=False,
    )


def rows_of_other_codes():
    """Every byte that begins no instruction, and each number behind fc that is none up to 31."""
    known = {
        *range(0x00, 0x06),
        0x0B,
        *range(0x0C, 0x12),
        0x1A,
        0x1B,
        *range(0x20, 0x27),
        0x28,
        0x29,
        *range(0x2C, 0x38),
        *range(0x3A, 0x43),
    }
    known |= {*range(0x45, 0x5B), *range(0x67, 0x8B), *range(0xC0, 0xC5), 0xA7, 0xAC, 0xAD, 0xD0, 0xD1, 0xD2, 0xFC}
    for byte in range(256):
        if byte not in known:
            hand(
                "no instruction: %02x" % byte,
                code("01 ^%02x 00 00" % byte),
                "unsupported ^ %d" % byte,
                "the table of instructions has it not",
            )
    for number in (*range(0, 8), *range(18, 32), 127):
        hand(
            "no instruction: fc %02x" % number,
            code("fc ^%02x 00 00" % number),
            "unsupported ^ %d" % (64512 + number),
            "the table has fc 8 to 17",
        )
    hand(
        "no instruction: fc and 2^32 - 1",
        code("fc ^ff ff ff ff 0f"),
        "unsupported ^ %d" % (64512 + 2**32 - 1),
        "the table has fc 8 to 17",
    )
    hand(
        "no instruction: fc and a padded 7",
        code("fc ^87 80 00"),
        "unsupported ^ 64519",
        "the number, and not its bytes",
    )


def rows():
    for group in (rows_of_codes, rows_of_other_codes):
        group()
