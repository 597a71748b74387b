"""Rows of blocks, of bodies, and of alignments."""

from vector_table import NO_TYPE, ONE, ONE_FUNCTION, SPEC, body, code, hand, section, wat


def rows_of_blocks():
    why = SPEC + "Control Instructions"

    def blocks(shows, digits, script, types, line=None, before="01 60 00 00", reason=why):
        line = line or "module types %d imports 0 functions 1 exports 0" % len(types)
        hand(
            shows,
            code(digits, types=before),
            line,
            reason,
            script is not None and {"types": types, "module": {"functions": [{"type": 0, "code": script}]}},
        )

    block = [["block", 0, []]]
    blocks("an empty block type that is there", "02 40 0b", block, [{}])
    blocks(
        "an empty block type that is appended",
        "02 40 0b",
        [["block", 1, []]],
        [{"results": ["i32"]}, {}],
        before="01 60 00 01 7f",
    )
    blocks(
        "a block type that is there at an index",
        "02 7f 0b",
        [["block", 1, []]],
        [{}, {"results": ["i32"]}],
        before="02 60 00 00 60 00 01 7f",
    )
    blocks(
        "block types that are appended in the order of their first use",
        "02 7e 03 7f 0b 04 7e 0b 0b",
        [["block", 1, [["loop", 2, []], ["if", 1, [], []]]]],
        [{}, {"results": ["i64"]}, {"results": ["i32"]}],
    )
    blocks(
        "of two equal types the first",
        "02 7f 0b",
        [["block", 1, []]],
        [{}, {"results": ["i32"]}, {"results": ["i32"]}],
        before="03 60 00 00 60 00 01 7f 60 00 01 7f",
    )
    blocks(
        "a non-final type is another",
        "02 7f 0b",
        [["block", 2, []]],
        [{}, {"final": False, "results": ["i32"]}, {"results": ["i32"]}],
        before="02 60 00 00 50 00 60 00 01 7f",
    )
    blocks(
        "a type with a supertype is another",
        "02 7f 0b",
        [["block", 3, []]],
        [{}, {"final": False, "results": ["i32"]}, {"super": 1, "results": ["i32"]}, {"results": ["i32"]}],
        before="03 60 00 00 50 00 60 00 01 7f 4f 01 01 60 00 01 7f",
    )
    blocks(
        "a final type in the long form is the same",
        "02 7f 0b",
        [["block", 1, []]],
        [{}, {"results": ["i32"]}],
        before="02 60 00 00 4f 00 60 00 01 7f",
    )
    blocks(
        "a type with a parameter is another",
        "02 7f 0b",
        [["block", 2, []]],
        [{}, {"params": ["i32"], "results": ["i32"]}, {"results": ["i32"]}],
        before="02 60 00 00 60 01 7f 01 7f",
    )
    blocks(
        "a nullable reference in both forms is one",
        "02 63 70 0b 02 70 0b",
        [["block", 1, []], ["block", 1, []]],
        [{}, {"results": ["funcref"]}],
    )
    blocks(
        "a non-null reference is another",
        "02 64 70 0b 02 70 0b",
        [["block", 1, []], ["block", 2, []]],
        [{}, {"results": [{"ref": "func", "null": False}]}, {"results": ["funcref"]}],
    )
    blocks(
        "references to a type",
        "02 63 00 0b 02 64 00 0b",
        [["block", 1, []], ["block", 2, []]],
        [{}, {"results": [{"ref": 0}]}, {"results": [{"ref": 0, "null": False}]}],
    )
    blocks(
        "references to two equal types are one",
        "02 63 01 0b 02 63 00 0b",
        [["block", 2, []], ["block", 2, []]],
        [{}, {}, {"results": [{"ref": 1}]}],
        before="02 60 00 00 60 00 00",
    )
    blocks(
        "a reference to a type by a padded index", "02 63 80 00 0b", [["block", 1, []]], [{}, {"results": [{"ref": 0}]}]
    )
    for digits, value in (
        ("7d", "f32"),
        ("7c", "f64"),
        ("7b", "v128"),
        ("6f", "externref"),
        ("6e", "anyref"),
        ("6d", {"ref": "eq"}),
        ("6c", {"ref": "i31"}),
        ("71", {"ref": "none"}),
        ("72", {"ref": "noextern"}),
        ("73", {"ref": "nofunc"}),
    ):
        blocks("a block of the type " + digits, "02 %s 0b" % digits, [["block", 1, []]], [{}, {"results": [value]}])
    blocks(
        "the index of a type that was appended",
        "02 7f 0b 02 ^01 0b",
        None,
        None,
        "index ^",
        reason="appended types have no index in the bytes",
    )
    blocks(
        "a call by the type that was appended",
        "02 7f 0b 11 ^01 00",
        None,
        None,
        "index ^",
        reason="appended types have no index in the bytes",
    )
    blocks("a call by a type that is not there", "11 ^05 00", None, None, "index ^", reason="no type 5")
    blocks(
        "a block of a reference to a type that is not there", "02 63 ^01 0b", None, None, "index ^", reason="no type 1"
    )
    for digits in ("41", "5f", "60", "65", "6a", "7a", "77", "74", "69"):
        blocks(
            "no block type: " + digits,
            "02 ^%s 0b" % digits,
            None,
            None,
            "unsupported ^ %d" % int(digits, 16),
            reason="a byte from 40 to 7f that no row has",
        )
    blocks(
        "no heap type in a block type",
        "02 64 ^7f 0b",
        None,
        None,
        "unsupported ^ 127",
        reason="the row of heap types has it not",
    )
    deep = "60 00 00 " + "".join("60 01 63 %02x 00 " % n for n in range(31))
    blocks(
        "a block type that is no type",
        "02 ^63 1f 0b",
        None,
        None,
        "refused ^",
        before="20 " + deep,
        reason="it would be 33 deep",
    )
    blocks(
        "a block type that is no type, behind one that is",
        "02 63 1e 0b 03 ^64 1f 0b",
        None,
        None,
        "refused ^",
        before="20 " + deep,
        reason="it would be 33 deep",
    )
    blocks("an else without an if", "05", None, None, "malformed", reason=SPEC + "Control Instructions")
    blocks("an else in a block", "02 40 05 0b", None, None, "malformed", reason=SPEC + "Control Instructions")
    blocks(
        "an else in a block within an if", "41 00 04 40 02 40 05 0b 0b", None, None, "malformed", reason=SPEC + "Control Instructions"
    )
    blocks("two elses", "41 00 04 40 05 05 0b", None, None, "malformed", reason=SPEC + "Control Instructions")
    blocks("an empty else", "41 00 04 40 05 0b", [["i32.const", 0], ["if", 0, [], []]], [{}])
    blocks(
        "ifs within both lists of an if",
        "41 00 04 40 41 01 04 40 05 01 0b 05 41 02 04 40 01 0b 0b",
        [
            ["i32.const", 0],
            ["if", 0, [["i32.const", 1], ["if", 0, [], [["nop"]]]], [["i32.const", 2], ["if", 0, [["nop"]], []]]],
        ],
        [{}],
    )
    hand("a block that is not closed", NO_TYPE + ONE + section(10, "01 04 00 02 40 0b"), "malformed", SPEC + "Control Instructions")
    hand(
        "code behind the end of a body", NO_TYPE + ONE + section(10, "01 04 00 0b 01 0b"), "malformed", SPEC + "Code Section"
    )
    hand("a body without its end", NO_TYPE + ONE + section(10, "01 02 00 01"), "malformed", SPEC + "Code Section")
    hand("a body that is empty", NO_TYPE + ONE + section(10, "01 00"), "malformed", SPEC + "Code Section")
    hand(
        "300 blocks within one another",
        code("02 40 " * 300 + "0b " * 300),
        ONE_FUNCTION,
        "nesting has no bound in the format",
    )
    wat(
        "value types of blocks, by wat2wasm",
        "(module (type (func)) (func (block (result i32) (i32.const 1)) (drop)))",
        {
            "types": [{}, {"results": ["i32"]}],
            "module": {"functions": [{"type": 0, "code": [["block", 1, [["i32.const", 1]]], ["drop"]]}]},
        },
        appended=1,
    )


def rows_of_bodies():
    why = SPEC + "Code Section"
    hand(
        "two bodies, of which the first has locals in two pairs",
        section(1, "02 60 00 00 60 01 7f 00")
        + section(3, "02 01 00")
        + section(10, "02 " + body("01", "02 02 7f 01 7e") + body("")),
        "module types 2 imports 0 functions 2 exports 0",
        why,
        {
            "types": [{}, {"params": ["i32"]}],
            "module": {"functions": [{"type": 1, "locals": ["i32", "i32", "i64"], "code": [["nop"]]}, {"type": 0}]},
        },
    )
    hand(
        "a pair of no locals",
        code("", "01 00 7f"),
        ONE_FUNCTION,
        why,
        {"types": [{}], "module": {"functions": [{"type": 0}]}},
    )
    hand("a pair of no locals of no type", code("", "01 00 ^40"), "unsupported ^ 64", why)
    hand(
        "locals of references",
        code("", "03 01 63 00 01 64 70 01 6c"),
        ONE_FUNCTION,
        why,
        {
            "types": [{}],
            "module": {
                "functions": [{"type": 0, "locals": [{"ref": 0}, {"ref": "func", "null": False}, {"ref": "i31"}]}]
            },
        },
    )
    hand("a local of a type that is not there", code("", "01 01 63 ^01"), "index ^", "no type 1")
    hand("no type of a local", code("", "01 01 ^00"), "unsupported ^ 0", SPEC + "Value Types")
    hand("1,000,000 locals", code("", "01 c0 84 3d 7f"), ONE_FUNCTION, "a body has at most so many")
    hand("1,000,001 locals", code("", "01 c1 84 3d 7f"), "malformed", "a body has at most 1,000,000")
    hand("1,000,000 locals in two pairs", code("", "02 bf 84 3d 7f 01 7e"), ONE_FUNCTION, "a body has at most so many")
    hand(
        "1,000,001 locals in two pairs, the second without a type",
        code("", "02 c0 84 3d 7f 01 40"),
        "malformed",
        "tested when the count is read, before the type behind it",
    )
    hand(
        "2^32 - 1 locals twice",
        code("", "02 ff ff ff ff 0f 7f ff ff ff ff 0f 7f"),
        "malformed",
        "the sum does not wrap",
    )
    hand("2^32 - 1 locals", code("", "01 ff ff ff ff 0f 7f"), "malformed", "a body has at most 1,000,000")
    hand(
        "1,000,000 locals beside a parameter",
        section(1, "01 60 01 7f 00") + ONE + section(10, "01 " + body("", "01 c0 84 3d 7f")),
        ONE_FUNCTION,
        "parameters do not count",
    )
    hand("a body whose size passes its section", NO_TYPE + ONE + section(10, "01 05 00 0b"), "malformed", why)
    hand(
        "the same with a fault in it",
        NO_TYPE + ONE + section(10, "01 05 00 06 0b"),
        "malformed",
        why + ": exactly so many bytes",
    )
    hand(
        "a second body whose size passes its section",
        NO_TYPE + section(3, "02 00 00") + section(10, "02 02 00 0b 03 00 0b"),
        "malformed",
        why,
    )
    hand(
        "a body less than there are functions",
        NO_TYPE + section(3, "02 00 00") + section(10, "01 " + body("")),
        "malformed",
        SPEC + "Modules",
    )
    hand(
        "a body more than there are functions",
        NO_TYPE + ONE + section(10, "02 " + body("") * 2),
        "malformed",
        SPEC + "Modules",
    )
    hand(
        "a body more, with a fault in the first",
        NO_TYPE + ONE + section(10, "02 " + body("06") * 2),
        "malformed",
        "compared at the second count",
    )
    hand("functions without a code section", NO_TYPE + ONE, "malformed", SPEC + "Modules")
    hand(
        "functions without a code section, and a fault behind",
        NO_TYPE + ONE + section(11, "01 ^05"),
        "unsupported ^ 5",
        "where the second section is missing, at the end",
    )
    hand("bodies without a function section", NO_TYPE + section(10, "01 " + body("")), "malformed", SPEC + "Modules")
    hand(
        "memory.init without a data count",
        code("fc 08 00 00", after=section(11, "01 01 00")),
        "malformed",
        SPEC + "Modules",
    )
    hand(
        "data.drop without a data count", code("fc 09 00", after=section(11, "01 01 00")), "malformed", SPEC + "Modules"
    )
    hand(
        "data.drop without a data count, behind a fault", code("^06 fc 09 00"), "unsupported ^ 6", "from left to right"
    )
    hand("data.drop with a data count of 0", code("fc 09 00", count=section(12, "00")), ONE_FUNCTION, SPEC + "Data Count Section")
    hand(
        "memory.init: the segment comes first",
        code("fc 08 05 07", count=section(12, "00")),
        ONE_FUNCTION,
        SPEC + "Memory Instructions",
        {"types": [{}], "module": {"functions": [{"type": 0, "code": [["memory.init", 7, 5]]}]}},
    )
    hand(
        "table.init: the segment comes first",
        code("fc 0c 05 07"),
        ONE_FUNCTION,
        SPEC + "Table Instructions",
        {"types": [{}], "module": {"functions": [{"type": 0, "code": [["table.init", 7, 5]]}]}},
    )
    hand(
        "table.copy: the table that is written comes first",
        code("fc 0e 05 07"),
        ONE_FUNCTION,
        SPEC + "Table Instructions",
        {"types": [{}], "module": {"functions": [{"type": 0, "code": [["table.copy", 5, 7]]}]}},
    )
    hand(
        "call_indirect: the type comes first",
        code("11 00 07"),
        ONE_FUNCTION,
        SPEC + "Control Instructions",
        {"types": [{}], "module": {"functions": [{"type": 0, "code": [["call_indirect", 0, 7]]}]}},
    )
    hand(
        "a table of labels that passes its body",
        code("0e 05 00 00"),
        "malformed",
        SPEC + "Control Instructions: the labels take the end for one, and then bytes are wanting",
    )
    hand(
        "a null of a type in code",
        code("d0 00"),
        ONE_FUNCTION,
        SPEC + "Reference Instructions",
        {"types": [{}], "module": {"functions": [{"type": 0, "code": [["ref.null", "func"]]}]}},
    )
    hand("a null of a type that is not there in code", code("d0 ^01"), "index ^", "no type 1")
    hand("a null of no heap type in code", code("d0 ^7e"), "unsupported ^ 126", "the row of heap types has it not")


def rows_of_alignments():
    why = SPEC + "Memory Instructions, and their validation for the width"
    names = [
        "i32.load 28 2",
        "i64.load 29 3",
        "i32.load8_s 2c 0",
        "i32.load8_u 2d 0",
        "i32.load16_s 2e 1",
        "i32.load16_u 2f 1",
        "i64.load8_s 30 0",
        "i64.load8_u 31 0",
        "i64.load16_s 32 1",
        "i64.load16_u 33 1",
        "i64.load32_s 34 2",
        "i64.load32_u 35 2",
        "i32.store 36 2",
        "i64.store 37 3",
        "i32.store8 3a 0",
        "i32.store16 3b 1",
        "i64.store8 3c 0",
        "i64.store16 3d 1",
        "i64.store32 3e 2",
    ]
    for row in names:
        name, opcode, width = row.split()
        hand(
            "%s at its greatest alignment" % name,
            code("%s %02x 09" % (opcode, int(width))),
            ONE_FUNCTION,
            why,
            {"types": [{}], "module": {"functions": [{"type": 0, "code": [[name, 0, 9]]}]}},
        )
        hand("%s above it" % name, code("%s ^%02x 09" % (opcode, int(width) + 1)), "alignment ^", why)
        hand(
            "%s of memory 3 at its greatest alignment" % name,
            code("%s %02x 03 09" % (opcode, int(width) + 64)),
            ONE_FUNCTION,
            why,
            {"types": [{}], "module": {"functions": [{"type": 0, "code": [[name, 3, 9]]}]}},
        )
        hand("%s of memory 3 above it" % name, code("%s ^%02x 03 09" % (opcode, int(width) + 65)), "alignment ^", why)
    for digits in ("3f", "7f", "80 01", "c2 01", "ff ff ff ff 0f", "83 00"):
        hand("i32.load with the exponent " + digits, code("28 ^" + digits + " 09"), "alignment ^", why)
    hand("an exponent that is no number", code("28 80 80 80 80 10 09"), "malformed", SPEC + "Integers")
    hand(
        "an alignment before an offset that is no number",
        code("28 ^03 80 80 80 80 10"),
        "alignment ^",
        "tested when it is read",
    )
    hand(
        "an alignment before a memory that is no number",
        code("28 ^43 80 80 80 80 10 00"),
        "alignment ^",
        "tested when it is read",
    )
    hand(
        "a memory index that is padded",
        code("28 42 80 80 80 80 00 09"),
        ONE_FUNCTION,
        SPEC + "Integers",
        {"types": [{}], "module": {"functions": [{"type": 0, "code": [["i32.load", 0, 9]]}]}},
    )
    hand(
        "memory.size of a padded index",
        code("3f 80 00"),
        ONE_FUNCTION,
        SPEC + "Memory Instructions",
        {"types": [{}], "module": {"functions": [{"type": 0, "code": [["memory.size", 0]]}]}},
    )


def rows():
    for group in (rows_of_blocks, rows_of_bodies, rows_of_alignments):
        group()
