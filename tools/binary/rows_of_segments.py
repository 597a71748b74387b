"""Rows of constants, and of segments of references and of bytes."""

from vector_table import EMPTY, NO_TYPE, ONE, ONE_TYPE, SPEC, body, hand, section, wat


def rows_of_constants():
    def constant(shows, value, digits, found, line=EMPTY, why=SPEC + "Expressions"):
        hand(
            shows,
            section(6, "01 " + value + " 00 " + digits),
            line,
            why,
            found and {"types": [], "module": {"globals": [{"val": found[0], "init": found[1]}]}},
        )

    constant("i32", "7f", "41 7f 0b", ("i32", ["i32.const", -1]))
    constant("i64", "7e", "42 80 7f 0b", ("i64", ["i64.const", -128]))
    constant("f32 1.0", "7d", "43 00 00 80 3f 0b", ("f32", ["f32.bits", 0x3F800000]), why=SPEC + "Floating-Point: little-endian")
    constant(
        "f64 1.0", "7c", "44 00 00 00 00 00 00 f0 3f 0b", ("f64", ["f64.bits", 0x3FF0000000000000]), why=SPEC + "Floating-Point"
    )
    constant(
        "v128",
        "7b",
        "fd 0c 00 01 02 03 04 05 06 07 08 09 0a 0b 0c 0d 0e 0f 0b",
        ("v128", ["v128.hex", "0f0e0d0c0b0a09080706050403020100"]),
        why=SPEC + "Vector Instructions: little-endian",
    )
    constant("a global", "7f", "23 85 00 0b", ("i32", ["global.get", 5]))
    constant("a function", "70", "d2 03 0b", ("funcref", ["ref.func", 3]))
    tops = {
        "70": "func",
        "73": "func",
        "6f": "extern",
        "72": "extern",
        "6e": "any",
        "6d": "any",
        "6c": "any",
        "71": "any",
    }
    for digits, top in tops.items():
        constant("a null of " + digits, "70", "d0 " + digits + " 0b", ("funcref", ["ref.null", top]))
    hand(
        "a null of a type",
        NO_TYPE + section(6, "01 63 00 00 d0 00 0b"),
        ONE_TYPE,
        SPEC + "Reference Instructions",
        {"types": [{}], "module": {"globals": [{"val": {"ref": 0}, "init": ["ref.null", "func"]}]}},
    )
    constant("a null of a type that is not there", "70", "d0 ^00 0b", None, "index ^", "no type 0")
    constant("a null of no heap type", "70", "d0 ^7f 0b", None, "unsupported ^ 127", "the row of heap types has it not")
    constant("a null of a negative number", "70", "d0 f0 7f 0b", None, "malformed", SPEC + "Integers, s33")
    constant("an empty constant", "7f", "^0b", None, "unsupported ^ 11", "eight codes are offered, and 0b is none")
    for digits in ("45", "6a", "20", "24", "10", "fb", "1a", "40"):
        constant(
            "no constant: " + digits,
            "7f",
            "^" + digits + " 00 0b",
            None,
            "unsupported ^ %d" % int(digits, 16),
            "eight codes are offered",
        )
    constant("two instructions", "7f", "41 01 41 02 0b", None, "malformed", "one instruction and its end")
    constant("a sum", "7f", "41 01 41 02 6a 0b", None, "malformed", "one instruction and its end")
    constant("another vector instruction", "7b", "fd 0d 00 0b", None, "malformed", "behind fd there is one possibility")
    constant(
        "the number of a vector constant, padded",
        "7b",
        "fd 8c 00 " + "00 " * 16 + "0b",
        None,
        "malformed",
        "behind fd there is one possibility",
    )
    constant("no end", "7f", "41 01", None, "malformed", SPEC + "Expressions")
    constant("four bytes that are cut", "7d", "43 00 00 80", None, "malformed", SPEC + "Floating-Point")
    constant("eight bytes that are cut", "7c", "44 00 00 00 00 00 00 f0", None, "malformed", SPEC + "Floating-Point")
    constant("sixteen bytes that are cut", "7b", "fd 0c " + "00 " * 15, None, "malformed", SPEC + "Vector Instructions")


def rows_of_segments():
    non_null = {"ref": "func", "null": False}
    one = "module types 1 imports 0 functions 1 exports 0"
    rest = " (func) (table 1 funcref) (table 2 externref))"
    declared = {"functions": [{"type": 0}], "tables": [{"ref": "funcref", "min": 1}, {"ref": "externref", "min": 2}]}

    def by_wat(shows, text, segment):
        wat(shows, "(module " + text + rest, {"types": [{}], "module": {**declared, "elements": [segment]}})

    by_wat(
        "element kind 0",
        "(elem (i32.const 0) func 0)",
        {"table": 0, "offset": ["i32.const", 0], "ref": non_null, "items": [["ref.func", 0]]},
    )
    by_wat("element kind 1", "(elem func 0 0)", {"ref": non_null, "items": [["ref.func", 0], ["ref.func", 0]]})
    by_wat("element kind 3", "(elem declare func 0)", {"declared": True, "ref": non_null, "items": [["ref.func", 0]]})
    by_wat(
        "element kind 4",
        "(elem (i32.const 1) funcref (ref.null func) (ref.func 0))",
        {"table": 0, "offset": ["i32.const", 1], "ref": "funcref", "items": [["ref.null", "func"], ["ref.func", 0]]},
    )
    by_wat(
        "element kind 5", "(elem externref (ref.null extern))", {"ref": "externref", "items": [["ref.null", "extern"]]}
    )
    by_wat(
        "element kind 6",
        "(elem (table 1) (i32.const 0) externref (ref.null extern))",
        {"table": 1, "offset": ["i32.const", 0], "ref": "externref", "items": [["ref.null", "extern"]]},
    )
    by_wat(
        "element kind 7",
        "(elem declare externref (ref.null extern))",
        {"declared": True, "ref": "externref", "items": [["ref.null", "extern"]]},
    )
    why = SPEC + "Element Section"

    def element(shows, digits, line=EMPTY, segment=None, before="", reason=why):
        hand(
            shows,
            before + section(9, "01 " + digits),
            line,
            reason,
            segment and {"types": [], "module": {"elements": [segment]}},
        )

    element(
        "element kind 2",
        "02 03 41 07 0b 00 02 04 05",
        segment={"table": 3, "offset": ["i32.const", 7], "ref": non_null, "items": [["ref.func", 4], ["ref.func", 5]]},
    )
    element(
        "element kind 6 with non-null references",
        "06 03 23 00 0b 64 6e 01 d0 6e 0b",
        segment={
            "table": 3,
            "offset": ["global.get", 0],
            "ref": {"ref": "any", "null": False},
            "items": [["ref.null", "any"]],
        },
    )
    element("element kind 7 without items", "07 6f 00", segment={"declared": True, "ref": "externref", "items": []})
    element(
        "element kind 0 without items",
        "00 41 00 0b 00",
        segment={"table": 0, "offset": ["i32.const", 0], "ref": non_null, "items": []},
    )
    element(
        "element kind 5, padded",
        "85 80 80 80 00 70 00",
        segment={"ref": "funcref", "items": []},
        reason=SPEC + "Integers and Element Section",
    )
    element("no element kind: 8", "^08 41 00 0b 00", "unsupported ^ 8")
    element("no element kind: 2^32 - 1", "^ff ff ff ff 0f 00", "unsupported ^ 4294967295")
    element("no element kind: a padded 8", "^88 00 41 00 0b 00", "unsupported ^ 8")
    element("an element kind that is no number", "80 80 80 80 10 00", "malformed", reason=SPEC + "Integers")
    for digits in ("01 01 00", "02 00 41 00 0b 01 00", "03 70 00"):
        element("another byte than 00 in " + digits, digits, "malformed", reason="there is one possibility")
    element("no reference type of kind 5", "05 ^7f 00", "unsupported ^ 127", reason=SPEC + "Reference Types")
    element("no reference type of kind 6", "06 00 41 00 0b ^40 00", "unsupported ^ 64", reason=SPEC + "Reference Types")
    element("a reference type of kind 7 to no type", "07 63 ^00 00", "index ^", reason="no type 0")
    element("no offset of kind 0", "00 ^0b 00", "unsupported ^ 11", reason=SPEC + "Expressions")
    element("no item of kind 4", "04 41 00 0b 01 ^0b", "unsupported ^ 11", reason=SPEC + "Expressions")
    element("a type index in an item", "05 70 01 d0 ^00 0b", "index ^", reason="no type 0")
    element("an item less than its count", "01 00 02 00", "malformed")
    data_one = {"memories": [{"min": 1}]}
    wat(
        "data kind 0",
        '(module (memory 1) (data (i32.const 3) "a\\00\\ff"))',
        {"types": [], "module": {**data_one, "datas": [{"memory": 0, "offset": ["i32.const", 3], "bytes": "6100ff"}]}},
    )
    wat(
        "data kind 1",
        '(module (memory 1) (data "abc") (data ""))',
        {"types": [], "module": {**data_one, "datas": [{"bytes": "616263"}, {"bytes": ""}]}},
    )
    wat(
        "data kind 2",
        '(module (memory 1) (memory 1) (data (memory 1) (i32.const 3) "b"))',
        {
            "types": [],
            "module": {
                "memories": [{"min": 1}, {"min": 1}],
                "datas": [{"memory": 1, "offset": ["i32.const", 3], "bytes": "62"}],
            },
        },
    )
    why = SPEC + "Data Section"

    def data(shows, digits, line=EMPTY, segment=None, reason=why):
        hand(
            shows, section(11, "01 " + digits), line, reason, segment and {"types": [], "module": {"datas": [segment]}}
        )

    data(
        "data kind 2 at memory 0",
        "02 00 23 01 0b 01 ff",
        segment={"memory": 0, "offset": ["global.get", 1], "bytes": "ff"},
    )
    data("no data kind: 3", "^03 00", "unsupported ^ 3")
    data("no data kind: 128", "^80 01 00", "unsupported ^ 128")
    data("bytes that pass the section", "01 05 00 00", "malformed")
    data("no offset", "00 ^0b 00", "unsupported ^ 11", reason=SPEC + "Expressions")
    count = SPEC + "Data Count Section"
    hand("a data count that is right", section(12, "01") + section(11, "01 01 00"), EMPTY, count)
    hand("a data count that is too small", section(12, "00") + section(11, "01 01 00"), "malformed", count)
    hand("a data count that is too great", section(12, "02") + section(11, "01 01 00"), "malformed", count)
    hand("a data count without data", section(12, "01"), "malformed", count + ": at the end")
    hand(
        "a data count that is wrong, before a fault in a segment",
        section(12, "02") + section(11, "01 07 00"),
        "malformed",
        "compared at the second count",
    )
    hand(
        "a data count of no data, and a fault in the code behind it",
        NO_TYPE + ONE + section(12, "01") + section(10, "01 " + body("^06")),
        "unsupported ^ 6",
        "where the second section is missing, at the end",
    )
    hand(
        "more data than its count says, of which the first has a fault",
        section(12, "01") + section(11, "02 07 00"),
        "malformed",
        "compared at the second count",
    )


def rows():
    for group in (rows_of_constants, rows_of_segments):
        group()
