"""Rows of types, and of what a module declares and imports and exports."""

from vector_table import EMPTY, NO_TYPE, ONE_TYPE, SPEC, hand, section, wat


def rows_of_types():
    why = SPEC + "Types"
    short = {
        "70": "funcref",
        "73": {"ref": "nofunc"},
        "6f": "externref",
        "72": {"ref": "noextern"},
        "6e": "anyref",
        "6d": {"ref": "eq"},
        "6c": {"ref": "i31"},
        "71": {"ref": "none"},
    }
    numbers = {"7f": "i32", "7e": "i64", "7d": "f32", "7c": "f64", "7b": "v128"}
    for digits, value in {**numbers, **short}.items():
        hand(
            "the value type " + digits,
            section(1, "01 60 01 " + digits + " 00"),
            ONE_TYPE,
            SPEC + "Value Types",
            {"types": [{"params": [value]}], "module": {}},
        )
    for digits, value in short.items():
        heap = {"funcref": "func", "externref": "extern", "anyref": "any"}.get(
            value if isinstance(value, str) else "", None
        )
        heap = heap or value["ref"]
        hand(
            "the reference type 63 " + digits,
            section(1, "01 60 00 01 63 " + digits),
            ONE_TYPE,
            SPEC + "Reference Types",
            {"types": [{"results": [{"ref": heap}]}], "module": {}},
        )
        hand(
            "the reference type 64 " + digits,
            section(1, "01 60 00 01 64 " + digits),
            ONE_TYPE,
            SPEC + "Reference Types",
            {"types": [{"results": [{"ref": heap, "null": False}]}], "module": {}},
        )
    two = "module types 2 imports 0 functions 0 exports 0"
    hand(
        "references to an earlier type",
        section(1, "02 60 00 00 60 01 63 00 01 64 00"),
        two,
        SPEC + "Reference Types",
        {"types": [{}, {"params": [{"ref": 0}], "results": [{"ref": 0, "null": False}]}], "module": {}},
    )
    hand(
        "a reference to an earlier type by a padded index",
        section(1, "02 60 00 00 60 01 63 80 00 00"),
        two,
        SPEC + "Integers, s33",
        {"types": [{}, {"params": [{"ref": 0}]}], "module": {}},
    )
    hand("a reference to the type itself", section(1, "01 60 01 63 ^00 00"), "index ^", "types name earlier ones")
    hand("a reference to a later type", section(1, "02 60 01 64 ^01 00 60 00 00"), "index ^", "types name earlier ones")
    for digits in ("00", "40", "65", "6a", "6b", "74", "77", "7a", "80", "ff", "60", "69"):
        hand(
            "no value type: " + digits,
            section(1, "01 60 01 ^" + digits + " 00"),
            "unsupported ^ %d" % int(digits, 16),
            "the row of value types has it not",
        )
    for digits in ("40", "60", "63", "64", "65", "7f", "7b", "74", "69", "6a", "6b"):
        hand(
            "no heap type: " + digits,
            section(1, "01 60 01 63 ^" + digits + " 00"),
            "unsupported ^ %d" % int(digits, 16),
            "a byte from 40 to 7f that the row of heap types has not",
        )
    for digits in ("f0 7f", "ff ff ff ff 7f", "80 80 80 80 80 00", "80 80 80 80 10"):
        hand(
            "a heap type that is no index: " + digits,
            section(1, "01 60 01 63 " + digits + " 00"),
            "malformed",
            SPEC + "Integers, s33",
        )
    hand(
        "a non-final type",
        section(1, "01 50 00 60 00 00"),
        ONE_TYPE,
        SPEC + "Sub Types",
        {"types": [{"final": False}], "module": {}},
    )
    hand(
        "a final type in the long form",
        section(1, "01 4f 00 60 00 00"),
        ONE_TYPE,
        SPEC + "Sub Types",
        {"types": [{}], "module": {}},
    )
    hand(
        "a final subtype",
        section(1, "02 50 00 60 00 00 4f 01 00 60 00 00"),
        two,
        SPEC + "Sub Types",
        {"types": [{"final": False}, {"super": 0}], "module": {}},
    )
    hand(
        "a non-final subtype",
        section(1, "02 50 00 60 00 00 50 01 00 60 00 00"),
        two,
        SPEC + "Sub Types",
        {"types": [{"final": False}, {"final": False, "super": 0}], "module": {}},
    )
    hand("two supertypes", section(1, "02 50 00 60 00 00 50 02 00 00 60 00 00"), "malformed", "at most one supertype")
    hand(
        "a supertype that is the type itself", section(1, "01 50 01 ^00 60 00 00"), "index ^", "types name earlier ones"
    )
    hand(
        "a final supertype",
        section(1, "02 60 00 00 ^50 01 00 60 00 00"),
        "refused ^",
        SPEC + "validation of sub types: it is final",
    )
    hand(
        "a supertype with other parameters",
        section(1, "02 50 00 60 00 00 ^50 01 00 60 01 7f 00"),
        "refused ^",
        SPEC + "validation of sub types",
    )
    hand(
        "a supertype with other results",
        section(1, "02 50 00 60 00 01 7e ^50 01 00 60 00 01 7f"),
        "refused ^",
        SPEC + "validation of sub types",
    )
    hand(
        "a subtype with a wider parameter and a narrower result",
        section(1, "02 50 00 60 01 64 70 01 70 50 01 00 60 01 70 01 64 70"),
        two,
        SPEC + "validation of sub types",
        {
            "types": [
                {"final": False, "params": [{"ref": "func", "null": False}], "results": ["funcref"]},
                {"final": False, "super": 0, "params": ["funcref"], "results": [{"ref": "func", "null": False}]},
            ],
            "module": {},
        },
    )
    hand(
        "a subtype with a narrower parameter",
        section(1, "02 50 00 60 01 70 00 ^50 01 00 60 01 64 70 00"),
        "refused ^",
        SPEC + "validation of sub types",
    )
    hand("no form of a type: 61", section(1, "01 ^61 00 00"), "unsupported ^ 97", "the row of types has it not")
    hand("a group of types", section(1, "01 ^4e 01 60 00 00"), "unsupported ^ 78", "the row of types has it not")
    hand("a structure", section(1, "01 ^5f 00"), "unsupported ^ 95", "the row of types has it not")
    at_count = "at most one supertype: tested when the count is read"
    hand("two supertypes, of which none is there", section(1, "01 50 02 60 00 00"), "malformed", at_count)
    hand("two supertypes, of which the first is no type", section(1, "01 50 02 09 09 60 00 00"), "malformed", at_count)
    hand("another byte behind supertypes", section(1, "01 50 00 5f 00"), "malformed", "there is one possibility")
    hand(
        "a fault within a type before its own",
        section(1, "02 60 00 00 50 01 00 60 01 ^65 00"),
        "unsupported ^ 101",
        "a type is refused when all of it was read",
    )
    hand("a type that ends before its results", section(1, "01 60 00"), "malformed", SPEC + "Result Types")
    deep = "60 00 00 " + "".join("60 01 63 %02x 00 " % n for n in range(31))
    hand(
        "types 32 deep",
        section(1, "20 " + deep),
        "module types 32 imports 0 functions 0 exports 0",
        "the depth is 1 more than that of what is in it, and at most 32",
    )
    hand("types 33 deep", section(1, "21 " + deep + "^60 01 63 1f 00"), "refused ^", "33 is more than 32")
    doubled = "60 00 00 " + "".join("60 02 63 %02x 63 %02x 00 " % (n, n) for n in range(14))
    # The size s of each is 1 + 2 + 2 s of the one before: 1, 5, 13 .. 4 * 2^k - 3, which is 65,533 at k = 14.
    hand(
        "a type of the size 65,533",
        section(1, "0f " + doubled),
        "module types 15 imports 0 functions 0 exports 0",
        "sizes are 1, the rows, and the sizes of what is in them",
    )
    hand(
        "a type of the size 65,536",
        section(1, "10 " + doubled + "60 02 63 0e 7f 00"),
        "module types 16 imports 0 functions 0 exports 0",
        "1 + 2 + 65,533",
    )
    hand(
        "a type of the size 65,537",
        section(1, "10 " + doubled + "^60 03 63 0e 7f 7f 00"),
        "refused ^",
        "1 + 3 + 65,533",
    )
    size = "the supertype's size counts"
    extended = doubled[: doubled.rindex("60")] + "50 00 60 02 63 0d 63 0d 00 "
    sixteen = "module types 16 imports 0 functions 0 exports 0"
    hand("a subtype of the size 65,536", section(1, "10 " + extended + "4f 01 0e 60 02 70 70 00"), sixteen, size)
    extended = doubled + "50 00 60 02 63 0e 7f 00 "
    hand(
        "a subtype of a type of the size 65,536",
        section(1, "11 " + extended + "^4f 01 0f 60 02 70 7f 00"),
        "refused ^",
        size,
    )
    extended = deep[: deep.rindex("60")] + "50 00 60 01 63 1e 00 "
    hand(
        "a subtype of a type that is 32 deep",
        section(1, "21 " + extended + "^4f 01 1f 60 01 70 00"),
        "refused ^",
        "the supertype's depth counts",
    )


def rows_of_declarations():
    two = "module types 2 imports 0 functions 0 exports 0"
    wat(
        "imports of each kind",
        '(module (type (func (param i32))) (import "a" "f" (func (type 0))) (import "a" "t" (table 1 2 funcref))'
        ' (import "a" "m" (memory 3)) (import "a" "g" (global (mut i64))) (import "a" "h" (global f32)) (import "a" "e" (tag (type 0))))',
        {
            "types": [{"params": ["i32"]}],
            "module": {
                "imports": [
                    {"module": "a", "name": "f", "func": 0},
                    {"module": "a", "name": "t", "table": {"ref": "funcref", "min": 1, "max": 2}},
                    {"module": "a", "name": "m", "memory": {"min": 3}},
                    {"module": "a", "name": "g", "global": {"val": "i64", "mut": True}},
                    {"module": "a", "name": "h", "global": {"val": "f32"}},
                    {"module": "a", "name": "e", "tag": 0},
                ]
            },
        },
    )
    wat(
        "functions, tables, memories, globals, tags and exports of each kind",
        "(module (type (func)) (func (type 0)) (table 0 funcref) (table 1 2 externref) (memory 0 1) (global i32 (i32.const -5))"
        ' (global (mut f64) (f64.const 0)) (tag (type 0)) (export "f" (func 0)) (export "t" (table 1)) (export "m" (memory 0))'
        ' (export "g" (global 1)) (export "e" (tag 0)))',
        {
            "types": [{}],
            "module": {
                "functions": [{"type": 0}],
                "tables": [{"ref": "funcref", "min": 0}, {"ref": "externref", "min": 1, "max": 2}],
                "memories": [{"min": 0, "max": 1}],
                "globals": [
                    {"val": "i32", "init": ["i32.const", -5]},
                    {"val": "f64", "mut": True, "init": ["f64.bits", 0]},
                ],
                "tags": [0],
                "exports": [
                    {"name": "f", "func": 0},
                    {"name": "t", "table": 1},
                    {"name": "m", "memory": 0},
                    {"name": "g", "global": 1},
                    {"name": "e", "tag": 0},
                ],
            },
        },
    )
    wat(
        "a start function",
        "(module (func) (start 0))",
        {"types": [{}], "module": {"functions": [{"type": 0}], "start": 0}},
    )
    wat(
        "two memories",
        "(module (memory 1) (memory 2 3))",
        {"types": [], "module": {"memories": [{"min": 1}, {"min": 2, "max": 3}]}},
    )
    one_import = "module types 0 imports 1 functions 0 exports 0"
    names = "01 01 61 01 62 "
    hand("no kind of an import: 05", section(2, names + "^05 00"), "unsupported ^ 5", "kinds end with 04")
    hand("no kind of an export: 05", section(7, "01 01 61 ^05 00"), "unsupported ^ 5", "kinds end with 04")
    hand(
        "an export of what is not there",
        section(7, "01 01 61 02 09"),
        "module types 0 imports 0 functions 0 exports 1",
        "only indices of types are tested",
        {"types": [], "module": {"exports": [{"name": "a", "memory": 9}]}},
    )
    hand(
        "two exports of one name",
        section(7, "02 01 61 02 00 01 61 02 00"),
        "module types 0 imports 0 functions 0 exports 2",
        "names are validated later",
    )
    hand("an import of a function whose type is not there", section(2, names + "00 ^00"), "index ^", "no type 0")
    hand(
        "an import of a tag whose type is not there", NO_TYPE + section(2, names + "04 00 ^01"), "index ^", "no type 1"
    )
    hand(
        "a tag's byte that is not 0, of an import",
        NO_TYPE + section(2, names + "04 01 00"),
        "malformed",
        SPEC + "Tag Types",
    )
    hand(
        "an import of a global that may be set",
        section(2, names + "03 6f 01"),
        one_import,
        SPEC + "Global Types",
        {
            "types": [],
            "module": {"imports": [{"module": "a", "name": "b", "global": {"val": "externref", "mut": True}}]},
        },
    )
    hand("no mutability: 02", section(2, names + "03 7f ^02"), "unsupported ^ 2", SPEC + "Global Types")
    hand("no value type of a global", section(2, names + "03 ^40 00"), "unsupported ^ 64", SPEC + "Value Types")
    hand(
        "a reference to a type that is not there, of a global",
        section(2, names + "03 63 ^00 00"),
        "index ^",
        "no type 0",
    )
    hand("no reference type of a table", section(2, names + "01 ^7f 00 00"), "unsupported ^ 127", SPEC + "Table Types")
    hand(
        "a table of an import with an init",
        section(2, names + "01 ^40 00 70 00 00 d0 70 0b"),
        "unsupported ^ 64",
        "an import has a table type alone",
    )
    hand(
        "a table of non-null references",
        NO_TYPE + section(2, names + "01 64 00 00 05"),
        "module types 1 imports 1 functions 0 exports 0",
        SPEC + "Table Types",
        {
            "types": [{}],
            "module": {
                "imports": [{"module": "a", "name": "b", "table": {"ref": {"ref": 0, "null": False}, "min": 5}}]
            },
        },
    )
    for flag in ("02", "03", "04", "05", "08", "80"):
        hand(
            "no limits of a memory: " + flag,
            section(5, "01 ^" + flag + " 00 00"),
            "unsupported ^ %d" % int(flag, 16),
            SPEC + "Limits, narrowed",
        )
        hand(
            "no limits of a table: " + flag,
            section(4, "01 70 ^" + flag + " 00 00"),
            "unsupported ^ %d" % int(flag, 16),
            SPEC + "Limits, narrowed",
        )
    hand(
        "the largest memory",
        section(5, "01 01 80 80 04 80 80 04"),
        EMPTY,
        "65,536 pages",
        {"types": [], "module": {"memories": [{"min": 65536, "max": 65536}]}},
    )
    hand("a memory of 65,537 pages", section(5, "01 ^00 81 80 04"), "refused ^", SPEC + "validation of Limits")
    hand(
        "a memory of at most 65,537 pages", section(5, "01 ^01 00 81 80 04"), "refused ^", SPEC + "validation of Limits"
    )
    hand(
        "a memory whose minimum passes its maximum",
        section(5, "01 ^01 02 01"),
        "refused ^",
        SPEC + "validation of Limits",
    )
    hand(
        "a second memory with wrong limits",
        section(5, "02 00 01 ^01 02 01"),
        "refused ^",
        SPEC + "validation of Limits",
    )
    hand(
        "an import of a memory with wrong limits",
        section(2, names + "02 ^01 02 01"),
        "refused ^",
        "the type begins behind the kind",
    )
    hand(
        "a table whose minimum passes its maximum",
        section(4, "01 ^70 01 02 01"),
        "refused ^",
        SPEC + "validation of Limits",
    )
    hand(
        "a table of references to a type whose limits are wrong",
        NO_TYPE + section(4, "01 ^63 00 01 02 01"),
        "refused ^",
        SPEC + "validation of Limits",
    )
    hand(
        "an import of a table with wrong limits",
        section(2, names + "01 ^70 01 02 01"),
        "refused ^",
        "the type begins behind the kind",
    )
    hand(
        "a table with an init whose limits are wrong",
        section(4, "01 40 00 ^70 01 02 01 d0 70 0b"),
        "refused ^",
        "the type begins behind 40 00, and is refused before its constant",
    )
    hand(
        "the same with a fault in the constant",
        section(4, "01 40 00 ^70 01 02 01 fc"),
        "refused ^",
        "refused before its constant",
    )
    hand(
        "a table of 2^32 - 1 elements",
        section(4, "01 6f 00 ff ff ff ff 0f"),
        EMPTY,
        SPEC + "validation of Limits",
        {"types": [], "module": {"tables": [{"ref": "externref", "min": 4294967295}]}},
    )
    hand(
        "a table with an init",
        section(4, "01 40 00 70 00 02 d0 73 0b"),
        EMPTY,
        SPEC + "Table Section",
        {"types": [], "module": {"tables": [{"ref": "funcref", "min": 2, "init": ["ref.null", "func"]}]}},
    )
    hand(
        "a table with an init by a global",
        section(4, "01 40 00 64 6f 01 01 02 23 05 0b"),
        EMPTY,
        SPEC + "Table Section",
        {
            "types": [],
            "module": {
                "tables": [{"ref": {"ref": "extern", "null": False}, "min": 1, "max": 2, "init": ["global.get", 5]}]
            },
        },
    )
    hand("another byte behind 40", section(4, "01 40 01 70 00 02 d0 70 0b"), "malformed", SPEC + "Table Section")
    hand("no table: 41", section(4, "01 ^41 00 70 00 02 d0 70 0b"), "unsupported ^ 65", SPEC + "Table Section")
    hand("a function whose type is not there", NO_TYPE + section(3, "02 00 ^01"), "index ^", "no type 1")
    hand("a function without a type section", section(3, "01 ^00"), "index ^", "no type 0")
    hand("a function of the type 2^32 - 1", NO_TYPE + section(3, "01 ^ff ff ff ff 0f"), "index ^", "no such type")
    hand("a tag whose type is not there", NO_TYPE + section(13, "01 00 ^05"), "index ^", "no type 5")
    hand("a tag's byte that is not 0", NO_TYPE + section(13, "01 01 00"), "malformed", SPEC + "Tag Section")
    hand(
        "a tag section",
        section(1, "02 60 00 00 60 01 7f 00") + section(13, "02 00 01 00 00"),
        two,
        SPEC + "Tag Section",
        {"types": [{}, {"params": ["i32"]}], "module": {"tags": [1, 0]}},
    )


def rows():
    for group in (rows_of_types, rows_of_declarations):
        group()
