"""Rows of the header, of sections, of numbers at their limits, and of names."""

from vector_table import EMPTY, NO_TYPE, ONE, ONE_FUNCTION, ONE_TYPE, SPEC, body, code, hand, length, section, unsigned


def rows_of_the_front():
    second = "01 05 01 60 00 01 7f  03 02 01 00  07 05 01 01 66 00 00  0a 06 01 04 00 "
    hand("the empty module", "", EMPTY, SPEC + "Modules")
    hand(
        "a function that gives 7",
        second + "41 07 0b",
        "module types 1 imports 0 functions 1 exports 1",
        SPEC + "Modules",
        {
            "types": [{"results": ["i32"]}],
            "module": {"functions": [{"type": 0, "code": [["i32.const", 7]]}], "exports": [{"name": "f", "func": 0}]},
        },
    )
    hand("a code that is none of the table", second + "^1c 07 0b", "unsupported ^ 28", "the table has no typed select")
    hand("a number behind fc that is none", second + "fc ^12 0b", "unsupported ^ 64530", "the table ends with 17")
    hand("one byte less", second + "41 07", "malformed", SPEC + "Sections: the size passes the end")
    hand("no bytes", "", "malformed", SPEC + "Modules", header="")
    hand("a header of seven bytes", "", "malformed", SPEC + "Modules", header="00 61 73 6d 01 00 00")
    hand("another magic", "", "malformed", SPEC + "Modules", header="00 61 73 6e 01 00 00 00")
    hand("another version", "", "malformed", SPEC + "Modules", header="00 61 73 6d 02 00 00 00")
    hand("the version of components", "", "malformed", SPEC + "Modules", header="00 61 73 6d 0a 00 01 00")


def rows_of_sections():
    why = SPEC + "Sections"
    for number in (1, 2, 3, 4, 5, 6, 7, 9, 10, 11, 13):
        hand("section %d with an empty list" % number, section(number, "00"), EMPTY, why)
        hand(
            "section %d without its list" % number,
            section(number, ""),
            "malformed",
            why + ": a list begins with a count",
        )
        hand("section %d with a byte behind its list" % number, section(number, "00 00"), "malformed", why)
    hand("a data count of 0 without data", section(12, "00"), EMPTY, why)
    hand("a section of number 14", "0e 01 00", "malformed", why + ": ids end with 13")
    hand("a section of number 255", "ff 01 00", "malformed", why)
    hand("a section without a size", "01", "malformed", why)
    hand("a size that is no number", "01 80 80 80 80 80 00 00", "malformed", SPEC + "Integers")
    hand("a size in five bytes", "01 81 80 80 80 00 00", EMPTY, SPEC + "Integers: padding")
    hand(
        "a size that passes the end, and a fault in what is there",
        "01 05 01 61",
        "malformed",
        why + ": exactly so many bytes",
    )
    order = [1, 2, 3, 4, 5, 13, 6, 7, 9, 12, 10, 11]
    hand("all lists empty, in their order", "".join(section(number, "00") for number in order), EMPTY, SPEC + "Modules")
    for one, other in zip(order, order[1:]):
        text = section(other, "00") + section(one, "00")
        hand("section %d behind section %d" % (one, other), text, "malformed", SPEC + "Modules: their order")
    for number in order:
        hand("section %d twice" % number, section(number, "00") * 2, "malformed", SPEC + "Modules: at most once")
    hand(
        "a start section",
        code("", count=section(8, "00")),
        ONE_FUNCTION,
        SPEC + "Start Section",
        {"types": [{}], "module": {"functions": [{"type": 0}], "start": 0}},
    )
    hand(
        "two start sections",
        NO_TYPE + ONE + section(8, "00") * 2 + section(10, "01 " + body("")),
        "malformed",
        SPEC + "Modules",
    )
    hand(
        "a start section before the exports",
        NO_TYPE + ONE + section(8, "00") + section(7, "00"),
        "malformed",
        SPEC + "Modules: their order",
    )
    hand(
        "a start section behind an element section",
        NO_TYPE + ONE + section(9, "00") + section(8, "00"),
        "malformed",
        SPEC + "Modules: their order",
    )
    hand(
        "the start of a function that is not there",
        section(8, "07"),
        EMPTY,
        "indices of functions are validated later",
        {"types": [], "module": {"start": 7}},
    )
    custom = section(0, "01 61 ff ff")
    why = SPEC + "Custom Section"
    hand(
        "custom sections at each place",
        custom + "".join(section(number, "00") + custom for number in order),
        EMPTY,
        why,
    )
    hand("a custom section of a name alone", section(0, "00"), EMPTY, why)
    hand("a custom section without a name", section(0, ""), "malformed", why)
    hand("a custom section whose name passes its end", section(0, "05 61 62"), "malformed", why)
    hand("a custom section whose name is no text", section(0, "01 ff"), "malformed", SPEC + "Names")
    hand(
        "a custom section that is called name, with no names in it",
        section(0, "04 6e 61 6d 65 ff ff ff"),
        EMPTY,
        why + ": its content is skipped",
    )
    hand(
        "a custom section between the code and the data",
        NO_TYPE + ONE + section(10, "01 " + body("")) + custom + section(11, "00"),
        ONE_FUNCTION,
        why,
    )


def rows_of_numbers():
    """Numbers in LEB128 at each limit."""
    u32, i32, i64, s33 = SPEC + "Integers, u32", SPEC + "Integers, s32", SPEC + "Integers, s64", SPEC + "Integers, s33"

    def at_local(digits, number, line=ONE_FUNCTION, why=u32):
        hand(
            "the index %s" % digits,
            code("20 " + digits + " 1a"),
            line,
            why,
            line != "malformed"
            and {"types": [{}], "module": {"functions": [{"type": 0, "code": [["local.get", number], ["drop"]]}]}},
        )

    at_local("00", 0)
    at_local("7f", 127)
    at_local("80 01", 128)
    at_local("80 00", 0)
    at_local("ff 7f", 16383)
    at_local("80 80 80 80 00", 0)
    at_local("83 80 80 80 00", 3)
    at_local("ff ff ff ff 0f", 2**32 - 1)
    at_local("80 80 80 80 08", 2**31)
    for digits in (
        "80 80 80 80 10",
        "ff ff ff ff 1f",
        "ff ff ff ff 7f",
        "80 80 80 80 40",
        "80 80 80 80 80 00",
        "ff ff ff ff ff 0f",
    ):
        at_local(digits, 0, "malformed")

    def constant(kind, digits, number, line=ONE_FUNCTION):
        name, why = ("i32.const", i32) if kind == "41" else ("i64.const", i64)
        hand(
            "%s %s" % (name, digits),
            code(kind + " " + digits + " 1a"),
            line,
            why,
            line != "malformed"
            and {"types": [{}], "module": {"functions": [{"type": 0, "code": [[name, number], ["drop"]]}]}},
        )

    for kind in ("41", "42"):
        constant(kind, "00", 0)
        constant(kind, "3f", 63)
        constant(kind, "40", -64)
        constant(kind, "7f", -1)
        constant(kind, "c0 00", 64)
        constant(kind, "bf 7f", -65)
        constant(kind, "ff 7f", -1)
        constant(kind, "80 00", 0)
    constant("41", "ff ff ff ff 07", 2**31 - 1)
    constant("41", "80 80 80 80 78", -(2**31))
    constant("41", "ff ff ff ff 7f", -1)
    constant("41", "80 80 80 80 00", 0)
    for digits in (
        "80 80 80 80 08",
        "ff ff ff ff 0f",
        "80 80 80 80 70",
        "ff ff ff ff 77",
        "80 80 80 80 10",
        "ff ff ff ff 3f",
        "80 80 80 80 80 00",
        "ff ff ff ff ff 7f",
    ):
        constant("41", digits, 0, "malformed")
    constant("42", "ff ff ff ff ff ff ff ff ff 00", 2**63 - 1)
    constant("42", "80 80 80 80 80 80 80 80 80 7f", -(2**63))
    constant("42", "ff ff ff ff ff ff ff ff ff 7f", -1)
    constant("42", "80 80 80 80 80 80 80 80 80 00", 0)
    for last in ("01", "7e", "40", "3f", "02"):
        constant("42", "80 80 80 80 80 80 80 80 80 " + last, 0, "malformed")
    constant("42", "80 80 80 80 80 80 80 80 80 80 00", 0, "malformed")
    constant("42", "ff ff ff ff ff ff ff ff ff ff 7f", 0, "malformed")

    def block(digits, line, declares=True):
        code_read = [["block", 0, []]]
        hand(
            "a block of the type index %s" % digits,
            code("02 " + digits + " 0b"),
            line,
            s33,
            declares and {"types": [{}], "module": {"functions": [{"type": 0, "code": code_read}]}},
        )

    block("00", ONE_FUNCTION)
    block("80 00", ONE_FUNCTION)
    block("80 80 80 80 00", ONE_FUNCTION)
    for digits in ("^ 80 01", "^ ff ff ff ff 0f", "^ 80 80 80 80 08", "^ 3f", "^ c0 00"):
        block(digits, "index ^", False)
    for digits in (
        "80 80 80 80 10",
        "80 80 80 80 20",
        "80 80 80 80 60",
        "80 80 80 80 80 00",
        "80 80 80 80 70",
        "ff ff ff ff 7f",
        "f0 7f",
        "ff 7f",
        "c0 7f",
        "80 7f",
    ):
        block(digits, "malformed", False)
    hand("a number that the end of its part cuts", section(1, "80"), "malformed", u32)
    hand("a number that the end of its body cuts", NO_TYPE + ONE + section(10, "01 03 00 20 80"), "malformed", u32)
    hand(
        "fc with a padded number",
        code("fc 89 80 80 80 00 00", count=section(12, "00")),
        ONE_FUNCTION,
        u32 + ": 9 is data.drop",
        {"types": [{}], "module": {"functions": [{"type": 0, "code": [["data.drop", 0]]}]}},
    )
    hand("fc with a number that is none", code("fc 80 80 80 80 10 00"), "malformed", u32)
    hand("a count of a list in five bytes", section(1, "81 80 80 80 00 60 00 00"), ONE_TYPE, u32)
    hand(
        "an alignment in two bytes",
        code("41 00 28 82 00 00 1a"),
        ONE_FUNCTION,
        u32,
        {
            "types": [{}],
            "module": {"functions": [{"type": 0, "code": [["i32.const", 0], ["i32.load", 0, 0], ["drop"]]}]},
        },
    )
    hand(
        "an offset of 2^32 - 1",
        code("41 00 28 02 ff ff ff ff 0f 1a"),
        ONE_FUNCTION,
        u32,
        {
            "types": [{}],
            "module": {"functions": [{"type": 0, "code": [["i32.const", 0], ["i32.load", 0, 4294967295], ["drop"]]}]},
        },
    )
    hand("an offset of 2^32", code("41 00 28 02 80 80 80 80 10 1a"), "malformed", u32)


def rows_of_names():
    why = SPEC + "Names"

    def export(shows, digits, line, name=None):
        content = section(7, "01 " + unsigned(length(digits)) + digits + " 00 00")
        hand(
            shows,
            content,
            line,
            why,
            name is not None and {"types": [], "module": {"exports": [{"name": name, "func": 0}]}},
        )

    one = "module types 0 imports 0 functions 0 exports 1"
    export("an empty name", "", one, "")
    export("a name of one to four bytes a character", "61 c3 a9 e2 82 ac f0 9f 98 80", one, "a\u00e9\u20ac\U0001f600")
    export("a name with a zero", "00", one, "\0")
    export(
        "the least and the greatest of each length",
        "7f c2 80 df bf e0 a0 80 ef bf bf f0 90 80 80 f4 8f bf bf",
        one,
        "\x7f\x80\u07ff\u0800\uffff\U00010000\U0010ffff",
    )
    for shows, digits in (
        ("a byte that goes on alone", "80"),
        ("a first byte that is cut", "c3"),
        ("two bytes where one does", "c0 80"),
        ("two bytes where one does, the greatest", "c1 bf"),
        ("three bytes where two do", "e0 9f bf"),
        ("a half of a pair", "ed a0 80"),
        ("the last half of a pair", "ed bf bf"),
        ("four bytes where three do", "f0 8f bf bf"),
        ("past the last character", "f4 90 80 80"),
        ("five bytes", "f8 88 80 80 80"),
        ("three bytes that are cut", "e2 82"),
        ("four bytes that are cut", "f0 9f 98"),
        ("a letter in place of a byte that goes on", "c3 61"),
        ("fe", "fe"),
        ("ff", "ff"),
    ):
        export("no name: " + shows, digits, "malformed")
    hand("a name that passes its section", section(7, "01 05 61"), "malformed", SPEC + "Names and Sections")


def rows():
    for group in (rows_of_the_front, rows_of_sections, rows_of_numbers, rows_of_names):
        group()
