"""Rows of each fault at each kind of place, and of the order of faults."""

from vector_table import NO_TYPE, ONE, SPEC, body, code, hand, section


def rows_of_places():
    """Each fault that a type or a constant may have, at each kind of place where one may stand."""
    names = "01 01 61 01 62 "
    value = {  # what stands before a value type, and behind it
        "a parameter": (1, "01 60 01 ", " 00"),
        "a result": (1, "01 60 00 01 ", ""),
        "a global of an import": (2, names + "03 ", " 00"),
        "a global": (6, "01 ", " 00 41 00 0b"),
    }
    refs = {
        "a table of an import": (2, names + "01 ", " 00 00"),
        "a table": (4, "01 ", " 00 00"),
        "a table with an init": (4, "01 40 00 ", " 00 00 d0 70 0b"),
        "an element segment of kind 5": (9, "01 05 ", " 00"),
        "an element segment of kind 6": (9, "01 06 00 41 00 0b ", " 00"),
        "an element segment of kind 7": (9, "01 07 ", " 00"),
    }
    for place, (number, before, behind) in {**value, **refs}.items():
        for digits in ("7a", "05", "ff"):
            hand(
                "no type of %s: %s" % (place, digits),
                section(number, before + "^" + digits + behind),
                "unsupported ^ %d" % int(digits, 16),
                SPEC + "Reference Types and Value Types",
            )
        if place in refs and "a table" != place:
            hand(
                "a number type of " + place,
                section(number, before + "^7e" + behind),
                "unsupported ^ 126",
                SPEC + "Reference Types",
            )
        for form in ("63", "64"):
            hand(
                "a reference by %s to no type, of %s" % (form, place),
                section(number, before + form + " ^03" + behind),
                "index ^",
                "no type 3",
            )
            hand(
                "no heap type behind %s, of %s" % (form, place),
                section(number, before + form + " ^7a" + behind),
                "unsupported ^ 122",
                "the row of heap types has it not",
            )
            hand(
                "a negative heap type behind %s, of %s" % (form, place),
                section(number, before + form + " c0 7f" + behind),
                "malformed",
                SPEC + "Integers, s33",
            )
    constants = {
        "a table": (4, "01 40 00 70 00 00 ", ""),
        "a global": (6, "01 70 00 ", ""),
        "the offset of kind 0": (9, "01 00 ", " 00"),
        "the offset of kind 2": (9, "01 02 00 ", " 00 00"),
        "the offset of kind 4": (9, "01 04 ", " 00"),
        "the offset of kind 6": (9, "01 06 00 ", " 70 00"),
        "an item of kind 4": (9, "01 04 41 00 0b 01 ", ""),
        "an item of kind 5": (9, "01 05 70 01 ", ""),
        "an item of kind 6": (9, "01 06 00 41 00 0b 70 01 ", ""),
        "an item of kind 7": (9, "01 07 70 01 ", ""),
        "the offset of data of kind 0": (11, "01 00 ", " 00"),
        "the offset of data of kind 2": (11, "01 02 00 ", " 00"),
    }
    for place, (number, before, behind) in constants.items():
        for digits in ("0b", "01", "6a"):
            hand(
                "no constant %s of %s" % (digits, place),
                section(number, before + "^" + digits + " 0b" + behind),
                "unsupported ^ %d" % int(digits, 16),
                SPEC + "Expressions, narrowed",
            )
        hand("a null of no type, in " + place, section(number, before + "d0 ^00 0b" + behind), "index ^", "no type 0")
        hand(
            "a null of no heap type, in " + place,
            section(number, before + "d0 ^40 0b" + behind),
            "unsupported ^ 64",
            "the row of heap types has it not",
        )
        hand(
            "a constant without its end, in " + place,
            section(number, before + "41 00 01" + behind),
            "malformed",
            SPEC + "Expressions",
        )
        hand(
            "a constant whose number is none, in " + place,
            section(number, before + "41 80 80 80 80 08 0b" + behind),
            "malformed",
            SPEC + "Integers",
        )
    for number, before in ((2, names + "03 7f "), (6, "01 7f ")):
        for digits in ("02", "7f", "80"):
            hand(
                "no mutability in section %d: %s" % (number, digits),
                section(number, before + "^" + digits + " 41 00 0b"),
                "unsupported ^ %d" % int(digits, 16),
                SPEC + "Global Types",
            )
    for number, before in ((2, names + "01 70 "), (2, names + "02 "), (4, "01 70 "), (4, "01 40 00 70 "), (5, "01 ")):
        for digits in ("02", "04", "81"):
            hand(
                "no limits in section %d, behind %s: %s" % (number, before, digits),
                section(number, before + "^" + digits + " 00 00"),
                "unsupported ^ %d" % int(digits, 16),
                SPEC + "Limits, narrowed",
            )


def rows_of_order():
    """Of two faults the first."""
    why = "from left to right"
    hand(
        "a type that is refused before a fault in the next section",
        section(1, "02 60 00 00 ^50 01 00 60 00 00") + section(2, "01 ff"),
        "refused ^",
        why,
    )
    hand(
        "an index before a fault in the code",
        NO_TYPE + section(3, "01 ^07") + section(10, "01 " + body("06")),
        "index ^",
        why,
    )
    hand("an instruction before an alignment", code("^06 28 07 00"), "unsupported ^ 6", why)
    hand("an alignment before an instruction", code("28 ^07 00 06"), "alignment ^", why)
    hand(
        "an instruction of the first body before the second's",
        NO_TYPE + section(3, "02 00 00") + section(10, "02 " + body("^06") + body("07")),
        "unsupported ^ 6",
        why,
    )
    hand(
        "a section out of order before a fault in it",
        section(5, "00") + section(4, "01 7f 00 00"),
        "malformed",
        "tested when its number is read",
    )
    hand("a fault before a section out of order", section(5, "01 ^07 00") + section(4, "00"), "unsupported ^ 7", why)
    hand(
        "a fault in an entry before its list is too long",
        section(1, "05 ^61"),
        "unsupported ^ 97",
        "entries are read one by one",
    )
    hand(
        "a list of 2^32 - 1 entries with a fault in the first",
        section(1, "ff ff ff ff 0f ^61"),
        "unsupported ^ 97",
        "entries are read one by one",
    )
    hand("a list of 2^32 - 1 entries", section(1, "ff ff ff ff 0f 60 00 00"), "malformed", SPEC + "Lists")
    hand("labels of 2^32 - 1", code("0e ff ff ff ff 0f 00 00"), "malformed", SPEC + "Lists")
    hand("a fault before a byte too many in the same section", section(1, "01 ^61 00"), "unsupported ^ 97", why)
    hand(
        "a byte too many in a section before a fault in the next",
        section(1, "00 00") + section(2, "01 ff"),
        "malformed",
        why,
    )
    hand(
        "a fault in the code before a wrong data count",
        NO_TYPE + ONE + section(12, "05") + section(10, "01 " + body("^06")) + section(11, "00"),
        "unsupported ^ 6",
        why,
    )
    hand(
        "the same without the fault",
        NO_TYPE + ONE + section(12, "05") + section(10, "01 " + body("")) + section(11, "00"),
        "malformed",
        why,
    )


def rows():
    for group in (rows_of_places, rows_of_order):
        group()
