"""The operators on integers: what each gives, over operands as numbers from 0 to 2^N - 1, and the traps of divisions.

Written from the rules of the session language alone.
"""


class ArithmeticTrap(Exception):
    """A trap of an operator, by its name."""


def signed(bits, number):
    return number - (1 << bits) if number >> (bits - 1) else number


def extended(bits, width, number):
    """The low bits of a number with their sign, as a number of the given width."""
    return signed(bits, number % (1 << bits)) % (1 << width)


def divided(one, other):
    """A quotient rounded towards zero."""
    quotient = abs(one) // abs(other)
    return quotient if (one < 0) == (other < 0) else -quotient


def div_s(bits, one, other):
    if other == 0:
        raise ArithmeticTrap("IntegerDivisionByZero")
    quotient = divided(signed(bits, one), signed(bits, other))
    if quotient == 1 << (bits - 1):
        raise ArithmeticTrap("IntegerOverflow")
    return quotient


def rem_s(bits, one, other):
    if other == 0:
        raise ArithmeticTrap("IntegerDivisionByZero")
    one, other = signed(bits, one), signed(bits, other)
    return one - other * divided(one, other)


def div_u(_bits, one, other):
    if other == 0:
        raise ArithmeticTrap("IntegerDivisionByZero")
    return one // other


def rem_u(_bits, one, other):
    if other == 0:
        raise ArithmeticTrap("IntegerDivisionByZero")
    return one % other


def rotl(bits, one, other):
    count = other % bits
    return one << count | one >> (bits - count)


def rotr(bits, one, other):
    count = other % bits
    return one >> count | one << (bits - count)


BINARY = {
    "add": lambda bits, one, other: one + other,
    "sub": lambda bits, one, other: one - other,
    "mul": lambda bits, one, other: one * other,
    "div_s": div_s,
    "div_u": div_u,
    "rem_s": rem_s,
    "rem_u": rem_u,
    "and": lambda bits, one, other: one & other,
    "or": lambda bits, one, other: one | other,
    "xor": lambda bits, one, other: one ^ other,
    "shl": lambda bits, one, other: one << other % bits,
    "shr_s": lambda bits, one, other: signed(bits, one) >> other % bits,
    "shr_u": lambda bits, one, other: one >> other % bits,
    "rotl": rotl,
    "rotr": rotr,
}

COMPARISONS = {
    "eq": lambda bits, one, other: one == other,
    "ne": lambda bits, one, other: one != other,
    "lt_s": lambda bits, one, other: signed(bits, one) < signed(bits, other),
    "lt_u": lambda bits, one, other: one < other,
    "gt_s": lambda bits, one, other: signed(bits, one) > signed(bits, other),
    "gt_u": lambda bits, one, other: one > other,
    "le_s": lambda bits, one, other: signed(bits, one) <= signed(bits, other),
    "le_u": lambda bits, one, other: one <= other,
    "ge_s": lambda bits, one, other: signed(bits, one) >= signed(bits, other),
    "ge_u": lambda bits, one, other: one >= other,
}

UNARY = {
    "clz": lambda bits, one: bits - one.bit_length(),
    "ctz": lambda bits, one: (one & -one).bit_length() - 1 if one else bits,
    "popcnt": lambda bits, one: bin(one).count("1"),
    "extend8_s": lambda bits, one: extended(8, bits, one),
    "extend16_s": lambda bits, one: extended(16, bits, one),
    "extend32_s": lambda bits, one: extended(32, bits, one),
}


def binary_operator(name, bits, work):
    kind = "i%d" % bits
    return (kind + "." + name, ((kind, kind), kind, lambda one, other: work(bits, one, other) % (1 << bits)))


def comparison(name, bits, test):
    kind = "i%d" % bits
    return (kind + "." + name, ((kind, kind), "i32", lambda one, other: int(test(bits, one, other))))


def unary_operator(name, bits, work):
    kind = "i%d" % bits
    return (kind + "." + name, ((kind,), kind, lambda one: work(bits, one)))


def all_operators():
    """Each operator by its name in scripts: the kinds of its operands, the kind of its result, and its function."""
    table = {}
    for bits in (32, 64):
        table.update(binary_operator(name, bits, work) for name, work in BINARY.items())
        table.update(comparison(name, bits, test) for name, test in COMPARISONS.items())
        table.update(unary_operator(name, bits, work) for name, work in UNARY.items() if (name, bits) != ("extend32_s", 32))
        kind = "i%d" % bits
        table[kind + ".eqz"] = ((kind,), "i32", lambda one: int(one == 0))
    table["i32.wrap_i64"] = (("i64",), "i32", lambda one: one % (1 << 32))
    table["i64.extend_i32_s"] = (("i32",), "i64", lambda one: extended(32, 64, one))
    table["i64.extend_i32_u"] = (("i32",), "i64", lambda one: one)
    return table


OPERATORS = all_operators()


def accesses(action, names):
    """Loads or stores by name: the kind of the value, its width in bytes, and whether a load extends the sign."""
    table = {}
    for name in names:
        kind, form = name.split(".")
        digits = "".join(sign for sign in form.removeprefix(action).split("_")[0] if sign.isdigit())
        width = int(digits) if digits else int(kind[1:])
        table[name] = (kind, width // 8, form.endswith("_s"))
    return table


LOADS = accesses(
    "load",
    ["i32.load", "i32.load8_s", "i32.load8_u", "i32.load16_s", "i32.load16_u"]
    + ["i64.load", "i64.load8_s", "i64.load8_u", "i64.load16_s", "i64.load16_u", "i64.load32_s", "i64.load32_u"],
)
STORES = accesses(
    "store",
    ["i32.store", "i32.store8", "i32.store16", "i64.store", "i64.store8", "i64.store16", "i64.store32"],
)
