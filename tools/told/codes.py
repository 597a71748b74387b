"""Names of what the binary format has and this project does not interpret: codes of instructions, of types and of limits.

By the tables of the WebAssembly core specification 3.0 (its chapter 5 and the index of instructions in its appendix).
"""

from itertools import count

COMPARE = "eq ne lt gt le ge".split()
COMPUTE = "abs neg ceil floor trunc nearest sqrt add sub mul div min max copysign".split()
CONVERSIONS = {
    0xA8: "i32.trunc_f32_s i32.trunc_f32_u i32.trunc_f64_s i32.trunc_f64_u",
    0xAE: "i64.trunc_f32_s i64.trunc_f32_u i64.trunc_f64_s i64.trunc_f64_u f32.convert_i32_s f32.convert_i32_u "
    "f32.convert_i64_s f32.convert_i64_u f32.demote_f64 f64.convert_i32_s f64.convert_i32_u f64.convert_i64_s "
    "f64.convert_i64_u f64.promote_f32 i32.reinterpret_f32 i64.reinterpret_f64 f32.reinterpret_i32 f64.reinterpret_i64",
    0xFC00: "i32.trunc_sat_f32_s i32.trunc_sat_f32_u i32.trunc_sat_f64_s i32.trunc_sat_f64_u i64.trunc_sat_f32_s "
    "i64.trunc_sat_f32_u i64.trunc_sat_f64_s i64.trunc_sat_f64_u",
}
FLOATS = {0x2A: "f32.load", 0x2B: "f64.load", 0x38: "f32.store", 0x39: "f64.store", 0x43: "f32.const", 0x44: "f64.const"}
for first, kind, names in ((0x5B, "f32.", COMPARE), (0x61, "f64.", COMPARE), (0x8B, "f32.", COMPUTE), (0x99, "f64.", COMPUTE)):
    FLOATS.update(zip(count(first), [kind + name for name in names]))
for first, names in CONVERSIONS.items():
    FLOATS.update(zip(count(first), names.split()))

GROUPS = {
    "computing with floats": FLOATS,
    "tail calls": {0x12: "return_call", 0x13: "return_call_indirect", 0x15: "return_call_ref"},
    "exceptions": {0x06: "try", 0x07: "catch", 0x08: "throw", 0x09: "rethrow", 0x0A: "throw_ref", 0x18: "delegate",
                   0x19: "catch_all", 0x1F: "try_table"},
    "references to functions": {0x14: "call_ref", 0xD4: "ref.as_non_null", 0xD5: "br_on_null", 0xD6: "br_on_non_null"},
    "a select with its type written out": {0x1C: "select"},
    "garbage-collected objects": {0xD3: "ref.eq", 0xFB: "an instruction behind fb"},
    "vectors": {0xFD: "an instruction behind fd"},
    "threads": {0xFE: "an instruction behind fe"},
}
TYPES = {0x5E: "a type of arrays", 0x5F: "a type of structures", 0x4E: "a recursive group of types", 0x78: "i8", 0x77: "i16",
         0x6B: "structref", 0x6A: "arrayref", 0x69: "exnref", 0x74: "nullexnref"}
# The byte before the limits of a memory or table, by its bits.
LIMITS = {4: "a memory or table of 64 bits", 8: "a memory with pages of another size", 2: "a shared memory (threads)"}


def instruction(code):
    """The name of an instruction that is not interpreted and its group; or that it is none."""
    for group, names in GROUPS.items():
        if code in names:
            return "%s (%s), which is not interpreted" % (names[code], group)
    return "the code %s, which is that of no instruction here" % code_text(code)


def code_text(code):
    return "fc %x" % (code - 0xFC00) if code >= 0xFC00 else "%02x" % code


def constant(code):
    """What a constant may not have in place of one instruction."""
    plain = {0x6A: "i32.add", 0x6B: "i32.sub", 0x6C: "i32.mul", 0x7C: "i64.add", 0x7D: "i64.sub", 0x7E: "i64.mul"}
    if code in plain:
        return "%s in a constant: constants that are computed are left out" % plain[code]
    return "in a constant " + instruction(code)


def type_code(code):
    if code in TYPES:
        return "%s (%s)" % (TYPES[code], "exceptions" if "exn" in TYPES[code] else "garbage-collected objects")
    return "the code %02x, which is that of no type here" % code


def limits(code):
    for bit, text in LIMITS.items():
        if code & bit and code < 16:
            return text + ", which is left out"
    return "the code %02x, which begins no limits" % code
