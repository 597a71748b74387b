"""Mullerpink for Python: an interpreter of WebAssembly's integer part, whose code is proved. This wrapper is not.

Each call stands alone. The library is `libmullerpink.so` as `tools/c/build.sh` builds it: in the folder that the environment
names by MULLERPINK_LIB, or else in `build/c` of the repository."""
import ctypes
import os
import pathlib
from ctypes import POINTER, byref, c_char_p, c_size_t, c_uint32, c_uint64

CODES = {2: "bad words", 4: "too long", 5: "no module, or no JSON", 6: "no function, or no script",
         7: "an invalid module", 8: "out of memory", 9: "no room", 10: "bad arguments", 11: "no UTF-8",
         13: "takes no bytes", 14: "trap", 15: "refused", 16: "no value"}
NO_ROOM = 9
KINDS = ("i32", "i64", "f32", "f64", "v128", "funcref", "externref", "anyref")
TRAPS = ("MemoryOutOfBounds", "TableOutOfBounds", "IndirectCallToNull", "BadSignature", "IntegerDivisionByZero",
         "IntegerOverflow", "UnreachableCodeReached", "StackOverflow", "OutOfFuel", "Interrupt")
REFUSALS = {7: "ImportCount", 12: "ResourceLimit", 14: "GrowFailed", 21: "TurnLimit"}


class _Ran(ctypes.Structure):
    _fields_ = [("code", c_uint32), ("count", c_size_t)]


class _Value(ctypes.Structure):
    _fields_ = [("kind", c_uint32), ("low", c_uint64), ("high", c_uint64)]


class _Bounds(ctypes.Structure):
    _fields_ = [("has_fuel", c_uint32), ("pages", c_uint32), ("elements", c_uint32), ("fuel", c_uint64), ("turns", c_uint64)]


class _Called(ctypes.Structure):
    _fields_ = [("code", c_uint32), ("cause", c_uint32), ("count", c_size_t)]


class Error(Exception):
    """Why there is no answer: its `code`."""

    def __init__(self, code, why=None):
        super().__init__(CODES.get(code, f"code {code}") if why is None else why)
        self.code = code


class Trap(Error):
    """A call ended in a trap: its `name`."""

    def __init__(self, cause):
        self.name = TRAPS[cause - 1]
        super().__init__(14, f"trap {self.name}")


class Refused(Error):
    """A call was refused: the `name` of the cause, or its number as a text."""

    def __init__(self, cause):
        self.name = REFUSALS.get(cause, str(cause))
        super().__init__(15, f"refused {self.name}")


def _library():
    beside = pathlib.Path(__file__).resolve().parents[2] / "build" / "c"
    library = ctypes.CDLL(str(pathlib.Path(os.environ.get("MULLERPINK_LIB", beside)) / "libmullerpink.so"))
    text = [c_char_p, c_size_t]
    library.mullerpink_run.restype = _Ran
    library.mullerpink_run.argtypes = text + text + text
    library.mullerpink_session.restype = _Ran
    library.mullerpink_session.argtypes = text + text
    values = [POINTER(_Value), c_size_t]
    library.mullerpink_call.restype = _Called
    library.mullerpink_call.argtypes = text + text + values + [POINTER(_Bounds)] + values
    library.mullerpink_call_bytes.restype = _Called
    library.mullerpink_call_bytes.argtypes = text + text + values + [POINTER(_Bounds)] + text + text
    return library


_LIBRARY = _library()


def _written(write):
    room = 4096
    while True:
        out = ctypes.create_string_buffer(room)
        ended = write(out, room)
        if ended.code == 0:
            return out.raw[:ended.count].decode()
        if ended.code != NO_ROOM:
            raise Error(ended.code)
        room *= 4


def run(words, module):
    """The line of a run, as the program `mullerpink_run` prints it: options, the name of an export, and its arguments."""
    text = "\0".join(words).encode()
    return _written(lambda out, room: _LIBRARY.mullerpink_run(text, len(text), module, len(module), out, room))


def session(script):
    """The lines of a session, as the program `mullerpink` prints them."""
    text = script.encode()
    return _written(lambda out, room: _LIBRARY.mullerpink_session(text, len(text), out, room))


def _value(kind, bits):
    """A value of a kind: an integer signed or from 0 on, a float and a vector by their bits, and null as 0."""
    width = {"i32": 32, "f32": 32, "i64": 64, "f64": 64}.get(kind, 128)
    if not -(1 << (width - 1)) <= bits < 1 << width:
        raise Error(16)
    bits %= 1 << width
    return _Value(KINDS.index(kind), bits % 2**64, bits >> 64)


def _told(value):
    kind = KINDS[value.kind]
    bits = value.high << 64 | value.low
    width = {"i32": 32, "i64": 64}.get(kind)
    return (kind, bits - (1 << width) if width and bits >> (width - 1) else bits)


def _called(ended):
    """Raises what a call ended by; whether it has its results, and not too little room."""
    if ended.code == 14:
        raise Trap(ended.cause)
    if ended.code == 15:
        raise Refused(ended.cause)
    if ended.code not in (0, NO_ROOM):
        raise Error(ended.code)
    return ended.code == 0


def _asked(module, name, arguments, fuel, turns, pages, elements):
    text = name.encode()
    given = (_Value * len(arguments))(*(_value(kind, bits) for kind, bits in arguments))
    bounds = _Bounds(fuel is not None, pages, elements, fuel or 0, turns)
    return module, len(module), text, len(text), given, len(given), byref(bounds)


def call(module, name, arguments=(), fuel=None, turns=10**9, pages=16384, elements=10**7):
    """The results of a call of the function that a module exports under a name, on a new instance of the module.

    A value is a pair of its kind and its bits, as ("i32", -1): an integer is signed, a float and a vector are given by their
    bits, and a reference is 0 for null, and of a result else 1. A trap is raised as Trap, a refusal as Refused."""
    asked = _asked(module, name, arguments, fuel, turns, pages, elements)
    room = 16
    while True:
        results = (_Value * room)()
        ended = _LIBRARY.mullerpink_call(*asked, results, room)
        if _called(ended):
            return [_told(value) for value in results[:ended.count]]
        room = ended.count


def call_bytes(module, name, data, arguments=(), fuel=None, turns=10**9, pages=16384, elements=10**7):
    """The bytes that the function answers which a module exports under a name, where it is given these behind its arguments, on
    a new instance of the module: `mullerpink.h` has what the module exports for it."""
    asked = _asked(module, name, arguments, fuel, turns, pages, elements)
    room = 4096
    while True:
        out = ctypes.create_string_buffer(room)
        ended = _LIBRARY.mullerpink_call_bytes(*asked, data, len(data), out, room)
        if _called(ended):
            return out.raw[:ended.count]
        room = ended.count
