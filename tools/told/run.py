#!/usr/bin/env python3
"""Says in words what is wrong with a call of ./run: behind the program's own line, or before anything is built.

run.py list FILE                                   what the module exports and imports
run.py ahead FILE COUNT NAME ARG..                 what the program would refuse; it ends with that status, or with 0
run.py behind STATUS SAID LINE FILE COUNT NAME ARG..    what the program said, and the line that it wrote, in words

COUNT says how many bytes the call is given by --in and --out, and is empty where it is given none.

It decides nothing: the program has said its line before `behind` is asked, and `ahead` is for a program that is not built,
where it would be an hour before that refusal comes. The module is read by the slow reader in tools/binary and typed by the
second executor in tools/executor, both written apart from the program.
"""

import os
import re
import sys

import codes
from module import Fault, Module, Reader, function_names, is_object_file, named, row, section_at, value_type
from rules import rule_of

LONGEST = 1 << 24
TOO_LONG, BAD_MODULE, NO_FUNCTION, INVALID_MODULE, BAD_ARGUMENTS, REFUSED, TAKES_NO_BYTES = 4, 5, 6, 7, 10, 12, 13
RANGES = {"i32": (-(2**31), 2**32 - 1), "i64": (-(2**63), 2**64 - 1)}
SECTIONS = ("custom type import function table memory global export start element code data".split() + ["data count", "tag"])
HEADS = (
    (b"(", "it is in the text format: wat2wasm of wabt makes a module of it"),
    (b"{", "it looks like a session: ./session runs those"),
    (b"\x7fELF", "it is a program or an object file of this machine: clang --target=wasm32 compiles for modules"),
    (b"!<arch>", "it is an archive of object files: wasm-ld --no-entry --export-all links them"),
)
STATUSES = {
    3: "the file could not be read to its end", 8: "memory ran out, and nothing was written",
    9: "standard output could not be written",
}
LINK = "it is an object file of clang -c, which exports nothing: link it: wasm-ld --no-entry --export-all %s -o FILE.wasm"
# How a call ended that was made, by the second word of its line: traps, and refusals of the module's instance.
ENDS = {
    "MemoryOutOfBounds": "a load, a store, a bulk instruction or a data segment passed the end of a memory",
    "TableOutOfBounds": "an index, a bulk instruction or an element segment passed the end of a table",
    "IndirectCallToNull": "a call through a table met an element that is null",
    "BadSignature": "a call through a table met a function of another type",
    "IntegerDivisionByZero": "an integer was divided by zero",
    "IntegerOverflow": "a quotient did not fit its type",
    "UnreachableCodeReached": "the code ran into `unreachable`: so end a panic in Rust and __builtin_trap or abort in C",
    "StackOverflow": "more than 1,024 functions were open at once",
    "OutOfFuel": "the fuel of --fuel N was used up",
    "TurnLimit": "it took all the turns that it may: --turns N, 1,000,000,000 at most and where it is not said",
    "GrowFailed": "its memories begin with more pages than --pages N allows (16,384 where it is not said), or its tables with "
                  "more elements than --elements N (10,000,000)",
    "ResourceLimit": "a module makes 10,000 memories and 10,000 tables at most here",
    "MemoryAccessError": "pointer and length, of `alloc` for the bytes or of the answer, pass the end of the memory",
}
# What the reader was about, by its innermost function, where bytes are malformed.
MALFORMED = {
    "byte": "the bytes of this part end too early", "take": "a size or a count here passes the end of its part",
    "part": "a size here passes the end of its part", "exactly": "the format has another byte here",
    "unsigned": "a number here is too large", "signed": "a number here is too large", "name": "a name here is no UTF-8",
    "finish": "this part has more bytes than what is in it needs",
    "module": "a section is unknown, in the wrong order or missing",
    "type_entry": "a type has more than one supertype", "signed_index": "a negative number stands for a type",
    "code": "`else` stands outside of an `if`", "counted": "two sections count otherwise what both have",
    "instruction": "memory.init and data.drop need the section that counts the data segments",
    "body": "the functions of a module have more than 1,000,000 locals together",
}
CONTEXTS = {
    "constant": codes.constant, "code": codes.instruction, "instruction": codes.instruction, "limits": codes.limits,
    "type_entry": codes.type_code, "reference_type": codes.type_code, "heap_type": codes.type_code,
}


def frames_of(error):
    """The names of the functions that an error passed, the innermost first, and the places where they stood."""
    found, at = [], error.__traceback__
    while at is not None:
        found.append((at.tb_frame.f_code.co_name, at.tb_frame.f_locals.get("self")))
        at = at.tb_next
    return found[::-1]


class Given:
    """The bytes of a file, and what the reader makes of them."""

    def __init__(self, path, count=""):
        self.path, self.count = path, int(count) if count else None
        with open(path, "rb") as file:
            self.data = file.read(LONGEST + 1)
        self.reader, self.fault = Reader(self.data), None
        if not self.is_too_long():
            try:
                self.reader.module()
            except Fault as fault:
                self.fault = fault
        self.module = Module(self.reader)

    def is_too_long(self):
        return len(self.data) + (self.count or 0) > LONGEST

    def head(self):
        """What the bytes are where they begin no module of version 1."""
        if self.data[:8] == b"\0asm\1\0\0\0":
            return ""
        if self.data[:8] == b"\0asm\x0d\0\1\0":
            return "it is a component, and no core module, which alone is read here"
        if self.data[:4] == b"\0asm":
            return "it is no module of version 1 of the binary format"
        for head, text in HEADS:
            if self.data.lstrip().startswith(head):
                return "it is no module in the binary format: " + text
        return "it is no module in the binary format, which begins with \\0asm" + ("" if self.data else ": it is empty")

    def function_here(self):
        """In which function the reader stood."""
        number = self.module.imported_functions + len(self.reader.bodies)
        return "in function %d%s" % (number, self.name_of(number))

    def name_of(self, number):
        exported = {export["func"]: export["name"] for export in self.reader.exports if "func" in export}
        name = {**exported, **function_names(self.data)}.get(number)
        return "" if name is None else " (%s)" % named(name)

    def where(self, place):
        section = section_at(self.data, place)
        if section == 10:
            return self.function_here()
        return "outside of all sections" if section not in range(len(SECTIONS)) else "in the section " + SECTIONS[section]

    def fault_words(self):
        """What is wrong with the bytes, where that is."""
        if self.head():
            return self.head()
        kind, *numbers = str(self.fault).split()
        frames = [frame for frame in frames_of(self.fault) if frame[0] not in ("malformed", "choice", "unsupported")]
        if kind == "malformed":
            name, cursor = frames[0][0], next((one for _, one in frames if hasattr(one, "at")), self.reader.cursor)
            place = cursor.at - (name in ("exactly", "unsigned", "signed") and cursor.at > 0)
            where = "behind a section" if name in ("module", "part") else self.where(place)
            return "byte %d, %s: %s" % (place, where, MALFORMED.get(name, "what stands here is no module's"))
        at = int(numbers[0])
        what = {"index": "a type is named that is not there", "alignment": "an alignment is above the width of the access",
                "refused": "a type cannot be made: its supertype is final or does not match it, it is too large or too deep, "
                "or its limits are wrong"}.get(kind)
        if kind == "unsupported":
            describe = next((CONTEXTS[name] for name, _ in frames if name in CONTEXTS), None)
            code = int(numbers[1])
            what = describe(code) if describe else "the code %02x is none of those that may stand here" % code
        return "byte %d, %s: %s" % (at, self.where(at), what)

    def rule_words(self, said):
        """Which rule a module breaks, and of code that is not typed where."""
        from places import place_in
        _, rule, part, item = said.split()[1:]
        text = "%s %s breaks the rule %s: %s" % (part, item, rule, rule_of(said))
        if part == "functions":
            text += "\n  that is function %d%s" % (*self.numbered(int(item)),)
            if rule == "Body":
                text += "\n  " + place_in(self.reader.declaration(), int(item))
        return text

    def numbered(self, item):
        number = self.module.imported_functions + item
        return number, self.name_of(number)

    def no_function(self, name):
        there = self.module.functions()
        return "it exports no function %s%s" % (named(name), "; it exports" if there else ", nor another one") + "".join(
            "\n  " + one for one in there)

    def bad_arguments(self, name, arguments):
        """The first argument that does not fit, or that there are too many or too few."""
        params = self.module.function(name)["params"][:None if self.count is None else -2]
        for place, ty in enumerate(params):
            if ty not in RANGES:
                return ("parameter %d of %s is of type %s: floats and references are no words, so a session calls it "
                        "(docs/SESSIONS.md)" % (place + 1, named(name), value_type(ty)))
        if len(params) != len(arguments):
            beside = "" if self.count is None else ", beside its bytes"
            return "%s wants %d arguments, %s%s, and got %d" % (named(name), len(params), row(params), beside, len(arguments))
        for place, (ty, word) in enumerate(zip(params, arguments)):
            if not is_number(ty, word):
                return "argument %d of %s is %s, and wants a whole number of type %s, from %d to %d" % (
                    place + 1, named(name), named(word), ty, *RANGES[ty])
        return ""

    def takes_no_bytes(self, name):
        """What of the module takes no bytes, where the call is given some, and that in words."""
        ty, alloc = self.module.function(name), self.module.function("alloc")
        if self.count is None:
            return None
        if not self.module.has_memory("memory"):
            return "memory", "it exports no memory of the name memory, which the bytes go into"
        if alloc is None or (alloc["params"], alloc["results"]) != (["i32"], ["i32"]):
            return "alloc", "it exports no function alloc (i32) -> (i32), which makes room for so many bytes"
        if ty["params"][-2:] != ["i32", "i32"] or ty["results"] not in (["i32"], ["i64"]):
            return "function", "%s %s -> %s does not take bytes: its last two parameters would be a pointer and a length, of " \
                "type i32, and its one result the length, i32, or both, i64" % (named(name), row(ty["params"]), row(ty["results"]))
        return None

    def first_import(self):
        return "it wants %s, and ./run gives no imports: a session or a host's program does" % self.module.imported(
            self.reader.imports[0])

    def words(self, status, said, line, name, arguments):
        if status in (BAD_MODULE, INVALID_MODULE, NO_FUNCTION) and is_object_file(self.data):
            return LINK % self.path
        if line == "refused ImportCount":
            return self.first_import()
        if status == TOO_LONG:
            return "%sit has more than 2^24 bytes, the most that is read" % ("with the bytes of --in " if self.count else "")
        if status == BAD_MODULE:
            return self.fault_words() if self.fault else ""
        if status == INVALID_MODULE:
            return self.rule_words(said)
        if status == NO_FUNCTION:
            return self.no_function(name)
        if status == TAKES_NO_BYTES:
            return (self.takes_no_bytes(name) or ["", ""])[1]
        if status == BAD_ARGUMENTS:
            return self.bad_arguments(name, arguments)
        return STATUSES.get(status, "")


def is_number(ty, word):
    low, high = RANGES[ty]
    return re.fullmatch(r"[-+]?[0-9]+", word) is not None and low <= int(word) <= high


def due(given, name, arguments):
    """The status that is due of a call and what is said of it, as far as the readers in tools know."""
    from places import first_broken
    if given.is_too_long():
        return TOO_LONG, "TooLong"
    if given.fault:
        return BAD_MODULE, str(given.fault)
    broken = first_broken(given.reader.declaration())
    if broken:
        return INVALID_MODULE, "InvalidModule 0 %s %s %d" % broken
    if given.module.function(name) is None:
        return NO_FUNCTION, "NoFunction"
    if given.takes_no_bytes(name):
        return TAKES_NO_BYTES, "TakesNoBytes " + given.takes_no_bytes(name)[0]
    if given.bad_arguments(name, arguments):
        return BAD_ARGUMENTS, "BadArguments"
    return (REFUSED, "refused ImportCount") if given.reader.imports else (0, "")


def say(path, text):
    if text:
        print("run: %s: %s" % (path, text), file=sys.stderr)


def told_ahead(given, name, arguments):
    status, said = due(given, name, arguments)
    if status:
        line = said if status == REFUSED else ""
        print(said, file=sys.stdout if line else sys.stderr, flush=True)
        say(given.path, given.words(0 if line else status, said, line, name, arguments))
        print("run: so say the readers in tools, written apart from the program: nothing was built or run", file=sys.stderr)
    return status


def listed(given):
    if given.fault or given.is_too_long():
        status, said = due(given, "", [])
        print(said, file=sys.stderr)
        say(given.path, given.words(status, said, "", "", []))
        return status
    print(given.module.listing())
    say(given.path, LINK % given.path if is_object_file(given.data) else "")
    return 0


def main(what, *rest):
    if what == "list":
        return listed(Given(rest[0]))
    if what == "ahead":
        return told_ahead(Given(*rest[:2]), rest[2], rest[3:])
    status, said, line, path, count, name, *arguments = rest
    cause = line.split(" ")[1:2]
    if cause and cause[0] in ENDS:
        say(path, ENDS[cause[0]])
    else:
        say(path, Given(path, count).words(int(status), said, line, name, arguments))
    return 0


if __name__ == "__main__":
    os.environ.setdefault("PYTHONDONTWRITEBYTECODE", "1")
    sys.exit(main(*sys.argv[1:]))
