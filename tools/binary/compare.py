#!/usr/bin/env python3
"""Compares a program that reads modules from bytes with the slow reader beside this file, and with V8.

python3 tools/binary/compare.py PROGRAM [--random N] [--seed N] [--every N] [--jobs N] [--no-v8] [FILE ..]

PROGRAM takes bytes on standard input and prints one line; a name that ends with .py is run by Python, and with `-` there is
none, so that the reader is compared with V8 alone. Compared are: each of ten small modules, which together have every
section and most forms within; each of their single-byte changes (of every N-th byte with --every) and each of their cuts;
--random changes of several bytes, insertions, removals and joins of these and of the modules of examples/wasm; a tenth as
many random modules of tools/v8, whose declarations must be read back; and the files that are named, or all `.wasm` files
in a named folder.

For each input the program's line must be the reader's. V8, by `WebAssembly.validate` of node 20, is asked about those that
have nothing which V8 lacks or writes otherwise: what it takes must be read, and what is read must be valid by the rules of
docs/SESSIONS.md (by tools/executor) exactly where V8 takes it. It prints each difference with its bytes, how often each
kind of line came, and the sums, and ends with 1 where something differs. --no-v8 asks V8 nothing.
"""

import argparse
import collections
import json
import multiprocessing
import os
import random
import subprocess
import sys

HERE = os.path.dirname(os.path.abspath(__file__))
TOP = os.path.join(HERE, "..", "..")
for folder in ("../executor", "../v8"):
    sys.path.insert(0, os.path.join(HERE, folder))
sys.path.insert(0, HERE)

import reader  # noqa: E402
import valid_here  # noqa: E402
from vectors import filled, rows  # noqa: E402

CHUNK = 400
PATIENCE = 60
MOST_LOCALS = 2**24  # past so many in one module a program may answer that memory is wanting
WANT_OF_MEMORY = ""  # the line of a program that writes none

# Which rows of vectors.json are the small modules, by what they show.
SMALL = [
    "a function that gives 7", "imports of each kind", "functions, tables, memories, globals, tags and exports of each kind",
    "element kind 0", "element kind 4", "element kind 6", "data kind 0", "the code memory.init 1 0",
    "ifs within both lists of an if", "block types that are appended in the order of their first use",
]
V8 = """
const lines = require("node:readline").createInterface({ input: process.stdin });
lines.on("line", (digits) => console.log(WebAssembly.validate(Buffer.from(digits, "hex"))));
"""


def contents(path):
    with open(path, "rb") as file:
        return file.read()


# What is compared: pairs of a name and bytes.


def small_modules():
    by_name = {row["shows"]: bytes.fromhex(row["hex"]) for row in rows()}
    return [(name, by_name[name]) for name in SMALL]


def changed(modules, every):
    """Each change of one byte of each module, and each cut of it."""
    for name, data in modules:
        yield name, data
        for at in range(0, len(data), every):
            for byte in range(256):
                if byte != data[at]:
                    yield "%s, byte %d as %02x" % (name, at, byte), data[:at] + bytes([byte]) + data[at + 1 :]
        for end in range(len(data)):
            yield "%s, the first %d bytes" % (name, end), data[:end]


def spoiled(data, others, choose):
    """A module with a few bytes changed, put in, taken out, or joined with the rest of another."""
    out = bytearray(data)
    for _ in range(choose.randint(1, 4)):
        at = choose.randrange(len(out) + 1)
        kind = choose.randrange(5)
        if kind == 0:
            out[at:at] = choose.choice([b"\x0b", b"\x40", b"\x7f", b"\x00", b"\x80", bytes([choose.randrange(256)])])
        elif kind == 1:
            del out[at : at + choose.randint(1, 3)]
        elif kind == 2:
            out[at : at + 1] = bytes([choose.randrange(256)])
        elif kind == 3:
            out[at : at + 1] = choose.choice([b"\xff\xff\xff\xff\x0f", b"\x80\x00", b"\xfc", b"\x64\x70", b"\x05"])
        else:
            other = choose.choice(others)
            from_ = choose.randrange(len(other))
            out[at : at + 8] = other[from_ : from_ + 8]
    return bytes(out)


def random_changes(modules, count, seed):
    choose = random.Random(seed)
    all_bytes = [data for _name, data in modules]
    for number in range(count):
        name, data = choose.choice(modules)
        yield "%s, random change %d" % (name, number), spoiled(data, all_bytes, choose)


def random_modules(count, seed):
    """Modules of random sessions of tools/v8 as bytes, each with its declaration."""
    from random_sessions import SessionWriter
    from wasm_binary import binary

    number = seed
    while count > 0:
        session = SessionWriter(number).session()
        for place, module in enumerate(session["modules"]):
            name = "module %d of the session with seed %d" % (place, number)
            yield name, binary(session["types"], module), session["types"], module
            count -= 1
        number += 1


def named_files(paths):
    for path in paths:
        found = [path]
        if os.path.isdir(path):
            found = sorted(os.path.join(path, name) for name in os.listdir(path) if name.endswith(".wasm"))
        for file in found:
            yield file, contents(file)


# The comparison of one chunk of inputs.


def program_line(program, data):
    words = [sys.executable, program] if program.endswith(".py") else [program]
    try:
        done = subprocess.run(words, input=data, capture_output=True, timeout=PATIENCE)
    except subprocess.TimeoutExpired:
        return "no end in %d seconds" % PATIENCE
    return done.stdout.decode().rstrip("\n")


def v8_says(inputs):
    digits = "".join(data.hex() + "\n" for _name, data in inputs)
    done = subprocess.run(["node", "-e", V8], input=digits, capture_output=True, text=True, check=True)
    return [word == "true" for word in done.stdout.split()]


def reads(data):
    """The line of the reader, and what it has read or none."""
    try:
        found = reader.read(data)
    except reader.Fault as fault:
        return str(fault), None
    return found.line(), found


def is_plain(value_type):
    return isinstance(value_type, str) and value_type != "anyref"


def in_v8(declaration):
    """Whether V8 has all that is in a module, and in the same form."""
    types, module = declaration["types"], declaration["module"]
    values = [one for item in types for one in (*item["params"], *item["results"])]
    values += [one for function in module.get("functions", []) for one in function["locals"]]
    values += [one["ref"] for one in module.get("tables", [])] + [one["val"] for one in module.get("globals", [])]
    imports = module.get("imports", [])
    values += [entry["table"]["ref"] for entry in imports if "table" in entry]
    values += [entry["global"]["val"] for entry in imports if "global" in entry]
    values += [one["ref"] for one in module.get("elements", []) if one["ref"] != {"ref": "func", "null": False}]
    tags = module.get("tags", []) + [entry["tag"] for entry in imports if "tag" in entry]
    bare = not any(types[tag]["results"] for tag in tags)  # V8 wants tags without results
    memories = len(module.get("memories", [])) + sum("memory" in entry for entry in imports)
    simple = all("super" not in item and "final" not in item for item in types)
    no_init = not any("init" in table for table in module.get("tables", []))
    no_any = '["ref.null", "any"]' not in json.dumps(module)
    return all(map(is_plain, values)) and memories < 2 and simple and no_init and no_any and bare


def is_valid(declaration):
    """Whether the declaration breaks no rule; none where its code is nested too deep for the executor."""
    from module_reader import ModuleReader
    from reading import BadScript, read_types
    from validator import Validator

    try:
        module = ModuleReader(read_types(declaration["types"])).module(declaration["module"])
        return Validator(module).first_broken() is None
    except (RecursionError, BadScript):
        return None  # such as a name of two lines, which no script has


def known_difference(data, declaration, taken):
    """Why V8 and the rules may differ about a module, where the documents or the format say so; else none."""
    if declaration is None:
        # V8 takes a negative number in more than one byte for a type of one byte, and fd 0c in more than two bytes.
        if any(data[at] & 0xC0 == 0xC0 and data[at + 1] & 0x7F == 0x7F for at in range(len(data) - 1)):
            return "a type as a negative number in more than one byte"
        return "fd 0c in more than two bytes" if b"\xfd\x8c" in data else None
    module = declaration["module"]
    if taken:
        many = any(len(function["locals"]) > 9000 for function in module.get("functions", []))
        return "V8 takes more locals" if many else None
    tables = module.get("tables", []) + [entry["table"] for entry in module.get("imports", []) if "table" in entry]
    if any(table["min"] > 10000000 for table in tables):
        return "V8 takes no table that is so large"
    if valid_here.is_taken(declaration["types"], module):
        return "V8 lacks a form of the bytes, and the same module in plain forms is valid to wabt"
    return valid_here.reason(declaration)


class Compared:
    def __init__(self):
        self.kinds, self.differ, self.known, self.with_v8 = collections.Counter(), [], collections.Counter(), 0

    def add(self, other):
        self.kinds += other.kinds
        self.differ += other.differ
        self.known += other.known
        self.with_v8 += other.with_v8

    def program(self, name, data, program, line, found):
        self.kinds[line.split(" ")[0]] += 1
        got = line if program is None else program_line(program, data)
        if got != line and not (got == WANT_OF_MEMORY and found is not None and found.all_locals > MOST_LOCALS):
            self.differ.append("%s: %s\n  program %s\n  reader  %s" % (name, data.hex(), got, line))

    def v8(self, name, data, line, found, taken):
        """What V8 takes is read and valid, and what is read and valid V8 takes."""
        declaration = None
        if found is None:
            wrong = taken and not line.startswith("unsupported")
        else:
            declaration = found.declaration()
            valid = in_v8(declaration) and is_valid(declaration)
            wrong = in_v8(declaration) and valid is not None and valid != taken
        self.with_v8 += 1
        if wrong:
            reason = known_difference(data, declaration, taken)
            if reason:
                self.known[reason] += 1
            else:
                self.differ.append("%s: %s\n  reader  %s\n  V8      %s" % (name, data.hex(), line, taken))


def compare_chunk(job):
    inputs, program, with_v8 = job
    sys.setrecursionlimit(100000)
    compared = Compared()
    said = v8_says(inputs) if with_v8 else [None] * len(inputs)
    for (name, data), taken in zip(inputs, said):
        line, found = reads(data)
        compared.program(name, data, program, line, found)
        if with_v8:
            compared.v8(name, data, line, found, taken)
    return compared


def chunks(inputs, *rest):
    chunk = []
    for one in inputs:
        chunk.append(one)
        if len(chunk) == CHUNK:
            yield (chunk, *rest)
            chunk = []
    if chunk:
        yield (chunk, *rest)


def check_declarations(count, seed, compared):
    """That random modules are read back as they were written."""
    for name, data, types, module in random_modules(count, seed):
        got = normal(filled(reader.read(data).declaration()))
        if got != normal(filled({"types": types, "module": module})):
            compared.differ.append("%s: %s\n  is not read back as it was written" % (name, data.hex()))


def normal(value):
    """A declaration without what a script may say in two ways: integers with or without a sign, and keys that are left out
    for a false."""
    if isinstance(value, dict):
        return {key: normal(one) for key, one in value.items()}
    if isinstance(value, list):
        if len(value) == 2 and value[0] in ("i32.const", "i64.const"):
            return [value[0], value[1] % (1 << (32 if value[0] == "i32.const" else 64))]
        return list(map(normal, value))
    return value


def arguments():
    parser = argparse.ArgumentParser(description=__doc__.split("\n\n")[0])
    parser.add_argument("program")
    parser.add_argument("files", nargs="*")
    how_many = "how many random changes, and a tenth as many random modules"
    parser.add_argument("--random", type=int, default=10000, help=how_many)
    parser.add_argument("--seed", type=int, default=1)
    parser.add_argument("--every", type=int, default=1, help="change only each so many-th byte")
    parser.add_argument("--jobs", type=int, default=os.cpu_count())
    parser.add_argument("--no-v8", action="store_true")
    return parser.parse_intermixed_args()


def main():
    given = arguments()
    program, compared = None if given.program == "-" else os.path.abspath(given.program), Compared()
    small = small_modules()
    examples = list(named_files([os.path.join(TOP, "examples", "wasm")]))
    generated = [(name, data) for name, data, _types, _module in random_modules(given.random // 10, given.seed)]

    def inputs():
        yield from changed(small, given.every)
        yield from examples
        yield from generated
        yield from random_changes(small + examples + generated[:50], given.random, given.seed)
        yield from named_files(given.files)

    check_declarations(given.random // 10, given.seed, compared)
    with multiprocessing.Pool(given.jobs) as pool:
        for one in pool.imap_unordered(compare_chunk, chunks(inputs(), program, not given.no_v8)):
            compared.add(one)
    for text in compared.differ[:50]:
        print(text)
    for kind, count in sorted(compared.kinds.items()):
        print("%8d %s" % (count, kind))
    for reason, count in sorted(compared.known.items()):
        print("%8d where V8 differs by intent: %s" % (count, reason))
    row = (sum(compared.kinds.values()), given.random // 10, compared.with_v8, len(compared.differ))
    print("%d lines and %d declarations compared, %d with V8, %d differ" % row)
    return bool(compared.differ)


if __name__ == "__main__":
    sys.exit(main())
