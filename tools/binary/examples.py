#!/usr/bin/env python3
"""Holds the table of examples/wasm/README.md against the compiler, a native run, and a program for sessions.

python3 tools/binary/examples.py [PROGRAM]

PROGRAM is the built program, that of ./run, or an executor in Python, by default tools/executor/main.py. Each module is
compiled anew by the commands of that page, and must be the file that stands there, and so is the module of
crates/example_guests; each row is called natively, by gcc, and by PROGRAM: as the words of ./run, or as a session that
tools/binary/to_session.py makes of the module. A row with bytes is called by PROGRAM alone, in sessions by the commands
that the page names. It prints what differs and how many comparisons it made, and ends with 1 where something differs. It
needs clang 14, lld, gcc, rustc 1.63 and libstd-rust-dev-wasm32; what is not there is left out, and said.
"""

import json
import os
import re
import shutil
import subprocess
import sys
import tempfile

import reader
from to_session import session_of

TOP = os.path.join(os.path.dirname(os.path.abspath(__file__)), "..", "..")
FOLDER = os.path.join(TOP, "examples", "wasm")
DATA = os.path.join(TOP, "crates", "example_guests", "data")
TURNS = 1000000000
COMPILER = os.environ.get("RUSTC", "/usr/bin/rustc")
NOT_NATIVE = ("pages",)  # a native program has no pages
compared, differ = 0, 0


def same(where, got, wanted):
    global compared, differ
    compared += 1
    if got != wanted:
        differ += 1
        print("%s:\n  is     %r\n  wanted %r" % (where, got, wanted))


def run(words, **options):
    return subprocess.run(words, capture_output=True, **options)


def contents(path):
    with open(path, "rb") as file:
        return file.read()


def check_rust(page):
    """The module in Rust is what the command of the page makes."""
    command = re.search(r"^rustc .* (\w+)\.rs$", page, re.M)
    words, name = command.group(0).split(), command.group(1)
    words[0] = COMPILER
    if not (shutil.which(COMPILER) and run([COMPILER, "--version"]).stdout.startswith(b"rustc 1.63")):
        print("no module was compiled anew of Rust: rustc 1.63 is not there")
        return
    with tempfile.TemporaryDirectory() as folder:
        shutil.copy(os.path.join(FOLDER, name + ".rs"), folder)
        run(words, cwd=folder, check=True)
        made = contents(os.path.join(folder, name + ".wasm"))
        same(name + ".wasm, compiled anew", made, contents(os.path.join(FOLDER, name + ".wasm")))


def check_c(page, names):
    """Each module in C is what the commands of the page make."""
    commands = re.search(r"^```sh\n(.*?)^```$", page, re.M | re.S).group(1).splitlines()
    if not all(shutil.which(command.split()[0]) for command in commands):
        print("no module was compiled anew: clang or wasm-ld is not there")
        return
    with tempfile.TemporaryDirectory() as folder:
        for name, place in [*((name, FOLDER) for name in names), ("tally", DATA)]:
            for command in commands:
                words = [word.replace("NAME", name) for word in command.split()]
                words = [os.path.join(folder, word) if word.endswith((".o", ".wasm")) else word for word in words]
                run(words, cwd=place, check=True)
            made = contents(os.path.join(folder, name + ".wasm"))
            same(name + ".wasm, compiled anew", made, contents(os.path.join(place, name + ".wasm")))


def native_line(name, words):
    call = "%s(%s)" % (words[0], ", ".join(words[1:]))
    with tempfile.TemporaryDirectory() as folder:
        out = os.path.join(folder, "native")
        made = ["gcc", "-w", "-O1", "-include", name + ".c", "-DCALL=" + call, "native.c", "-o", out]
        run(made, cwd=FOLDER, check=True)
        return run([out]).stdout.decode().strip()


def declaration_of(name):
    return reader.read(contents(os.path.join(FOLDER, name + ".wasm"))).declaration()


def last_line(program, script):
    command = [sys.executable, program] if program.endswith(".py") else [program, "run"]
    done = run(command, input=json.dumps(script).encode())
    return (done.stdout.decode() + done.stderr.decode()).strip().split("\n")[-1]


def session_line(program, name, words):
    """The line of the call in a session, which is the last one."""
    return last_line(program, session_of(declaration_of(name), words[0], list(map(int, words[1:])), {"turns": TURNS}))


def run_line(program, name, words, given=b""):
    """The line of the call by the program that takes its words, and the bytes before the module."""
    done = run([program] + words, input=given + contents(os.path.join(FOLDER, name + ".wasm")))
    return (done.stdout.decode() + done.stderr.decode()).strip()


def number_of(line, kind):
    """The number without a sign of a line of one value, or none."""
    found = re.fullmatch("ok values %s:(-?[0-9]+)" % kind, line)
    return None if found is None else int(found.group(1)) % (1 << int(kind[1:]))


def session_of_bytes(name, words):
    """A session of the first commands of a call with bytes: an instance, and its exports."""
    declaration = declaration_of(name)
    commands = [{"do": "instantiate", "module": 0}] + [
        {"do": "get_export", "instance": 0, "name": name} for name in ("memory", "alloc", words[0])]
    return {"engine": {"turns": TURNS}, "types": declaration["types"], "modules": [declaration["module"]], "commands": commands}


def session_bytes_line(program, name, words, given):
    """The line of a call with bytes in sessions, each by what the one before it told."""
    script, length = session_of_bytes(name, words), {"i32": len(given)}
    def line_of(*commands):
        script["commands"] += commands
        return last_line(program, script)
    at = number_of(line_of({"do": "call", "func": 2, "args": [length]}), "i32")
    line = line_of(
        {"do": "memory_write", "memory": 1, "at": at, "bytes": given.hex()},
        {"do": "call", "func": 3, "args": [*({"i32": int(word)} for word in words[1:]), {"i32": at}, length]})
    both, place = number_of(line, "i64"), at
    if both is not None:
        place, count = both >> 32, both % (1 << 32)
    else:
        count = number_of(line, "i32")
    return line_of({"do": "memory_read", "memory": 1, "at": place, "len": count})


def bytes_of(text):
    """The bytes of a text of the page, in which a line ends as \\n."""
    return text.replace("\\n", "\n").encode()


def main():
    program = os.path.abspath(sys.argv[1] if sys.argv[1:] else os.path.join(TOP, "tools", "executor", "main.py"))
    page = contents(os.path.join(FOLDER, "README.md")).decode()
    rows = re.findall(r"^\| `(\w+)\.wasm` \| `(.*?)` \| `(.*?)` \|", page, re.M)
    bytes_rows = re.findall(r"^\| `([^`]*)` \| `(\w+)\.wasm (.*?)` \| `([^`]*)` \|", page, re.M)
    names = sorted({row[0] for row in rows} | {row[1] for row in bytes_rows})
    files = sorted(file[:-5] for file in os.listdir(FOLDER) if file.endswith(".wasm"))
    same("the modules that the table names", names, files)
    check_c(page, [name for name in names if os.path.exists(os.path.join(FOLDER, name + ".c"))])
    check_rust(page)
    is_run = os.path.basename(program) == "mullerpink_run"
    for name, call, line in rows:
        words = call.split()
        if shutil.which("gcc") and words[0] not in NOT_NATIVE:
            same("%s %s, natively" % (name, call), native_line(name, words), line)
        line_by = run_line if is_run else session_line
        same("%s %s, by the program" % (name, call), line_by(program, name, words), line)
    for text, name, call, answer in bytes_rows:
        given, words = bytes_of(text), call.split()
        got = (run_line(program, name, ["--in", str(len(given)), *words], given) if is_run
               else session_bytes_line(program, name, words, given))
        same("%s %s, by the program" % (name, call), got, ("ok bytes " + bytes_of(answer).hex()).strip())
    print("%d compared, %d differ" % (compared, differ))
    return differ != 0


if __name__ == "__main__":
    sys.exit(main())
