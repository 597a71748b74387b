#!/usr/bin/env python3
"""Types the commands of the top folder as a stranger does, right and wrong, and compares what they print and end with.

python3 tools/commands.py          with the programs built (./run, ./session and ./session --record build them)
python3 tools/commands.py --try    the same without them, with --try; rows that are run then take a minute or two each
python3 tools/commands.py --quick  no row that a program or the toolchain has to run: it needs Python alone

Each row has the words, standard output, the first line of standard error, what else stands there, and the status. The
lines `./run ..` and `./session ..` of README.md and other pages are run, too, and code in Rust of README.md and EMBEDDING
must stand in an example. It prints what differs and how many rows it compared, and ends with 1 where something differs.
"""

import glob
import os
import re
import shlex
import subprocess
import sys
import tempfile

TOP = os.path.join(os.path.dirname(os.path.abspath(__file__)), "..")
PAGES = ["README.md", "docs/SESSIONS.md", "examples/README.md", "examples/wasm/README.md"]
RUST_PAGES = ["README.md", "docs/EMBEDDING.md"]
HASH = "examples/wasm/hash.wasm"
ABC = "ok values i32:-1166534977"
TAPING = "crates/mullerpink_replay/out/mullerpink_replay"
BUILT = {"run": "crates/mullerpink_run/out/mullerpink_run", "session": "crates/mullerpink/out/mullerpink"}


def part(number, *pieces):
    """A section, or a body without its number: its size and its bytes."""
    content = b"".join(piece if isinstance(piece, bytes) else bytes(piece) for piece in pieces)
    return bytes([*number, len(content)]) + content


def module(*sections):
    return b"\0asm\1\0\0\0" + b"".join(sections)


def named(name):
    return bytes([len(name)]) + name.encode()


I32, I64, F64 = 0x7F, 0x7E, 0x7C
# part: (i32, i32) -> (i32) divides; forever: () -> (); wide: (i64) -> (i64); float: (f64) -> (); memory
NUMBERS = module(
    part([1], [4, 0x60, 2, I32, I32, 1, I32, 0x60, 0, 0, 0x60, 1, I64, 1, I64, 0x60, 1, F64, 0]),
    part([3], [4, 0, 1, 2, 3]),
    part([5], [1, 0, 1]),
    part([7], [5], named("part"), [0, 0], named("forever"), [0, 1], named("wide"), [0, 2], named("float"), [0, 3],
         named("memory"), [2, 0]),
    part([10], [4], part([], [0, 0x20, 0, 0x20, 1, 0x6D, 0x0B]), part([], [0, 0x03, 0x40, 0x0C, 0, 0x0B, 0x0B]),
         part([], [0, 0x20, 0, 0x0B]), part([], [0, 0x0B])),
)
# alloc: (i32) -> (i32) answers 0; front: (i32, i32, i32) -> (i32) the first argument; none: () -> (); memory
TAKER = module(
    part([1], [3, 0x60, 1, I32, 1, I32, 0x60, 3, I32, I32, I32, 1, I32, 0x60, 0, 0]),
    part([3], [3, 0, 1, 2]),
    part([5], [1, 0, 1]),
    part([7], [4], named("alloc"), [0, 0], named("front"), [0, 1], named("none"), [0, 2], named("memory"), [2, 0]),
    part([10], [3], part([], [0, 0x41, 0, 0x0B]), part([], [0, 0x20, 0, 0x0B]), part([], [0, 0x0B])),
)
TYPE, ONE = part([1], [1, 0x60, 0, 0]), part([3], [1, 0])
EXPORT = part([7], [1], named("f"), [0, 0])


def function(*code):
    """A module with one function of this code, which it exports as `f`."""
    return module(TYPE, ONE, EXPORT, part([10], [1], part([], [0], code, [0x0B])))


FILES = {
    "numbers.wasm": NUMBERS,
    "taker.wasm": TAKER,
    "hello.txt": b"hello",
    "longest.txt": bytes(1 << 24),
    "float.wasm": function(0x44, 0, 0, 0, 0, 0, 0, 0, 0, 0x1A),
    "convert.wasm": function(0x41, 0, 0xB7, 0x1A),
    "tail.wasm": function(0x12, 0),
    "vector.wasm": function(0xFD, 0x0C),
    "untyped.wasm": function(0x41, 0, 0x02, 0x40, 0x1A, 0x0B),
    "import.wasm": module(TYPE, part([2], [1], named("host"), named("charge"), [0, 0]), part([7], [1], named("f"), [0, 0])),
    "shared.wasm": module(part([5], [1, 3, 1, 1])),
    "cut.wasm": NUMBERS[:70],
    "object.wasm": module(TYPE, ONE, part([10], [1], part([], [0, 0x0B])), part([0], named("linking"), [2])),
    "component.wasm": b"\0asm\x0d\0\1\0",
    "text.wasm": b"(module)",
    "empty.wasm": b"",
    "table.wasm": module(TYPE, ONE, part([4], [1, 0x70, 0, 3]), EXPORT, part([10], [1], part([], [0, 0x0B]))),
    "large.wasm": module(TYPE, ONE, part([4], [1, 0x70, 0, 0x80, 0x80, 0x80, 0x40]), EXPORT, part([10], [1], part([], [0, 0x0B]))),
    "native.o": b"\x7fELF\2\1\1",
    "long.wasm": bytes((1 << 24) + 1),
    "brackets.json": b'{"commands": [',
    "fly.json": b'{"commands": [{"do": "fly"}]}',
    "immediates.json": b'{"types": [{}], "modules": [{"functions": [{"type": 0, "code": [["i32.store", 0]]}]}], "commands": []}',
    "untyped.json": b'{"types": [{}], "modules": [{"functions": [{"type": 0, "code": [["i32.const", 1], ["block", 0, '
                    b'[["drop"]]]]}]}], "commands": []}',
}
LISTED = """exports
  part (i32, i32) -> (i32)
  forever () -> ()
  wide (i64) -> (i64)
  float (f64) -> ()
  memory: memory of 1 page
imports
  none"""

# What the scripts themselves answer, built or not: the words, standard output, the first line of standard error, what
# else stands there, the status.
WORDS = [
    ("./run", "", "run: usage: ./run [OPTION..] FILE.wasm [NAME ARG..]; ./run --help says more", "", 64),
    ("./run --feul 5 {numbers.wasm} part 6 2", "", "run: there is no option --feul", "--fuel", 64),
    ("./run {numbers.wasm} part 6 2 --feul 5", "", "run: there is no option --feul", "--fuel", 64),
    ("./run --fuel=5 {numbers.wasm} part 6 2", "", "run: there is no option --fuel=5: write --fuel 5", "", 64),
    ("./run -x {numbers.wasm}", "", "run: there is no option -x", "", 64),
    ("./run {numbers.wasm} part 6 2 --fuel", "", "run: --fuel wants a number behind it", "", 64),
    ("./run {numbers.wasm} --turns 0 part 6 2", "", "run: --turns wants a number from 1 to 1000000000, and not 0", "", 64),
    ("./run {numbers.wasm} --pages 4294967296 part 6 2", "",
     "run: --pages wants a number from 0 to 4294967295, and not 4294967296", "", 64),
    ("./run {numbers.wasm} --elements x part 6 2", "",
     "run: --elements wants a number from 0 to 4294967295, and not x", "", 64),
    ("./run {numbers.wasm} --fuel -1 part 6 2", "", "run: --fuel wants a number from 0 to 18446744073709551615, and not -1", "", 64),
    ("./run {numbers.wasm} -- --fuel", "", "run: the program takes --fuel for its option: no export of this name can be called", "", 64),
    ("./run {taker.wasm} -- --in", "", "run: the program takes --in for its option: no export of this name can be called", "", 64),
    ("./run {taker.wasm} front 2 --in", "", "run: --in wants a file behind it", "", 64),
    ("./run {taker.wasm} --out", "", "run: --out wants a file behind it", "", 64),
    ("./run --in absent.txt {taker.wasm} front 2", "", "run: there is no file absent.txt", "", 66),
    ("./run --in examples {taker.wasm} front 2", "", "run: examples is a directory", "", 66),
    ("./run --out examples {taker.wasm} front 2", "", "run: examples is a directory", "", 66),
    ("./run --out absent/file {taker.wasm} front 2", "", "run: there is no directory for absent/file", "", 66),
    ("./run examples", "", "run: examples is a directory", "", 66),
    ("./run absent.wasm part", "", "run: there is no file absent.wasm", "", 66),
    ("./run {numbers.wasm}", LISTED, "", "", 0),
    ("./run {import.wasm}", "exports\n  f () -> ()\nimports\n  host.charge () -> ()", "", "", 0),
    ("./run {object.wasm}", "exports\n  none\nimports\n  none", None, "link it: wasm-ld --no-entry --export-all", 0),
    ("./run {text.wasm}", "", "malformed", "text format: wat2wasm", 5),
    ("./session a b", "", "session: one script at a time, and not 2: ./session --help says more", "", 64),
    ("./session --chek examples/add.json", "", "session: there is no option --chek", "--check", 64),
    ("./session --try --fast examples/add.json", "", "session: of --try, --fast and --check one alone", "", 64),
    ("./session --check", "", "session: --check wants a file: ./session --check FILE", "", 64),
    ("./session examples", "", "session: examples is a directory", "", 66),
    ("./session absent.json", "", "session: there is no file absent.json", "", 66),
    ("./session --record", "", "session: --record wants a file behind it", "", 64),
    ("./session --record tape --replay tape examples/add.json", "", "session: of --record and --replay one alone", "", 64),
    ("./session --record tape --fast examples/add.json", "", "session: --fast and --check have no tape", "", 64),
    ("./session --replay absent.tape examples/add.json", "", "session: there is no file absent.tape", "", 66),
    ("./session --fast examples/add.json", "ok instance 0\nok func 0\nok values i32:42",
     "session: the second executor in tools runs this, written apart from the program: nothing of it is proved", "", 0),
    ("./session --fast {untyped.json}", "", None, "modules[0].functions[0].code[1][2][0] breaks the rule Body", 7),
    ("./session examples/add.json --seconds 5", "", "session: --steps and --seconds are for --try alone", "", 64),
]
# What the program refuses, or the readers in tools where it is not built.
REFUSED = [
    ("./run {float.wasm} f", "", "unsupported 30 68", "in function 0 (f): f64.const (computing with floats)", 5),
    ("./run {convert.wasm} f", "", "unsupported 32 183", "f64.convert_i32_s (computing with floats)", 5),
    ("./run {tail.wasm} f", "", "unsupported 30 18", "return_call (tail calls)", 5),
    ("./run {vector.wasm} f", "", "unsupported 30 253", "(vectors)", 5),
    ("./run {shared.wasm} f", "", "unsupported 11 3", "a shared memory (threads)", 5),
    ("./run {cut.wasm} f", "", "malformed", "byte 43, outside of all sections: a size or a count here passes the end", 5),
    ("./run {text.wasm} f", "", "malformed", "wat2wasm", 5),
    ("./run {empty.wasm} f", "", "malformed", "it is empty", 5),
    ("./run {native.o} f", "", "malformed", "clang --target=wasm32", 5),
    ("./run {component.wasm} f", "", "malformed", "it is a component", 5),
    ("./run examples/add.json add 40 2", "", "malformed", "./session runs those", 5),
    ("./run {long.wasm} f", "", "TooLong", "more than 2^24 bytes", 4),
    ("./run {object.wasm} f", "", "NoFunction", "it is an object file of clang -c", 6),
    ("./run {numbers.wasm} prat 6 2", "", "NoFunction", "part (i32, i32) -> (i32)", 6),
    ("./run {numbers.wasm} memory", "", "NoFunction", "it exports no function memory", 6),
    ("./run {untyped.wasm} f", "", "InvalidModule 0 Body functions 0", "at code[1][2][0] (drop): before it the stack is empty", 7),
    ("./run {numbers.wasm} part 6", "", "BadArguments", "part wants 2 arguments, (i32, i32), and got 1", 10),
    ("./run {numbers.wasm} part 6 x", "", "BadArguments", "argument 2 of part is x, and wants a whole number of type i32", 10),
    ("./run {numbers.wasm} part 6 0x100000000", "", "BadArguments", "argument 2 of part is 4294967296", 10),
    ("./run {numbers.wasm} float 1", "", "BadArguments", "floats and references are no words", 10),
    ("./run --in {hello.txt} {numbers.wasm} part 6", "", "TakesNoBytes alloc", "it exports no function alloc (i32) -> (i32)", 13),
    ("./run --in {hello.txt} {table.wasm} f", "", "TakesNoBytes memory", "it exports no memory of the name memory", 13),
    ("./run --in {hello.txt} {taker.wasm} alloc 6", "", "TakesNoBytes function", "alloc (i32) -> (i32) does not take bytes", 13),
    ("./run --out {folder}/none {taker.wasm} none", "", "TakesNoBytes function", "none () -> () does not take bytes", 13),
    ("./run --in {hello.txt} {taker.wasm} back", "", "NoFunction", "front (i32, i32, i32) -> (i32)", 6),
    ("./run --in {hello.txt} {taker.wasm} front", "", "BadArguments", "front wants 1 arguments, (i32), beside its bytes, and got 0", 10),
    ("./run {taker.wasm} front 2", "", "BadArguments", "front wants 3 arguments, (i32, i32, i32), and got 1", 10),
    ("./run --in {longest.txt} {taker.wasm} front 2", "", "TooLong", "with the bytes of --in it has more than 2^24", 4),
    ("./run --in {long.wasm} {taker.wasm} front 2", "", "TooLong", "with the bytes of --in it has more than 2^24", 4),
    ("./run {import.wasm} f", "refused ImportCount", None, "it wants host.charge () -> ()", 0),
    ("./run {import.wasm} --strict f", "refused ImportCount", None, "it wants host.charge () -> ()", 12),
    ("./session {brackets.json}", "", "BadJson", "", 5),
    ("./session {fly.json}", "", "BadScript", "commands[0] is at fault", 6),
    ("./session {immediates.json}", "", "BadScript", "behind the name i32.store stands: a memory, an offset", 6),
    ("./session {untyped.json}", "", "InvalidModule 0 Body functions 0", "it wants", 7),
    ("./session examples/wasm/hash.wasm", "", "BadJson", "which ./run takes", 5),
]
CALLED = "ok func 0\nok instance 0\nok func 1\nok values i32:16\nrefused HostFault"
# What the programs run; the first few are also tried.
RUN = [
    ("./run {hash} sha256 3 0", ABC, "", "", 0),
    ("./run --in {hello.txt} {taker.wasm} front 2", "ok bytes 6865", "", "", 0),
    ("./run --in {hello.txt} --out {folder}/out {taker.wasm} front 0x4", "", "", "", 0),
    ("./run {numbers.wasm} --strict part 6 0", "trap IntegerDivisionByZero", None, "an integer was divided by zero", 11),
    ("./session examples/add.json", "ok instance 0\nok func 0\nok values i32:42", "", "", 0),
    ("./run --fuel 0x10 {numbers.wasm} part 0x6 -0x2", "ok values i32:-3", "", "", 0),
    ("./run {numbers.wasm} part 6 --fuel 100 2", "ok values i32:3", "", "", 0),
    ("./run {numbers.wasm} wide 0xffffffffffffffff", "ok values i64:-1", "", "", 0),
    ("./run {numbers.wasm} part 6 0", "trap IntegerDivisionByZero", "run: {numbers.wasm}: an integer was divided by zero", "", 0),
    ("./run --fuel 50 {numbers.wasm} forever", "trap OutOfFuel", "run: {numbers.wasm}: the fuel of --fuel N was used up", "", 0),
    ("./run --strict --turns 50 {numbers.wasm} forever", "refused TurnLimit", None, "--turns N", 12),
    ("./run --pages 0 {numbers.wasm} forever", "refused GrowFailed", None, "--pages N", 0),
    ("./run --elements 2 {table.wasm} f", "refused GrowFailed", None, "--elements N", 0),
    ("./run --elements 3 {table.wasm} f", "ok values", "", "", 0),
    ("./run {large.wasm} f", "refused GrowFailed", None, "--elements N", 0),
    ("./run --in {folder}/out {taker.wasm} front 5", "ok bytes 68656c6c00", "", "", 0),
    ("./run --out {folder}/empty {taker.wasm} front 0", "", "", "", 0),
    ("./run --in {folder}/empty {taker.wasm} front 0", "ok bytes", "", "", 0),
    ("./run --in {hello.txt} --out {folder}/out {taker.wasm} front -1", "refused MemoryAccessError", None, "the end of the memory", 0),
    ("./run --in {folder}/out --strict {taker.wasm} front 65537", "refused MemoryAccessError", None, "the end of the memory", 12),
    ("./run --in {folder}/out {taker.wasm} front 4", "ok bytes 68656c6c", "", "", 0),
    ("./run --in {hello.txt} --out /dev/full {taker.wasm} front 5", "", "WriteFault",
     "run: the bytes could not be written to /dev/full", 9),
    ("./session {linked} examples/add.json", None, None, "one script at a time", 64),
    ("./session --record {folder}/tape.json examples/callback.json", CALLED, "", "", 0),
    ("./session --replay {folder}/tape.json examples/callback.json", CALLED + "\nreplay Same", "", "", 0),
    ("./session --replay {folder}/tape.json examples/add.json", "ok instance 0\nok func 0\nok values i32:42\nreplay Left steps",
     "NotSame", "the replay left its tape", 14),
    ("./session --replay {fly.json} examples/add.json", "", "BadTape", "is no tape over the types of this script", 11),
    ("./session --record {folder}/none.json examples/hooks.json", "", "Hooked", "whose answers stand on no tape", 10),
    ("./session --record {folder}/none.json {fly.json}", "", "BadScript", "commands[0] is at fault", 6),
    ("./session --record /dev/full examples/add.json", "", None, "the tape could not be written to /dev/full", 9),
]
TRIED = 5
# What a toolchain that is put in place of `rt` says and ends with, and what ./run --try makes of it.
TRIALS = [
    ("run=ended status=0 runners=1 proved=no", 0, "ok values i32:3", "", "", 0),
    ("NoFunction\nchecked: ended status=6\nrun=ended status=6 runners=1 proved=no", 6, "", "NoFunction", "it exports", 6),
    ("interpreter: no-answer: the run did not finish within 1000 steps: the program may loop forever\nchecked: no-answer: "
     "the program did not end within the time limit\nrun=no-answer proved=no", 6, "",
     "checked: no-answer: the program did not end within the time limit", "more than 600 seconds by --seconds N", 75),
    ("checked: fault: an index is out of bounds\nrun=fault proved=no", 4, "", "checked: fault: an index is out of bounds",
     "did not run to their end", 70),
    ("error: expected a semicolon\nrun=none proved=no", 1, "", "error: expected a semicolon", "did not run to their end", 1),
    ("rt: stopped\nrun=none proved=no", 2, "", "rt: stopped", "did not run to their end", 70),
    ("antt hit a limit\nrun=none proved=no", 3, "", "antt hit a limit", "did not run to their end", 70),
    ("run=differ proved=no", 5, "", "run: the toolchain said that: the sources did not run to their end", "", 70),
]
SLOW = ("./run --try --seconds 1 {numbers.wasm} forever", "", "checked: no-answer: the program did not end within the time limit",
        "--seconds N", 75)
compared, differ = 0, 0


def read(path):
    with open(os.path.join(TOP, path), encoding="utf-8") as file:
        return file.read()


def same(where, got, wanted):
    global compared, differ
    compared += 1
    if got != wanted:
        differ += 1
        print("%s:\n  is     %r\n  wanted %r" % (where, got, wanted))


def done_by(words, **other):
    run = subprocess.run(words, capture_output=True, text=True, cwd=TOP, stdin=subprocess.DEVNULL, **other)
    said = [line for line in run.stderr.splitlines() if "running the sources, of which" not in line]
    return run.stdout.strip("\n"), said, run.returncode


def check_row(row, folder, option):
    """Compares a row, with this option behind the command; text of `None` may be anything."""
    def filled(text):
        return re.sub(r"\{(\w+\.\w+)\}", lambda name: os.path.join(folder, name.group(1)),
                      text.replace("{hash}", HASH).replace("{folder}", folder))
    words, out, first, more, status = row
    command, *rest = shlex.split(filled(words))
    got, said, ended = done_by([command, *option, *rest])
    where = " ".join([command, *option, *rest])
    same(where + ", its status", ended, status)
    if out is not None:
        same(where + ", standard output", got, out)
    if first is not None:
        same(where + ", standard error", (said or [""])[0], filled(first))
    same(where + ", that it says: " + more + "\n" + "\n".join(said), more in "\n".join(said), True)


def check_help():
    for name in BUILT:
        page = read("tools/told/%s.txt" % name).strip("\n")
        for words in (["--help"], ["-h"], ["absent", "--help"]):
            same("./%s %s" % (name, " ".join(words)), done_by(["./" + name, *words]), (page, [], 0))
        same("./%s --help, at most 120 columns" % name, max(map(len, page.splitlines())) <= 120, True)


def check_trials(folder):
    """What the toolchain says of a trial or a build that does not end well is handed on, with a status of the script's own."""
    path, place = os.path.join(folder, "rt"), {"env": {**os.environ, "PATH": folder + ":" + os.environ["PATH"]}}
    for said, status, line, first, more, wanted in TRIALS:
        with open(path, "w", encoding="utf-8") as file:
            file.write("#!/bin/sh\necho '%s' >&2\n%s\nexit %d\n" % (said, line and "echo " + line, status))
        os.chmod(path, 0o755)
        got, lines, ended = done_by(["./run", "--try", os.path.join(folder, "numbers.wasm"), "part", "6", "2"], **place)
        same("a trial that says " + said, (got, (lines or [""])[0], ended), (line, first, wanted))
        same("a trial that says %s, that it says: %s" % (said, more), more in "\n".join(lines), True)
    for name in BUILT:
        if not os.path.exists(os.path.join(TOP, BUILT[name])):
            words = ["./run", HASH, "sha256", "3", "0"] if name == "run" else ["./session", "examples/add.json"]
            said, ended = done_by(words, **place)[1:]
            same(name + ", a build that fails", ended, 1)
            same(name + ", how long a build takes", [bool(re.search(text, line)) for text, line in zip(
                ("are proved and compiled first", r"up to \d+ processor minutes", "--try"), said)], [True] * 3)


def check_link(folder):
    """Each command works through a symbolic link, from another folder."""
    for name in BUILT:
        link = os.path.join(folder, name)
        os.symlink(os.path.join(TOP, name), link)
        same("%s through a link" % name, done_by([link, "--help"])[2], 0)
    same("the list through a link", done_by([os.path.join(folder, "run"), os.path.join(folder, "numbers.wasm")])[0], LISTED)


def check_pages(is_tried):
    """Each line of a page that calls a command is run, and prints what the page beside the file says."""
    calls = re.findall(r"^\| `(\w+)\.wasm` \| `(.*?)` \| `(.*?)` \|", read("examples/wasm/README.md"), re.M)
    lines = {"examples/wasm/%s.wasm %s" % row[:2]: row[2] for row in calls}
    for path in sorted(glob.glob(os.path.join(TOP, "examples/*.json"))):
        lines["examples/" + os.path.basename(path)] = read(path.replace(".json", ".txt")).strip("\n")
    for page in PAGES:
        for block in re.findall(r"^```sh\n(.*?)^```$", read(page), re.M | re.S):
            for line in re.findall(r"^(\./(?:run|session) .*?)(?: *#.*)?$", block, re.M):
                wanted = next((lines[key] for key in lines if line.endswith(key)), None)
                if "--check" in line or "--fast" in line or ("--try" in line) == is_tried:
                    got, said, status = done_by(shlex.split(line))
                    same("%s, %s: %s" % (page, line, said), status, 0)
                    if "--check" not in line and wanted is not None:
                        same("%s, %s" % (page, line), got, wanted)


def check_rust():
    """Each line of code in Rust of a page stands in one example."""
    sources = {path: {line.strip() for line in read(path).splitlines()} for path in
               glob.glob(os.path.join(TOP, "crates/example_*/src/*.rt"))}
    for page in RUST_PAGES:
        for block in re.findall(r"^ *```rust\n(.*?)^ *```$", read(page), re.M | re.S):
            lines = {re.sub(r" *//.*", "", line).strip() for line in block.splitlines()} - {""}
            same("%s, code that stands in an example:\n%s" % (page, block), any(lines <= there for there in sources.values()), True)


def main():
    option, is_quick = (["--try"], False) if "--try" in sys.argv else ([], "--quick" in sys.argv)
    if not option and not is_quick and not all(os.path.exists(os.path.join(TOP, path)) for path in [*BUILT.values(), TAPING]):
        sys.exit("build the programs by ./run and ./session first, or see --try and --quick in the head of this file")
    check_help()
    check_rust()
    with tempfile.TemporaryDirectory() as folder:
        for name, content in FILES.items():
            with open(os.path.join(folder, name), "wb") as file:
                file.write(content)
        for row in WORDS:
            check_row(row, folder, [])
        check_link(folder)
        check_trials(folder)
        for row in REFUSED:
            check_row(row, folder, ["--try"] if is_quick else option)
        if is_quick:
            rows = []
        elif option:
            rows = [*RUN[:TRIED], SLOW]
        else:
            rows = RUN
        for row in rows:
            check_row(row, folder, [] if row is SLOW else option)
    if not is_quick:
        check_pages(bool(option))
    print("%d compared, %d differ" % (compared, differ))
    return differ != 0


if __name__ == "__main__":
    sys.exit(main())
