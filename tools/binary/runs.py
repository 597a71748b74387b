#!/usr/bin/env python3
"""The rows of crates/vectors_runs: words and a module in the binary format, and how a run of them ends and what it writes.

python3 tools/binary/runs.py --write    makes the rows of the crate anew, its files stdin and stdout; needs wabt
python3 tools/binary/runs.py PROGRAM    runs the command on the words and the bytes of each row, and compares its exit
                                        status, its standard output and its standard error with the row

What is wanted was written by hand, from examples/wasm/README.md and docs/SESSIONS.md. The rows in which a read or a write
fails are the crate's alone. One row more is the program's alone, since it takes half a gibibyte: past 2^24 locals of one
module memory may be wanting. It prints what differs and how many rows it compared, and ends with 1 where something differs.
"""

import json
import os
import subprocess
import sys
import tempfile

HERE = os.path.dirname(os.path.abspath(__file__))
CRATE = os.path.join(HERE, "..", "..", "crates", "vectors_runs")
NAMES = {
    0: "Done", 2: "BadWords", 3: "ReadFault", 4: "TooLong", 6: "NoFunction", 8: "OutOfMemory", 9: "WriteFault",
    10: "BadArguments",
}
# The statuses whose name stands in the row.
TOLD = (5, 7, 13)

NUMBERS = """(module
  (func (export "add") (param i32 i32) (result i32) local.get 0 local.get 1 i32.add)
  (func (export "wide") (param i64) (result i64) local.get 0)
  (func (export "none"))
  (func (export "two") (result i32 i64) i32.const -1 i64.const 2)
  (func (export "part") (param i32 i32) (result i32) local.get 0 local.get 1 i32.div_s)
  (func (export "--fuel"))
  (func (export "") (result i32) i32.const 7)
  (func (export "gr\\c3\\b6\\c3\\9fe") (result i32) i32.const 8))"""

OTHERS = """(module
  (global $half f32 (f32.const 0.5))
  (func $self (export "self") (result funcref) ref.func $self)
  (func (export "nulls") (result funcref externref) ref.null func ref.null extern)
  (func (export "half") (result f32) global.get $half)
  (func (export "float") (param f32) (result f32) local.get 0)
  (func (export "reference") (param externref))
  (global (export "global") i32 (i32.const 0)))"""

MEMORY = """(module
  (memory (export "memory") 1 3)
  (func (export "load") (param i32) (result i32) local.get 0 i32.load)
  (func (export "grow") (param i32) (result i32) local.get 0 memory.grow)
  (func (export "twice") (param i32 i32) (result i32 i32) local.get 0 memory.grow local.get 1 memory.grow)
  (func (export "fill") (param i32) i32.const 0 i32.const 7 local.get 0 memory.fill))"""

TABLES = """(module
  (table $first 1 5 funcref)
  (table 2 funcref)
  (func (export "f"))
  (func (export "twice") (param i32 i32) (result i32 i32)
    ref.null func local.get 0 table.grow $first ref.null func local.get 1 table.grow $first))"""

ENDS = """(module
  (table 2 funcref)
  (elem (i32.const 0) $deep)
  (type $number (func (result i32)))
  (func $deep (export "deep") call $deep)
  (func (export "trap") unreachable)
  (func (export "forever") (loop (br 0)))
  (func (export "null") i32.const 1 call_indirect)
  (func (export "past") i32.const 2 call_indirect)
  (func (export "other") (result i32) i32.const 0 call_indirect (type $number)))"""

# It takes bytes: `alloc` goes on from 16. `same` answers all of them in place, `front` so many, `behind` those past so many,
# both halves in one; `at` answers what it is given, `sum` adds a number to each byte.
TAKER = """(module
  (memory (export "memory") 1)
  (global $next (mut i32) (i32.const 16))
  (global $half f32 (f32.const 0.5))
  (func (export "alloc") (param $len i32) (result i32)
    global.get $next
    global.get $next local.get $len i32.add global.set $next)
  (func (export "same") (param $at i32) (param $len i32) (result i32) local.get $len)
  (func (export "front") (param $count i32) (param $at i32) (param $len i32) (result i32) local.get $count)
  (func (export "behind") (param $count i32) (param $at i32) (param $len i32) (result i64)
    local.get $at local.get $count i32.add i64.extend_i32_u i64.const 32 i64.shl
    local.get $len local.get $count i32.sub i64.extend_i32_u i64.or)
  (func (export "at") (param $both i64) (param $at i32) (param $len i32) (result i64) local.get $both)
  (func (export "sum") (param $by i32) (param $at i32) (param $len i32) (result i32) (local $n i32)
    (block (loop
      local.get $n local.get $len i32.ge_u br_if 1
      local.get $at local.get $n i32.add
      local.get $at local.get $n i32.add i32.load8_u local.get $by i32.add
      i32.store8
      local.get $n i32.const 1 i32.add local.set $n
      br 0))
    local.get $len)
  (func (export "trap") (param i32 i32) (result i32) unreachable)
  (func (export "forever") (param i32 i32) (result i32) (loop (br 0)) unreachable)
  (func (export "none") (param i32 i32))
  (func (export "two") (param i32 i32) (result i32 i32) local.get 0 local.get 1)
  (func (export "float") (param i32 i32) (result f32) global.get $half)
  (func (export "length") (param i32) (result i32) local.get 0)
  (func (export "wide") (param i64 i32) (result i32) local.get 1)
  (func (export "apart") (param i32 i64) (result i32) local.get 0)
  (func (export "real") (param f64 i32 i32) (result i32) local.get 2))"""

# A module that takes bytes but for one thing.
ALMOST = """(module %s
  (func (export "f") (param i32 i32) (result i32) local.get 1))"""
ALLOC = """(func (export "alloc") (param i32) (result i32) %s)"""
LENT = """(memory (export "memory") 1)"""

TEXTS = {
    "a taker of bytes": TAKER,
    "no memory of the name": ALMOST % ("""(memory (export "mem") 1)""" + ALLOC % "i32.const 0"),
    "a function of the memory's name": ALMOST % ("""(memory 1) (func (export "memory"))""" + ALLOC % "i32.const 0"),
    "no alloc": ALMOST % LENT,
    "a memory of alloc's name": ALMOST % """(memory (export "memory") (export "alloc") 1)""",
    "an alloc of 64 bits": ALMOST % (LENT + """(func (export "alloc") (param i64) (result i32) i32.const 0)"""),
    "an alloc that answers none": ALMOST % (LENT + """(func (export "alloc") (param i32))"""),
    "an alloc that traps": ALMOST % (LENT + ALLOC % "unreachable"),
    "an alloc that answers its length": ALMOST % (LENT + ALLOC % "local.get 0"),
    "an alloc past the end": ALMOST % (LENT + ALLOC % "i32.const -1"),
    "an alloc at the end": ALMOST % (LENT + ALLOC % "i32.const 65536"),
    "a second memory": ALMOST % ("(memory 1)" + LENT + ALLOC % "i32.const 9"),
    "a taker with an import": ALMOST % ("""(import "a" "f" (func))""" + LENT + ALLOC % "i32.const 9"),
    "a taker whose start function traps": ALMOST % (LENT + ALLOC % "i32.const 9" + "(func $f unreachable) (start $f)"),
    "numbers": NUMBERS,
    "others": OTHERS,
    "memory": MEMORY,
    "tables": TABLES,
    "ends": ENDS,
    "a memory of more than 1 GiB": """(module (memory 16385) (func (export "f")))""",
    "a large table": """(module (table 10000001 funcref) (func (export "f")))""",
    "two memories": """(module (memory 1) (memory 1) (func (export "f")))""",
    "an import": """(module (import "a" "f" (func)) (func (export "f") (param i32)))""",
    "a start function that traps": """(module (func $f unreachable) (start $f) (func (export "f")))""",
    "a start function without an end": """(module (func $f (loop (br 0))) (start $f) (func (export "f")))""",
    "data past the end": """(module (memory 1) (data (i32.const 65535) "ab") (func (export "f")))""",
    "elements past the end": """(module (table 1 funcref) (elem (i32.const 1) $f) (func $f (export "f")))""",
    "a body of another type": """(module (func (export "f") (result i32) i64.const 1))""",
    "one name twice": """(module (func (export "f")) (func (export "f")))""",
}
BYTES = {
    "nothing": "",
    "no module": "00",
    "an empty module": "0061736d01000000",
    "a code that is none": "0061736d010000000105016000017f03020100070501016600000a060104001c070b",
    "a function of no type": "0061736d010000000104016000000303020001",
    "a load with an exponent of 3": "0061736d01000000010401600000030201000a08010600280700060b",
    "a supertype that is final": "0061736d01000000010a02600000500100600000",
    "2^24 zeros": "zeros:16777216",
    "more zeros": "zeros:16777217",
}
MILLION_LOCALS = "0061736d01000000010401600000" + "0312" + "11" + "00" * 17 + "0a78" + "11" + "06" + "01c0843d7f0b" + "0601c0843d7f0b" * 16

# A module, words, the exit status, and the line; or where no line is written, what is wrong where that has no one name.
ROWS = [
    ("numbers", "add 40 2", 0, "ok values i32:42"),
    ("numbers", "add -1 4294967295", 0, "ok values i32:-2"),
    ("numbers", "add 2147483648 0", 0, "ok values i32:-2147483648"),
    ("numbers", "add -2147483648 +1", 0, "ok values i32:-2147483647"),
    ("numbers", "wide 18446744073709551615", 0, "ok values i64:-1"),
    ("numbers", "wide -9223372036854775808", 0, "ok values i64:-9223372036854775808"),
    ("numbers", "wide 007", 0, "ok values i64:7"),
    ("numbers", "none", 0, "ok values"),
    ("numbers", "two", 0, "ok values i32:-1 i64:2"),
    ("numbers", "", 0, "ok values i32:7"),
    ("numbers", "größe", 0, "ok values i32:8"),
    ("others", "self", 0, "ok values funcref:0"),
    ("others", "nulls", 0, "ok values funcref:null externref:null"),
    ("others", "half", 0, "ok values f32:3f000000"),
    # options
    ("numbers", "--fuel 1 add 1 2", 0, "ok values i32:3"),
    ("numbers", "--fuel 0 add 1 2", 0, "trap OutOfFuel"),
    ("numbers", "--fuel 0 none", 0, "trap OutOfFuel"),
    ("numbers", "--fuel 18446744073709551615 add 1 2", 0, "ok values i32:3"),
    ("numbers", "--fuel 0 --fuel 1 add 1 2", 0, "ok values i32:3"),
    ("memory", "--fuel 4 fill 100", 0, "ok values"),
    ("memory", "--fuel 3 fill 100", 0, "trap OutOfFuel"),
    ("numbers", "--turns 3 add 1 2", 0, "ok values i32:3"),
    ("numbers", "--turns 2 add 1 2", 0, "refused TurnLimit"),
    ("numbers", "--turns 2 --turns 1000000000 add 1 2", 0, "ok values i32:3"),
    ("memory", "--turns 1 load 0", 0, "refused TurnLimit"),
    ("memory", "--turns 2 load 0", 0, "ok values i32:0"),
    ("memory", "--pages 0 load 0", 0, "refused GrowFailed"),
    ("memory", "--pages 1 grow 0", 0, "ok values i32:1"),
    ("memory", "--pages 1 grow 1", 0, "ok values i32:-1"),
    ("memory", "--pages 2 --turns 5 --fuel 9 grow 1", 0, "ok values i32:1"),
    ("memory", "--pages 4294967295 grow 3", 0, "ok values i32:-1"),
    ("two memories", "--pages 1 f", 0, "refused GrowFailed"),
    ("two memories", "--pages 2 f", 0, "ok values"),
    ("a memory of more than 1 GiB", "f", 0, "refused GrowFailed"),
    ("tables", "--elements 2 f", 0, "refused GrowFailed"),
    ("tables", "--elements 3 f", 0, "ok values"),
    ("tables", "--elements 3 --pages 0 twice 1 0", 0, "ok values i32:-1 i32:1"),
    ("tables", "--elements 7 twice 2 2", 0, "ok values i32:1 i32:3"),
    ("tables", "--elements 6 twice 2 2", 0, "ok values i32:1 i32:-1"),
    ("a large table", "f", 0, "refused GrowFailed"),
    # a growth past the declared maximum fails, and takes nothing
    ("memory", "--pages 2 twice 65535 1", 0, "ok values i32:-1 i32:1"),
    ("memory", "--pages 2 twice 2 1", 0, "ok values i32:-1 i32:1"),
    ("memory", "--pages 3 twice 3 2", 0, "ok values i32:-1 i32:1"),
    ("memory", "--pages 3 twice 1 2", 0, "ok values i32:1 i32:-1"),
    ("tables", "--elements 7 twice 5 4", 0, "ok values i32:-1 i32:1"),
    ("tables", "--elements 7 twice -1 4", 0, "ok values i32:-1 i32:1"),
    # traps and refusals
    ("numbers", "part 1 0", 0, "trap IntegerDivisionByZero"),
    ("numbers", "part -2147483648 -1", 0, "trap IntegerOverflow"),
    ("memory", "load 65532", 0, "ok values i32:0"),
    ("memory", "load 65533", 0, "trap MemoryOutOfBounds"),
    ("memory", "fill 65537", 0, "trap MemoryOutOfBounds"),
    ("ends", "trap", 0, "trap UnreachableCodeReached"),
    ("ends", "deep", 0, "trap StackOverflow"),
    ("ends", "--turns 1000 forever", 0, "refused TurnLimit"),
    ("ends", "--fuel 1000 forever", 0, "trap OutOfFuel"),
    ("ends", "null", 0, "trap IndirectCallToNull"),
    ("ends", "past", 0, "trap TableOutOfBounds"),
    ("ends", "other", 0, "trap BadSignature"),
    ("an import", "f 1", 0, "refused ImportCount"),
    ("a start function that traps", "f", 0, "trap UnreachableCodeReached"),
    ("a start function that traps", "--fuel 0 f", 0, "trap OutOfFuel"),
    ("a start function without an end", "--turns 100 f", 0, "refused TurnLimit"),
    ("data past the end", "f", 0, "trap MemoryOutOfBounds"),
    ("elements past the end", "f", 0, "trap TableOutOfBounds"),
    # words that ask for no call; the bytes are not looked at
    ("no module", None, 2, ""),
    ("no module", "--fuel", 2, ""),
    ("no module", "--fuel 5", 2, ""),
    ("numbers", "--fuel none", 2, ""),
    ("no module", "--fuel x f", 2, ""),
    ("no module", "--fuel -1 f", 2, ""),
    ("no module", "--fuel 18446744073709551616 f", 2, ""),
    ("no module", "--turns 0 f", 2, ""),
    ("no module", "--turns 1000000001 f", 2, ""),
    ("no module", "--pages 4294967296 f", 2, ""),
    ("no module", "--elements 4294967296 f", 2, ""),
    ("no module", "--fuel 1 --turns 1 --pages f", 2, ""),
    # bytes
    ("2^24 zeros", "f", 5, "malformed"),
    ("more zeros", "f", 4, ""),
    ("nothing", "f", 5, "malformed"),
    ("no module", "f", 5, "malformed"),
    ("a code that is none", "f", 5, "unsupported 31 28"),
    ("a function of no type", "f", 5, "index 18"),
    ("a load with an exponent of 3", "f", 5, "alignment 24"),
    ("a supertype that is final", "f", 5, "refused 14"),
    # rules come before names, and names before arguments
    ("a body of another type", "g 1", 7, "InvalidModule 0 Body functions 0"),
    ("one name twice", "f", 7, "InvalidModule 0 ExportName exports 1"),
    ("an empty module", "f", 6, ""),
    ("numbers", "Add 1 2", 6, ""),
    ("numbers", "--steps 1 add 1 2", 6, ""),
    ("others", "global 1", 6, ""),
    ("memory", "memory", 6, ""),
    # arguments; nothing is run where one is wrong
    ("numbers", "add 1", 10, ""),
    ("numbers", "add", 10, ""),
    ("numbers", "add 1 2 3", 10, ""),
    ("numbers", "add 1 ", 10, ""),
    ("numbers", "add 1 x", 10, ""),
    ("numbers", "add 0x10 1", 10, ""),
    ("numbers", "add 1 4294967296", 10, ""),
    ("numbers", "add -2147483649 1", 10, ""),
    ("numbers", "wide 18446744073709551616", 10, ""),
    ("numbers", "wide -9223372036854775809", 10, ""),
    ("numbers", "none --fuel", 10, ""),
    ("others", "float 1", 10, ""),
    ("others", "reference 1", 10, ""),
    ("an import", "f", 10, ""),
]

# The bytes before a module, the module, words, the exit status, and the line or what is wrong.
GIVEN = [
    (b"hello", "a taker of bytes", "--in 5 same", 0, "ok bytes 68656c6c6f"),
    (b"", "a taker of bytes", "--in 0 same", 0, "ok bytes"),
    (b"hello", "a taker of bytes", "--in 5 front 2", 0, "ok bytes 6865"),
    (b"hello", "a taker of bytes", "--in 5 front 6", 0, "ok bytes 68656c6c6f00"),
    (b"hello", "a taker of bytes", "--in 5 behind 3", 0, "ok bytes 6c6f"),
    (b"hello", "a taker of bytes", "--in 5 behind 5", 0, "ok bytes"),
    (b"\x00\xff\x7f", "a taker of bytes", "--in 3 sum 1", 0, "ok bytes 010080"),
    (b"\x00\xff\x7f", "a taker of bytes", "--in 3 --fuel 1000 sum -1", 0, "ok bytes fffe7e"),
    # pointer 16 in the high half, length 5 in the low one; and the other way round, where the bytes before it are zeros
    (b"hello", "a taker of bytes", "--in 5 at 68719476741", 0, "ok bytes 68656c6c6f"),
    (b"hello", "a taker of bytes", "--in 5 at 21474836496", 0, "ok bytes " + "00" * 11 + "68656c6c6f"),
    (b"hello", "a taker of bytes", "--in 5 at 0", 0, "ok bytes"),
    # at the end of the memory and past it
    (b"hello", "a taker of bytes", "--in 5 at 281470681743361", 0, "ok bytes 00"),
    (b"hello", "a taker of bytes", "--in 5 at 281474976710656", 0, "ok bytes"),
    (b"hello", "a taker of bytes", "--in 5 at 281474976710657", 0, "refused MemoryAccessError"),
    (b"hello", "a taker of bytes", "--in 5 at -1", 0, "refused MemoryAccessError"),
    (b"hello", "a taker of bytes", "--in 5 front -1", 0, "refused MemoryAccessError"),
    (b"hello", "a taker of bytes", "--in 5 front 65521", 0, "refused MemoryAccessError"),
    (b"hello", "a taker of bytes", "--in 5 trap", 0, "trap UnreachableCodeReached"),
    (b"hello", "a taker of bytes", "--in 5 --turns 1000 forever", 0, "refused TurnLimit"),
    (b"hello", "a taker of bytes", "--in 5 --fuel 0 same", 0, "trap OutOfFuel"),
    (b"hello", "an alloc that traps", "--in 5 f", 0, "trap UnreachableCodeReached"),
    (b"hello", "an alloc that answers its length", "--in 5 f", 0, "ok bytes 68656c6c6f"),
    (b"hello", "an alloc past the end", "--in 5 f", 0, "refused MemoryAccessError"),
    (b"", "an alloc past the end", "--in 0 f", 0, "refused MemoryAccessError"),
    (b"hello", "an alloc at the end", "--in 5 f", 0, "refused MemoryAccessError"),
    (b"", "an alloc at the end", "--in 0 f", 0, "ok bytes"),
    (b"hello", "a second memory", "--in 5 f", 0, "ok bytes 68656c6c6f"),
    (b"hello", "a taker with an import", "--in 5 f", 0, "refused ImportCount"),
    (b"hello", "a taker whose start function traps", "--in 5 f", 0, "trap UnreachableCodeReached"),
    (b"hello", "a taker of bytes", "--in 5 --pages 0 same", 0, "refused GrowFailed"),
    # without bytes pointer and length are arguments as others
    (b"", "a taker of bytes", "same 16 5", 0, "ok values i32:5"),
    (b"", "no alloc", "f 1 2", 0, "ok values i32:2"),
    # of two numbers the last one counts; and where there are not so many bytes, none are left for the module
    (b"hello", "a taker of bytes", "--in 1 --in 5 same", 0, "ok bytes 68656c6c6f"),
    (b"hello", "a taker of bytes", "--in 4 same", 5, "malformed"),
    (b"hello", "a taker of bytes", "--in 4294967295 same", 5, "malformed"),
    (b"", "no module", "--in 1 same", 5, "malformed"),
    (b"", "more zeros", "--in 16777216 same", 4, ""),
    (b"", "no module", "--in", 2, ""),
    (b"", "no module", "--in 5", 2, ""),
    (b"", "no module", "--in x f", 2, ""),
    (b"", "no module", "--in -1 f", 2, ""),
    (b"", "no module", "--in 4294967296 f", 2, ""),
    # what takes no bytes: names come before it, memory before `alloc`, that before the function, and arguments behind it
    (b"hello", "a taker of bytes", "--in 5 Same", 6, ""),
    (b"hello", "numbers", "--in 5 sum 1", 6, ""),
    (b"hello", "numbers", "--in 5 add 1 2", 13, "TakesNoBytes memory"),
    (b"hello", "no memory of the name", "--in 5 f", 13, "TakesNoBytes memory"),
    (b"hello", "a function of the memory's name", "--in 5 f", 13, "TakesNoBytes memory"),
    (b"hello", "no alloc", "--in 5 f", 13, "TakesNoBytes alloc"),
    (b"hello", "memory", "--in 5 load x", 13, "TakesNoBytes alloc"),
    (b"hello", "a memory of alloc's name", "--in 5 f", 13, "TakesNoBytes alloc"),
    (b"hello", "an alloc of 64 bits", "--in 5 f", 13, "TakesNoBytes alloc"),
    (b"hello", "an alloc that answers none", "--in 5 f", 13, "TakesNoBytes alloc"),
    (b"hello", "a taker of bytes", "--in 5 none", 13, "TakesNoBytes function"),
    (b"hello", "a taker of bytes", "--in 5 two", 13, "TakesNoBytes function"),
    (b"hello", "a taker of bytes", "--in 5 float", 13, "TakesNoBytes function"),
    (b"hello", "a taker of bytes", "--in 5 length", 13, "TakesNoBytes function"),
    (b"hello", "a taker of bytes", "--in 5 wide 1", 13, "TakesNoBytes function"),
    (b"hello", "a taker of bytes", "--in 5 apart 1", 13, "TakesNoBytes function"),
    (b"hello", "a taker of bytes", "--in 5 same 1", 10, ""),
    (b"hello", "a taker of bytes", "--in 5 front", 10, ""),
    (b"hello", "a taker of bytes", "--in 5 front 1 2", 10, ""),
    (b"hello", "a taker of bytes", "--in 5 front x", 10, ""),
    (b"hello", "a taker of bytes", "--in 5 front 1 16 5", 10, ""),
    (b"hello", "a taker of bytes", "--in 5 real 1", 10, ""),
]

# A module, words, which read or else which write fails, the exit status, and what is written: a front of the line.
FAULTS = [
    ("numbers", "none", 0, None, 3, ""),
    ("numbers", "none", 1, None, 3, ""),
    ("numbers", "none", None, 0, 9, ""),
    ("numbers", "none", None, 1, 9, "ok values\n"),
    ("no module", None, 0, 0, 2, ""),
    ("no module", "f", None, 0, 5, "malformed"),
]


def compiled(text):
    """The bytes of a text of the text format, whether they are valid or not, in hexadecimal."""
    with tempfile.TemporaryDirectory() as folder:
        source, target = os.path.join(folder, "module.wat"), os.path.join(folder, "module.wasm")
        with open(source, "w", encoding="utf-8") as file:
            file.write(text)
        subprocess.run(["wat2wasm", "--no-check", "--enable-multi-memory", source, "-o", target], check=True)
        with open(target, "rb") as file:
            return file.read().hex()


def name_of(status, said):
    """What a run of this status has on standard error."""
    return said if status in TOLD else NAMES[status]


def row_of(digits, words, read=None, write=None):
    fields = ["-" if number is None else str(number) for number in (read, write)] + [digits]
    return " ".join(fields if words is None else [*fields, words])


def answer(status, said, written):
    """The line that the crate writes of a row: its text is as Rust's `{:?}` and JSON both have it."""
    return "%d %s %s" % (status, name_of(status, said), json.dumps(written))


def write():
    digits = {**BYTES, **{name: compiled(text) for name, text in TEXTS.items()}}
    pairs = [
        (row_of(digits[name], words), answer(status, said, said + "\n" if status == 0 else ""))
        for name, words, status, said in ROWS
    ]
    pairs += [
        (row_of(given.hex() + digits[name], words), answer(status, said, said + "\n" if status == 0 else ""))
        for given, name, words, status, said in GIVEN
    ]
    pairs += [
        (row_of(digits[name], words, read, write), answer(status, said, "" if status == 5 else said))
        for name, words, read, write, status, said in FAULTS
    ]
    for path, lines in zip(("stdin", "stdout"), zip(*pairs)):
        with open(os.path.join(CRATE, path), "w", encoding="utf-8") as file:
            file.write("".join(line + "\n" for line in lines))
    print("%d rows" % len(pairs))


def lines_of(path):
    with open(os.path.join(CRATE, path), encoding="utf-8") as file:
        return file.read().splitlines()


def bytes_of(digits):
    return bytes(int(digits[6:])) if digits.startswith("zeros:") else bytes.fromhex(digits)


def run_pairs():
    """Of the crate's rows those in which nothing fails, and the program's own, each with the line that is wanted."""
    pairs = [(row, wanted) for row, wanted in zip(lines_of("stdin"), lines_of("stdout"), strict=True) if row[:4] == "- - "]
    return [*pairs, (row_of(MILLION_LOCALS, "f"), answer(8, "", ""))]


def compare(program):
    pairs, differ = run_pairs(), 0
    for row, wanted in pairs:
        digits, *words = row.split(" ")[2:]
        done = subprocess.run([program, *words], input=bytes_of(digits), capture_output=True)
        said = done.stderr.decode().rstrip("\n") or "Done"
        got = "%d %s %s" % (done.returncode, said, json.dumps(done.stdout.decode()))
        if got != wanted:
            differ += 1
            print("%r over %s\n  is     %s\n  wanted %s" % (words, digits[:200], got, wanted))
    print("%d compared, %d differ" % (len(pairs), differ))
    return differ != 0


if __name__ == "__main__":
    if len(sys.argv) != 2:
        sys.exit(__doc__)
    sys.exit(write() if sys.argv[1] == "--write" else compare(os.path.abspath(sys.argv[1])))
