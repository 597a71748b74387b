#!/usr/bin/env python3
"""Times a program that reads modules from bytes on inputs of nearly 2^24 bytes, each of one kind of thing.

python3 tools/binary/large.py PROGRAM [--bytes N] [--only NAME ..]

PROGRAM takes bytes on standard input and prints one line; reader.py may stand in for it, slowly, with fewer bytes. The line
that each input wants is known from how it is made; past 2^24 locals in one module a program may also say that memory is
wanting, by its exit status, and print nothing. It prints for each kind the seconds of a processor, twice: for half of the
bytes, and for all, so that what is not linear shows; and ends with 1 where a line differs. One kind takes more than some
small multiple of the bytes, and is run where --only names it, with fewer bytes.
"""

import argparse
import os
import resource
import subprocess
import sys

HEADER = b"\0asm\1\0\0\0"
LARGEST = 2**24
MOST_LOCALS = 1000000


def unsigned(number):
    out = bytearray()
    while number > 127:
        out.append(number & 127 | 128)
        number >>= 7
    out.append(number)
    return bytes(out)


def signed_index(number):
    """A number from 0 on as a signed one."""
    out = bytearray()
    while number > 63:
        out.append(number & 127 | 128)
        number >>= 7
    out.append(number)
    return bytes(out)


def section(number, content):
    return bytes([number]) + unsigned(len(content)) + content


def line(types=0, imports=0, functions=0, exports=0):
    return "module types %d imports %d functions %d exports %d" % (types, imports, functions, exports)


def one_body(local, code, types=b"\x01\x60\x00\x00"):
    """A module with one function."""
    body = local + code + b"\x0b"
    return HEADER + section(1, types) + section(3, b"\x01\x00") + section(10, b"\x01" + unsigned(len(body)) + body)


def functions_of(count, body):
    """So many functions of one type, each with this body, and its line."""
    front = section(1, b"\x01\x60\0\0") + section(3, unsigned(count) + b"\0" * count)
    return HEADER + front + section(10, unsigned(count) + body * count), line(1, functions=count)


def listed(number, entry, size):
    """A section of as many equal entries as go into so many bytes, and how many these are."""
    count = size // len(entry)
    return HEADER + section(number, unsigned(count) + entry * count), count


# Each kind: from a size to the bytes and their line.


def blocks(size):
    return one_body(b"\0", b"\x02\x40" * (size // 3) + b"\x0b" * (size // 3)), line(1, functions=1)


def ifs(size):
    return one_body(b"\0", b"\x41\0\x04\x40" * (size // 6) + b"\x05\x0b" * (size // 6)), line(1, functions=1)


def blocks_in_a_row(size):
    return one_body(b"\0", b"\x02\x7f\x0b" * (size // 3)), line(2, functions=1)


def blocks_of_references(size):
    """Of two types in turn, each by a reference to a type of the module."""
    piece = b"\x02\x63\0\x0b\x02\x64\x01\x0b"
    return one_body(b"\0", piece * (size // len(piece)), b"\x02\x60\0\0\x60\0\x01\x7f"), line(4, functions=1)


def blocks_of_many_references(size):
    """By references to 128 types in turn, so that each is looked up among as many that were appended."""
    rows = [bytes(0x7F - (number >> place & 1) for place in range(7)) for number in range(128)]
    listed_types = unsigned(128) + b"".join(b"\x60\x07" + row + b"\0" for row in rows)
    code = b"".join(b"\x02\x63" + signed_index(number) + b"\x0b" for number in range(128))
    return one_body(b"\0", code * ((size - 2048) // len(code)), listed_types), line(256, functions=1)


def instructions(size):
    return one_body(b"\0", b"\x41\x01\x1a" * (size // 3)), line(1, functions=1)


def labels(size):
    return one_body(b"\0", b"\x41\0\x0e" + unsigned(size - 8) + b"\0" * (size - 8) + b"\0"), line(1, functions=1)


def tables_of_labels(size):
    return one_body(b"\0", b"\x41\0\x0e\0\0" * (size // 5)), line(1, functions=1)


def pairs_of_no_locals(size):
    return one_body(unsigned(size // 2) + b"\0\x7f" * (size // 2), b""), line(1, functions=1)


def locals_one_by_one(_size):
    return one_body(unsigned(MOST_LOCALS) + b"\x01\x7f" * MOST_LOCALS, b""), line(1, functions=1)


def locals_past_memory(size):
    """A million locals in each body: seventeen bodies pass 2^24."""
    body = b"\x07\x01\xc0\x84\x3d\x7f\x0b"
    body = unsigned(len(body) - 1) + body[1:]
    count = size // (len(body) + 1)
    return functions_of(count, body)


def functions(size):
    count = size // 4
    return functions_of(count, b"\x02\0\x0b")


def types(size):
    data, count = listed(1, b"\x60\0\0", size)
    return data, line(count)


def types_with_references(size):
    entry = b"\x60\x02\x63\0\x64\0\0"
    count = size // len(entry)
    return HEADER + section(1, unsigned(count + 1) + b"\x60\0\0" + entry * count), line(count + 1)


def subtypes(size):
    entry = b"\x50\x01\0\x60\0\0"
    count = size // len(entry)
    return HEADER + section(1, unsigned(count + 1) + b"\x50\0\x60\0\0" + entry * count), line(count + 1)


def parameters(size):
    """As many as one type may have, in each of many types."""
    entry = b"\x60" + unsigned(65535) + b"\x7f" * 65535 + b"\0"
    data, count = listed(1, entry, size)
    return data, line(count)


def a_long_name(size):
    name = "\u20ac".encode() * (size // 3)
    return HEADER + section(7, b"\x01" + unsigned(len(name)) + name + b"\0\0"), line(exports=1)


def names(size):
    data, count = listed(7, b"\x01\x61\0\0", size)
    return data, line(exports=count)


def imports(size):
    data, count = listed(2, b"\x01\x61\x01\x62\x02\0\0", size)
    return data, line(imports=count)


def globals_(size):
    return listed(6, b"\x7f\0\x41\0\x0b", size)[0], line()


def items(size):
    return HEADER + section(9, b"\x01\x01\0" + unsigned(size - 16) + b"\0" * (size - 16)), line()


def segments(size):
    return listed(9, b"\x01\0\0", size)[0], line()


def datas(size):
    return listed(11, b"\x01\0", size)[0], line()


def one_data(size):
    return HEADER + section(11, b"\x01\x01" + unsigned(size - 16) + b"a" * (size - 16)), line()


def custom_sections(size):
    return HEADER + section(0, b"\0") * (size // 3), line()


def distinct_rows(count):
    """So many different rows of parameters, as short as may be: of the five number types."""
    rows = [b""]
    for row in rows:
        if len(rows) >= count:
            break
        rows += [row + bytes([kind]) for kind in range(0x7B, 0x80)]
    return rows[:count]


def blocks_of_distinct_references(size):
    """By a reference to each of as many different types, none of which is met twice."""
    count = size // 18
    entries = b"".join(b"\x60" + unsigned(len(row)) + row + b"\0" for row in distinct_rows(count))
    code = b"".join(b"\x02\x63" + signed_index(number) + b"\x0b" for number in range(count))
    return one_body(b"\0", code, unsigned(count) + entries), line(2 * count, functions=1)


def blocks_of_one_large_reference(size):
    """All by a reference to one type, which has 60,000 parameters."""
    entry = b"\x60" + unsigned(60000) + b"\x7f" * 60000 + b"\0"
    piece = b"\x02\x63\0\x0b"
    return one_body(b"\0", piece * ((size - 65600) // len(piece)), b"\x01" + entry), line(2, functions=1)


def subtypes_over_large_types(size):
    """Subtypes of one type, each with a reference to a type of 32,000 parameters."""
    entry = b"\x60" + unsigned(32000) + b"\x7f" * 32000 + b"\0"
    first, count = b"\x50\0\x60\x01\x63\0\0", (size - 32100) // 8
    rest = b"\x50\x01\x01\x60\x01\x63\0\0" * count
    return HEADER + section(1, unsigned(count + 2) + entry + first + rest), line(count + 2)


KINDS = [
    blocks, ifs, blocks_in_a_row, blocks_of_references, blocks_of_many_references, blocks_of_distinct_references,
    blocks_of_one_large_reference, instructions, labels, tables_of_labels,
    pairs_of_no_locals, locals_one_by_one, locals_past_memory, functions, types, types_with_references, subtypes, parameters,
    a_long_name, names, imports, globals_, items, segments, datas, one_data, custom_sections,
]


# What is not linear, and so is run by its name alone, on fewer bytes.
SLOW = [subtypes_over_large_types]


def processor_time():
    used = resource.getrusage(resource.RUSAGE_CHILDREN)
    return used.ru_utime + used.ru_stime


def timed(program, data):
    """The seconds that a processor worked for it, whatever else the machine does; its line; and its status."""
    words = [sys.executable, program] if program.endswith(".py") else [program]
    begun = processor_time()
    done = subprocess.run(words, input=data, capture_output=True)
    return processor_time() - begun, done.stdout.decode().rstrip("\n"), done.returncode


def main():
    parser = argparse.ArgumentParser(description=__doc__.split("\n\n")[0])
    parser.add_argument("program")
    parser.add_argument("--bytes", type=int, default=LARGEST - 64)
    parser.add_argument("--only", nargs="+", default=[])
    given = parser.parse_intermixed_args()
    program, differ = os.path.abspath(given.program), 0
    for kind in KINDS + SLOW:
        name = kind.__name__.strip("_")
        if name not in given.only if given.only else kind in SLOW:
            continue
        seconds = []
        for size in (given.bytes // 2, given.bytes):
            data, wanted = kind(size)
            assert len(data) <= LARGEST, name
            took, got, status = timed(program, data)
            seconds.append(took)
            wants_memory = kind is locals_past_memory and got == "" and status != 0
            if got != wanted and not wants_memory:
                differ += 1
                print("%s, %d bytes: is %r with status %d, and is to be %r" % (name, len(data), got[:100], status, wanted))
        print("%-28s %9d bytes %7.2f s for half, %7.2f s for all" % (name, len(data), *seconds), flush=True)
    return differ != 0


if __name__ == "__main__":
    sys.exit(main())
