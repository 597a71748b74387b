#!/usr/bin/env python3
"""Times the validation of valid modules of nearly 2^24 bytes, each of one kind of thing that a stranger may send.

python3 tools/binary/large_modules.py PROGRAM [--bytes N] [--only NAME ..]

PROGRAM is `mullerpink_run` as it is built; it is asked for an export that no module here has, so that it reads and validates
and then says `NoFunction`. It prints for each kind the seconds of a processor for half of the bytes and for all, so that
what is not linear shows; and ends with 1 where a module is told otherwise. What takes more than some small multiple of the
bytes is run where --only names it, with fewer bytes (--bytes 200000).
"""

import argparse
import os
import random
import subprocess
import sys

from large import HEADER, LARGEST, functions_of, one_body, processor_time, section, unsigned

NO_FUNCTION = 6


def export(name):
    return unsigned(len(name)) + name + b"\3\0"


def exports_of(names):
    """A module with one global, exported under each of these names."""
    front = section(6, b"\x01\x7f\0\x41\0\x0b")
    return HEADER + front + section(7, unsigned(len(names)) + b"".join(export(name) for name in names))


def distinct(count, prefix, digits):
    return [prefix + b"%0*x" % (digits, number) for number in range(count)]


# Each kind: from a size to the bytes.


def names_in_order(size):
    return exports_of(distinct(size // 17, b"", 14))


def names_in_any_order(size):
    names = distinct(size // 17, b"", 14)
    random.Random(1).shuffle(names)
    return exports_of(names)


def names_with_one_front(size):
    """Of 100 bytes, of which the last eight differ."""
    names = distinct(size // 103, b"a" * 92, 8)
    random.Random(1).shuffle(names)
    return exports_of(names)


def one_byte_far_away(size):
    """A byte at the last place of 256 pages: few bytes, whatever the size."""
    return HEADER + section(5, b"\x01\0\x80\x02") + section(11, b"\x01\0\x41\xff\xff\xff\x07\x0b\x01a")


def one_element_far_away(_size):
    """An element at the place 999,999 of a table."""
    parts = [section(1, b"\x01\x60\0\0"), section(3, b"\x01\0"), section(4, b"\x01\x70\0\xc0\x84\x3d")]
    parts += [section(9, b"\x01\0\x41\xbf\x84\x3d\x0b\x01\0"), section(10, b"\x01\x02\0\x0b")]
    return HEADER + b"".join(parts)


def functions_like(size, body):
    sized = unsigned(len(body)) + body
    return functions_of(size // (len(sized) + 1), sized)[0]


def instructions(size):
    return functions_like(size, b"\0" + b"\x41\x01\x1a" * 300000 + b"\x0b")


def labels(size):
    """In tables of 1,000,000 labels."""
    return functions_like(size, b"\0\x41\0\x0e" + unsigned(1000000) + b"\0" * 1000001 + b"\x0b")


def labels_of_a_large_type(size):
    """One table of labels, all of them of a block with 1,000 results."""
    ty = b"\x02\x60\0\0\x60\0" + unsigned(1000) + b"\x7f" * 1000
    code = b"\x02\x01\0\x0e" + unsigned(size) + b"\0" * (size + 1) + b"\x0b\0"
    return one_body(b"\0", code, ty)


def references_to_a_large_type(size):
    """A reference to a type of 60,000 parameters that goes from one local to another and back."""
    ty = b"\x02\x60\0\0\x60" + unsigned(60000) + b"\x7f" * 60000 + b"\0"
    piece = b"\x20\0\x21\x01\x20\x01\x21\0"
    return one_body(b"\x01\x02\x63\x01", piece * ((size - 65600) // len(piece)), ty)


KINDS = [
    names_in_order, names_in_any_order, names_with_one_front, one_byte_far_away, one_element_far_away, instructions, labels,
]


# What is not linear, and so is run by its name alone, on fewer bytes.
SLOW = [labels_of_a_large_type, references_to_a_large_type]


def timed(program, data):
    """The seconds that a processor worked for it, what it said, and its status."""
    begun = processor_time()
    done = subprocess.run([program, "nothing"], input=data, capture_output=True)
    return processor_time() - begun, done.stderr.decode().rstrip("\n"), done.returncode


def main():
    parser = argparse.ArgumentParser(description=__doc__.split("\n\n")[0])
    parser.add_argument("program")
    parser.add_argument("--bytes", type=int, default=LARGEST - 2**17)
    parser.add_argument("--only", nargs="+", default=[])
    given = parser.parse_intermixed_args()
    program, differ = os.path.abspath(given.program), 0
    for kind in KINDS + SLOW:
        if kind.__name__ not in given.only if given.only else kind in SLOW:
            continue
        seconds = []
        for size in (given.bytes // 2, given.bytes):
            data = kind(size)
            assert len(data) <= LARGEST, kind.__name__
            took, said, status = timed(program, data)
            seconds.append(took)
            if (said, status) != ("NoFunction", NO_FUNCTION):
                differ += 1
                print("%s, %d bytes: %r with status %d" % (kind.__name__, len(data), said[:100], status))
        print("%-27s %9d bytes %7.2f s for half, %7.2f s for all" % (kind.__name__, len(data), *seconds), flush=True)
    return differ != 0


if __name__ == "__main__":
    sys.exit(main())
