#!/usr/bin/env python3
"""Times the validation of large modules beside wabt's wasm-validate, and prints a table.

At the top of the repository, after `rt run -- 1 4` in crates/bench_modules has built it, and with Debian's package wabt:
python3 bench/modules.py. Ours makes the declaration and validates it; wasm-validate reads the same module's bytes.
"""

import os
import subprocess
import tempfile

HERE = os.path.dirname(os.path.abspath(__file__))
OURS = os.path.join(HERE, "..", "crates", "bench_modules", "out", "bench_modules")
KINDS = {"2^20 instructions in one function": (1, 1 << 20), "2^20 instructions in 1,000 functions": (1000, 1048)}


def leb(number):
    """An unsigned number as the binary format writes it."""
    out = b""
    while True:
        low, number = number & 0x7F, number >> 7
        if not number:
            return out + bytes([low])
        out += bytes([low | 0x80])


def section(number, content):
    return bytes([number]) + leb(len(content)) + content


def module(count, length):
    """So many functions that add 5 to a local, again and again."""
    body = b"\x01\x01\x7f" + b"\x20\x00\x41\x05\x6a\x21\x00" * (length // 4) + b"\x0b"
    types = section(1, b"\x01\x60\0\0") + section(3, leb(count) + b"\0" * count)
    return b"\0asm\1\0\0\0" + types + section(10, leb(count) + (leb(len(body)) + body) * count)


def fastest(command):
    """The fewest processor seconds of five runs, and the peak memory of one, in MiB."""
    best = None
    for _ in range(5):
        child = subprocess.Popen(command, stdout=subprocess.DEVNULL)
        _, status, used = os.wait4(child.pid, 0)
        assert status == 0
        took = used.ru_utime + used.ru_stime
        best = took if best is None else min(best, took)
    return best, used.ru_maxrss / 1024


def main():
    print("| module | seconds | MiB | wasm-validate's seconds | MiB | ratio |\n|---|---|---|---|---|---|")
    with tempfile.TemporaryDirectory() as folder:
        for name, (count, length) in KINDS.items():
            path = os.path.join(folder, "module.wasm")
            with open(path, "wb") as file:
                file.write(module(count, length))
            ours, peak = fastest([OURS, str(count), str(length)])
            theirs, their_peak = fastest(["wasm-validate", path])
            print(f"| {name} | {ours:.3f} | {peak:.0f} | {theirs:.3f} | {their_peak:.0f} | {ours / theirs:.2f} |", flush=True)


if __name__ == "__main__":
    main()
