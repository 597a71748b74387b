#!/usr/bin/env python3
"""Times code in the built program beside wabt's wasm-interp, and prints a table.

At the top of the repository, after ./session has built the program, and with Debian's package wabt: python3
bench/kernels.py. Without that package it times the program alone. Names of kernels may be given. Each kernel stands in
bench/kernels twice, as a session and as the text of the same module; what either prints is compared with the result below.
Another program may be named by the variable PROGRAM of the environment.
"""

import os
import shutil
import subprocess
import sys
import tempfile

HERE = os.path.dirname(os.path.abspath(__file__))
PROGRAM = os.environ.get("PROGRAM", os.path.join(HERE, "..", "crates", "mullerpink", "out", "mullerpink"))
RUNS = 15
# Of each kernel what it does, the turns of its call (of the last one, about so many) and its result.
KERNELS = {
    "fib": ("fib(27), by calls", 5720587, "i32:196418"),
    "loop": ("1,000,000 rounds of two loops", 23011004, "i64:5164542046095770514"),
    "sieve": ("primes below 1,000,000", 37359132, "i32:78498"),
    "brtable": ("1,000,000 steps by br_table", 25620903, "i32:1322635918"),
    "indirect": ("1,000,000 calls by call_indirect", 17000004, "i32:1121145056"),
    "switch50": ("a switch of 50 cases in C, compiled by clang -O2", 59900000, "i64:-5538566113102327808"),
}


def unsigned(result):
    """A result as wasm-interp prints it: integers without a sign."""
    kind, number = result.split(":")
    return "%s:%d" % (kind, int(number) % (1 << int(kind[1:])))


def seconds(command, stdin, end):
    """The processor seconds of a run, of which the last line ends so."""
    with open(stdin) as file, tempfile.TemporaryFile() as lines:
        child = subprocess.Popen(command, stdin=file, stdout=lines)
        _, status, used = os.wait4(child.pid, 0)
        child.returncode = os.waitstatus_to_exitcode(status)
        lines.seek(0)
        printed = lines.read().decode()
    if child.returncode != 0 or not printed.endswith(" " + end + "\n"):
        sys.exit("%s ended with status %d and printed %r" % (" ".join(command), child.returncode, printed))
    return used.ru_utime + used.ru_stime


def timed(name, result, folder):
    """The fewest seconds of fifteen runs here, and of fifteen of wasm-interp between them; none where it is not there."""
    session = os.path.join(HERE, "kernels", name + ".json")
    module = os.path.join(folder, name + ".wasm")
    beside = shutil.which("wasm-interp")
    if beside:
        subprocess.run(["wat2wasm", os.path.join(HERE, "kernels", name + ".wat"), "-o", module], check=True)
    ours, theirs = [], []
    for _ in range(RUNS):
        ours.append(seconds([PROGRAM, "run"], session, result))
        if beside:
            theirs.append(seconds([beside, module, "--run-all-exports"], os.devnull, unsigned(result)))
    return min(ours), min(theirs, default=None)


def main():
    print("| kernel | turns | seconds | million turns a second | wasm-interp's seconds | times as fast |")
    print("|---|---|---|---|---|---|")
    ratios = []
    with tempfile.TemporaryDirectory() as folder:
        for name in sys.argv[1:] or KERNELS:
            what, turns, result = KERNELS[name]
            ours, theirs = timed(name, result, folder)
            beside = "- | -"
            if theirs is not None:
                ratios.append(theirs / ours)
                beside = "%.3f | %.2f" % (theirs, theirs / ours)
            speed = turns / ours / 1e6
            print("| %s: %s | %d | %.3f | %.0f | %s |" % (name, what, turns, ours, speed, beside), flush=True)
    if ratios:
        product = 1.0
        for ratio in ratios:
            product *= ratio
        print("geometric mean: %.2f times as fast" % product ** (1 / len(ratios)))


if __name__ == "__main__":
    main()
