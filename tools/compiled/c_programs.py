#!/usr/bin/env python3
"""Compares the built program of ./run with V8 on random programs in C, by csmith.

python3 tools/compiled/c_programs.py [PROGRAM] [--seed N] [--count N]

PROGRAM is by default the one that ./run built. Each of --count seeds from --seed on, by default 100 from 1 on, gives a
program (of csmith: integers, structs, unions, pointers and arrays), which clang compiles to a module by options that the
seed picks. The module runs in PROGRAM and in V8 (node): each gives a sum of what all globals of the program hold at its
end. It prints each seed that differs, how often each option came, what was left out, and `N compared, M differ`, and ends
with 1 where one differs. What takes 20 seconds to make, over a second in V8 or more turns than a command has is left out,
and so is a module with more than 10,000 locals in a function. It needs csmith, libcsmith-dev, clang and lld of Debian, and
node.
"""

import argparse
import collections
import os
import random
import subprocess
import sys
import tempfile
from concurrent.futures import ThreadPoolExecutor

from engines import PROGRAM, line_by_v8, line_here, run

HERE = os.path.dirname(os.path.abspath(__file__))
SECONDS_IN_V8, MAKING_SECONDS = 1, 20
LIMITS = {"refused TurnLimit": "more turns than a command has", "InvalidModule 0 Size functions": "too many locals"}
LEVELS = ["-O0", "-O1", "-O2", "-O3", "-Os", "-Oz"]
FEATURES = ["-mbulk-memory", "-msign-ext", "-mmultivalue", "-mreference-types", "-mmutable-globals"]
SHAPES = [
    [], ["--max-funcs", "25"], ["--max-block-depth", "8"], ["--max-array-dim", "4"], ["--max-struct-fields", "20"],
    ["--inline-function-prob", "5"], ["--no-structs", "--no-unions"], ["--max-pointer-depth", "4"],
    ["--builtins", "--disable-builtin-kinds", "x86"], ["--max-expr-complexity", "25"], ["--max-block-size", "8"],
]
CLANG = [
    "clang", "--target=wasm32", "-nostdlib", "-ffreestanding", "-fno-builtin", "-w", "-I", HERE, "-Dmain=guest_main",
    "-Wl,--no-entry", "-Wl,--strip-all",
]


def write_module(folder, seed):
    """The module of a seed, and what it was made with."""
    chance = random.Random(seed)
    level, shape = chance.choice(LEVELS), chance.choice(SHAPES)
    features = [feature for feature in FEATURES if chance.random() < 0.5]
    source, module = os.path.join(folder, "guest.c"), os.path.join(folder, "guest.wasm")
    csmith = ["csmith", "--seed", str(seed), "--no-argc", "--concise", "--output", source, *shape]
    run(csmith, MAKING_SECONDS, cwd=folder, check=True)
    run([*CLANG, level, *features, source, "-o", module], MAKING_SECONDS, check=True)
    return module, [level, *features, " ".join(shape) or "no option of csmith"]


def lines_of(program, seed):
    """The line by V8 and the one here for a seed, and what its module was made with; or why it is left out."""
    with tempfile.TemporaryDirectory() as folder:
        try:
            module, made = write_module(folder, seed)
            by_v8 = line_by_v8(module, "run", seconds=SECONDS_IN_V8)
        except subprocess.CalledProcessError as fault:
            return "%s failed" % fault.cmd[0]
        except subprocess.TimeoutExpired as fault:
            return "over %s seconds in %s" % (fault.timeout, fault.cmd[0])
        here = line_here(program, module, "run")
        return next((why for start, why in LIMITS.items() if here.startswith(start)), (by_v8, here, made))


def main():
    words = argparse.ArgumentParser(description=__doc__.split("\n\n")[0])
    words.add_argument("program", nargs="?", default=PROGRAM)
    words.add_argument("--seed", type=int, default=1)
    words.add_argument("--count", type=int, default=100)
    words.add_argument("--jobs", type=int, default=os.cpu_count())
    words = words.parse_args()
    program, seeds = os.path.abspath(words.program), range(words.seed, words.seed + words.count)
    compared, differ, options, left = 0, 0, collections.Counter(), collections.Counter()
    with ThreadPoolExecutor(words.jobs) as pool:
        for seed, found in zip(seeds, pool.map(lambda seed: lines_of(program, seed), seeds)):
            if isinstance(found, str):
                left[found] += 1
                continue
            by_v8, here, made = found
            compared += 1
            options.update(made)
            if here != by_v8:
                differ += 1
                print("seed %d (%s):\n  by V8 %s\n  here  %s" % (seed, ", ".join(made), by_v8, here))
    print("made with", ", ".join("%s: %d" % row for row in options.most_common()))
    print("left out", dict(left))
    print("%d compared, %d differ" % (compared, differ))
    return differ != 0


if __name__ == "__main__":
    sys.exit(main())
