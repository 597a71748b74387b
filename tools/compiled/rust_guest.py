#!/usr/bin/env python3
"""Compares the built program of ./run with V8 on a guest in Rust: guest.rs beside this file, at each level of optimization.

python3 tools/compiled/rust_guest.py [PROGRAM] [--seed N] [--count N]

PROGRAM is by default the one that ./run built. Each of --count seeds from --seed on, by default 10 from 1 on, gives
arguments for each function of the guest, which is compiled at each level, and at the highest one with more features of the
language. It prints what differs and `N compared, M differ`, and ends with 1 where something differs. It needs rustc and
libstd-rust-dev-wasm32 of Debian (RUSTC names another compiler with that target), and node.
"""

import argparse
import os
import random
import re
import sys
import tempfile

from engines import PROGRAM, line_by_v8, line_here, run

SOURCE = os.path.join(os.path.dirname(os.path.abspath(__file__)), "guest.rs")
COMPILER = os.environ.get("RUSTC", "/usr/bin/rustc")
TARGET = ["--edition", "2021", "--target", "wasm32-unknown-unknown", "--crate-type", "cdylib", "-C", "panic=abort"]
FEATURES = "target-feature=+bulk-memory,+sign-ext,+mutable-globals,+reference-types"
KINDS = [["opt-level=" + level] for level in "0123sz"] + [["opt-level=3", FEATURES]]


def main():
    words = argparse.ArgumentParser(description=__doc__.split("\n\n")[0])
    words.add_argument("program", nargs="?", default=PROGRAM)
    words.add_argument("--seed", type=int, default=1)
    words.add_argument("--count", type=int, default=10)
    words = words.parse_args()
    program = os.path.abspath(words.program)
    with open(SOURCE) as file:
        names = re.findall(r'^pub extern "C" fn (\w+)', file.read(), re.M)
    compared = differ = 0
    with tempfile.TemporaryDirectory() as folder:
        for kind in KINDS:
            module = os.path.join(folder, "guest.wasm")
            run([COMPILER, *TARGET, *(word for option in kind for word in ("-C", option)), SOURCE, "-o", module], check=True)
            for seed in range(words.seed, words.seed + words.count):
                chance = random.Random(seed)
                for name in names:
                    count, start = chance.randrange(1, 400), chance.choice([chance.randrange(400), chance.getrandbits(62)])
                    wanted = line_by_v8(module, name, [str(count), "%dn" % start])
                    got = line_here(program, module, name, [count, start])
                    compared += 1
                    if got != wanted:
                        differ += 1
                        print("%s %d %d (%s):\n  by V8 %s\n  here  %s" % (name, count, start, ", ".join(kind), wanted, got))
    print("%d compared, %d differ" % (compared, differ))
    return differ != 0


if __name__ == "__main__":
    sys.exit(main())
