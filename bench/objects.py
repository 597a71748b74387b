#!/usr/bin/env python3
"""Times copies, fills and growth of memories and tables beside the same work in C, and prints a table.

At the top of the repository, after `rt run -- memory_fill 1` in crates/bench_objects has built it: python3
bench/objects.py. It takes the time of so many times, less that of one time.
"""

import os
import subprocess
import tempfile
import time

HERE = os.path.dirname(os.path.abspath(__file__))
OURS = os.path.join(HERE, "..", "crates", "bench_objects", "out", "bench_objects")
KINDS = {
    "memory_fill": 2000, "memory_from": 2000, "memory_apart": 2000, "memory_up": 1000, "memory_down": 1000,
    "memory_up_by_one": 1000, "memory_down_by_one": 1000, "memory_grow": 1000, "memory_new": 20,
    "table_fill": 1000, "table_apart": 1000, "table_up": 1000, "table_down": 1000,
}


def fastest(program, kind, times):
    """The fastest of five runs, in seconds."""
    best = None
    for _ in range(5):
        start = time.perf_counter()
        subprocess.run([program, kind, str(times)], check=True, stdout=subprocess.DEVNULL)
        took = time.perf_counter() - start
        best = took if best is None else min(best, took)
    return best


def main():
    with tempfile.TemporaryDirectory() as folder:
        theirs = os.path.join(folder, "objects")
        subprocess.run(["cc", "-O2", "-o", theirs, os.path.join(HERE, "objects.c")], check=True)
        print("| work | times | microseconds each | in C | ratio |\n|---|---|---|---|---|")
        for kind, times in KINDS.items():
            ours, c = (1e6 * (fastest(p, kind, times + 1) - fastest(p, kind, 1)) / times for p in (OURS, theirs))
            print(f"| {kind} | {times} | {ours:.1f} | {c:.1f} | {ours / max(c, 0.001):.1f} |", flush=True)


if __name__ == "__main__":
    main()
