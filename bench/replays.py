#!/usr/bin/env python3
"""Times a run that is recorded beside the same run without, and prints a table.

At the top of the repository, after `rt run -- recorded steps 3` in crates/bench_replay has built it: python3
bench/replays.py. The times are the fewest processor seconds of fifteen runs, those of each kind in turn, less those of a
run of no call. What a run prints is compared with the sum below.
"""

import os

from kernels import HERE, RUNS, seconds

PROGRAM = os.path.join(HERE, "..", "crates", "bench_replay", "out", "bench_replay")
ROUNDS = 10000


def of_code(calls):
    """What each call of `code` gives."""
    return sum(n * n for n in range(1, ROUNDS + 1))


def of_steps(calls):
    """What the last of these calls of `steps` gives: the host goes on counting from call to call."""
    return sum(range(ROUNDS * (calls - 1), ROUNDS * calls))


# How many calls; the number of the function, which the last line of a run of none ends with; and what the last call gives.
KINDS = {"code": (1000, "1", of_code), "steps": (50, "2", of_steps)}


def signed(number):
    return (number + 2**31) % 2**32 - 2**31


def took(way, kind, calls, end):
    return seconds([PROGRAM, way, kind, str(calls)], os.devnull, end)


def fewest(kind, calls, func, result):
    """The fewest seconds of a run of so many calls, plain and recorded, less those of a run of none."""
    begun, whole = {"plain": [], "recorded": []}, {"plain": [], "recorded": []}
    for _ in range(RUNS):
        for way in whole:
            begun[way].append(took(way, kind, 0, func))
            whole[way].append(took(way, kind, calls, "i32:%d" % signed(result(calls))))
    return [min(whole[way]) - min(begun[way]) for way in ("plain", "recorded")]


def main():
    print("| run | seconds | recorded | times as long | microseconds more a round |")
    print("|---|---|---|---|---|")
    for kind, (calls, func, result) in KINDS.items():
        plain, recorded = fewest(kind, calls, func, result)
        rounds = calls * ROUNDS
        more = (recorded - plain) / rounds * 1e6
        print("| %d rounds of %s | %.3f | %.3f | %.2f | %.3f |" % (
            rounds, kind, plain, recorded, recorded / plain, more), flush=True)


if __name__ == "__main__":
    main()
