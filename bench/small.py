#!/usr/bin/env python3
"""Times two small things in the built program: an empty instance, and a call of a host function by a guest.

At the top of the repository, after ./session has built the program: python3 bench/small.py. Each is timed by a session of
many, the fewest processor seconds of fifteen runs, reading included; of the calls the guest's loop is included too.
Another program may be named by the variable PROGRAM of the environment.
"""

import json
import os
import tempfile

from kernels import PROGRAM, RUNS, seconds

INSTANCES, CALLS = 10000, 1000000
# A loop of a million rounds, each of which calls the host, whose body returns at once.
GUEST = {
    "imports": [{"module": "host", "name": "nothing", "func": 0}],
    "functions": [{"type": 1, "locals": ["i32"], "code": [
        ["loop", 0, [
            ["call", 0],
            ["local.get", 0], ["i32.const", 1], ["i32.add"], ["local.tee", 0],
            ["i32.const", CALLS], ["i32.lt_u"], ["br_if", 0]]],
        ["local.get", 0]]}],
    "exports": [{"name": "run", "func": 1}],
}
MANY_INSTANCES = {"modules": [{}], "commands": [{"do": "instantiate", "module": 0}] * INSTANCES}
MANY_CALLS = {
    "engine": {"turns": 1000000000},
    "types": [{}, {"results": ["i32"]}],
    "modules": [GUEST],
    "host": [[{"return": []}]],
    "commands": [
        {"do": "func_new", "type": 0, "body": 0},
        {"do": "instantiate", "module": 0, "imports": [0]},
        {"do": "get_export", "instance": 1, "name": "run"},
        {"do": "call", "func": 2},
    ],
}


def timed(session, end, folder):
    path = os.path.join(folder, "session.json")
    with open(path, "w", encoding="utf-8") as file:
        json.dump(session, file)
    return min(seconds([PROGRAM, "run"], path, end) for _ in range(RUNS))


def main():
    with tempfile.TemporaryDirectory() as folder:
        instances = timed(MANY_INSTANCES, str(INSTANCES - 1), folder)
        print("%d empty instances: %.3f s, %.2f microseconds each" % (INSTANCES, instances, instances / INSTANCES * 1e6))
        calls = timed(MANY_CALLS, "i32:%d" % CALLS, folder)
        print("%d calls of a host function: %.3f s, %.2f microseconds each" % (CALLS, calls, calls / CALLS * 1e6))


if __name__ == "__main__":
    main()
