#!/usr/bin/env python3
"""Times the built program on generated sessions, and prints a table.

At the top of the repository, after ./session has built the program: python3 bench/run.py
"""

import json
import os
import subprocess
import sys
import tempfile
import time

PROGRAM = os.path.join(os.path.dirname(__file__), "..", "crates", "mullerpink", "out", "mullerpink")


def small_commands(size):
    """A session of about so many bytes, of reads of one byte."""
    parts = ['{"commands":[{"do":"memory_new","min":1}']
    length, n = len(parts[0]), 0
    while True:
        part = ',{"do":"memory_read","memory":0,"at":%d,"len":1}' % (n % 65536)
        if length + len(part) + 2 > size:
            return "".join(parts) + "]}"
        parts.append(part)
        length += len(part)
        n += 1


def one_write(size):
    """A write of so many bytes, and a read of all of them."""
    return json.dumps({"commands": [
        {"do": "memory_new", "min": (size + 65535) // 65536},
        {"do": "memory_write", "memory": 0, "at": 0, "bytes": "5a" * size},
        {"do": "memory_read", "memory": 0, "at": 0, "len": size},
    ]})


def mixed_commands(count):
    """So many commands on a memory, a table and a global, in turn."""
    commands = [
        {"do": "memory_new", "min": 1},
        {"do": "table_new", "ref": "externref", "min": 100, "init": {"extern": None}},
        {"do": "global_new", "val": "i64", "mut": True, "init": {"i64": 0}},
    ]
    for n in range(count):
        commands.append([
            {"do": "memory_write", "memory": 0, "at": n % 60000, "bytes": "0a0b"},
            {"do": "memory_read", "memory": 0, "at": n % 60000, "len": 4},
            {"do": "table_set", "table": 1, "at": n % 100, "value": {"extern": n}},
            {"do": "table_get", "table": 1, "at": n % 100},
            {"do": "table_copy", "dst": 1, "dst_at": 0, "src": 1, "src_at": 5, "len": 20},
            {"do": "global_set", "global": 2, "value": {"i64": n}},
            {"do": "global_get", "global": 2},
            {"do": "memory_size", "memory": 0},
        ][n % 8])
    return json.dumps({"commands": commands})


def growths(count):
    """So many growths of a memory by a page."""
    return json.dumps({"commands": [{"do": "memory_new", "min": 1}] + [{"do": "memory_grow", "memory": 0, "delta": 1}] * count})


SESSIONS = {
    "one command": lambda: '{"commands":[{"do":"memory_new","min":1}]}',
    "1 MiB of small commands": lambda: small_commands(2**20),
    "16 MiB of small commands": lambda: small_commands(2**24),
    "write and read of 4 MiB": lambda: one_write(2**22),
    "100,000 commands on a memory, a table and a global": lambda: mixed_commands(100000),
    "1,000 growths by a page": lambda: growths(1000),
}


def make(name, path):
    with open(path, "w") as file:
        file.write(SESSIONS[name]())


def json_seconds(path):
    with open(path) as file:
        text = file.read()
    start = time.perf_counter()
    json.loads(text)
    print(time.perf_counter() - start)


def apart(*words):
    """This file in a process of its own, so that no text counts as this process's memory."""
    return subprocess.run([sys.executable, __file__, *words], check=True, capture_output=True, text=True).stdout


def run(path):
    """The seconds and the peak memory in bytes of one run."""
    start = time.perf_counter()
    with open(path) as session:
        process = subprocess.Popen([PROGRAM, "run"], stdin=session, stdout=subprocess.DEVNULL)
        _, status, usage = os.wait4(process.pid, 0)
    process.returncode = os.waitstatus_to_exitcode(status)
    if process.returncode != 0:
        sys.exit("the program ended with status %d" % process.returncode)
    return time.perf_counter() - start, usage.ru_maxrss * 1024


def table():
    print("| session | bytes | seconds | Python's json | ratio | peak memory | times its size |")
    print("|---|---|---|---|---|---|---|")
    with tempfile.TemporaryDirectory() as folder:
        path = os.path.join(folder, "session.json")
        for name in SESSIONS:
            apart("make", name, path)
            size = os.path.getsize(path)
            seconds, peak = min(run(path) for _ in range(5))
            python = min(float(apart("json", path)) for _ in range(5))
            print("| %s | %d | %.4f | %.4f | %.1f | %d MiB | %.1f |" % (
                name, size, seconds, python, seconds / python, peak // 2**20, peak / size))
    print("processors:", os.cpu_count())


if __name__ == "__main__":
    if sys.argv[1:2] == ["make"]:
        make(sys.argv[2], sys.argv[3])
    elif sys.argv[1:2] == ["json"]:
        json_seconds(sys.argv[2])
    else:
        table()
