#!/usr/bin/env python3
"""Compares the built program with V8 on random modules: python3 tools/v8/compare.py [PROGRAM] [--seed N] [--count N].

At the top of the repository, after ./session has built the program, and with `node` (20 or newer) on the path. Each of
--count seeds from --seed on, by default 1,000 from 1 on, gives a session (random_sessions.py) with one to three
modules, which are linked, instantiated, called and read. The program runs it as it is, and V8 the same commands on the
same modules in the binary format (engine.mjs, wasm_binary.py). Each line is compared: what calls give, how they
end, and at the end what memories, tables and globals hold, a function by its number in the store. It prints the first
line of each session that differs with its seed, the file to which it wrote the session, how often each kind of reply
came, and `N compared, M differ`, and ends with 1 where a line differs. A module that either refuses is a fault of
these tools, which is said as such. V8 knows one memory a module here, no tags, and no pages of one byte; of references
here are functions and numbers of the host; operands of floats and vectors do not occur.
"""

import argparse
import collections
import json
import os
import shutil
import subprocess
import sys
import tempfile

from random_sessions import SessionWriter
from random_code import NULL_PROBE
from wasm_binary import binary

HERE = os.path.dirname(os.path.abspath(__file__))
PROGRAM = os.path.join(HERE, "..", "..", "crates", "mullerpink", "out", "mullerpink")
SUBTYPES = "--experimental-wasm-gc"  # what an older V8 wants to be told
SECONDS = 60


class V8:
    """A process of node that runs one session after another."""

    def __init__(self):
        options = subprocess.run(["node", "--v8-options"], capture_output=True, text=True).stdout.split()
        self.command = ["node", *[SUBTYPES] * (SUBTYPES in options), os.path.join(HERE, "engine.mjs")]
        self.start()

    def start(self):
        self.node = subprocess.Popen(self.command, stdin=subprocess.PIPE, stdout=subprocess.PIPE, text=True)

    def lines(self, session):
        binaries = [binary(session["types"], module).hex() for module in session["modules"]]
        request = {"session": session, "binaries": binaries, "probe": NULL_PROBE}
        try:
            self.node.stdin.write(json.dumps(request) + "\n")
            self.node.stdin.flush()
            return json.loads(self.node.stdout.readline())
        except (BrokenPipeError, json.JSONDecodeError):
            status = self.node.wait()
            self.start()
            return ["V8: it ended with status %d" % status]


def program_lines(program, session):
    """The lines of the program, and where it ends otherwise than with `Done` one more that says how."""
    text = json.dumps(session)
    try:
        done = subprocess.run([program, "run"], input=text, capture_output=True, text=True, timeout=SECONDS)
    except subprocess.TimeoutExpired:
        return ["the program took more than %d seconds" % SECONDS]
    ended = ["status %d: %s" % (done.returncode, done.stderr.strip())] if done.returncode else []
    return done.stdout.splitlines() + ended


def kind_of(line):
    """What kind of reply a line is, for the count of them."""
    words = line.split(" ")
    if words[0] == "ok":
        return " ".join(words[:2]) if words[1:] and not words[1].isdigit() else "ok"
    return " ".join(words[:2])


def shortened(line, other):
    """A line, or of a long one what stands around the first place where it differs from the other."""
    if len(line) <= 200:
        return line
    place = len(os.path.commonprefix([line, other]))
    return "%s .. %s .. (from character %d)" % (line[:12], line[max(place - 8, 12):place + 40], place)


def first_difference(session, ours, theirs):
    """The command whose line is the first that differs, with both lines, or none."""
    for place in range(max(len(ours), len(theirs))):
        pair = [lines[place] if place < len(lines) else "no line" for lines in (ours, theirs)]
        if pair[0] != pair[1]:
            command = session["commands"][place] if place < len(session["commands"]) else "behind the last command"
            return place, command, pair
    return None


def write_session(seed, session):
    path = os.path.join(tempfile.gettempdir(), "v8-%d.json" % seed)
    with open(path, "w", encoding="utf-8") as file:
        json.dump(session, file)
    return path


def report(seed, session, difference):
    place, command, (ours, theirs) = difference
    print("seed %d, reply %d, %s:" % (seed, place, json.dumps(command)))
    print("  program " + shortened(ours, theirs))
    print("  V8      " + shortened(theirs, ours))
    print("  session in " + write_session(seed, session))
    if theirs.startswith("V8: CompileError") or "InvalidModule" in ours or "BadScript" in ours:
        print("  a module that is not valid, or a session that is none: a fault of these tools")


def arguments():
    parser = argparse.ArgumentParser(description=__doc__.split("\n\n")[0])
    parser.add_argument("program", nargs="?", default=PROGRAM)
    parser.add_argument("--seed", type=int, default=1, help="the first seed")
    parser.add_argument("--count", type=int, default=1000, help="how many seeds")
    given = parser.parse_args()
    for needed in ("node", given.program):
        if not shutil.which(needed):
            sys.exit("%s is not there" % needed)
    return given


def main():
    given = arguments()
    v8, kinds = V8(), collections.Counter()
    modules, compared, differ = 0, 0, 0
    for seed in range(given.seed, given.seed + given.count):
        session = SessionWriter(seed).session()
        ours, theirs = program_lines(given.program, session), v8.lines(session)
        modules += len(session["modules"])
        compared += len(theirs)
        kinds.update(map(kind_of, theirs))
        difference = first_difference(session, ours, theirs)
        if difference:
            differ += 1
            report(seed, session, difference)
    print(", ".join("%s: %d" % row for row in sorted(kinds.items())))
    print("%d sessions of %d modules: %d compared, %d differ" % (given.count, modules, compared, differ))
    sys.exit(differ != 0)


if __name__ == "__main__":
    main()
