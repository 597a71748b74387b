#!/usr/bin/env python3
"""Runs sessions with each of their allocations refused in turn: python3 tools/allocations.py [--tapes] [PROGRAM] [FILE ...]

At the top of the repository, after ./session has built the program, and with `cc` on the path; the sessions are those of
examples/ and two generated ones where no file is named. A run whose memory is wanting ends with status 8 and has written a
front of the lines, of a generated session nothing, or it goes on and writes all. With --tapes the program is that of
./session --record: each session is recorded, and replayed by its tape, and a run whose memory is wanting has written
nothing. It prints a line for each run, and `N runs, M wrong`, and ends with 1 where one is wrong.
"""

import collections
import glob
import os
import subprocess
import sys
import tempfile

HERE = os.path.dirname(os.path.abspath(__file__))
OUT_OF_MEMORY = 8
GENERATED = ["3", "200"]

# What it is called, its words and its standard input; and how it ends, with what it wrote and how many allocations.
Run = collections.namedtuple("Run", "name words source")
Ended = collections.namedtuple("Ended", "status written allocations")


def built(name):
    return os.path.join(HERE, "..", "crates", name, "out", name)


class Refusing:
    """Runs a program, with one of its allocations refused or none."""

    def __init__(self, program, folder):
        self.program = program
        self.library = os.path.join(folder, "refuse_allocation.so")
        source = os.path.join(HERE, "refuse_allocation.c")
        subprocess.run(["cc", "-shared", "-fPIC", "-O1", "-o", self.library, source], check=True)

    def ended(self, run, refused=0):
        environment = dict(os.environ, LD_PRELOAD=self.library, REFUSED=str(refused))
        words = [self.program, *run.words]
        done = subprocess.run(words, input=run.source, capture_output=True, env=environment, check=False)
        return Ended(done.returncode, done.stdout, int(done.stderr.split()[-1]))

    def wrong(self, run):
        """How many allocations a run makes, and the numbers of those whose refusal shows a wrong run."""
        whole = self.ended(run)
        wrong = []
        for refused in range(1, whole.allocations + 1):
            ended = self.ended(run, refused)
            stopped = ended.status == OUT_OF_MEMORY and is_front(run, ended.written, whole.written)
            if not stopped and ended[:2] != whole[:2]:
                wrong.append(refused)
        return whole.allocations, wrong


def is_front(run, written, lines):
    """Whether this may be written where memory is wanting: only lines of a session that is run are written as it goes."""
    return written == b"" or (run.words == ["run"] and lines.startswith(written) and written.endswith(b"\n"))


def scripts(paths):
    for path in paths or sorted(glob.glob(os.path.join(HERE, "..", "examples", "*.json"))):
        with open(path, "rb") as file:
            yield os.path.basename(path), file.read()


def sessions(paths):
    yield from (Run(name, ["run"], script) for name, script in scripts(paths))
    if not paths:
        yield from (Run("gen " + count, ["gen", count], b"") for count in GENERATED)


def tapes(paths, refusing):
    """Of each session its record and, where there is a tape, its replay."""
    for name, script in scripts(paths):
        record = Run(name + ", recorded", ["record"], script)
        yield record
        status, text, _ = refusing.ended(record)
        if status == 0:
            yield Run(name + ", replayed", ["replay"], text.split(b"\n")[0] + b"\n" + script)


def main(words):
    taped = words[:1] == ["--tapes"]
    words = words[taped:]
    program = words[0] if words else built("mullerpink_replay" if taped else "mullerpink")
    runs = faults = 0
    with tempfile.TemporaryDirectory() as folder:
        refusing = Refusing(program, folder)
        for run in tapes(words[1:], refusing) if taped else sessions(words[1:]):
            allocations, wrong = refusing.wrong(run)
            print("%s: %d allocations%s" % (run.name, allocations, ", wrong at %s" % wrong if wrong else ""))
            runs += allocations
            faults += len(wrong)
    print("%d runs, %d wrong" % (runs, faults))
    return 1 if faults else 0


if __name__ == "__main__":
    sys.exit(main(sys.argv[1:]))
