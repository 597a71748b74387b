#!/usr/bin/env python3
"""Compares what a program prints for random sessions with what the executor beside this file does.

python3 tools/executor/compare.py PROGRAM [--seed N] [--count N] [--mix NAME] [--turns N] [--confined] [--out FOLDER]
    [FILE ...]

It makes so many sessions from as many numbers, the first of which is the seed, runs `PROGRAM run` on each, and prints for
each difference the seed and the file where it put the session, and at the end how many it compared and how many differ; it
ends with 1 where something differs. Sessions of objects that are larger than the executor tries are left out. Files that
are named are compared in place of random sessions. With `--turns` each session is also run under each limit of turns up to
that one, so that each of its commands is stopped at each place. With `--confined` the executor also computes what each
command reaches, and prints where a command changed something else, or made what was there reachable.
"""

import argparse
import collections
import json
import os
import subprocess
import sys
import tempfile

from main import deeply
from random_sessions import BY_NAME, MIXES, random_session
from reach import Confinement
from session import OUT_OF_MEMORY, Ending, perform, run_session

PATIENCE = 60


def run_program(program, text):
    try:
        done = subprocess.run([program, "run"], input=text.encode(), capture_output=True, timeout=PATIENCE)
    except subprocess.TimeoutExpired:
        return Ending(None, "", "no end in %d seconds" % PATIENCE)
    return Ending(done.returncode, done.stdout.decode(), done.stderr.decode().strip())


def first_difference(ours, theirs):
    """What differs first, in one line."""
    if ours.status != theirs.status or ours.said != theirs.said:
        return "status %s %s, and the program %s %s" % (ours.status, ours.said, theirs.status, theirs.said)
    lines, others = ours.text.split("\n"), theirs.text.split("\n")
    place = next(place for place, pair in enumerate(zip(lines, others)) if pair[0] != pair[1])
    return "line %d: %s, and the program %s" % (place, lines[place], others[place])


class Comparison:
    def __init__(self, program, folder, confined):
        self.program = program
        self.folder = folder
        self.confined = confined
        self.counts = collections.Counter()

    def run_executor(self, name, text):
        """What the executor gives, each of whose commands is looked at where that is asked for."""
        if not self.confined:
            return run_session(text.encode(), perform)
        confinement = Confinement()
        ending = run_session(text.encode(), confinement.perform)
        self.counts["commands"] += confinement.commands
        self.counts["commands with something out of their reach"] += confinement.beside
        self.counts["commands that changed what they reach and do not name"] += confinement.through_links
        for fault in confinement.faults:
            self.counts["differ"] += 1
            print("%s: out of reach: %s" % (name, " ".join(map(str, fault))))
        return ending

    def compare(self, name, text):
        ours = self.run_executor(name, text)
        if ours.status == OUT_OF_MEMORY:
            self.counts["left out"] += 1
            return
        self.counts["compared"] += 1
        self.counts.update(words_of(ours))
        theirs = run_program(self.program, text)
        if ours != theirs:
            self.counts["differ"] += 1
            path = os.path.join(self.folder, "%s.json" % name.replace(" ", "-"))
            with open(path, "w", encoding="utf-8") as file:
                file.write(text)
            print("%s: %s: %s" % (name, path, first_difference(ours, theirs)))

    def compare_stops(self, name, text, most):
        """Compares the session as it is, and under each limit of turns up to a number."""
        self.compare(name, text)
        for turns in range(1, most + 1):
            script = json.loads(text)
            script.setdefault("engine", {})["turns"] = turns
            self.compare("%s turns %d" % (name, turns), json.dumps(script))

    def report(self):
        for word, count in sorted(self.counts.items()):
            if word not in ("compared", "differ"):
                print("%7d %s" % (count, word))
        print("%d compared, %d differ" % (self.counts["compared"], self.counts["differ"]))


def words_of(ending):
    """What the lines of a session tell, to be counted."""
    if ending.status:
        return ["status " + ending.said.split(" ")[0]]
    lines = [line.split(" ") for line in ending.text.splitlines()]
    return [" ".join(words[: 2 if words[0] in ("trap", "refused") else 1]) for words in lines]


def main():
    parser = argparse.ArgumentParser()
    parser.add_argument("program")
    parser.add_argument("files", nargs="*")
    parser.add_argument("--seed", type=int, default=0)
    parser.add_argument("--count", type=int, default=1000)
    parser.add_argument("--mix", choices=sorted({*MIXES, *BY_NAME}))
    parser.add_argument("--turns", type=int, default=0)
    parser.add_argument("--confined", action="store_true")
    parser.add_argument("--out", default=tempfile.gettempdir())
    words = parser.parse_intermixed_args()
    comparison = Comparison(os.path.abspath(words.program), words.out, words.confined)
    if words.files:
        for path in words.files:
            with open(path, encoding="utf-8") as file:
                comparison.compare_stops(os.path.basename(path), file.read(), words.turns)
    else:
        for seed in range(words.seed, words.seed + words.count):
            text, mix = random_session(seed, words.mix)
            comparison.compare_stops("seed %d %s" % (seed, mix), text, words.turns)
    comparison.report()
    return comparison.counts["differ"] != 0


if __name__ == "__main__":
    sys.exit(deeply(main))
