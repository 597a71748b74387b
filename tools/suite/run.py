#!/usr/bin/env python3
"""Runs the official test suite of WebAssembly on a program for sessions, and compares each assertion.

python3 tools/suite/run.py FOLDER [PROGRAM] [--reader PROGRAM] [--only NAME ..] [--verbose]

FOLDER has the suite's files, `*.wast`. They are not in this repository. Debian's source package `binaryen` carries them,
and a place that lists Debian's sources gives them, for example:

  apt-get source --download-only binaryen && tar xf binaryen_*.orig.tar.gz    then FOLDER is binaryen-*/test/spec

(which wants a line `deb-src http://deb.debian.org/debian bookworm main` among apt's sources). These are of the first
version of the core specification. The suite as it is now is in Debian's `firefox-esr` (from_scripts.mjs). `wast2json`,
`spectest-interp` and `wasm-validate` of Debian's `wabt` are needed. PROGRAM is the built program, by default
crates/mullerpink/out/mullerpink, or the executor tools/executor/main.py.

Each file becomes one session, as file_session.py has it: its modules, read from bytes by tools/binary/reader.py, what they
import and register, and a command for each assertion, whose line is compared with what the suite expects. In place of a
function with an instruction that is not in the profile stands one that traps, and an assertion that may run into such a
function, and ends in that trap, is left out. That a module is
invalid is asserted by a session with that module alone, which must end with `InvalidModule`, or by the reader, which must
refuse it. That bytes are malformed is asserted by the reader; with --reader also by a program that takes the bytes on
standard input and prints one line, which must be the same as the reader's line.

It prints for each file how many assertions and modules were run and how many were left out, each that differs, why others
were left out and how often, and the sums, and ends with 1 where something differs. Some differ by intent: what wabt's own
runner of the suite fails too, since the files are older than the present core specification and a few are wrong; and what
docs/DIFFERENCES.md names. These are counted apart, by what differs.
"""

import argparse
import collections
import glob
import json
import os
import re
import shutil
import subprocess
import sys
import tempfile

from expected import Unsaid
from file_session import FileSession, read_module, reader
from forms import COMMANDS, READER, commands_of
from valid_here import VALIDATOR, reason

TOP = os.path.join(os.path.dirname(os.path.abspath(__file__)), "..", "..")
PROGRAM = os.path.join(TOP, "crates", "mullerpink", "out", "mullerpink")
PATIENCE = 600
DONE, INVALID_MODULE, OUT_OF_MEMORY = 0, 7, 8
NO_LINE = "no line"
RUNNER = "spectest-interp"
# The files are of the first version of the core specification, with a few additions and faults of their own: where wabt's own
# runner fails an assertion too, it is no difference of the program.
WABT = "a newer version of the core specification, and wabt fails it too: "
SEGMENTS = "segments before one that does not fit stay written"
TEXTS = {
    "multiple memories": "a module may have more than one memory",
    "multiple tables": "a module may have more than one table",
    "invalid result arity": "a function may have more than one result",
    "zero flag expected": "the index of a memory or a table stands where a byte 0 stood",
}
REPLACED = "trap UnreachableCodeReached"  # what a body ends with that stands for one outside of the profile


class Program:
    """The program that runs sessions."""

    def __init__(self, path):
        self.words = [path, "run"]

    def run(self, script):
        """The status, the lines, and what it says on standard error."""
        try:
            done = subprocess.run(self.words, input=text_of(script), capture_output=True, timeout=PATIENCE)
        except subprocess.TimeoutExpired:
            return None, [], "no end in %d seconds" % PATIENCE
        return done.returncode, done.stdout.decode().splitlines(), done.stderr.decode().strip()


class Executor:
    """The executor in Python, which runs here: its start would take longer than most sessions."""

    def __init__(self, path):
        sys.path.insert(0, os.path.dirname(path))
        from main import deeply
        from session import run_session

        self.deeply, self.run_session = deeply, run_session

    def run(self, script):
        ending = self.deeply(lambda: self.run_session(text_of(script)))
        if ending is None:
            return None, [], "it failed"
        return ending.status, ending.text.splitlines(), ending.said


def text_of(script):
    return json.dumps(script).encode("utf-8", "surrogatepass")


class Counts:
    def __init__(self):
        self.held = collections.Counter()  # by the kind of assertion
        self.differ = []  # file, line, what
        self.left_out = collections.Counter()  # by reason
        self.intended = collections.Counter()  # by what differs
        self.parts = 0  # modules in which a function stands for one that is not in the profile

    def add(self, other):
        self.held += other.held
        self.differ += other.differ
        self.left_out += other.left_out
        self.intended += other.intended
        self.parts += other.parts


class SuiteFile:
    """One file of the suite, run."""

    def __init__(self, path, given, folder):
        self.path, self.name = path, os.path.basename(path)
        self.program, self.reader, self.folder = given.program, given.reader, folder
        self.counts, self.failed = Counts(), None

    def differs(self, line, what):
        self.counts.differ.append((self.name, line, what))

    def run(self):
        commands, gone = commands_of(self.path, self.folder)
        for form in gone:
            if form.head.startswith("assert_") or form.head == "module":
                self.counts.left_out["%s does not read it, or its module" % READER] += 1
        session = FileSession(self.folder)
        for command in commands:
            session.take(command)
        for kind, _line, why in session.left_out:
            if kind != "register":
                self.counts.left_out[why] += 1
        for kind, line, fault in session.unread:
            self.differs(line, "%s: a module of the suite that the reader refuses: %s" % (kind, fault))
        self.counts.parts = session.part_modules
        if session.assertions:
            self.compare(session)
        for command in session.apart:
            self.apart(command)
        return self.counts

    def compare(self, session):
        """Runs the session, and compares the line of each assertion."""
        status, lines, said = self.program.run(session.script())
        if status not in (DONE, OUT_OF_MEMORY):
            self.differs(0, "the session ends with status %s %s after %d lines" % (status, said, len(lines)))
        gone = False  # whether a call was left out that may have had an effect
        for row in session.assertions:
            got = lines[row.reply] if row.reply < len(lines) else NO_LINE
            if got == NO_LINE and status == OUT_OF_MEMORY:
                self.counts.left_out["behind a command for which memory was wanting"] += 1
            elif row.may_leave and got == REPLACED:
                self.counts.left_out["runs into a function that is not in the profile"] += 1
                gone = True
            elif row.expected.holds(got):
                self.counts.held[row.kind] += 1
            elif row.line in self.wabt_fails():
                self.counts.intended[WABT + (SEGMENTS if row.old_segment else "the file itself is wrong")] += 1
            elif gone:
                self.counts.left_out["behind a call that is left out, whose effect is missing"] += 1
            else:
                self.differs(row.line, "%s: is %r, and is to be %s" % (row.kind, got, row.expected))

    def wabt_fails(self):
        """The lines of the file where wabt's own runner of the suite is of the same mind as the program."""
        if self.failed is None:
            path = os.path.join(self.folder, COMMANDS)
            done = subprocess.run([RUNNER, "--enable-all", path], capture_output=True, text=True, errors="replace")
            lines = [re.match(r".*\.wast:(\d+): (?!.* passed)", line) for line in done.stdout.splitlines()]
            self.failed = {int(line.group(1)) for line in lines if line}
        return self.failed

    def apart(self, command):
        """That a module is invalid or malformed."""
        kind, line = command["type"], command["line"]
        if command.get("module_type") == "text":
            self.counts.left_out["the text format is not read here"] += 1
            return
        with open(os.path.join(self.folder, command["filename"]), "rb") as file:
            data = file.read()
        said = reader.line_of(data)
        if self.reader and not self.same_line(line, data, said):
            return
        if said.startswith("unsupported") and kind == "assert_invalid":
            self.counts.left_out["not in the profile"] += 1
        elif not said.startswith("module"):
            self.counts.held["%s, by the reader: %s" % (kind, said.split(" ")[0])] += 1
        elif kind == "assert_malformed" and command["text"] != "zero flag expected":
            self.differs(line, "malformed (%s), and the reader says %r" % (command["text"], said))
        else:
            self.invalid(command, data)

    def same_line(self, line, data, said):
        done = subprocess.run([self.reader], input=data, capture_output=True, timeout=PATIENCE)
        got = done.stdout.decode().rstrip("\n")
        if got != said:
            self.differs(line, "the program for bytes says %r, and the reader %r" % (got, said))
        return got == said

    def invalid(self, command, data):
        """That a module which is read breaks a rule."""
        try:
            declaration, _replaced = read_module(data)
        except Unsaid as why:
            self.counts.left_out[str(why)] += 1
            return
        script = {"types": declaration["types"], "modules": [declaration["module"]], "commands": []}
        status, _lines, said = self.program.run(script)
        if status == INVALID_MODULE:
            self.counts.held["assert_invalid"] += 1
            return
        why = self.intended(command, declaration)
        if status == DONE and why:
            self.counts.intended[why] += 1
        else:
            self.differs(command["line"], "invalid (%s), and the status is %s %s" % (command["text"], status, said))

    def intended(self, command, declaration):
        """Why a module that the suite calls invalid is valid here, where docs/DIFFERENCES.md names it; else none."""
        if command["line"] in self.wabt_fails():
            return WABT + TEXTS.get(command["text"], "another reason")
        named = reason(declaration)
        return named and "docs/DIFFERENCES.md: " + named


def sum_line(name, counts):
    run = sum(counts.held.values()) + len(counts.differ) + sum(counts.intended.values())
    row = (name, run, len(counts.differ), sum(counts.intended.values()), sum(counts.left_out.values()))
    return "%-32s %5d run, %d differ, %d differ by intent, %d left out" % row


def report(counts):
    for name, line, what in counts.differ:
        print("%s:%d: %s" % (name, line, what))
    for title, rows in (("held", counts.held), ("by intent", counts.intended), ("left out", counts.left_out)):
        for what, count in sorted(rows.items(), key=lambda row: (-row[1], row[0])):
            print("%6d %s: %s" % (count, title, what))
    print("%d of the modules have functions in place of such as are not in the profile" % counts.parts)
    print(sum_line("all files", counts))


def arguments():
    parser = argparse.ArgumentParser(description=__doc__.split("\n\n")[0])
    parser.add_argument("folder")
    parser.add_argument("program", nargs="?", default=PROGRAM)
    parser.add_argument("--reader", help="a program for bytes")
    parser.add_argument("--only", nargs="+", default=[], help="names of files")
    parser.add_argument("--verbose", action="store_true", help="a line for each file")
    given = parser.parse_intermixed_args()
    for needed in (READER, RUNNER, VALIDATOR):
        if not shutil.which(needed):
            sys.exit("%s, of Debian's package wabt, is not there" % needed)
    if not os.path.exists(given.program):
        sys.exit("there is no program at %s" % given.program)
    kind = Executor if given.program.endswith(".py") else Program
    given.program = kind(os.path.abspath(given.program))
    return given


def main():
    given, sums = arguments(), Counts()
    paths = sorted(glob.glob(os.path.join(given.folder, "*.wast")))
    if given.only:
        paths = [path for path in paths if os.path.basename(path)[:-5] in given.only]
    if not paths:
        sys.exit("no file of the suite in %s" % given.folder)
    for path in paths:
        with tempfile.TemporaryDirectory() as folder:
            counts = SuiteFile(path, given, folder).run()
        if given.verbose:
            print(sum_line(os.path.basename(path), counts), flush=True)
        sums.add(counts)
    report(sums)
    return bool(sums.differ)


if __name__ == "__main__":
    sys.setrecursionlimit(100000)
    sys.exit(main())
