#!/usr/bin/env python3
"""Runs all that README.md, docs/ and examples/ show over the built program, and compares what they say it prints.

At the top of the repository, after ./session has built the program: python3 tools/check.py. It prints what differs and
the number of comparisons, and ends with 1 where something differs. Another program may be named as its one word.
"""

import glob
import json
import os
import re
import subprocess
import sys
import tempfile

import names

TOP = os.path.join(os.path.dirname(os.path.abspath(__file__)), "..")
PROGRAM = os.path.abspath(sys.argv[1]) if sys.argv[1:] else os.path.join(TOP, "crates/mullerpink/out/mullerpink")
os.chdir(TOP)
REFUSED = (4, 5, 6, 7)
DOCUMENTS = ["README.md", "CONTRIBUTING.md", *sorted(glob.glob("docs/*.md")), *sorted(glob.glob("crates/*/README.md")),
             "examples/README.md", "bench/README.md"]
MOST_WORDS = {"README.md": 1000, "docs/ARCHITECTURE.md": 3000, "docs/PROVED.md": 3500, "docs/DEFINITIONS.md": 1500}
compared, differ = 0, 0


def read(path):
    with open(path, encoding="utf-8") as file:
        return file.read()


def same(where, got, wanted):
    global compared, differ
    compared += 1
    if got != wanted:
        differ += 1
        print("%s:\n  is     %r\n  wanted %r" % (where, got, wanted))


def run(text, words=("run",)):
    """The status, the output and the name of the status of the program on an input."""
    done = subprocess.run([PROGRAM, *words], input=text.encode(), capture_output=True)
    return done.returncode, done.stdout.decode(), done.stderr.decode().strip()


def check_examples():
    listed = read("examples/README.md")
    for path in sorted(glob.glob("examples/*.json")):
        same(path, run(read(path)), (0, read(path.replace(".json", ".txt")), ""))
        same(path + " in examples/README.md", "`%s`" % os.path.basename(path) in listed, True)
    for path in sorted(glob.glob("crates/example_*")):
        same(path + " in examples/README.md", os.path.basename(path) in listed, True)


def check_tables():
    """Each table of commands in docs/SESSIONS.md is a session, over the other parts of a script that stand before it. A
    row `end` has the line of the hook, and a row `note` the note before the line of the next one."""
    shown = set()
    for section in read("docs/SESSIONS.md").split("\n## "):
        rows = re.findall(r"^\| \d+ \| `(.*)` \| `(.*)` \|$", section, re.M)
        if rows:
            commands = [row[0] for row in rows]
            shown |= {json.loads(command)["do"] for command in commands}
            before = re.search(r"^With\n\n```json\n(\{.*?)\n\}\n```$", section, re.M | re.S)
            script = "%s\"commands\": [%s]}" % (before.group(1) + ", " if before else "{", ", ".join(commands))
            printed = re.findall(r"^\| (?:\d+|note|end) \| .*\| `(.*)` \|$", section, re.M)
            lines = "".join(line + "\n" for line in printed)
            same("docs/SESSIONS.md, " + section.split("\n")[0], run(script), (0, lines, ""))
    named = re.findall(r"^\| `([a-z_]+)` \| ", read("docs/SESSIONS.md").split("\n## Names")[0], re.M)
    same("the commands that docs/SESSIONS.md shows", sorted(shown), sorted(named))


def check_statuses():
    for code, name, example in re.findall(r"^\| (\d) \| `(\w+)` \| .* \| (.*) \|$", read("docs/SESSIONS.md"), re.M):
        name = "" if name == "Done" else name
        if example.startswith("`"):
            status, lines, said = run(example.strip("`"))
            same("status " + code, (status, lines, said.split(" ")[0]), (int(code), "", name))
        elif example.startswith("the words "):
            same("status " + code, run("", example.strip("`").split("`")[1].split()), (int(code), "", name))
        elif example == "2^24 + 1 spaces":
            same("status " + code, run(" " * (2**24 + 1)), (int(code), "", name))


def check_generated():
    """Generated sessions print what the second executor says, and what docs/SESSIONS.md shows, and read no input."""
    shown = re.search(r"The words `(gen \d+)` print:\n\n```text\n(.*?)^```$", read("docs/SESSIONS.md"), re.M | re.S)
    same("docs/SESSIONS.md, " + shown.group(1), run("", shown.group(1).split()), (0, shown.group(2), ""))
    numbers = [*map(str, range(51)), "200", "1000", "1001", "01", ""]
    for words in [*(("gen", number) for number in numbers), ("gen",), ("gen", "1", "2"), ("run", "1")]:
        done = subprocess.run([sys.executable, "tools/executor/main.py", *words], capture_output=True, text=True)
        same(" ".join(words), run("{", words), (done.returncode, done.stdout, done.stderr.strip()))


def check_readme():
    blocks = re.findall(r"^```(\w+)\n(.*?)^```$", read("README.md"), re.M | re.S)
    examples = {path: read(path) for path in sorted(glob.glob("crates/example_*/src/*.rt"))}
    for n, (kind, block) in enumerate(blocks):
        if kind == "json":
            same("README.md, its session", block in [read(path) for path in glob.glob("examples/*.json")], True)
            same("README.md, its lines", run(block)[1], blocks[n + 1][1])
        elif kind == "rust":
            places = [path for path in examples if block in examples[path]]
            same("README.md, code that stands in an example:\n" + block, len(places), 1)
            if places and blocks[n + 1:] and blocks[n + 1][0] == "text":
                same("README.md, its output", blocks[n + 1][1], read(places[0].split("/src")[0] + "/stdout"))


def crates():
    """Of each crate of crates.txt those that it uses."""
    lines = [line.split(":") for line in read("crates.txt").splitlines() if ":" in line and not line.startswith("#")]
    return {crate.split()[0]: used.split() for crate, used in lines}


def check_counts():
    """How many crates are below the program, and how many sessions there are, as README.md says; and that the pages which
    span crates are short."""
    uses = crates()

    def with_below(crate):
        return {crate}.union(*(with_below(used) for used in uses[crate] if used in uses))

    page = read("README.md")
    same("README.md, the crates", "its %d crates" % len(with_below("mullerpink")) in page, True)
    same("README.md, the sessions", "[%d examples]" % len(glob.glob("examples/*.json")) in page, True)
    for path, most in MOST_WORDS.items():
        same("%s, at most %d words" % (path, most), len(read(path).split()) <= most, True)


def check_names():
    """That the map leads to each crate's page, the tables of definitions are those of the files, and each law that is named
    is there."""
    for crate in crates():
        page = "crates/%s/README.md" % crate
        same("docs/ARCHITECTURE.md, the crate " + crate, "](../%s)" % page in read("docs/ARCHITECTURE.md"), True)
        same(page, os.path.exists(page), True)
    table = subprocess.run([sys.executable, "tools/specs.py", "--check"], capture_output=True)
    same("the tables of definitions", table.stderr, b"")
    same("docs/EMBEDDING.md, the names that an embedder writes", names.faults(), [])
    laws = {law for path in glob.glob("crates/*/src/**/laws*.rt", recursive=True)
            for law in re.findall(r"pub fn (law_\w+)", read(path))}
    for path in DOCUMENTS:
        named = set(re.findall(r"`(law_\w+)`", read(path))) - set(crates())
        same(path + ", laws that are not there", sorted(named - laws), [])


def check_links():
    for path in DOCUMENTS:
        for link in re.findall(r"\]\(([^)#:]+)[^):]*\)", read(path)):
            target = os.path.join(os.path.dirname(path), link)
            same("%s, link to %s" % (path, link), os.path.exists(target), True)


def check_faults():
    """What ./session --check says agrees with the program, on the examples and on a list of bad scripts, and where it asks
    the second executor, since the program is not built, it says the same."""
    rows = [("a script", read(path)) for path in sorted(glob.glob("examples/*.json"))]
    rows += [line.split("\t") for line in read("tools/bad_scripts.txt").splitlines()]
    with tempfile.TemporaryDirectory() as folder:
        path = os.path.join(folder, "script")
        for says, script in rows:
            with open(path, "w", encoding="utf-8") as file:
                file.write(script)
            words = [sys.executable, "tools/check_script.py", PROGRAM, path]
            done = subprocess.run(words, capture_output=True, text=True)
            unbuilt = subprocess.run([*words[:2], path], capture_output=True, text=True)
            same("--check, what it says of " + script, says in done.stdout, True)
            same("--check, what it says unbuilt of " + script, unbuilt.stdout, done.stdout)
            status = run(script)[0]
            same("--check, its status of " + script, done.returncode, status if status in REFUSED else 0)
            same("--check, its status unbuilt of " + script, unbuilt.returncode, done.returncode)


for check in (check_examples, check_tables, check_statuses, check_generated, check_readme, check_counts, check_names,
              check_links, check_faults):
    check()
print("%d compared, %d differ" % (compared, differ))
sys.exit(differ != 0)
