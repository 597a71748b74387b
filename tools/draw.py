#!/usr/bin/env python3
"""Draws the pictures of docs/pictures from the repository's own files, with Debian's graphviz and gnuplot-nox.

At the top of the repository: python3 tools/draw.py

What is drawn comes from crates.txt, the sources and bench/README.md. The pictures are checked in, so that readers see them
and the gate needs no tool to draw.
"""

import glob
import os
import re
import subprocess

TOP = os.path.join(os.path.dirname(os.path.abspath(__file__)), "..")
PICTURES = "docs/pictures"
FONT = 'fontname="Helvetica,Arial,sans-serif"'
BOLD = 'penwidth=3, color="#113355"'
FILLS = ("#dbe9f6", "#e3f1dc", "#fdebd0", "#f6dfe4", "#e8e2f3", "#dff1ee", "#f3efd2", "#ececec", "#f9e6da")


def read(path):
    with open(path, encoding="utf-8") as file:
        return file.read()


def centred(box):
    """The drawing of a box, with each line of its text about the middle of the box: graphviz places lines of several
    sizes by where they begin, as wide as they are in its own font."""
    places = [float(x) for x in re.findall(r"(-?[\d.]+),-?[\d.]+", re.search(r' d="([^"]*)"', box).group(1))]
    middle = (min(places) + max(places)) / 2
    return re.sub(r'text-anchor="start" x="[^"]*"', 'text-anchor="middle" x="%.2f"' % middle, box)


def draw(tool, name, text):
    """The picture of this name, as the tool makes it of a text."""
    made = subprocess.run(tool, input=text, check=True, capture_output=True, text=True).stdout
    made = re.sub(r'<g id="[^"]*" class="node">.*?</g>', lambda box: centred(box.group(0)), made, flags=re.S)
    with open(os.path.join(PICTURES, name + ".svg"), "w", encoding="utf-8") as file:
        file.write(made)


# ---------------------------------------------------------------------------------------------- the map of the crates

def crates():
    """Of each crate of crates.txt the crates of this repository that it uses, and those of the kit."""
    lines = [line.split("#")[0].split(":") for line in read("crates.txt").split("\n")]
    listed = {line[0].split()[0]: line[1].split() for line in lines if len(line) == 2}
    return {crate: ([one for one in used if one in listed], [one for one in used if one not in listed])
            for crate, used in listed.items()}


def is_beside(crate):
    """Whether it is a crate of tests or of what they share, of examples, or a program that is not the one that the
    repository is named for."""
    is_program = os.path.exists("crates/%s/src/main.rt" % crate)
    return crate.startswith(("example_", "vectors_")) or crate == "wasm_vectors" or "_" in crate and is_program


def all_below(one, uses):
    """All that one uses, by whatever way."""
    found, left = set(), [one]
    while left:
        more = [used for used in uses[left.pop()] if used not in found]
        found.update(more)
        left += more
    return found


def direct(uses):
    """Of each its uses but for those to which a longer way leads too."""
    return {one: [used for used in below if not any(used in all_below(other, uses) for other in below if other != used)]
            for one, below in uses.items()}


def longest_chain(uses):
    chains = {}
    def chain(crate):
        if crate not in chains:
            chains[crate] = max((chain(used) for used in uses[crate]), key=len, default=[]) + [crate]
        return chains[crate]
    return max((chain(crate) for crate in uses), key=len)


def width_of(lines, size):
    """A width in inches that these lines of text keep within in any common font of this size, bold too."""
    return max(map(len, lines)) * 0.72 * size / 72 + 0.25


def node(crate, kit, fill, is_bold):
    lines = [crate, *([", ".join(kit)] if kit else [])]
    bold = ', group="chain", ' + BOLD if is_bold else ""
    return '%s [label="%s", width=%.2f, fillcolor="%s"%s];' % (
        crate, "\\n".join(lines), width_of(lines, 15), fill, bold)


def in_rows(names, most):
    """Names with commas between them, in lines of at most so many letters."""
    rows = [""]
    for name in names:
        if rows[-1] and len(rows[-1]) + len(name) + 2 > most:
            rows.append("")
        rows[-1] += (", " if rows[-1] else "") + name
    return [row + "," for row in rows[:-1]] + rows[-1:]


def beside_the_map(names):
    """The crates that are not drawn: those of tests, and the programs with what they share."""
    programs = [crate for crate in names
                if crate.startswith("example_") or os.path.exists("crates/%s/src/main.rt" % crate)]
    tests = [crate for crate in names if crate not in programs]
    lines = in_rows(["Beside these: tests: " + tests[0], *tests[1:]], 100)
    return "\\n".join(["", *lines, *in_rows(["timed, or examples: " + programs[0], *programs[1:]], 100)])


def map_of_crates():
    """An arrow leads up from a crate to one that it uses, and is left out where a longer way leads there too."""
    listed = crates()
    uses = direct({crate: used for crate, (used, _) in listed.items() if not is_beside(crate)})
    chain = longest_chain(uses)
    text = ['digraph { rankdir=BT; nodesep=0.2; ranksep=0.35; newrank=true; fontsize=15; %s;' % FONT,
            'node [shape=box, style="filled,rounded", height=0.4, margin="0.05,0.05", color="#667788"];',
            'node [fontsize=15, %s]; edge [color="#8899aa", arrowsize=0.6];' % FONT]
    for crate in uses:
        text.append(node(crate, listed[crate][1], FILLS[group_of(crate)], crate in chain))
        for used in uses[crate]:
            is_bold = (crate, used) in zip(chain[1:], chain)
            text.append("%s -> %s [%s];" % (crate, used, BOLD + ", weight=20" if is_bold else ""))
    text.append('label="%s"; labelloc=b; }' % beside_the_map([crate for crate in listed if crate not in uses]))
    draw(["dot", "-Tsvg"], "crates", "\n".join(text))


# ------------------------------------------------------------------------------------------ the crates as eight groups

# Each group with what it is, the beginnings of its crates' names, and the crates that are in it by their whole name. The
# sections of docs/ARCHITECTURE.md have these names.
GROUPS = (
    ("Types and values", "what every crate speaks of", (), ("wasm_types", "wasm_values", "wasm_meter", "wasm_objects")),
    ("Modules", "declarations: reading them, and when one is valid", ("module_", "binary_"),
     ("wasm_syntax", "wasm_module", "wasm_leb", "wasm_binary", "script_json", "script_types", "script_modules")),
    ("Definitions", "the written machine, and how code runs", ("spec_",), ()),
    ("Laws", "what a host can rely on", ("law_",), ()),
    ("The store", "objects, and a host's calls on them", ("store_",), ("wasm_store",)),
    ("Running code", "the interpreter, and functions of the host", ("code_",), ("wasm_host", "host_shown")),
    ("Calls and instances", "what an embedder calls",
     ("instance_", "linker_", "typed_"),
     ("wasm_call", "wasm_instance", "wasm_linker", "wasm_typed", "wasm_pool", "wasm_embedding", "law_calls", "law_instances",
      "guest_calls", "wasm_plugins")),
    ("Sessions", "scripts, runs, lines, and the programs",
     ("script_", "tape_"),
     ("wasm_streams", "law_scripts", "wasm_session", "wasm_tape", "wasm_replay", "wasm_run", "mullerpink", "replay_run",
      "mullerpink_replay", "binary_program", "mullerpink_binary", "binary_run", "mullerpink_run")),
    ("The library for C", "runs, sessions and calls over memory", (),
     ("memory_streams", "c_values", "binary_bytes", "binary_call", "c_calls", "session_bytes", "mullerpink_c")),
)


def group_of(crate):
    """The number of the group that names the crate, or the beginning of its name."""
    for number, (_, _, _, names) in enumerate(GROUPS):
        if crate in names:
            return number
    for number, (_, _, prefixes, _) in enumerate(GROUPS):
        if crate.startswith(prefixes):
            return number
    raise SystemExit("tools/draw.py: no group has the crate " + crate)


def map_of_groups():
    """An arrow leads up from a group to one of which it uses a crate."""
    members = {number: [] for number in range(len(GROUPS))}
    uses = {number: set() for number in members}
    for crate, (used, _) in crates().items():
        if not is_beside(crate):
            number = group_of(crate)
            members[number].append(crate)
            uses[number] |= {group_of(one) for one in used} - {number}
    text = ['digraph { rankdir=BT; nodesep=0.3; ranksep=0.4; newrank=true; %s;' % FONT,
            'node [shape=box, style="filled,rounded", margin="0.05,0.1", color="#667788", fontsize=15, %s];' % FONT,
            'edge [color="#667788", arrowsize=0.8];']
    for number, used in direct({number: sorted(used) for number, used in uses.items()}).items():
        name, what, _, _ = GROUPS[number]
        small = [what, *in_rows(members[number], 44)]
        text.append('n%d [width=%.2f, fillcolor="%s", label=<<b>%s</b><br/>%s>];' % (
            number, max(width_of([name], 15), width_of(small, 12)), FILLS[number], name,
            "<br/>".join('<font point-size="12">%s</font>' % line for line in small)))
        text += ["n%d -> n%d;" % (number, one) for one in used]
    draw(["dot", "-Tsvg"], "groups", "\n".join(text) + "}")


# ------------------------------------------------------------------------------------- the way of one command

# Who calls whom from standard input to a line, and what is done there. The crate of each is looked up.
WAY = """
main
  session_main: the words, the source, the sink
    read_input: 1. reads to the end
    read_script: 2. bytes to a script
      json_of: bytes to JSON
      types_of: the types
    run_command: 3. each command to a reply
      run_op: the names, the turns
        TableCalls for Table::copy: the host's call
          Objects::table_copy: the tests, and the work on the store
            TableObject::copy_within: the elements
    append_line: 4. each reply to a line
    write_all: 5. the lines in pieces
"""


def crate_of(function):
    """The one crate that holds the function, or the method of the type that is named before it."""
    kind, _, name = function.rpartition("::")
    found = set()
    for path in glob.glob("crates/*/src/**/*.rt", recursive=True):
        crate, text = path.split("/")[1], read(path)
        if is_beside(crate) or not re.search(r"\bfn %s\b" % name, text):
            continue
        if not kind or re.search(r"^impl(<[^{]*?>)? %s\b" % kind, text, re.M):
            found.add(crate)
    if len(found) != 1:
        raise SystemExit("tools/draw.py: the function %s is in the crates %s" % (function, sorted(found)))
    return found.pop()


def way_of_a_command():
    text = ['digraph { rankdir=TB; nodesep=0.25; ranksep=0.35; ordering=out; %s;' % FONT,
            'node [shape=box, style="filled,rounded", margin="0.05,0.09", color="#667788", fillcolor="#dbe9f6"];',
            'node [fontsize=15, %s]; edge [color="#445566", arrowsize=0.7];' % FONT]
    above = []
    for number, line in enumerate(WAY.strip("\n").split("\n")):
        function, _, what = line.strip().partition(": ")
        depth = (len(line) - len(line.lstrip())) // 2
        shown, crate = function.replace("TableCalls for ", ""), crate_of(function)
        label = "<b>%s</b><br/>%s" % (shown, crate)
        if what:
            label += '<br/><font point-size="12">%s</font>' % what
        width = max(width_of([shown, crate], 15), width_of([what], 12))
        text.append('n%d [width=%.2f, label=<%s>];' % (number, width, label))
        above[depth:] = [number]
        if depth:
            text.append('n%d -> n%d;' % (above[depth - 1], number))
    draw(["dot", "-Tsvg"], "command", "\n".join(text) + "}")


# --------------------------------------------------------------------------------------------------- the charts

def beside(name, title, data, theirs, size, columns, step, digits):
    """Two bars a row: here, and of another tool. A row is its name and two numbers of seconds."""
    send = '  "" using ($0%s0.17):%d:(sprintf("%%.' + str(digits) + 'f", $%d)) with labels offset 0,0.7 notitle'
    draw(["gnuplot"], name, """
set terminal svg size %d,370 font "Helvetica,Arial,sans-serif,14" background "white"
$rows << end
%send
set style data histograms
set style histogram clustered gap 1
set style fill solid 0.9 border -1
set boxwidth 0.9
set yrange [0:*]
set xrange [-0.7:%s]
set offset graph 0, 0, graph 0.12, 0
set bmargin 3.5
set xtics scale 0 noenhanced
set title "%s" noenhanced
set ylabel "processor seconds"
set ytics %s
set grid ytics lc rgb "#dddddd"
set key outside top center horizontal reverse Left
set border 3
set tics nomirror
plot $rows using 2:xtic(1) title "here" lc rgb "#4477aa", "" using 3 title "%s" lc rgb "#cc8866", \\
%s, \\
%s
""" % (size, data, columns - 0.3, title, step, theirs, send % ("-", 2, 2), send % ("+", 3, 3)))


def validation():
    """The table of validation in bench/README.md: seconds here and those of wasm-validate."""
    row = r"^\| (2\^20 [^|]*) \| ([\d.]+) \| \d+ \| ([\d.]+) \| \d+ \| [\d.]+ \|$"
    rows = re.findall(row, read("bench/README.md"), re.M)
    data = "".join('"%s" %s %s\n' % (name.replace(" in ", "\\nin "), ours, theirs) for name, ours, theirs in rows)
    title = "Validating a module, lower is better:\\nwasm-validate also parses the bytes of its module"
    beside("validation", title, data, "wasm-validate", 640, len(rows), 0.05, 3)


def kernels():
    """The table of kernels in bench/README.md: seconds here and those of wasm-interp."""
    row = r"^\| (\w+): [^|]* \| \d+ \| ([\d.]+) \| \d+ \| ([\d.]+) \| [\d.]+ \|$"
    rows = re.findall(row, read("bench/README.md"), re.M)
    data = "".join('"%s" %s %s\n' % row for row in rows)
    title = "Running code, lower is better:\\na plain interpreter beside another, on the same modules"
    beside("kernels", title, data, "wasm-interp", 720, len(rows), 0.1, 2)


os.chdir(TOP)
map_of_crates()
map_of_groups()
way_of_a_command()
validation()
kernels()
