"""What docs/SESSIONS.md says of a part of a script: its keys, its form, its immediates, or the rule that a module breaks.

Values here are those of JSON around a fault, the innermost first.
"""

import os
import re

import codes

SESSIONS = os.path.join(os.path.dirname(os.path.abspath(__file__)), "..", "..", "docs", "SESSIONS.md")
SECTIONS = {"engine": "The engine", "types": "Types", "modules": "Modules", "host": "Bodies of host functions",
            "data": "Limiter, Hooks, Epochs and Bodies of host functions"}


def page():
    with open(SESSIONS, encoding="utf-8") as file:
        return file.read()


def cells_of(start):
    """The rows that begin with this text in the tables of the page, each by its cells."""
    return [[cell.strip() for cell in line.split("|")] for line in page().splitlines() if line.startswith(start)]


def keys_of(values):
    """The keys of the innermost command."""
    for entry in values:
        command = entry.get("do") if isinstance(entry, dict) else None
        if isinstance(command, str):
            rows = cells_of("| `%s` |" % command)
            return "its keys besides `do`: " + rows[0][2] if rows else "docs/SESSIONS.md has no command of this name"
    return ""


def form_of(values):
    """The form of the innermost object, where that is an operand, a name or an action: it has one key, and a row of a table
    begins with it."""
    for entry in values:
        if isinstance(entry, dict):
            if len(entry) != 1 or isinstance(entry.get("do"), str):
                return ""
            form = '`{"%s": ' % next(iter(entry))
            return "".join("%s: %s" % (row[1], row[2]) for row in cells_of('| `{"') if form in row[1])
    return ""


def instruction_of(what, values):
    """What stands behind the name of the instruction at fault."""
    if ".code[" not in what:
        return ""
    if not (isinstance(values[0], str) and values[0] in values[1][:1]):
        for one in values:
            if isinstance(one, list) and one and isinstance(one[0], str) and one[0][0].isalpha():
                return immediates_of(one[0])
    return "an instruction is a list of its name and its immediates"


def immediates_of(name):
    """By the table of instructions, of which the rows of loads, stores and operators have a name without its type."""
    kind, _, short = name.partition(".")
    table, operators = page().split("\nAn instruction is ")[1].split("\nThe operators ")[:2]
    operators = operators.split("There are no others")[0]
    for row in [line.split("|") for line in table.splitlines() if line.startswith("| ")]:
        accesses = kind in ("i32", "i64") and "`%s`" % short in row[2].split("; ")[0] and "of `i32.`" in row[2]
        if "`%s`" % name in row[2] or accesses:
            return "behind the name %s stands: %s" % (name, row[1].strip())
    if "`%s`" % name in operators or kind in ("i32", "i64") and "`%s`" % short in operators.split("besides")[0]:
        return "behind the name %s stands: none" % name
    group = next((group for group, names in codes.GROUPS.items() if name in names.values()), None)
    return "%s is not interpreted (%s)" % (name, group) if group else "docs/SESSIONS.md has no instruction %s" % name


def section_of(what):
    """Where the page says what may stand at the place that this text begins with."""
    section = SECTIONS.get(re.match(r"\w*", what).group())
    return "docs/SESSIONS.md says what may stand there, under " + section if section else ""


def rule_of(said):
    """The rule that a module breaks."""
    rows = cells_of("| `%s` |" % said.split()[2])
    return "the rule is broken where " + rows[0][2] if rows else ""
