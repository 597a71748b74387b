#!/usr/bin/env python3
"""Says which part of a script is at fault: ./session --check FILE, or check_script.py [PROGRAM] FILE.

It knows no command and decides nothing: it asks the program about other forms of the script, or where none is named the
second executor in tools/executor. Each form begins with a command that wants more memory than the program is given here,
so that its status tells whether the form is a script, and no command of it runs; the second executor runs nothing here.
What stands at `data` is asked apart from the rest, since a limiter could keep the first command from taking that memory.
Where an empty list or object in place of a value mends the script, the fault is in the first of its parts without which
the front before it is one; else in the one part without which, or with another value in place of which, the whole is one.
So it goes inwards as far as one part alone is at fault. Which rule a module breaks the program says itself, and where in
code that is not typed the second executor. The exit status is 0 for a script of valid modules, else the program's own.

Halving finds the shortest front that is refused, since each item of a list is read over those before it alone, so that a
longer front is refused too. Where two parts do not fit together neither is named.

Why this stands here, and not in the program: there it would need a definition of the first fault beside the definition of
every reader, answers with a place from all of them up to `session_main`, and a clause on a text that no theorem speaks of.
It is no second reader either, which would be a second definition of scripts to be kept in step; tools/check.py holds what
the program and the second executor make it say together. It builds nothing: a mistake is told in a second, and a build
takes hours.
"""

import json
import os
import re
import resource
import subprocess
import sys

TOOLS = os.path.dirname(os.path.abspath(__file__))
sys.path[:0] = [os.path.join(TOOLS, "executor"), os.path.join(TOOLS, "told")]

from main import deeply  # noqa: E402
from places import bad_code  # noqa: E402
from rules import form_of, instruction_of, keys_of, rule_of, section_of  # noqa: E402
from script_reader import read_script  # noqa: E402
from json_input import read_json  # noqa: E402
MEMORY = 3 << 30
LONGEST = 1 << 24
STOP = '{"do": "memory_new", "min": 65536}'
DONE, TOO_LONG, BAD_JSON, BAD_SCRIPT, INVALID_MODULE, OUT_OF_MEMORY = 0, 4, 5, 6, 7, 8
NAMES = {TOO_LONG: "TooLong", BAD_JSON: "BadJson", BAD_SCRIPT: "BadScript", INVALID_MODULE: "InvalidModule"}
NO_JSON = "JSON here has no number past the largest float and no half of a surrogate pair, and is at most 127 deep"
IN_PLACE = ("0", "1", "[]", "{}", "true", "null", '""', '"' + "0" * 32 + '"', '"i32"', '"funcref"', '"func"', "[0, 0]",
            '{"i32": 0}', '{"i64": 0}', '{"func": null}', '{"extern": null}', '["i32.const", 0]', '["ref.null", "func"]',
            '{"do": "get_fuel"}')


# ------------------------------------------------------------------------------------------------ who is asked

def limit_memory():
    hard = resource.getrlimit(resource.RLIMIT_AS)[1]
    resource.setrlimit(resource.RLIMIT_AS, (MEMORY if hard < 0 else min(MEMORY, hard), hard))


def by_program(program):
    """Asks the program: the status by which it refuses a text, or 0 where it begins to run it, and what it says of it."""
    def ended(text):
        run = subprocess.run([program, "run"], input=text, capture_output=True, preexec_fn=limit_memory)
        said = run.stderr.decode(errors="replace").strip()
        if run.returncode not in (DONE, OUT_OF_MEMORY, *NAMES):
            sys.exit("the program ended with status %d: %s" % (run.returncode, said))
        return (run.returncode if run.returncode in NAMES else DONE), said
    return ended


def by_second_executor():
    """Asks the second executor the same."""
    from session import read_session

    def ended(text):
        script, refusal = read_session(text)
        return (refusal.status, refusal.said) if refusal else (DONE, "")
    return ended


def script(members):
    """The text of a script with these members, whose first command is the one that stops it."""
    commands = members.get("commands", "[]")
    if commands[0] == "[":
        comma = "," if behind_space(commands, 1) < len(commands) - 1 else ""
        commands = "[" + STOP + comma + commands[1:]
    texts = dict(members, commands=commands)
    return ("{" + ",".join(json.dumps(key) + ":" + text for key, text in texts.items()) + "}").encode()


def ended_apart(ended, members):
    """The same of the script of these members: first of what stands at `data`, with no other part, and then of the rest."""
    rest = {key: text for key, text in members.items() if key != "data"}
    if "data" in members:
        status, said = ended(script({"data": members["data"]}))
        if status:
            return status, said
    return ended(script(rest))


def is_script(ended, members):
    """Whether these members are taken for a script, whatever its modules are."""
    return ended_apart(ended, members)[0] in (DONE, INVALID_MODULE)


# ------------------------------------------------------------------------------------------------ parts of a text

def no_number(word):
    raise ValueError(word + " is no JSON")


decode = json.JSONDecoder(parse_int=str, parse_float=str, parse_constant=no_number).raw_decode


def behind_space(text, at):
    return re.compile(r"[ \t\n\r]*").match(text, at).end()


def entries(text, at):
    """Of the array or object that begins at this place each item: its key or number, where that begins, where the value
    does, and where it ends. Of another value none."""
    found, keyed = [], text[at] == "{"
    if text[at] not in "[{":
        return found
    at = behind_space(text, at + 1)
    while text[at] not in "]}":
        begin, key = at, len(found)
        if keyed:
            key, at = decode(text, at)
            at = behind_space(text, behind_space(text, at) + 1)
        end = decode(text, at)[1]
        found.append((key, begin, at, end))
        at = behind_space(text, end)
        if text[at] == ",":
            at = behind_space(text, at + 1)
    return found


def step(key):
    """How a place names a part: `[2]`, `.limiter`, or `["any text"]`."""
    if isinstance(key, int):
        return "[%d]" % key
    return "." + key if re.fullmatch(r"\w+", key) else "[%s]" % json.dumps(key)


# ------------------------------------------------------------------------------------------------ what is at fault

def first_bad(is_bad, most):
    """The least number for which it holds, of those up to `most`, for which it does; it holds from some number on."""
    low = 0
    while low < most:
        middle = (low + most) // 2
        low, most = (low, middle) if is_bad(middle) else (middle + 1, most)
    return low


def first_bad_part(text, at, parts, is_bad):
    """The part at fault where each may be left out, and what to put around another value in its place."""
    closing = {"[": "]", "{": "}"}[text[at]]
    count = first_bad(lambda n: is_bad(text[at:parts[n - 1][3]] + closing if n else text[at] + closing), len(parts))
    if count == 0:
        return None
    return count - 1, text[at:parts[count - 1][2]], closing


def without(text, at, parts, n):
    """What stands before and behind the part of this number where it is left out, with its comma."""
    end = decode(text, at)[1]
    if n:
        return text[at:parts[n - 1][3]] + text[parts[n][3]:end]
    return text[at:parts[0][1]] + re.sub(r"^[ \t\n\r]*,", "", text[parts[0][3]:end])


def needed_bad_part(text, at, parts, is_bad):
    """The same where some part may not: the one part without which, or with another value in place of which, all is well.
    Where all is well without one of several, they do not fit together, and none of them alone is at fault."""
    end = decode(text, at)[1]
    mends = [n for n in range(len(parts)) if not is_bad(without(text, at, parts, n))]
    if not mends:
        mends = [n for n, (_, _, start, behind) in enumerate(parts)
                 if any(not is_bad(text[at:start] + value + text[behind:end]) for value in IN_PLACE)][:1]
    if len(mends) != 1:
        return None
    _, _, start, behind = parts[mends[0]]
    return mends[0], text[at:start], text[behind:end]


def inner(text, at, is_bad):
    """Where the fault is in the value that begins at this place: the steps that lead there, and the places on the way. It
    is at fault with some texts in its place, as `is_bad` says, its own among them."""
    parts = entries(text, at)
    if not parts:
        return "", [at]
    empty = {"[": "[]", "{": "{}"}[text[at]]
    find = needed_bad_part if is_bad(empty) else first_bad_part
    found = find(text, at, parts, is_bad)
    if not found:
        return "", [at]
    n, front, back = found
    steps, places = inner(text, parts[n][2], lambda value: is_bad(front + value + back))
    return step(parts[n][0]) + steps, [at, *places]


def in_one(text, at, is_bad):
    """As `inner`, of a list whose items are read each by itself: the one at fault is looked at without the others."""
    parts = entries(text, at)
    found = first_bad_part(text, at, parts, is_bad) if parts and text[at] == "[" and not is_bad("[]") else None
    if not found or not is_bad("[" + text[parts[found[0]][2]:parts[found[0]][3]] + "]"):
        return inner(text, at, is_bad)
    steps, places = inner(text, parts[found[0]][2], lambda value: is_bad("[" + value + "]"))
    return step(found[0]) + steps, [at, *places]


def fault(ended, text):
    """What is at fault, and the places on the way; the types first, since the rest names them, and the commands last."""
    start = behind_space(text, 0)
    if text[start] != "{":
        return "the script is no object", [start]
    good = {}
    members = {key: (at, end) for key, _, at, end in entries(text, start)}
    for key in sorted(members, key=lambda key: (key != "types", key == "commands")):
        at, end = members[key]

        def is_bad(value):
            return not is_script(ended, {**good, key: value})

        if is_bad(text[at:end]):
            steps, places = (in_one if key == "commands" else inner)(text, at, is_bad)
            if steps:
                return "%s%s is at fault" % (key, steps), places
            return "the value at the key %s is at fault, or no script has this key" % json.dumps(key), places
        good[key] = text[at:end]
    return "the key \"commands\" is missing", [start]


def broken(text, said):
    """The same of a module that breaks a rule, by what was said of it."""
    number, rule, part, item = said.split()[1:]
    keys, steps = ["modules", int(number), part, int(item)], ""
    if rule == "Body":
        steps = code_fault(text, int(number), int(item))[0]
        keys += ["code", *map(int, re.findall(r"\d+", steps))]
    at = behind_space(text, 0)
    for key in keys:
        found = [place for found, _, place, _ in entries(text, at) if found == key]
        if not found:
            break
        at = found[-1]
    return "modules[%s].%s[%s]%s breaks the rule %s" % (number, part, item, steps and ".code" + steps, rule), [at]


def code_fault(text, number, item):
    """In a function whose code is not typed the steps to the place, and what is wrong there, as the second executor types."""
    return deeply(lambda: bad_code(read_script(read_json(text.encode())).modules[number], item))


# ------------------------------------------------------------------------------------------------ what is said of it

def hints(status, said, what, text, places):
    if status == BAD_JSON:
        return [NO_JSON]
    if status == INVALID_MODULE:
        number, rule, _, item = said.split()[1:]
        return [code_fault(text, int(number), int(item))[1] if rule == "Body" else "", rule_of(said)]
    values = [decode(text, at)[0] for at in reversed(places)]
    return [form_of(values), instruction_of(what, values) or keys_of(values) or section_of(what)]


def verdict(ended, text):
    """The status by which a script is refused, or 0, where none of its commands has run; what is said of it."""
    start = behind_space(text, 0)
    rest = behind_space(text, decode(text, start)[1])
    if rest < len(text):
        raise ValueError("there is more behind the script")
    members = {key: text[at:end] for key, _, at, end in entries(text, start)} if text[start] == "{" else {}
    return ended_apart(ended, members) if "commands" in members else ended(text.encode())


def main(*words):
    path = words[-1]
    ended = by_program(words[0]) if len(words) > 1 else by_second_executor()
    with open(path, "rb") as file:
        raw = file.read()
    try:
        if len(raw) > LONGEST:
            raise ValueError("it has more than 2^24 bytes")
        text = raw.decode()
        status, said = verdict(ended, text)
    except (ValueError, RecursionError) as error:
        status = ended(raw)[0]
        if raw[:4] == b"\0asm":
            error = "it is a module in the binary format, which ./run takes"
        print("%s: %s: %s" % (path, NAMES.get(status, "a script"), error))
        return status
    if not status:
        print("%s: a script: nothing is at fault, and none of it was run" % path)
        return status
    what, places = broken(text, said) if status == INVALID_MODULE else fault(ended, text)
    at = places[-1]
    print("%s:%d: %s: %s" % (path, text.count("\n", 0, at) + 1, NAMES[status], what))
    print("  " + re.sub(r"\s+", " ", text[at:decode(text, at)[1]])[:200])
    for words in filter(None, hints(status, said, what, text, places)):
        print("  " + words)
    return status


if __name__ == "__main__":
    sys.exit(main(*sys.argv[1:]))
