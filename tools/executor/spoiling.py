"""Spoils random modules and random texts of sessions a little: most of them are then refused, each by another rule."""

import copy
import json

LEAVES = [None, True, False, 0, 1, -1, 2, 7, 1.0, 1.5, 255, 2**31, 2**32 - 1, 2**32, 2**63, 2**64 - 1, 2**64, -(2**63)]
LEAVES += ["", "x", "i32", "funcref", "func", "a\nb", "0g", "abc", "ab", [], {}, [0], {"arg": 0}, {"name": 0}]
LEAVES += [-(2**31) - 1, {"ref": "func"}, {"caller": True}, {"caller": False}, {"func": None}, {"i32": 1}, {"value": [0, 0]}]
KEYS = ["max", "page", "mut", "null", "super", "final", "declared", "offset", "table", "memory", "start", "do", "name"]
KEYS += ["extra", "results", "args", "stored", "imports", "hook", "limiter"]
PIECES = ["-0", "1e3", "1e999", "1.0", "{", "}", "[", "]", ",", ":", '"', "\\", "\\u0041", "\\ud800", "\n", " ", "null"]
PIECES += ["\x00", "é", '"commands": [],', '"types": [{}],', "0", "00", "9", "-", "//", "NaN", "\ufeff"]
MORE = [
    [["ref.null", "any"], ["ref.null", "any"], ["i32.const", 0], ["select"], ["drop"]],
    [["i32.const", 0], ["global.set", 0]],
    [["i64.const", 0], ["global.set", 1]],
    [["ref.func", 0], ["ref.is_null"], ["drop"]],
    [["i32.const", 0], ["ref.is_null"], ["drop"]],
    [["i32.const", 0], ["br_table", [0, 1], 0]],
    [["i32.const", 0], ["i32.const", 0], ["i32.const", 0], ["table.copy", 0, 1]],
    [["i32.const", 0], ["i32.const", 0], ["i32.const", 0], ["table.init", 0, 0]],
    [["i32.const", 0], ["call_indirect", 0, 0]],
    [["block", 2, [["i64.const", 0]]], ["drop"]],
    [["ref.null", "func"], ["i32.const", 0], ["table.grow", 0], ["drop"]],
    [["local.get", 0], ["local.set", 1]],
]
PLAIN = [["drop"], ["i32.const", 0], ["i64.const", 0], ["return"], ["ref.null", "any"], ["select"], ["unreachable"]]


def parts_of(value):
    """Each list and each object within a value, itself first."""
    if isinstance(value, (list, dict)):
        yield value
        for member in value.values() if isinstance(value, dict) else value:
            yield from parts_of(member)


def spoil(rng, value):
    """Changes one place somewhere within a list or an object."""
    part = rng.choice(list(parts_of(value)))
    places = list(part) if isinstance(part, dict) else list(range(len(part)))
    form = rng.choice(["leaf", "leaf", "near", "near", "near", "drop", "add", "twice", "other"])
    if not places or form == "add":
        if isinstance(part, dict):
            part[rng.choice(KEYS)] = copy.deepcopy(rng.choice(LEAVES))
        else:
            part.insert(rng.randrange(len(part) + 1), copy.deepcopy(rng.choice(LEAVES)))
        return
    place = rng.choice(places)
    if form == "drop":
        del part[place]
    elif form == "leaf":
        part[place] = copy.deepcopy(rng.choice(LEAVES))
    elif form == "near":
        change_near(rng, part)
    elif form == "twice" and isinstance(part, list):
        part.insert(place, copy.deepcopy(part[place]))
    else:
        part[place] = copy.deepcopy(part[rng.choice(places)])


def change_near(rng, part):
    """Changes a whole number by a little."""
    entries = part.items() if isinstance(part, dict) else enumerate(part)
    places = [place for place, content in entries if type(content) is int]
    if places:
        part[rng.choice(places)] += rng.choice([-2, -1, 1, 1, 2, 5])


def spoil_code(rng, module):
    """Changes one list of instructions."""
    lists = [part for part in parts_of(module.get("functions", [])) if part and isinstance(part, list) and is_code(part)]
    if not lists:
        return
    code = rng.choice(lists)
    place = rng.randrange(len(code))
    form = rng.choice(["drop", "twice", "swap", "near", "near", "kind", "other", "word", "more"])
    if form == "drop":
        del code[place]
    elif form == "twice":
        code.insert(place, copy.deepcopy(code[place]))
    elif form == "swap":
        other = rng.randrange(len(code))
        code[place], code[other] = code[other], code[place]
    elif form == "near":
        change_near(rng, code[place])
    elif form == "kind":
        change_kind(rng, code[place])
    elif form == "more":
        code[place:place] = copy.deepcopy(rng.choice(MORE))
    elif form == "other":
        code[place] = copy.deepcopy(rng.choice(rng.choice(lists)))
    else:
        code.insert(place, list(rng.choice(PLAIN)))


def change_kind(rng, instruction):
    """Another instruction of as many immediates, or another label in a branch table."""
    name = instruction[0]
    swaps = {"i32": "i64", "i64": "i32", "local": "global", "global": "local", "memory": "table", "table": "memory"}
    first, _dot, rest = name.partition(".")
    if first in swaps and rng.random() < 0.7:
        instruction[0] = swaps[first] + "." + rest
    elif name in ("br_if", "br", "call", "local.get", "local.set", "local.tee", "global.get", "global.set"):
        instruction[0] = rng.choice(["br_if", "br", "local.get", "local.set", "local.tee", "global.get", "global.set"])
    elif name == "br_table":
        instruction[1].append(rng.randrange(4))
    elif name in ("block", "loop", "if"):
        instruction[1] = rng.randrange(8)


def is_code(part):
    return all(isinstance(one, list) and one and isinstance(one[0], str) for one in part)


def spoiled_module(rng, module):
    """A module with one to three places changed, in its code or elsewhere."""
    module = copy.deepcopy(module)
    for _ in range(rng.choice([1, 1, 2, 3])):
        if rng.random() < 0.6:
            spoil_code(rng, module)
        else:
            change_declaration(rng, module)
    return module


def change_declaration(rng, module):
    """Changes what no reader refuses: an index, a type, a name."""
    parts = [part for key in module if key != "functions" for part in parts_of(module[key])]
    form = rng.choice(["near", "near", "near", "name", "start", "local", "type", "init", "init", "mut", "ref", "tag"])
    if form == "near" and parts:
        change_near(rng, rng.choice(parts))
    elif form == "name" and len(module.get("exports", [])) > 1:
        exports = module["exports"]
        exports[rng.randrange(len(exports))]["name"] = rng.choice(exports)["name"]
    elif form == "init":
        change_constant(rng, module)
    elif form == "mut":
        entries = module.get("globals", []) + [entry["global"] for entry in module.get("imports", []) if "global" in entry]
        for entry in entries[:1]:
            entry["mut"] = not entry.get("mut", False)
    elif form == "ref":
        for entry in module.get("elements", [])[:1]:
            entry["ref"] = rng.choice(["funcref", "externref", "anyref", {"ref": 5}, {"ref": 6}, {"ref": "nofunc"}])
    elif form == "tag":
        module.setdefault("tags", []).append(rng.randrange(12))
    elif form == "start":
        module["start"] = rng.randrange(6)
    elif module.get("functions"):
        function = rng.choice(module["functions"])
        if form == "local":
            function["locals"] = [*function.get("locals", []), {"ref": "func", "null": False}]
        else:
            function["type"] = rng.randrange(9)


def change_constant(rng, module):
    """Gives a table, a global, an item or an offset another constant."""
    choices = [["global.get", rng.randrange(3)], ["ref.func", rng.randrange(4)], ["i32.const", 0], ["i64.const", 0]]
    choices += [["ref.null", family] for family in ("func", "extern", "any")]
    constant = rng.choice(choices)
    part = rng.choice(["tables", "globals", "elements", "datas"])
    if not module.get(part):
        return
    entry = rng.choice(module[part])
    if part in ("tables", "globals"):
        entry["init"] = constant
    elif "offset" in entry and rng.random() < 0.5:
        entry["offset"] = constant
    elif part == "elements":
        entry["items"].insert(rng.randrange(len(entry["items"]) + 1), constant)


def spoiled_text(rng, script):
    """The text of a script with a few places changed, as JSON or as text."""
    script = copy.deepcopy(script)
    for _ in range(rng.choice([0, 1, 1, 2])):
        spoil(rng, script)
    text = json.dumps(script, ensure_ascii=rng.random() < 0.5)
    for _ in range(rng.choice([0, 0, 0, 1, 2])):
        place = rng.randrange(len(text) + 1)
        text = text[:place] + rng.choice(PIECES) + text[place + rng.choice([0, 0, 1]) :]
    return text
