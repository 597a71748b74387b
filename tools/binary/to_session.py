#!/usr/bin/env python3
"""Makes a session of a module in the binary format, which instantiates it and calls one of its exports.

python3 tools/binary/to_session.py FILE.wasm NAME ARG.. | ./session
python3 tools/binary/to_session.py --turns 1000000000 FILE.wasm NAME ARG.. > session.json

It needs nothing but Python. The bytes are read by the reader beside this file, whose line says what is wrong with them.
Arguments are integers. The module may import nothing. A session cannot hold code that is nested so deep that its JSON
would be nested more than 127 deep, nor names of more than one line.
"""

import argparse
import json
import sys

import reader


def shifted_type(value_type, by):
    """A value type whose index counts so many types more."""
    if isinstance(value_type, dict) and isinstance(value_type["ref"], int):
        return {**value_type, "ref": value_type["ref"] + by}
    return value_type


def shifted_code(code, by):
    """Code whose indices of types count so many more. What is still to be done is a list, for code may be nested deep."""
    out = []
    todo = [(code, out)]
    while todo:
        source, into = todo.pop()
        for instruction in source:
            name = instruction[0]
            if name in ("block", "loop", "if"):
                inner = [[] for _ in instruction[2:]]
                todo.extend(zip(instruction[2:], inner))
                into.append([name, instruction[1] + by, *inner])
            elif name == "call_indirect":
                into.append([name, instruction[1] + by, instruction[2]])
            else:
                into.append(instruction)
    return out


def shifted_import(entry, by):
    entry = dict(entry)
    for kind in ("func", "tag"):
        if kind in entry:
            entry[kind] += by
    if "table" in entry:
        entry["table"] = {**entry["table"], "ref": shifted_type(entry["table"]["ref"], by)}
    if "global" in entry:
        entry["global"] = {**entry["global"], "val": shifted_type(entry["global"]["val"], by)}
    return entry


def shifted(declaration, by):
    """The declaration for a list of types that has so many others before its own."""
    types, module = [], {}
    for item in declaration["types"]:
        rows = {row: [shifted_type(one, by) for one in item[row]] for row in ("params", "results")}
        types.append({**item, **rows, **({"super": item["super"] + by} if "super" in item else {})})
    rules = {
        "imports": lambda entry: shifted_import(entry, by),
        "functions": lambda entry: {
            "type": entry["type"] + by,
            "locals": [shifted_type(one, by) for one in entry["locals"]],
            "code": shifted_code(entry["code"], by),
        },
        "tables": lambda entry: {**entry, "ref": shifted_type(entry["ref"], by)},
        "globals": lambda entry: {**entry, "val": shifted_type(entry["val"], by)},
        "tags": lambda entry: entry + by,
        "elements": lambda entry: {**entry, "ref": shifted_type(entry["ref"], by)},
    }
    for key, part in declaration["module"].items():
        module[key] = list(map(rules[key], part)) if key in rules else part
    return {"types": types, "module": module}


def exported_type(declaration, name):
    """The type of the function that is exported under this name, or none."""
    module = declaration["module"]
    imported = [entry["func"] for entry in module.get("imports", []) if "func" in entry]
    numbers = imported + [function["type"] for function in module.get("functions", [])]
    for export in module.get("exports", []):
        if export["name"] == name and "func" in export:
            return declaration["types"][numbers[export["func"]]]
    return None


def session_of(declaration, name, arguments, engine=None):
    """A session that calls an export of a module with these integers."""
    found = exported_type(declaration, name)
    if found is None or len(found["params"]) != len(arguments):
        raise ValueError("there is no function %s of %d arguments" % (name, len(arguments)))
    operands = [{kind: number} for kind, number in zip(found["params"], arguments)]
    commands = [
        {"do": "instantiate", "module": 0},
        {"do": "get_export", "instance": 0, "name": name},
        {"do": "call", "func": 1, "args": operands},
    ]
    script = {"types": declaration["types"], "modules": [declaration["module"]], "commands": commands}
    return {"engine": engine, **script} if engine else script


def main():
    parser = argparse.ArgumentParser(description=__doc__.split("\n\n")[0])
    parser.add_argument("--turns", type=int, help="how many turns the call may take")
    parser.add_argument("file")
    parser.add_argument("name")
    parser.add_argument("arguments", nargs="*", type=int)
    given = parser.parse_intermixed_args()
    with open(given.file, "rb") as file:
        data = file.read()
    try:
        declaration = reader.read(data).declaration()
        script = session_of(declaration, given.name, given.arguments, given.turns and {"turns": given.turns})
    except (reader.Fault, ValueError) as fault:
        sys.exit("%s: %s" % (given.file, fault))
    json.dump(script, sys.stdout, ensure_ascii=False)
    print()


if __name__ == "__main__":
    main()
