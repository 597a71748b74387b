#!/usr/bin/env python3
"""Compares the lines of vectors.json with what a program says of the bytes.

python3 tools/binary/vectors.py             by reader.py beside this file, with the declarations of the rows that have one
python3 tools/binary/vectors.py PROGRAM     by a program that takes the bytes on standard input and prints one line

It prints what differs and how many rows it compared, and ends with 1 where something differs. The rows and where their
lines come from: make_vectors.py.
"""

import json
import os
import subprocess
import sys

import reader

TABLE = os.path.join(os.path.dirname(os.path.abspath(__file__)), "vectors.json")


def rows():
    with open(TABLE, encoding="utf-8") as file:
        return json.load(file)


def program_line(program, data):
    done = subprocess.run([program], input=data, capture_output=True)
    return done.stdout.decode().rstrip("\n")


def filled_type(item):
    """A type with what a script may leave out."""
    full = {"params": [], "results": [], "final": True, **item}
    return {**full, **{row: list(map(filled_value, full[row])) for row in ("params", "results")}}


def filled_value(value):
    """A value type in one of its two forms."""
    if isinstance(value, str):
        heap = {"funcref": "func", "externref": "extern", "anyref": "any"}.get(value)
        return {"ref": heap, "null": True} if heap else value
    return {"null": True, **value}


def filled(declaration):
    """A declaration with all that a script may leave out, so that two of them are equal where they mean the same."""
    parts = {key: [] for key in ("imports", "functions", "tables", "memories", "globals", "tags", "exports", "elements", "datas")}
    module = {**parts, "start": None, **declaration["module"]}

    def inner(entry, key):
        return {**entry, key: filled_value(entry[key])} if key in entry else entry

    def import_entry(entry):
        if "global" in entry:
            return {**entry, "global": {"mut": False, **inner(entry["global"], "val")}}
        return {**entry, "table": inner(entry["table"], "ref")} if "table" in entry else entry

    module["imports"] = list(map(import_entry, module["imports"]))
    module["functions"] = [{"locals": [], "code": [], **one} for one in module["functions"]]
    module["functions"] = [{**one, "locals": list(map(filled_value, one["locals"]))} for one in module["functions"]]
    module["tables"] = [inner(one, "ref") for one in module["tables"]]
    module["globals"] = [{"mut": False, **inner(one, "val")} for one in module["globals"]]
    module["elements"] = [inner(one, "ref") for one in module["elements"]]
    return {"types": list(map(filled_type, declaration["types"])), "module": module}


def main():
    program = os.path.abspath(sys.argv[1]) if sys.argv[1:] else None
    compared, differ = 0, 0
    for row in rows():
        data = bytes.fromhex(row["hex"])
        pairs = [(program_line(program, data) if program else reader.line_of(data), row["line"])]
        if not program and "declaration" in row and pairs[0][0] == row["line"]:
            pairs.append((filled(reader.read(data).declaration()), filled(row["declaration"])))
        for got, wanted in pairs:
            compared += 1
            if got != wanted:
                differ += 1
                print("%s: %s\n  is     %s\n  wanted %s" % (row["shows"], row["hex"][:200], got, wanted))
    print("%d compared, %d differ" % (compared, differ))
    return differ != 0


if __name__ == "__main__":
    sys.exit(main())
