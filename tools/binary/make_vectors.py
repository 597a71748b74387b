#!/usr/bin/env python3
"""Writes vectors.json beside this file: bytes, and the line that says what they are, of which no reader here made any.

python3 tools/binary/make_vectors.py

A row has what it shows, its bytes, its line, where that line comes from, and for some the declaration. There are two kinds.
Rows by hand are written from the binary format of the core specification (its chapter 5) and the narrowing that reader.py
states: sections by their contents, `^` at the place of the fault, so that the place is counted here and not read. Rows by
`wat2wasm` have a text of the text format, whose bytes that program makes, and whose line has the counts that
`wasm-objdump -x` prints of them; a declaration beside it is the text written as a script has it. For each row it is noted
what two others say that read and validate bytes: V8, by `WebAssembly.validate` of node, and `wasm-validate` of wabt.

It needs wabt and node. What it makes is committed: run it again only where rows change. vectors.py compares.
"""

import json
import os
import subprocess
import tempfile

import rows_of_bodies
import rows_of_codes
import rows_of_places
import rows_of_sections
import rows_of_segments
import rows_of_types
from vector_table import ROWS

OUT = os.path.join(os.path.dirname(os.path.abspath(__file__)), "vectors.json")
PARTS = (rows_of_sections, rows_of_types, rows_of_segments, rows_of_codes, rows_of_bodies, rows_of_places)

V8 = """
const lines = require("node:readline").createInterface({ input: process.stdin });
lines.on("line", (digits) => console.log(WebAssembly.validate(Buffer.from(digits, "hex"))));
"""


def witnesses():
    """What V8 and wabt say of each row."""
    digits = "".join(row["hex"] + "\n" for row in ROWS)
    options = ["--experimental-wasm-gc", "--experimental-wasm-typed-funcref"]
    said = subprocess.run(["node", *options, "-e", V8], input=digits, capture_output=True, text=True, check=True).stdout
    with tempfile.TemporaryDirectory() as folder:
        path = os.path.join(folder, "row.wasm")
        for row, valid in zip(ROWS, said.split(), strict=True):
            with open(path, "wb") as file:
                file.write(bytes.fromhex(row["hex"]))
            wabt = subprocess.run(["wasm-validate", "--enable-all", path], capture_output=True).returncode == 0
            row["v8"], row["wabt"] = valid == "true", wabt


def main():
    for part in PARTS:
        part.rows()
    witnesses()
    with open(OUT, "w", encoding="utf-8") as file:
        file.write("[\n" + ",\n".join(json.dumps(row) for row in ROWS) + "\n]\n")
    print("%d rows in %s" % (len(ROWS), OUT))


if __name__ == "__main__":
    main()
