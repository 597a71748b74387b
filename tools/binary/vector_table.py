"""The table of rows that make_vectors.py writes, and how a row is written: by hand, or by wat2wasm.

In bytes by hand `^` is the place that `^` in the line stands for, so that the place of a fault is counted here, and not read.
"""

import os
import re
import subprocess
import tempfile

HEADER = "00 61 73 6d 01 00 00 00 "
ROWS = []
EMPTY = "module types 0 imports 0 functions 0 exports 0"
ONE_FUNCTION = "module types 1 imports 0 functions 1 exports 0"
ONE_TYPE = "module types 1 imports 0 functions 0 exports 0"
SPEC = "core specification, "


def clean(digits):
    return re.sub(r"[^0-9a-f^]", "", digits)


def length(digits):
    return len(clean(digits).replace("^", "")) // 2


def unsigned(number):
    out = []
    while number > 127:
        out.append("%02x" % (number & 127 | 128))
        number >>= 7
    return " ".join([*out, "%02x" % number]) + " "


def section(number, content):
    """A section by its content."""
    return "%02x " % number + unsigned(length(content)) + content + " "


def body(content, local="00"):
    """A body by its locals and its instructions, with its end and its size."""
    whole = local + " " + content + " 0b "
    return unsigned(length(whole)) + whole


NO_TYPE = section(1, "01 60 00 00")
ONE = section(3, "01 00")


def code(content, local="00", types="01 60 00 00", after="", count=""):
    """A module of one function, of type 0, with these instructions."""
    return section(1, types) + ONE + count + section(10, "01 " + body(content, local)) + after


def hand(shows, content, line, why, declaration=None, header=HEADER):
    """A row by hand. `^` in the bytes is the place that `^` in the line stands for."""
    digits = clean(header + content)
    if "^" in line:
        assert digits.count("^") == 1, shows
        line = line.replace("^", str(digits.index("^") // 2))
    digits = digits.replace("^", "")
    assert len(digits) % 2 == 0, shows
    row = {"shows": shows, "hex": digits, "line": line, "source": why}
    if declaration:
        row["declaration"] = declaration
    ROWS.append(row)


def compiled(text, folder):
    source, out = os.path.join(folder, "row.wat"), os.path.join(folder, "row.wasm")
    with open(source, "w", encoding="utf-8") as file:
        file.write(text)
    subprocess.run(["wat2wasm", "--enable-all", "--no-check", source, "-o", out], check=True)
    with open(out, "rb") as file:
        data = file.read()
    shown = subprocess.run(["wasm-objdump", "-x", out], capture_output=True, text=True, check=True).stdout
    return data, shown


def wat(shows, text, declaration=None, appended=0):
    """A row by wat2wasm. Its counts are those that wasm-objdump prints, and so many types that stand for blocks."""
    with tempfile.TemporaryDirectory() as folder:
        data, shown = compiled(text, folder)
    counts = {name: int(count) for name, count in re.findall(r"^(\w+)\[(\d+)\]:", shown, re.M)}
    numbers = [counts.get(name, 0) for name in ("Type", "Import", "Function", "Export")]
    numbers[0] += appended
    row = {
        "shows": shows,
        "hex": data.hex(),
        "line": "module types %d imports %d functions %d exports %d" % tuple(numbers),
        "source": "wat2wasm of " + " ".join(text.split()) + "; counts by wasm-objdump -x",
    }
    if declaration:
        row["declaration"] = declaration
    ROWS.append(row)
