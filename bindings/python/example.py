"""A host that calls a stranger's code: a sum, a trap, and code without end that is stopped.

    python3 bindings/python/example.py bindings/guest.wasm"""
import pathlib
import sys

import mullerpink

module = pathlib.Path(sys.argv[1]).read_bytes()
print("84 / 2:", mullerpink.run(["div", "84", "2"], module), end="")
print("84 / 0:", mullerpink.run(["div", "84", "0"], module), end="")
print("forever:", mullerpink.run(["--fuel", "1000", "forever"], module), end="")
try:
    print("a call:", mullerpink.call(module, "div", [("i32", 84), ("i32", 0)]))
except mullerpink.Error as error:
    print("a call:", error)
