#!/usr/bin/env python3
"""Says how far the program is from machine code: times the modules of bench/kernels in V8, by node, beside the program.

At the top of the repository, after ./session has built the program, with node and Debian's package wabt:
python3 bench/machine_code.py. V8 is timed from within, the fewest seconds of forty calls of `run`, so that compiling is
left out; the program as bench/kernels.py times it, its start and its reading of the session included. What both give is
compared. Names of kernels may be given; another program may be named by the variable PROGRAM of the environment.
"""

import os
import subprocess
import sys
import tempfile

from kernels import HERE, KERNELS, PROGRAM, RUNS, seconds

CALLS = """
import { readFileSync } from "fs";
const module = new WebAssembly.Module(readFileSync(process.argv[2]));
let fewest = Infinity, result;
for (let n = 0; n < 40; n++) {
  const instance = new WebAssembly.Instance(module, {});
  const begin = process.hrtime.bigint();
  result = instance.exports.run();
  fewest = Math.min(fewest, Number(process.hrtime.bigint() - begin) / 1e9);
}
console.log(fewest, String(result));
"""


def in_v8(name, folder):
    """The seconds of a call in V8, and what it gives."""
    module, calls = os.path.join(folder, "kernel.wasm"), os.path.join(folder, "calls.mjs")
    subprocess.run(["wat2wasm", os.path.join(HERE, "kernels", name + ".wat"), "-o", module], check=True)
    with open(calls, "w", encoding="utf-8") as file:
        file.write(CALLS)
    used, result = subprocess.run(["node", calls, module], check=True, capture_output=True, text=True).stdout.split()
    return float(used), result


def main():
    print("| kernel | seconds | in V8 | times as slow |\n|---|---|---|---|")
    product = 1.0
    names = sys.argv[1:] or list(KERNELS)
    with tempfile.TemporaryDirectory() as folder:
        for name in names:
            what, _, result = KERNELS[name]
            theirs, given = in_v8(name, folder)
            if given != result.split(":")[1]:
                sys.exit("%s gives %s in V8, and %s here" % (name, given, result))
            ours = min(seconds([PROGRAM, "run"], os.path.join(HERE, "kernels", name + ".json"), result)
                       for _ in range(RUNS))
            product *= ours / theirs
            print("| %s: %s | %.3f | %.4f | %.0f |" % (name, what, ours, theirs, ours / theirs), flush=True)
    print("geometric mean: %.0f times as slow" % product ** (1 / len(names)))


if __name__ == "__main__":
    main()
