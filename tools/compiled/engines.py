"""A call of a module's export in the program of ./run and in V8, each as the line that ./run prints."""

import os
import subprocess

PROGRAM = os.path.join(
    os.path.dirname(os.path.abspath(__file__)), "..", "..", "crates", "mullerpink_run", "out", "mullerpink_run")
SECONDS = 600
V8 = """const [file, name, ...words] = process.argv.slice(1);
const module = new WebAssembly.Module(require('fs').readFileSync(file));
const traps = { 'unreachable': 'UnreachableCodeReached', 'memory access out of bounds': 'MemoryOutOfBounds' };
const shown = (value) => typeof value === 'bigint' ? 'i64:' + value : 'i32:' + value;
try {
  const given = words.map((word) => word.endsWith('n') ? BigInt(word.slice(0, -1)) : Number(word));
  console.log('ok values ' + shown(new WebAssembly.Instance(module).exports[name](...given)));
} catch (fault) {
  console.log(fault.message in traps ? 'trap ' + traps[fault.message] : 'V8: ' + fault);
}"""


def run(words, seconds=SECONDS, **options):
    return subprocess.run(words, capture_output=True, timeout=seconds, **options)


def line_of(done):
    """The last line that a command said."""
    return (done.stdout.decode() + done.stderr.decode()).strip().split("\n")[-1]


def line_here(program, module, name, numbers=()):
    with open(module, "rb") as file:
        return line_of(run([program, name, *map(str, numbers)], stdin=file))


def line_by_v8(module, name, words=(), seconds=SECONDS):
    """The same by V8, to whom a number of 64 bits is a word that ends with `n`."""
    return line_of(run(["node", "-e", V8, module, name, *words], seconds))
