"""Why a module may be valid here that others refuse, as docs/DIFFERENCES.md says.

Code behind an instruction that never goes on is not typed here, a function may be referred to that nothing else names, and
a tag may have a type with results. So that code and the tags are taken out of the module, or the functions are named, and
`wasm-validate` of wabt is asked about the rest: where it takes that, nothing else was at fault.
"""

import os
import subprocess
import sys
import tempfile

sys.path.insert(0, os.path.join(os.path.dirname(os.path.abspath(__file__)), "..", "v8"))
import wasm_binary  # noqa: E402

NEVER_GO_ON = ("unreachable", "br", "br_table", "return")
VALIDATOR = "wasm-validate"
DEAD_CODE = "code behind an instruction that never goes on is not typed"
UNNAMED = "a function may be referred to that nothing else names"
TAG_RESULTS = "a tag may have a type with results"


def reached(code):
    """Code without what stands behind an instruction that never goes on."""
    out = []
    for instruction in code:
        if instruction[0] in ("block", "loop", "if"):
            instruction = [*instruction[:2], *map(reached, instruction[2:])]
        out.append(instruction)
        if instruction[0] in NEVER_GO_ON:
            break
    return out


def without_dead_code(module):
    functions = [{**function, "code": reached(function["code"])} for function in module.get("functions", [])]
    return {**module, "functions": functions}


def with_names(module):
    """The module with a segment that names each of its functions."""
    count = len(module.get("functions", [])) + sum("func" in entry for entry in module.get("imports", []))
    segment = {"ref": "funcref", "declared": True, "items": [["ref.func", number] for number in range(count)]}
    return {**module, "elements": [*module.get("elements", []), segment]}


def nullable(segment):
    return {**segment, "ref": "funcref"} if segment["ref"] == {"ref": "func", "null": False} else segment


def is_taken(types, module):
    """Whether wabt takes a module. A segment of non-null references is written as one of nullable ones."""
    elements = [nullable(segment) for segment in module.get("elements", [])]
    try:
        data = wasm_binary.binary(types, {**module, "elements": elements})
    except (KeyError, TypeError, ValueError):
        return False  # a part that those bytes have no form for
    with tempfile.NamedTemporaryFile(suffix=".wasm") as file:
        file.write(data)
        file.flush()
        return subprocess.run([VALIDATOR, file.name], capture_output=True).returncode == 0


def reason(declaration):
    """The difference that makes a module valid here and invalid elsewhere, or none."""
    types, module = declaration["types"], declaration["module"]
    if is_taken(types, module):
        # Those bytes have no form for tags, so that wabt did not see them.
        return TAG_RESULTS if any(types[tag]["results"] for tag in module.get("tags", [])) else None
    if is_taken(types, without_dead_code(module)):
        return DEAD_CODE
    if is_taken(types, with_names(module)):
        return UNNAMED
    return DEAD_CODE if is_taken(types, with_names(without_dead_code(module))) else None
