"""Makes random sessions of bulk instructions that are run on little fuel, in a row, in loops and in functions that call one
another. Other random sessions meet one with little fuel seldom. This is a mix by name alone (`--mix bulk`), so that the
sessions of earlier seeds stay what they are.
"""

FORMS = [
    ["memory.fill", 0], ["memory.copy", 0, 0], ["memory.init", 0, 0],
    ["table.fill", 0], ["table.copy", 0, 1], ["table.init", 0, 0],
]
TYPES = [{}, {"params": ["i32"]}]
FUNCTIONS = 6
ELEMENTS = 8
NAMES = ["f%d" % place for place in range(FUNCTIONS)] + ["memory", "table"]


def length(rng):
    """Mostly a small one, and now and then one that passes all ends, or the parameter."""
    if rng.random() < 0.2:
        return ["local.get", 0]
    return ["i32.const", rng.choice([0, 0, 1, 1, 2, 3, 5, 8, rng.choice([9, 100, 65536, 65537, 2**31, 2**32 - 1])])]


def bulk(rng):
    """A bulk instruction behind its operands."""
    form = rng.choice(FORMS)
    content = ["ref.func", rng.randrange(FUNCTIONS)] if form[0] == "table.fill" else ["i32.const", rng.choice([0, 0, 1, 2, 3])]
    return [["i32.const", rng.choice([0, 0, 1, 2, 5, 8])], content, length(rng), form]


def piece(rng, place):
    """A bulk instruction, or what else consumes fuel, or looks at it."""
    kind = rng.choice(["bulk", "bulk", "bulk", "nops", "loop", "call", "grow"])
    if kind == "bulk":
        return bulk(rng)
    if kind == "nops":
        return [["nop"]] * rng.randrange(4)
    if kind == "loop":
        again = [["local.get", 0], ["i32.const", 1], ["i32.sub"], ["local.tee", 0], ["br_if", 0]]
        return [["loop", 0, [*bulk(rng), *again]]]
    if kind == "grow":
        return [["i32.const", rng.choice([0, 1])], ["memory.grow", 0], ["drop"]]
    callee = place + 1 + rng.randrange(2)
    return [["local.get", 0], ["call", callee]] if callee < FUNCTIONS else [["nop"]]


def module(rng):
    functions = []
    for place in range(FUNCTIONS):
        code = [instruction for _ in range(rng.randrange(1, 5)) for instruction in piece(rng, place)]
        functions.append({"type": 1, "code": code})
    table = {"ref": "funcref", "min": ELEMENTS}
    exports = [{"name": name, "func": place} for place, name in enumerate(NAMES[:FUNCTIONS])]
    return {
        "tables": [table, table],
        "memories": [{"min": 1, "max": 2}],
        "functions": functions,
        "datas": [{"bytes": "0a0b0c0d0e0f1011"}],
        "elements": [{"ref": "funcref", "items": [["ref.func", place] for place in range(FUNCTIONS)]}],
        "exports": [*exports, {"name": "memory", "memory": 0}, {"name": "table", "table": 0}],
    }


def fuel(rng):
    return rng.choice([rng.randrange(30), rng.randrange(30), rng.randrange(100), 65536 + rng.randrange(60), 2**32 + rng.randrange(60)])


def bulk_session(rng):
    """A script over one guest, as JSON."""
    commands = [{"do": "instantiate", "module": 0}]
    commands += [{"do": "get_export", "instance": 0, "name": name} for name in NAMES]
    for _ in range(12):
        if rng.random() < 0.8:
            commands.append({"do": "set_fuel", "fuel": fuel(rng)})
        elif rng.random() < 0.3:
            commands.append({"do": "yield_interval", "interval": rng.choice([None, 1, 3, 10])})
        args = [{"i32": rng.choice([0, 1, 1, 2, 3, 5])}]
        commands.append({"do": "call", "func": 1 + rng.randrange(FUNCTIONS), "args": args})
        commands.append({"do": "get_fuel"})
    commands.append({"do": "memory_read", "memory": FUNCTIONS + 1, "at": 0, "len": 24})
    commands += [{"do": "table_get", "table": FUNCTIONS + 2, "at": at} for at in range(ELEMENTS)]
    data = {"hook": [rng.choice(["ok", "ok", "ok", "fault"]) for _ in range(6)]} if rng.random() < 0.3 else {}
    engine = {"fuel": rng.random() < 0.9, "turns": rng.choice([3, 4, 5, 6, 8, 12, 20, 300])}
    return {"engine": engine, "types": TYPES, "modules": [module(rng)], "data": data, "commands": commands}
