"""Makes random sessions of guests of one module over shared tables and globals, through which they call one another.

Each has a memory of its own, in which its function `count` counts its calls. The others put that function into a table, keep
it in a global, and call what stands there. Other random sessions reach other guests so only seldom. This is a mix by name
alone (`--mix shared`), so that the sessions of earlier seeds stay what they are.
"""

TYPES = [{}, {"params": ["i32"]}]
COUNT = [["i32.const", 0], ["i32.const", 0], ["i32.load8_u", 0, 0], ["i32.const", 1], ["i32.add"], ["i32.store8", 0, 0]]
CALL = [["local.get", 0], ["call_indirect", 0, 0]]
KEPT = [["i32.const", 0], ["global.get", 0], ["table.set", 1], ["i32.const", 0], ["call_indirect", 0, 1]]
FUNCTIONS = (
    ("count", 0, COUNT),
    ("put", 1, [["local.get", 0], ["ref.func", 0], ["table.set", 0]]),
    ("call", 1, CALL),
    ("keep", 0, [["ref.func", 0], ["global.set", 0]]),
    ("call kept", 0, KEPT),
    ("call and trap", 1, [*CALL, ["unreachable"]]),
)
IMPORTS = [
    {"module": "h", "name": "t", "table": {"ref": "funcref", "min": 2}},
    {"module": "h", "name": "g", "global": {"val": "funcref", "mut": True}},
]
GUESTS = 4
SHARED = 2
NAMES = [name for name, _type, _code in FUNCTIONS] + ["memory"]
FIRST_EXPORT = 2 * SHARED + GUESTS


def module():
    exports = [{"name": name, "func": place} for place, (name, _type, _code) in enumerate(FUNCTIONS)]
    return {
        "imports": IMPORTS,
        "tables": [{"ref": "funcref", "min": 1}],
        "memories": [{"min": 1}],
        "functions": [{"type": ty, "code": code} for _name, ty, code in FUNCTIONS],
        "exports": [*exports, {"name": "memory", "memory": 0}],
    }


def random_call(rng):
    """A call of a function of a guest, by the reply that named it."""
    guest, place = rng.randrange(GUESTS), rng.randrange(len(FUNCTIONS))
    args = [{"i32": rng.choice([0, 0, 1, 1, 2])}] if FUNCTIONS[place][1] else []
    return {"do": "call", "func": FIRST_EXPORT + guest * len(NAMES) + place, "args": args}


def shared_session(rng):
    """A script over some guests, as JSON."""
    null = {"func": None}
    commands = [{"do": "table_new", "ref": "funcref", "min": 2, "init": null} for _ in range(SHARED)]
    commands += [{"do": "global_new", "val": "funcref", "mut": True, "init": null} for _ in range(SHARED)]
    for _ in range(GUESTS):
        imports = [rng.randrange(SHARED), SHARED + rng.randrange(SHARED)]
        commands.append({"do": "instantiate", "module": 0, "imports": imports})
    for guest in range(GUESTS):
        commands += [{"do": "get_export", "instance": 2 * SHARED + guest, "name": name} for name in NAMES]
    commands += [random_call(rng) for _ in range(30)]
    memories = [FIRST_EXPORT + guest * len(NAMES) + len(FUNCTIONS) for guest in range(GUESTS)]
    commands += [{"do": "memory_read", "memory": memory, "at": 0, "len": 1} for memory in memories]
    return {"engine": {"turns": rng.choice([3, 6, 9, 12, 300])}, "types": TYPES, "modules": [module()], "commands": commands}
