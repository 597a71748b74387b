"""Makes sessions that call each of some operators, loads and stores by a function of its own, with operands at edges."""

from arithmetic import LOADS, OPERATORS, STORES

EDGES = [0, 1, 2, 3, 7, 8, 15, 16, 31, 32, 33, 63, 64, 65, 127, 128, 255, 256, 32767, 32768, 65535, 65536]
PLACES = [0, 1, 2, 3, 8, 65527, 65528, 65529, 65532, 65533, 65534, 65535, 65536, 2**32 - 1]
OFFSETS = [0, 0, 1, 4, 65535, 65536, 2**32 - 1]
ENTRIES = [*OPERATORS, *LOADS, *STORES, "select", "memory.fill", "memory.copy"]


def edge(rng, kind):
    """A number of a kind: small, near a power of two, or any."""
    bits = int(kind[1:])
    near = (1 << rng.randrange(bits)) + rng.choice([-1, 0, 1])
    number = rng.choice([rng.choice(EDGES), near, -near, rng.getrandbits(bits), -rng.choice(EDGES)])
    return max(-(2 ** (bits - 1)), min(number, 2**bits - 1))


def shape(rng, name):
    """The kinds of parameters and results of an entry, and the immediates of its instruction."""
    if name in OPERATORS:
        params, result, _work = OPERATORS[name]
        return params, (result,), ()
    if name in LOADS:
        return ("i32",), (LOADS[name][0],), (0, rng.choice(OFFSETS))
    if name in STORES:
        return ("i32", STORES[name][0]), (), (0, rng.choice(OFFSETS))
    if name == "select":
        kind = rng.choice(["i32", "i64"])
        return (kind, kind, "i32"), (kind,), ()
    return ("i32", "i32", "i32"), (), (0,) if name == "memory.fill" else (0, 0)


def operands(rng, name, params):
    values = [edge(rng, kind) for kind in params]
    if name in LOADS or name in STORES:
        values[0] = rng.choice(PLACES)
    if name in ("memory.fill", "memory.copy"):
        values = [rng.choice(PLACES) if rng.random() < 0.9 else value for value in values]
    return [{kind: value} for kind, value in zip(params, values)]


def operator_session(rng):
    """A script over some operators, as JSON."""
    types, functions, exports, calls = [], [], [], []
    for place, name in enumerate(rng.sample(ENTRIES, 12)):
        params, results, immediates = shape(rng, name)
        ty = {"params": list(params), "results": list(results)}
        if ty not in types:
            types.append(ty)
        code = [["local.get", local] for local in range(len(params))] + [[name, *immediates]]
        functions.append({"type": types.index(ty), "code": code})
        exports.append({"name": name + str(place), "func": place})
        calls += [(place, operands(rng, name, params)) for _ in range(5)]
    rng.shuffle(calls)
    data = {"bytes": bytes(rng.getrandbits(8) for _ in range(16)).hex(), "memory": 0}
    datas = [{**data, "offset": ["i32.const", at]} for at in (0, 65520)]
    memory = {"name": "memory", "memory": 0}
    module = {"memories": [{"min": 1}], "functions": functions, "exports": [*exports, memory], "datas": datas}
    commands = [{"do": "instantiate", "module": 0}]
    commands += [{"do": "get_export", "instance": 0, "name": entry["name"]} for entry in module["exports"]]
    commands += [{"do": "call", "func": place + 1, "args": args} for place, args in calls]
    reads = [{"do": "memory_read", "memory": len(exports) + 1, "at": at, "len": 24} for at in (0, 65512)]
    return {"types": types, "modules": [module], "commands": commands + reads}
