"""Makes whole random sessions, of several mixes, each from a number.

The commands are made one after another over a machine that runs each at once, so that most names give something; the lines
that the session gives are found anew from its text.
"""

import json
import random

from machine import TooLarge
from random_bulk import bulk_session
from random_commands import GLOBAL_WORK, MEMORY_WORK, METER_WORK, OBJECTS, TABLE_WORK, CommandMaker, SessionScope
from random_operators import operator_session
from random_modules import ModuleMaker, chance, random_type_number, random_types
from random_shared import shared_session
from script_reader import CommandReader, read_script
from session import lines_of, new_machine
from spoiling import spoiled_module, spoiled_text
from validator import Validator

BASE = {"wrong": 0.08, "modules": 2, "bodies": 2, "fuel": 0.15, "epochs": 0.1, "hook": 0.2, "limiter": 0.2, "small": 0.2}
MIXES = {
    "objects": {**BASE, "modules": 0, "bodies": 0, "limiter": 0.4, "wrong": 0.15},
    "guests": {**BASE, "bodies": 0, "wrong": 0.04},
    "hosts": {**BASE, "bodies": 4, "hook": 0.5, "limiter": 0.3, "wrong": 0.06},
    "stops": {**BASE, "bodies": 3, "hook": 0.6, "limiter": 0.5, "fuel": 0.3, "epochs": 0.3, "small": 1.0},
    "meters": {**BASE, "bodies": 2, "fuel": 0.8, "epochs": 0.7, "limiter": 0.4, "wrong": 0.04},
    "modules": {**BASE, "modules": 4, "bodies": 1, "wrong": 0.1},
    "refusals": {**BASE, "modules": 2, "bodies": 3, "wrong": 0.35},
    "invalid": {**BASE, "spoil": "module"},
    "operators": {},
    "texts": {**BASE, "spoil": "text", "modules": 1},
}
BY_NAME = {"operators": operator_session, "shared": shared_session, "bulk": bulk_session}
GUEST_WORK = ("call",) * 12 + ("get_export",) * 6 + ("instantiate",) * 2
MOST_TURNS = 3000


def answers(rng, good, bad, share):
    return [rng.choice(bad) if chance(rng, share) else rng.choice(good) for _ in range(rng.randrange(12))]


def random_engine(rng, mix):
    engine = {"turns": rng.choice([300, 1000, MOST_TURNS])}
    if chance(rng, mix["small"]):
        engine["turns"] = rng.choice([rng.randrange(1, 12), rng.randrange(1, 40), rng.randrange(1, 150)])
    for key in ("fuel", "epochs"):
        if chance(rng, mix[key]):
            engine[key] = True
    if chance(rng, 0.5):
        engine["frames"] = rng.choice([1, 2, 3, 4, 5, 8, 1024])
    return engine


def random_data(rng, mix, engine):
    data = {}
    if chance(rng, 0.3):
        data["number"] = rng.choice([0, 7, -1, 2**63, 2**64 - 1])
    if chance(rng, mix["limiter"]):
        limiter = {"answers": answers(rng, ["yes"], ["no", "fault"], 0.3)} if chance(rng, 0.9) else {}
        for key in ("instances", "memories", "tables"):
            if chance(rng, 0.2):
                limiter[key] = rng.randrange(5)
        data["limiter"] = limiter
    if chance(rng, mix["hook"]):
        data["hook"] = answers(rng, ["ok"], ["fault"], rng.choice([0, 0.1, 0.3]))
    if engine.get("epochs") and chance(rng, 0.8) or chance(rng, 0.02):
        data["deadline"] = answers(rng, [0, 1, 2, 3, 10, 2**64 - 1], ["interrupt", "fault"], 0.3)
    return data


class SessionMaker:
    def __init__(self, rng, mix):
        self.rng = rng
        self.mix = mix
        self.types = random_types(rng)

    def parts(self):
        """A script without commands."""
        rng, mix = self.rng, self.mix
        engine = random_engine(rng, mix)
        script = {"engine": engine, "types": self.types, "data": random_data(rng, mix, engine)}
        body_types = [random_type_number(rng, len(self.types)) for _ in range(rng.randrange(mix["bodies"] + 1))]
        maker = ModuleMaker(rng, self.types, body_types[: rng.choice([1, 2, 3])])
        script["modules"] = [maker.module() for _ in range(rng.randrange(1, mix["modules"] + 1) if mix["modules"] else 0)]
        self.read_types = maker.read
        self.modules = script["modules"]
        self.commands = CommandMaker(rng, maker.read, len(self.modules), body_types, mix["wrong"])
        self.commands.guest_types = [entry["type"] for module in self.modules for entry in module.get("functions", [])]
        script["host"] = [self.commands.body(number) for number in body_types]
        return {key: content for key, content in script.items() if content or chance(rng, 0.2)}

    def session(self):
        script = self.parts()
        spoils_module = self.mix.get("spoil") == "module" and script.get("modules")
        if spoils_module:
            place = self.rng.randrange(len(script["modules"]))
            script["modules"][place] = spoiled_module(self.rng, script["modules"][place])
        script["commands"] = []
        read = None if spoils_module else read_script(json.loads(json.dumps(script)))
        if read and all(Validator(module).first_broken() is None for module in read.modules):
            self.give_commands(script, read)
        return script

    def give_commands(self, script, read):
        machine = new_machine(read)
        scope = SessionScope(self.rng, machine)
        reader = CommandReader(self.read_types)
        plan = self.plan()
        for _ in range(self.rng.choice([5, 10, 20, 30]) + len(plan)):
            command = self.planned(plan, scope) if plan else self.next_command(machine, scope)
            script["commands"].append(command)
            try:
                lines_of(machine, reader.command(command))
            except TooLarge:
                script["commands"].pop()

    def plan(self):
        """The first commands, as words: what bodies are given as stored, their functions, instances and exports."""
        plan = []
        if self.commands.body_types and chance(self.rng, 0.9):
            plan += ["memory", "table", "global", *range(len(self.commands.body_types))]
        if chance(self.rng, 0.85):
            for module in range(len(self.modules)):
                plan += [("instantiate", module), *["export"] * self.rng.choice([1, 2, 3, 4])]
        return plan[::-1]

    def planned(self, plan, scope):
        """The next command of a plan; an instance stays planned until its imports are there."""
        word = plan[-1]
        if isinstance(word, tuple):
            command = self.instantiate(scope, word[1])
            if command["do"] == "instantiate":
                plan.pop()
            return command
        plan.pop()
        if word == "export":
            return self.possible("get_export", scope)
        if word == "memory":
            return {"do": "memory_new", "min": 1, "max": 3}
        if word == "table":
            return {"do": "table_new", "ref": "funcref", "min": 3, "max": 5, "init": {"func": None}}
        if word == "global":
            return {"do": "global_new", "val": "i32", "mut": True, "init": {"i32": 5}}
        stored = [0, 1, 2] + ([self.rng.randrange(3, 3 + word)] if word else [])
        return {"do": "func_new", "type": self.commands.body_types[word], "body": word, "stored": stored}

    def next_command(self, machine, scope):
        if machine.engine.epochs and chance(self.rng, 0.2) or machine.engine.fuel and chance(self.rng, 0.2):
            return self.meter_command(machine, scope)
        pool = OBJECTS + MEMORY_WORK + TABLE_WORK + GLOBAL_WORK
        if self.commands.module_count and chance(self.rng, 0.75):
            pool = GUEST_WORK
        if chance(self.rng, 0.04):
            pool = METER_WORK
        return self.possible(self.rng.choice(pool), scope)

    def possible(self, do, scope):
        """A command, or what is wanted before it, where that is not there."""
        kind = do.split("_")[0]
        if self.commands.errs():
            return self.commands.command(do, scope)
        if do == "call" and not scope.known("func"):
            return self.possible("get_export" if self.commands.module_count else "func_new", scope)
        if do == "get_export" and not scope.known("instance"):
            return self.possible("instantiate" if self.commands.module_count else "global_new", scope)
        if do == "instantiate":
            return self.instantiate(scope, self.rng.randrange(self.commands.module_count))
        if kind in ("memory", "table", "global") and not do.endswith("_new") and not scope.known(kind):
            do = kind + "_new"
        return self.commands.command(do, scope)

    def instantiate(self, scope, module):
        """An instantiation, or a command that makes an object for an import that has none."""
        asked = scope.machine.modules[module].imports
        for entry, wanted in zip(self.modules[module].get("imports", []), asked):
            if not self.commands.fitting(scope, wanted) and chance(self.rng, 0.95):
                return self.commands.of_import(scope, entry, wanted)
        return {"do": "instantiate", **self.commands.instantiate_module(scope, module)}

    def meter_command(self, machine, scope):
        """Sets fuel to about what the last call took, or does other work on fuel and epochs."""
        if machine.engine.fuel and chance(self.rng, 0.6):
            return {"do": "set_fuel", "fuel": max(0, self.rng.choice([5, 10, 20, 50]) + self.rng.randrange(-5, 6))}
        do = "set_epoch_deadline" if machine.engine.epochs and chance(self.rng, 0.7) else self.rng.choice(METER_WORK)
        return self.commands.command(do, scope)


def random_session(seed, mix_name=None):
    """The text of a random session, and the name of its mix."""
    rng = random.Random(seed)
    name = mix_name or sorted(MIXES)[seed % len(MIXES)]
    mix = MIXES.get(name, {})
    script = BY_NAME[name](rng) if name in BY_NAME else SessionMaker(rng, mix).session()
    text = json.dumps(script)
    return (spoiled_text(rng, script) if mix.get("spoil") == "text" else text), name
