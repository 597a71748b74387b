"""What a command reaches, and that it leaves all else in the store as it was.

Written from the rules of the session language alone. A node is what can be reached: a function, an instance, a memory, a
table or a global, as a pair of its kind and its place. Tags hold nothing and are none.
"""

from commands import Names, NoName, ReplyScope
from machine import HostFunction
from value_types import kind

NODES = ("func", "memory", "table", "global")
NAMED = ("memory", "table", "dst", "src", "global", "func")
OPERANDS = ("init", "value")


class Confinement:
    """Runs commands, and puts down of each what it changed outside of what it reaches, and how much there was."""

    def __init__(self):
        self.commands = 0
        self.beside = 0
        self.through_links = 0
        self.faults = []

    def perform(self, machine, command):
        """The reply of an outermost command."""
        roots = roots_of(machine, command)
        reached = reach(machine, roots)
        before, places = contents(machine), nodes(machine)
        reply = machine.commands.outermost(command)
        after = contents(machine)
        changed = {node for node, content in before.items() if after[node] != content}
        self.commands += 1
        self.beside += any(node not in reached for node in before)
        self.through_links += any(node not in roots for node in changed)
        self.faults += [(command.do, "changed", *node) for node in changed - reached]
        self.faults += [(command.do, "new link to", *node) for node in new_links(machine, reached, places)]
        return reply


def new_links(machine, reached, places):
    """What was there before, was not reached, and is reached now from what was and from what is new."""
    return (reach(machine, reached | (nodes(machine) - places)) & places) - reached


def nodes(machine):
    """All that can be reached."""
    found = {(word, place) for word in NODES for place in range(len(machine.objects[word]))}
    return found | {("instance", place) for place in range(len(machine.instances))}


def reach(machine, roots):
    """The roots and all that they lead to."""
    reached, waiting = set(), list(roots)
    while waiting:
        node = waiting.pop()
        if node not in reached:
            reached.add(node)
            waiting.extend(links(machine, node))
    return reached


def links(machine, node):
    word, place = node
    if word == "memory":
        return []
    if word == "instance":
        return links_of_instance(machine.instances[place])
    entry = machine.objects[word][place]
    if word == "table":
        return functions_in(entry.kind, entry.items)
    if word == "global":
        return functions_in(kind(entry.type.content), [entry.content])
    if isinstance(entry, HostFunction):
        return [handle for handle in entry.stored if handle[0] != "tag"]
    return [("instance", entry.instance)]


def links_of_instance(instance):
    spaces = (("func", instance.func), ("memory", instance.memory), ("table", instance.table), ("global", instance.global_))
    found = [(word, place) for word, places in spaces for place in places]
    for segment, items in zip(instance.module.elements, instance.elements):
        found += functions_in(kind(segment.type), items)
    return found


def functions_in(family, items):
    return [("func", item) for item in set(items) if item is not None] if family == "func" else []


def roots_of(machine, command):
    """What the names and operands of an outermost command stand for. A literal operand holds no function, and a body of a
    script hands out only what it was shown, so there are no others."""
    names = Names(ReplyScope(machine.replies))
    found = set()
    for key, content in command.keys.items():
        if key in NAMED:
            found |= given(names.object, content)
        elif key in OPERANDS:
            found |= given(names.value, content)
        elif key == "args":
            found = found.union(*(given(names.value, operand) for operand in content))
        elif key in ("stored", "imports"):
            found = found.union(*(given(names.object, name) for name in content))
        elif key == "instance":
            found |= given(lambda name: ("instance", names.instance(name)), content)
    return found


def given(look, name):
    """The node that a name or an operand gives, if any: of values, functions alone."""
    try:
        word, place = look(name)
    except NoName:
        return set()
    return {(word, place)} if place is not None and word in ("instance", *NODES) else set()


def contents(machine):
    """What can change in a store: memories, tables, globals, and the segments of instances, which may be dropped."""
    found = {("memory", place): bytes(memory.bytes) for place, memory in enumerate(machine.objects["memory"])}
    found.update({("table", place): list(table.items) for place, table in enumerate(machine.objects["table"])})
    found.update({("global", place): one.content for place, one in enumerate(machine.objects["global"])})
    for place, instance in enumerate(machine.instances):
        found["instance", place] = [list(items) for items in instance.elements], list(instance.datas)
    return found
