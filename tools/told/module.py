"""What a module in the binary format has, in words, by the slow reader in tools/binary.

That reader was written apart from the project's own and stays so; here it is only asked.
"""

import json
import os
import re
import sys

TOOLS = os.path.join(os.path.dirname(os.path.abspath(__file__)), "..")
sys.path += [os.path.join(TOOLS, "binary"), os.path.join(TOOLS, "executor")]

from reader import Cursor, Fault, Reader  # noqa: E402

KINDS = ("func", "table", "memory", "global", "tag")


def named(text):
    """A name as it is, or where it has spaces and the like as JSON writes it."""
    return text if re.fullmatch(r"[!#-~]+", text) else json.dumps(text)


def value_type(one):
    if isinstance(one, str):
        return one
    return "(ref %s%s)" % ("null " if one["null"] else "", one["ref"])


def row(types):
    return "(%s)" % ", ".join(map(value_type, types))


def size(limits, unit):
    text = "%d %s%s" % (limits["min"], unit, "" if limits["min"] == 1 else "s")
    return text + (", at most %d" % limits["max"] if "max" in limits else "")


class Module:
    """The declaration that the reader has read, or a part of it."""

    def __init__(self, read):
        self.types = read.types.items
        self.imports, self.exports = read.imports, read.exports
        imported = {kind: [entry[kind] for entry in read.imports if kind in entry] for kind in KINDS}
        self.spaces = {
            "func": imported["func"] + read.function_types, "table": imported["table"] + read.tables,
            "memory": imported["memory"] + read.memories, "global": imported["global"] + read.globals,
            "tag": imported["tag"] + read.tags,
        }
        self.imported_functions = len(imported["func"])

    def signature(self, number):
        ty = self.types[number]
        return "%s -> %s" % (row(ty["params"]), row(ty["results"]))

    def entity(self, kind, entry):
        """What is behind a name: of a function its type, of another object its kind and its type."""
        if kind == "func":
            return " " + self.signature(entry)
        if kind == "table":
            return ": table of %s, %s" % (value_type(entry["ref"]), size(entry, "element"))
        if kind == "memory":
            return ": memory of " + size(entry, "page")
        if kind == "global":
            return ": global of %s%s" % (value_type(entry["val"]), ", which may be set" if entry["mut"] else "")
        return ": tag of " + self.signature(entry)

    def exported(self, export):
        kind = next(kind for kind in KINDS if kind in export)
        space, place = self.spaces[kind], export[kind]
        return named(export["name"]) + (self.entity(kind, space[place]) if place < len(space) else ": of nothing that is there")

    def imported(self, entry):
        kind = next(kind for kind in KINDS if kind in entry)
        return "%s.%s%s" % (named(entry["module"]), named(entry["name"]), self.entity(kind, entry[kind]))

    def listing(self):
        exports, imports = map(self.exported, self.exports), map(self.imported, self.imports)
        lines = [["exports", *(list(exports) or ["none"])], ["imports", *(list(imports) or ["none"])]]
        return "\n".join("\n  ".join(part) for part in lines)

    def functions(self):
        """The functions that are exported, with their types."""
        return [self.exported(export) for export in self.exports if "func" in export]

    def function(self, name):
        """The type of the function of this name, or none."""
        for export in self.exports:
            if export["name"] == name:
                place = export.get("func")
                known = place is not None and place < len(self.spaces["func"])
                return self.types[self.spaces["func"][place]] if known else None
        return None

    def has_memory(self, name):
        return any(export["name"] == name and "memory" in export for export in self.exports)


def custom_sections(data):
    """The name and the content of each custom section, up to the first fault."""
    whole = Cursor(data, 8)
    try:
        while whole.at < whole.end:
            number, part = whole.byte(), whole.part()
            if number == 0:
                yield part.name(), part
    except Fault:
        return


def is_object_file(data):
    return any(name == "linking" for name, _ in custom_sections(data))


def section_at(data, place):
    """The number of the section that this place is in, or none."""
    whole = Cursor(data, 8)
    try:
        while whole.at < whole.end:
            number, part = whole.byte(), whole.part()
            if part.at <= place <= part.end:
                return number
    except Fault:
        pass
    return None


def function_names(data):
    """The names that the custom section `name` has for functions, by their numbers."""
    for name, part in custom_sections(data):
        try:
            while name == "name" and part.at < part.end:
                kind, inner = part.byte(), part.part()
                if kind == 1:
                    return dict(inner.listed(lambda: (inner.unsigned(), inner.name())))
        except Fault:
            return {}
    return {}


__all__ = ["Fault", "Module", "Reader", "function_names", "is_object_file", "named", "row", "section_at", "value_type"]
