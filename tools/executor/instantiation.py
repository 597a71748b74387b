"""Instantiation: the checks of imports, the counts, the limiter, the turn that makes the instance, and its start function.

Written from the rules of the session language alone.
"""

from machine import Global, GuestFunction, Instance, Memory, Table, refuse, trap


class Instantiation:
    def __init__(self, machine):
        self.machine = machine

    def make(self, module, imports):
        """The number of a new instance, whose start function has run."""
        self.check_imports(module, imports)
        self.raise_counts(module)
        memories = [Memory(ty) for ty in module.memories]
        tables = [Table(table.type) for table in module.tables]
        for grown in (*memories, *tables):
            if not self.machine.may_grow(grown, 0, grown.type.minimum):
                refuse("GrowFailed")
        self.machine.take_turn()
        number = self.append(module, imports, memories, tables)
        instance = self.machine.instances[number]
        self.take_elements(module, instance)
        self.take_datas(module, instance)
        if module.start is not None:
            self.machine.entry(0, instance.func[module.start], [], number)
        return number

    def check_imports(self, module, imports):
        if len(imports) != len(module.imports):
            refuse("ImportCount")
        for place, (given, wanted) in enumerate(zip(imports, module.imports)):
            if not self.machine.has_type(given, wanted):
                refuse("ImportType", place)

    def raise_counts(self, module):
        """Raises each count before the next one is tested."""
        for resource, more in (("instance", 1), ("memory", len(module.memories)), ("table", len(module.tables))):
            if self.machine.counts[resource] + more > self.machine.limits[resource]:
                refuse("ResourceLimit", resource)
            self.machine.counts[resource] += more

    def append(self, module, imports, memories, tables):
        """Appends the objects of a new instance, and gives its number."""
        number = len(self.machine.instances)
        spaces = {kind: [place for given, place in imports if given == kind] for kind in self.machine.objects}
        for function in module.functions:
            entry = GuestFunction(module.types[function.type], number, function.code, function.locals)
            spaces["func"].append(self.machine.append("func", entry)[1])
        for ty, memory in zip(module.memories, memories):
            memory.grow(ty.minimum)
            spaces["memory"].append(self.machine.append("memory", memory)[1])
        for entry, table in zip(module.tables, tables):
            table.grow(entry.type.minimum, self.content(entry.init, spaces))
            spaces["table"].append(self.machine.append("table", table)[1])
        for entry in module.globals:
            new = Global(entry.type, self.content(entry.init, spaces))
            spaces["global"].append(self.machine.append("global", new)[1])
        for tag in module.tags:
            spaces["tag"].append(self.machine.append("tag", module.types[tag])[1])
        elements = [[self.content(one, spaces) for one in segment.items] for segment in module.elements]
        datas = [segment.bytes for segment in module.datas]
        exports = {export.name: (export.kind, spaces[export.kind][export.index]) for export in module.exports}
        lists = [spaces[kind] for kind in ("func", "table", "memory", "global", "tag")]
        self.machine.instances.append(Instance(module, *lists, elements, datas, exports))
        return number

    def content(self, constant, spaces):
        """What a constant expression gives."""
        name, content = constant
        if name == "ref.null":
            return None
        if name == "ref.func":
            return spaces["func"][content]
        if name == "global.get":
            return self.machine.objects["global"][spaces["global"][content]].content
        return content

    def offset(self, segment, instance):
        return self.content(segment.offset, {"global": instance.global_, "func": instance.func})

    def take_elements(self, module, instance):
        for place, segment in enumerate(module.elements):
            if segment.mode == "active":
                items = self.machine.objects["table"][instance.table[segment.table]].items
                write(items, self.offset(segment, instance), instance.elements[place], "TableOutOfBounds")
            if segment.mode != "passive":
                instance.elements[place] = []

    def take_datas(self, module, instance):
        for place, segment in enumerate(module.datas):
            if segment.mode == "active":
                data = self.machine.objects["memory"][instance.memory[segment.memory]].bytes
                write(data, self.offset(segment, instance), instance.datas[place], "MemoryOutOfBounds")
                instance.datas[place] = b""


def write(target, at, content, name):
    """Writes a segment whole."""
    if at + len(content) > len(target):
        trap(name)
    target[at : at + len(content)] = content
