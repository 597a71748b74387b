"""Runs code: the forty-one forms of instructions, over trees of lists.

Written from the rules of the session language alone. An inner list ends in None where it goes on behind, in the number of
the label that it branches to, or in LEAVES where it leaves the body; its operands stand at the end of the frame's.
"""

from arithmetic import ArithmeticTrap, LOADS, OPERATORS, STORES, signed
from machine import trap
from value_types import func_matches, kind

LEAVES = -1
FAILED = 2**32 - 1


class Frame:
    def __init__(self, depth, number, instance, local_contents):
        self.depth = depth
        self.number = number
        self.instance = instance
        self.locals = local_contents
        self.stack = []

    def pop(self, count):
        """The last operands, in the order in which they were pushed."""
        place = len(self.stack) - count
        taken = self.stack[place:]
        del self.stack[place:]
        return taken


def default_content(ty):
    return 0 if isinstance(ty, str) else None


def outwards(end):
    """What an end of an inner list is to the list around it."""
    if end is None or end == 0:
        return None
    return end if end == LEAVES else end - 1


class Code:
    def __init__(self, machine):
        self.machine = machine

    def body(self, depth, function, arguments):
        """The contents of the results of a guest function, once it was entered."""
        instance = self.machine.instances[function.instance]
        local_contents = arguments + [default_content(ty) for ty in function.locals]
        frame = Frame(depth, function.instance, instance, local_contents)
        self.list_of(frame, function.code)
        return frame.pop(len(function.type.results))

    def inner(self, frame, instructions, params, carried):
        """Runs an inner list behind a label: a branch to the label leaves the operands that it carries."""
        height = len(frame.stack) - params
        end = self.list_of(frame, instructions)
        if end == 0:
            frame.stack[height:] = frame.pop(carried)
        return outwards(end)

    def list_of(self, frame, instructions):
        for one in instructions:
            name = one[0]
            end = None
            if name in CONTROL:
                end = CONTROL[name](self, frame, *one[1:])
            elif name in GROWTHS:
                GROWTHS[name](self, frame, *one[1:])
            else:
                self.charge(self.cost(frame, name))
                self.straight(frame, name, one[1:])
            if end is not None:
                return end
        return None

    def cost(self, frame, name):
        """What a straight instruction takes of the fuel; before a bulk form there must be some."""
        if name not in BULK:
            return 1
        self.machine.check_fuel()
        return 1 + frame.stack[-1]

    def charge(self, cost=1):
        """The turn of an instruction, and what it takes of the fuel."""
        self.machine.take_turn()
        if self.machine.engine.fuel:
            self.machine.fuel -= cost

    def straight(self, frame, name, immediates):
        if name in OPERATORS:
            params, _result, work = OPERATORS[name]
            try:
                frame.stack.append(work(*frame.pop(len(params))))
            except ArithmeticTrap as ended:
                trap(ended.args[0])
        elif name in LOADS:
            self.load(frame, name, *immediates)
        elif name in STORES:
            self.store(frame, name, *immediates)
        else:
            STRAIGHT[name](self, frame, *immediates)

    # Objects of the frame's instance

    def memory(self, frame, place):
        return self.machine.objects["memory"][frame.instance.memory[place]]

    def table(self, frame, place):
        return self.machine.objects["table"][frame.instance.table[place]]

    def global_(self, frame, place):
        return self.machine.objects["global"][frame.instance.global_[place]]

    def block_type(self, frame, number):
        return frame.instance.module.types[number]

    # Control

    def unreachable(self, frame):
        self.charge()
        trap("UnreachableCodeReached")

    def return_(self, frame):
        self.charge()
        return LEAVES

    def block(self, frame, number, instructions):
        self.charge()
        return self.chosen(frame, number, instructions)

    def chosen(self, frame, number, instructions):
        ty = self.block_type(frame, number)
        return self.inner(frame, instructions, len(ty.params), len(ty.results))

    def if_(self, frame, number, first, second):
        self.charge()
        (condition,) = frame.pop(1)
        return self.chosen(frame, number, first if condition else second)

    def loop(self, frame, number, instructions):
        self.charge()
        count = len(self.block_type(frame, number).params)
        height = len(frame.stack) - count
        while True:
            self.machine.check()
            end = self.list_of(frame, instructions)
            if end != 0:
                return outwards(end)
            frame.stack[height:] = frame.pop(count)

    def br(self, frame, label):
        self.charge()
        return label

    def br_if(self, frame, label):
        self.charge()
        (condition,) = frame.pop(1)
        return label if condition else None

    def br_table(self, frame, listed, last):
        self.charge()
        (place,) = frame.pop(1)
        return listed[place] if place < len(listed) else last

    def call(self, frame, place):
        self.charge()
        self.enter(frame, frame.instance.func[place])

    def call_indirect(self, frame, number, table):
        self.charge()
        (place,) = frame.pop(1)
        items = self.table(frame, table).items
        if place >= len(items):
            trap("TableOutOfBounds")
        if items[place] is None:
            trap("IndirectCallToNull")
        if not func_matches(self.machine.objects["func"][items[place]].type, self.block_type(frame, number)):
            trap("BadSignature")
        self.enter(frame, items[place])

    def enter(self, frame, place):
        params = self.machine.objects["func"][place].type.params
        arguments = list(zip(map(kind, params), frame.pop(len(params))))
        results = self.machine.enter(frame.depth, place, arguments, frame.number)
        frame.stack.extend(content for _kind, content in results)

    # Growth: the limiter's question comes before the turn

    def memory_grow(self, frame, place):
        memory = self.memory(frame, place)
        delta, size = frame.stack[-1], memory.size()
        may_grow = self.machine.may_grow(memory, size, delta)
        self.charge()
        frame.pop(1)
        if may_grow:
            memory.grow(delta)
        frame.stack.append(size % 2**32 if may_grow else FAILED)

    def table_grow(self, frame, place):
        table = self.table(frame, place)
        (init, delta), size = frame.stack[-2:], table.size()
        may_grow = self.machine.may_grow(table, size, delta)
        self.charge()
        frame.pop(2)
        if may_grow:
            table.grow(delta, init)
        frame.stack.append(size if may_grow else FAILED)

    # Straight instructions

    def nop(self, frame):
        pass

    def drop(self, frame):
        frame.pop(1)

    def select(self, frame):
        first, second, condition = frame.pop(3)
        frame.stack.append(first if condition else second)

    def local_get(self, frame, place):
        frame.stack.append(frame.locals[place])

    def local_set(self, frame, place):
        (frame.locals[place],) = frame.pop(1)

    def local_tee(self, frame, place):
        frame.locals[place] = frame.stack[-1]

    def global_get(self, frame, place):
        frame.stack.append(self.global_(frame, place).content)

    def global_set(self, frame, place):
        (self.global_(frame, place).content,) = frame.pop(1)

    def const(self, frame, number):
        frame.stack.append(number)

    def load(self, frame, name, place, offset):
        value_kind, width, is_signed = LOADS[name]
        data = self.memory(frame, place).bytes
        at = frame.pop(1)[0] + offset
        if at + width > len(data):
            trap("MemoryOutOfBounds")
        number = int.from_bytes(data[at : at + width], "little")
        frame.stack.append(signed(8 * width, number) % 2 ** int(value_kind[1:]) if is_signed else number)

    def store(self, frame, name, place, offset):
        width = STORES[name][1]
        data = self.memory(frame, place).bytes
        at, number = frame.pop(2)
        at += offset
        if at + width > len(data):
            trap("MemoryOutOfBounds")
        data[at : at + width] = (number % 256**width).to_bytes(width, "little")

    def memory_size(self, frame, place):
        frame.stack.append(self.memory(frame, place).size() % 2**32)

    def memory_fill(self, frame, place):
        at, number, length = frame.pop(3)
        data = self.memory(frame, place).bytes
        if at + length > len(data):
            trap("MemoryOutOfBounds")
        data[at : at + length] = bytes([number % 256]) * length

    def memory_copy(self, frame, destination, source):
        copy_into(self.memory(frame, destination).bytes, self.memory(frame, source).bytes, frame, "MemoryOutOfBounds")

    def memory_init(self, frame, place, segment):
        copy_into(self.memory(frame, place).bytes, frame.instance.datas[segment], frame, "MemoryOutOfBounds")

    def data_drop(self, frame, segment):
        frame.instance.datas[segment] = b""

    def ref_null(self, frame, _family):
        frame.stack.append(None)

    def ref_is_null(self, frame):
        frame.stack.append(int(frame.pop(1)[0] is None))

    def ref_func(self, frame, place):
        frame.stack.append(frame.instance.func[place])

    def table_get(self, frame, place):
        items = self.table(frame, place).items
        (at,) = frame.pop(1)
        if at >= len(items):
            trap("TableOutOfBounds")
        frame.stack.append(items[at])

    def table_set(self, frame, place):
        items = self.table(frame, place).items
        at, content = frame.pop(2)
        if at >= len(items):
            trap("TableOutOfBounds")
        items[at] = content

    def table_size(self, frame, place):
        frame.stack.append(self.table(frame, place).size())

    def table_fill(self, frame, place):
        at, content, length = frame.pop(3)
        items = self.table(frame, place).items
        if at + length > len(items):
            trap("TableOutOfBounds")
        items[at : at + length] = [content] * length

    def table_copy(self, frame, destination, source):
        copy_into(self.table(frame, destination).items, self.table(frame, source).items, frame, "TableOutOfBounds")

    def table_init(self, frame, place, segment):
        copy_into(self.table(frame, place).items, frame.instance.elements[segment], frame, "TableOutOfBounds")

    def elem_drop(self, frame, segment):
        frame.instance.elements[segment] = []


def copy_into(target, source, frame, name):
    """Copies as the last three operands say: the place in the target, the place in the source, and how many."""
    target_at, source_at, length = frame.pop(3)
    if target_at + length > len(target) or source_at + length > len(source):
        trap(name)
    target[target_at : target_at + length] = source[source_at : source_at + length]


CONTROL = {name: getattr(Code, name) for name in ("unreachable", "block", "loop", "br", "br_if", "br_table", "call")}
CONTROL.update({"return": Code.return_, "if": Code.if_, "call_indirect": Code.call_indirect})
BULK = ("memory.fill", "memory.copy", "memory.init", "table.fill", "table.copy", "table.init")
GROWTHS = {"memory.grow": Code.memory_grow, "table.grow": Code.table_grow}
STRAIGHT = {"nop": Code.nop, "drop": Code.drop, "select": Code.select, "i32.const": Code.const, "i64.const": Code.const}
for _name in ("local.get", "local.set", "local.tee", "global.get", "global.set", "memory.size", "memory.fill"):
    STRAIGHT[_name] = getattr(Code, _name.replace(".", "_"))
for _name in ("memory.copy", "memory.init", "data.drop", "ref.null", "ref.is_null", "ref.func", "table.get", "table.set"):
    STRAIGHT[_name] = getattr(Code, _name.replace(".", "_"))
for _name in ("table.size", "table.fill", "table.copy", "table.init", "elem.drop"):
    STRAIGHT[_name] = getattr(Code, _name.replace(".", "_"))
