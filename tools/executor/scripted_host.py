"""The host of a script: what a step of a body does.

Written from the rules of the session language alone.
"""

from arithmetic import signed
from commands import ActivationScope, Names, NoName
from lines import reply_line


class ScriptedHost:
    def __init__(self, machine):
        self.machine = machine

    def step(self, activation):
        """Takes notes up to the next other action, and gives the answer: its word and what belongs to it."""
        body = self.machine.bodies[activation.function.body]
        while activation.place < len(body):
            action, content = body[activation.place]
            activation.place += 1
            if action == "note":
                self.machine.notes.append("".join(self.part(activation, part) for part in content))
            elif action == "do":
                return "call", content
            elif action == "return":
                return self.returned(activation, content)
            else:
                return "fail", None
        return "return", []

    def returned(self, activation, operands):
        names = Names(ActivationScope(activation))
        try:
            return "return", [names.value(operand) for operand in operands]
        except NoName:
            return "fail", None

    def part(self, activation, part):
        form, content = part
        if form == "text":
            return content
        if form == "data":
            return str(signed(64, self.machine.asked.number))
        if form == "last":
            return reply_line(activation.replies[-1]) if activation.replies else ""
        kind, number = activation.arguments[content] if content < len(activation.arguments) else (None, None)
        return str(signed(int(kind[1:]), number)) if kind in ("i32", "i64") else ""
