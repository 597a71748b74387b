"""What a session's run asks outside and is answered, kept as a tape: the steps of the host, the readings, the growths;
and a session that is run by a tape alone.

Written from the rules of records and replays alone (crates/wasm_tape/README.md, crates/wasm_replay/README.md).
"""

from machine import TooLarge, refuse
from script_reader import Operand
from session import DONE, OUT_OF_MEMORY, Ending, lines_of, new_machine, read_session, text_of
from tapes import Step, Tape, TapeReader, TapeWriter, spelled

STORE = 1
KINDS = ("steps", "readings", "growths")
NOT_SAME = 14


def returned(value):
    """A value that a step returned, as an operand: a function by its store and its place."""
    kind, content = value
    return Operand((kind, (STORE, content) if kind == "func" and content is not None else content), None)


def step_on_tape(function, state, event, answer, content, place):
    said = {"return": lambda: [returned(value) for value in content], "fail": lambda: True, "call": lambda: content}
    return Step(function.body, state, event, (answer, said[answer]()), place)


def tape_of(machine):
    """The tape of what this machine asks from now on."""
    tape = Tape([], [], [])
    step, read, growth = machine.host.step, machine.epochs.read, machine.asked.growth

    def taped_step(activation):
        state, event = activation.place, "replied" if activation.replies else "start"
        answer, content = step(activation)
        tape.steps.append(step_on_tape(activation.function, state, event, answer, content, activation.place))
        return answer, content

    def kept(ask, answers):
        def asked():
            answers.append(ask())
            return answers[-1]

        return asked

    machine.host.step = taped_step
    machine.epochs.read = kept(read, tape.readings)
    machine.asked.growth = kept(growth, tape.growths)
    return tape


def lines_without_notes(machine, commands):
    """The lines of a session; of notes nothing is on a tape."""
    return text_of([lines_of(machine, command)[-1] for command in commands])


def record_session(data):
    """The ending of a session that these bytes spell, without the notes; and its tape as JSON on one line, or None
    where the session did not run."""
    script, refusal = read_session(data)
    if refusal:
        return refusal, None
    machine = new_machine(script)
    tape = tape_of(machine)
    try:
        text = lines_without_notes(machine, script.commands)
    except TooLarge:
        return Ending(OUT_OF_MEMORY, "", "OutOfMemory"), None
    return Ending(DONE, text, ""), spelled(TapeWriter(script.types).tape(tape))


# ------------------------------------------------------------------------------------------------------------- replays


class Replaying:
    """Answers what a machine asks from the lists of a tape, in order."""

    def __init__(self, machine, tape):
        self.tape = tape
        self.places = dict.fromkeys(KINDS, 0)
        self.ended = set()
        self.differs = None
        machine.host.step = self.step
        machine.epochs.read = self.read
        machine.asked.growth = self.growth

    def taken(self, kind):
        """The next entry of a list, or None past its end."""
        entries, place = getattr(self.tape, kind), self.places[kind]
        if place == len(entries):
            self.ended.add(kind)
            return None
        self.places[kind] += 1
        return entries[place]

    def step(self, activation):
        step = None if self.differs else self.taken("steps")
        if step is None:
            return "fail", None
        asked = (activation.function.body, activation.place, "replied" if activation.replies else "start")
        if asked != step[:3]:
            words = (self.places["steps"] - 1, "%d %d %s" % step[:3], "%d %d %s" % asked)
            self.differs = "Differs %d recorded %s asked %s" % words
            return "fail", None
        activation.place = step.next
        form, content = step.answer
        return form, [given(operand) for operand in content] if form == "return" else content

    def read(self):
        reading = self.taken("readings")
        return refuse("EpochFault") if reading in (None, "fault") else reading

    def growth(self):
        return self.taken("growths") or "fault"

    def end(self):
        """How the replay ended, once the session is at its end."""
        left = [kind for kind in KINDS if self.places[kind] < len(getattr(self.tape, kind))]
        for word, kinds in (("Ended", [kind for kind in KINDS if kind in self.ended]), ("Left", left)):
            if kinds and not self.differs:
                return "%s %s" % (word, kinds[0])
        return self.differs or "Same"


def given(operand):
    """The value of an operand on a tape, whose functions are all of the session's store."""
    kind, content = operand.value
    return kind, content[1] if kind == "func" and content is not None else content


def replay_session(data, tape):
    """The ending of the session that these bytes spell, run by the tape that JSON data spells."""
    script, _ = read_session(data)
    machine = new_machine(script)
    replaying = Replaying(machine, TapeReader(script.types).tape(tape))
    try:
        text = lines_without_notes(machine, script.commands)
    except TooLarge:
        return Ending(OUT_OF_MEMORY, "", "OutOfMemory")
    end = replaying.end()
    return Ending(DONE if end == "Same" else NOT_SAME, text + "replay %s\n" % end, "" if end == "Same" else "NotSame")
