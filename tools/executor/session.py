"""A whole session: from the bytes of a script to its lines and its status.

Written from the rules of the session language alone.
"""

from collections import namedtuple

from code_runner import Code
from commands import Commands
from generated import calls_of, script_text, summary
from instantiation import Instantiation
from json_input import BadJson, read_json
from lines import note_line, reply_line
from machine import Machine, TooLarge
from reading import BadScript
from script_reader import read_script
from scripted_host import ScriptedHost
from validator import Validator

LONGEST = 2**24
DONE, BAD_WORDS, TOO_LONG, BAD_JSON, BAD_SCRIPT, INVALID_MODULE, OUT_OF_MEMORY = 0, 2, 4, 5, 6, 7, 8

Ending = namedtuple("Ending", "status text said")


def run_words(words, read):
    """The ending of the program called with these words, over the bytes that `read` gives."""
    calls = calls_of(words)
    if calls:
        return run_generated(calls)
    return run_session(read()) if words == ["run"] else Ending(BAD_WORDS, "", "BadWords")


def perform(machine, command):
    """The reply of a command of the session."""
    return machine.commands.outermost(command)


def read_session(data):
    """The script that these bytes spell, of valid modules, and None; or None and how the session ends without one."""
    if len(data) > LONGEST:
        return None, Ending(TOO_LONG, "", "TooLong")
    try:
        script = read_script(read_json(data))
    except BadJson:
        return None, Ending(BAD_JSON, "", "BadJson")
    except BadScript:
        return None, Ending(BAD_SCRIPT, "", "BadScript")
    for number, module in enumerate(script.modules):
        broken = Validator(module).first_broken()
        if broken:
            rule, part, item = broken
            return None, Ending(INVALID_MODULE, "", "InvalidModule %d %s %s %d" % (number, rule, part, item))
    return script, None


def run_session(data, work=perform):
    """The exit status, the lines, and the text on standard error of a session that these bytes spell, each of whose commands
    is done by this work."""
    script, refusal = read_session(data)
    return refusal or run_script(script, work)


def new_machine(script):
    machine = Machine(script)
    machine.code = Code(machine)
    machine.host = ScriptedHost(machine)
    machine.commands = Commands(machine, Instantiation(machine))
    return machine


def run_script(script, work=perform):
    """The ending of a script of valid modules."""
    machine = new_machine(script)
    lines = []
    try:
        for command in script.commands:
            lines.extend(lines_of(machine, command, work))
    except TooLarge:
        return Ending(OUT_OF_MEMORY, text_of(lines), "OutOfMemory")
    if machine.hooked:
        lines.append(" ".join(["hooks", *machine.asked.events]))
    return Ending(DONE, text_of(lines), "")


def run_generated(calls):
    """The ending of the generated session of so many calls, of which nothing is written but the summary."""
    script, refusal = read_session(script_text(calls))
    if refusal:
        raise ValueError("a generated session is refused: " + refusal.said)
    machine = new_machine(script)
    for command in script.commands:
        lines_of(machine, command)
    return Ending(DONE, text_of(summary(calls, machine.replies)), "")


def lines_of(machine, command, work=perform):
    """The notes of a command and the line of its reply, once it has run."""
    machine.notes.clear()
    machine.replies.append(work(machine, command))
    return [*map(note_line, machine.notes), reply_line(machine.replies[-1])]


def text_of(lines):
    return "".join(line + "\n" for line in lines)
