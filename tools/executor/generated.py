"""Generated sessions: the words that ask for one, the text of its script, and its summary.

Written from the rules of the session language alone.
"""

import json
import re

from lines import reply_line

MOST_CALLS = 1000
NUMBER = {"params": ["i32"], "results": ["i32"]}
CODE = [["global.get", 0], ["local.get", 0], ["i32.add"], ["global.set", 0], ["local.get", 0], ["i32.const", 4],
        ["i32.mul"], ["global.get", 0], ["i32.store", 0, 0], ["global.get", 0]]
MODULE = {
    "memories": [{"min": 1}],
    "globals": [{"val": "i32", "mut": True, "init": ["i32.const", 0]}],
    "functions": [{"type": 0, "code": CODE}],
    "exports": [{"name": "f", "func": 0}, {"name": "m", "memory": 0}],
}


def calls_of(words):
    """How many calls the generated session has that these words ask for, and None where they ask for none."""
    if len(words) != 2 or words[0] != "gen" or not re.fullmatch("[1-9][0-9]{0,3}", words[1]):
        return None
    number = int(words[1])
    return number if number <= MOST_CALLS else None


def script_text(calls):
    """The text of the script of the generated session of so many calls."""
    commands = [{"do": "instantiate", "module": 0}, {"do": "get_export", "instance": 0, "name": "f"}]
    commands += [{"do": "call", "func": 1, "args": [{"i32": k}]} for k in range(1, calls + 1)]
    commands += [{"do": "get_export", "instance": 0, "name": "m"},
                 {"do": "memory_read", "memory": calls + 2, "at": 4 * calls, "len": 4}]
    return json.dumps({"types": [NUMBER], "modules": [MODULE], "commands": commands}).encode()


def summary(calls, replies):
    """The three lines of the summary of a generated session with these replies."""
    refused = sum(reply[0] in ("refused", "trap") for reply in replies)
    return ["gen %d" % calls, "commands %d refused %d" % (len(replies), refused), reply_line(replies[-1])]
