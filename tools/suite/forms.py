"""Files of the official test suite, as the commands that `wast2json` makes of them, and what it does not read.

A file is a list of forms in brackets: modules, and assertions on the newest module. Where `wast2json` does not read a form,
that form is taken out of the file and it is asked again; with a module go the forms behind it up to the next module, since
these speak of it.
"""

import json
import os
import re
import subprocess

READER = "wast2json"
COMMANDS = "commands.json"  # the file that has what it makes of a file
TOKENS = re.compile(r';;[^\n]*|\(;|;\)|"(?:[^"\\]|\\.)*"|[()]|[^\s()";]+|\s+|.', re.S)


class Form:
    def __init__(self, head, line, text):
        self.head, self.line, self.text = head, line, text
        self.last = line + text.count("\n")


def forms_of(text):
    """The forms of a file, each with its first word and its line. A comment in `(;` and `;)` may hold others."""
    forms, depth, comments, start, line, head = [], 0, 0, 0, 1, None
    for found in TOKENS.finditer(text):
        token = found.group()
        if token == "(;":
            comments += 1
        elif token == ";)":
            comments -= 1
        elif comments or token.startswith(";;"):
            pass
        elif token == "(":
            if depth == 0:
                start, line, head = found.start(), 1 + text.count("\n", 0, found.start()), None
            depth += 1
        elif token == ")":
            depth -= 1
            if depth == 0:
                forms.append(Form(head, line, text[start : found.end()]))
        elif head is None and not token.isspace():
            head = token
    return forms


def blanked(text, forms):
    """The text with spaces in place of these forms, so that each line keeps its number."""
    lines = text.split("\n")
    for form in forms:
        for number in range(form.line, form.last + 1):
            lines[number - 1] = ""
    return "\n".join(lines)


def asked(path, text, folder):
    """What `wast2json` makes of a text: its commands, and the lines where it says an error."""
    source, out = os.path.join(folder, os.path.basename(path)), os.path.join(folder, COMMANDS)
    with open(source, "w", encoding="utf-8", errors="surrogateescape", newline="") as file:
        file.write(text)
    words = [READER, "--enable-all", "--no-check", source, "-o", out]
    done = subprocess.run(words, capture_output=True, text=True, errors="replace")
    if done.returncode == 0:
        with open(out, encoding="utf-8", errors="surrogateescape") as file:
            return json.load(file)["commands"], []
    return None, [int(number) for number in re.findall(r"\.wast:(\d+):\d+: ", done.stderr)]


def commands_of(path, folder):
    """The commands of a file, and the forms that were taken out of it. The modules are files in the folder."""
    with open(path, encoding="utf-8", errors="surrogateescape", newline="") as file:
        text = file.read().replace("\r\n", "\n")
    forms, out = forms_of(text), []
    while True:
        commands, lines = asked(path, text, folder)
        if commands is not None:
            return commands, out
        bad = {place for place, form in enumerate(forms) if any(form.line <= line <= form.last for line in lines)}
        if not bad:
            return [], forms
        for place in sorted(bad):
            if forms[place].head == "module":
                behind = place + 1
                while behind < len(forms) and not forms[behind].head == "module":
                    bad.add(behind)
                    behind += 1
        gone = [forms[place] for place in sorted(bad)]
        # Forms that begin on a line of one that goes would go with it: they are taken out as well.
        lines_gone = {line for form in gone for line in range(form.line, form.last + 1)}
        gone = [form for form in forms if lines_gone.intersection(range(form.line, form.last + 1))]
        text = blanked(text, gone)
        out += gone
        forms = [form for form in forms if form not in gone]
