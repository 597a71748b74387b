"""The lines of a session: how values and replies are written.

Written from the rules of the session language alone. A value is its kind and its content: a number from 0, or None for a
null. A reply is a word and what belongs to it.
"""

from arithmetic import signed

REFERENCES = {"func": "funcref:", "extern": "externref:", "any": "anyref:"}


def value_text(value):
    kind, content = value
    if kind in REFERENCES:
        return REFERENCES[kind] + ("null" if content is None else str(content))
    if kind in ("i32", "i64"):
        return "%s:%d" % (kind, signed(int(kind[1:]), content))
    digits = {"f32": 8, "f64": 16, "v128": 32}[kind]
    return "%s:%0*x" % (kind, digits, content)


def reply_line(reply):
    """The line of a reply, without its line feed."""
    word, *rest = reply
    if word == "done":
        words = ["ok"]
    elif word == "number":
        words = ["ok", str(rest[0])]
    elif word == "bytes":
        words = ["ok", "bytes", rest[0].hex()]
    elif word == "values":
        words = ["ok", "values", *map(value_text, rest[0])]
    elif word in ("object", "instance"):
        words = ["ok", *map(str, rest)]
    elif word == "absent":
        words = ["ok", "none"]
    else:
        words = [word, *map(str, rest)]
    return " ".join(part for part in words if part)


def note_line(text):
    return "note " + text if text else "note"
