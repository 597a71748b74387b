"""Reads bytes as JSON the way the session language reads it, or says that they are none.

Written from the rules of the language alone. Whole numbers from -2^63 to 2^64 - 1 are integers, all other numbers floats,
`-0` too; a number past the largest float, half of a surrogate pair, and nesting deeper than 127 have no reading. Where a
key comes twice the last value stands.
"""

import json
import re

DEEPEST = 127
LONGEST_INTEGER = 20
STRING = re.compile(r'"(?:[^"\\]|\\.)*"', re.S)


class BadJson(Exception):
    """The bytes have no reading as JSON."""


def read_float(text):
    number = float(text)
    if number in (float("inf"), float("-inf")):
        raise BadJson
    return number


def read_integer(text):
    if text == "-0" or len(text) > LONGEST_INTEGER:
        return read_float(text)
    number = int(text)
    return number if -(2**63) <= number < 2**64 else read_float(text)


def refuse_word(word):
    raise BadJson


def is_too_deep(text):
    depth = 0
    for sign in STRING.sub("", text):
        if sign in "[{":
            depth += 1
            if depth > DEEPEST:
                return True
        elif sign in "]}":
            depth -= 1
    return False


def has_half_pair(value):
    if isinstance(value, str):
        return any("\ud800" <= sign <= "\udfff" for sign in value)
    if isinstance(value, list):
        return any(map(has_half_pair, value))
    if isinstance(value, dict):
        return any(has_half_pair(key) or has_half_pair(member) for key, member in value.items())
    return False


def keep_last(members):
    """An object of the members, of which none may have half of a pair, also where a later one of its key stands."""
    if any(has_half_pair(key) or has_half_pair(member) for key, member in members):
        raise BadJson
    return dict(members)


def read_json(data):
    """The value that the bytes spell, or BadJson."""
    try:
        text = data.decode("utf-8")
        if is_too_deep(text):
            raise BadJson
        value = json.loads(
            text,
            parse_int=read_integer,
            parse_float=read_float,
            parse_constant=refuse_word,
            object_pairs_hook=keep_last,
        )
    except (UnicodeDecodeError, json.JSONDecodeError, RecursionError):
        raise BadJson from None
    if has_half_pair(value):
        raise BadJson
    return value
