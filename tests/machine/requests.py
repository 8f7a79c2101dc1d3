"""What a request line asks for, or why it is malformed."""

import json

from .assignments import read_assignments
from .commands import COMMANDS
from .names import is_name
from .questions import QUESTIONS
from .state import Refused, refuse_if

LONGEST_LINE = 65_536
DEEPEST = 127
GREATEST = 4_294_967_295


class Number(str):
    """A number as it is written."""


class NoJson(Exception):
    """The text is no JSON."""


def read_number(text):
    """Reads a number, which has to fit into a double."""
    if float(text) in (float("inf"), float("-inf")):
        raise NoJson
    return Number(text)


def read_constant(text):
    """NaN and the infinities, which Python knows and JSON does not."""
    raise NoJson


def members(pairs):
    """An object of these members: of a key that occurs more than once the last counts."""
    for key, value in pairs:
        judge(key)
        judge(value)
    return dict(pairs)


def judge(value):
    """Checks that the texts in a value have no half of a surrogate pair. Objects are judged already."""
    if isinstance(value, str):
        value.encode()
    elif isinstance(value, list):
        for item in value:
            judge(item)


def nesting(text):
    """How deep a text nests, members that a later one replaces included."""
    level = deepest = 0
    inside = skip = False
    for sign in text:
        if skip:
            skip = False
        elif inside:
            skip = sign == "\\"
            inside = sign != '"'
        elif sign == '"':
            inside = True
        elif sign in "[{":
            level += 1
            deepest = max(deepest, level)
        elif sign in "]}":
            level -= 1
    return deepest


def read_json(line):
    """The value of a JSON text: numbers stay as they are written."""
    try:
        text = line.decode()
        value = json.loads(
            text,
            parse_int=read_number,
            parse_float=read_number,
            parse_constant=read_constant,
            object_pairs_hook=members,
        )
        judge(value)
    except (ValueError, NoJson, RecursionError):
        raise Refused(34) from None
    refuse_if(text.count("[") + text.count("{") > DEEPEST and nesting(text) > DEEPEST, 34)
    return value


def is_text(value):
    return isinstance(value, str) and not isinstance(value, Number)


def read_text(value):
    refuse_if(not is_text(value), 34)
    return value


def read_texts(value):
    refuse_if(not isinstance(value, list) or not all(map(is_text, value)), 34)
    return value


def read_cardinality(value):
    """A whole number from 0 to 4,294,967,295 that is written in digits alone."""
    refuse_if(not isinstance(value, Number) or not set(value) <= set("0123456789"), 34)
    refuse_if(len(value) > len(str(GREATEST)) or int(value) > GREATEST, 34)
    return int(value)


def name_of(text):
    refuse_if(not is_name(text), 1)
    return text


# How the value at a key is read, and what it is judged to be once all values are read.
READ = {"roles": read_texts, "cardinality": read_cardinality}
JUDGE = {
    "roles": lambda texts: [name_of(text) for text in texts],
    "cardinality": lambda number: number,
    "csv": lambda text: read_assignments(text.encode()),
}


def read_request(line):
    """The function that a line names, and its arguments."""
    refuse_if(len(line) > LONGEST_LINE, 34)
    value = read_json(line)
    refuse_if(not isinstance(value, dict) or not is_text(value.get("fn")), 34)
    function = value["fn"]
    refuse_if(function not in COMMANDS and function not in QUESTIONS, 35)
    _, keys, _ = COMMANDS.get(function) or QUESTIONS[function]
    keys = keys.split()
    values = [READ.get(key, read_text)(value.get(key)) for key in keys]
    return function, [JUDGE.get(key, name_of)(read) for key, read in zip(keys, values)]
