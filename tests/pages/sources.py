"""What the sources of the crates define for requests and answers, read by small patterns. One that finds nothing fails."""

import re

from machine.state import MOST
from program.bench import TESTS
from program.web import PHRASES

ROOT = TESTS.parent

# The statuses of HTTP by the names that they have in the sources.
STATUSES = {phrase.upper().replace(" ", "_"): number for number, phrase in PHRASES.items()}
STATUSES["SERVICE_UNAVAILABLE"] = 503

# The files that set the status of a reply.
REPLYING = [
    "role_http/src/answer.rt",
    "role_http/src/head_checks.rt",
    "role_http/src/status.rt",
    "role_wire/src/prepared_reply.rt",
    "role_wire/src/serving.rt",
]

# The greatest sizes of a request: the file of each, and its name there.
SIZES = {
    "bytes of a line, its LF not counted": ("role_functions/src/function.rt", "LONGEST_LINE"),
    "bytes of a body of JSON": ("role_functions/src/function.rt", "LONGEST_LINE"),
    "bytes of the head of a request": ("role_http/src/head.rt", "MOST_BYTES"),
    "fields of a head": ("role_http/src/head.rt", "MOST_FIELDS"),
}

# The crates that judge an office as it is opened.
JUDGING = ["admin_mgr", "role_order", "role_tables"]

# The types of what is not read as a text, by the functions that read it.
TYPES = {"roles_at": "list", "cardinality_at": "number"}


def source(path):
    """The text of a source, without its contracts."""
    text = (ROOT / "crates" / path).read_text(encoding="utf-8")
    return re.sub(r"^ +(?:ensures|requires) .*\n", "", text, flags=re.M)


def found(pattern, path, flags=re.M):
    """All that a pattern finds in a source; it has to find something."""
    matches = re.findall(pattern, source(path), flags)
    if not matches:
        raise ValueError(f"in {path} nothing is found by {pattern}")
    return matches


def functions():
    """The name of each function, by that of its variant."""
    names = dict(found(r'Function::(\w+) => "(\w+)",', "role_functions/src/function.rt"))
    (count,) = found(r"\[Function; (\d+)\]", "role_functions/src/function.rt")
    if len(names) != int(count):
        raise ValueError(f"{len(names)} functions and not {count}")
    return names


def standard_names():
    """What each function is named in the standard, or an empty text if it has no name there."""
    pattern = r"^    /// (?:(\w+): )?.*\n(?:    /// .*\n)*    (\w+),$"
    named = {variant: name for name, variant in found(pattern, "role_functions/src/function.rt")}
    return {name: named[variant] for variant, name in functions().items()}


def readers():
    """The texts of the functions that read keys, by their names."""
    pattern = r"^(?:pub\(crate\) )?fn (\w+)(.*?)^\}"
    return dict(found(pattern, "role_json/src/fields.rt", re.M | re.S))


def keys_of(reader, known):
    """The keys that a function reads, with their types, in their order."""
    keys = []
    for key, called in re.findall(r'"(\w+)"|\b(\w+)\(', known[reader]):
        if key:
            keys.append((key, TYPES.get(reader, "text")))
        elif called in known:
            keys += keys_of(called, known)
    return keys


def keys_for(request):
    """The keys of each function whose call is this variant of `Request`, `Change` or `Ask`, with their types."""
    names, known, keys, path = functions(), readers(), {}, "role_json/src/calls.rt"
    pattern = rf"Function::(\w+) => \{{\s+let [^=]+ = (\w+)\(([^)]*)\)\?;(?:(?!Function::).)*Request::{request}\("
    for variant, reader, words in found(pattern, path, re.S):
        texts = [(key, "text") for key in re.findall(r'"(\w+)"', words)]
        keys[names[variant]] = texts or keys_of(reader, known)
    for variant in re.findall(rf"Function::(\w+) => Ok\(Request::{request}\(", source(path)):
        keys[names[variant]] = []
    return keys


def command_keys():
    """The keys of each command, with their types."""
    return keys_for("Change")


def question_keys():
    """The keys of each question, with their types."""
    return keys_for("Ask")


def values():
    """What each function answers: the name of its variant of an answer, or how a command is answered."""
    names = functions()
    pattern = r"Query::(\w+)(?: \{[^}]*\})? => .*?\.map\(\s*Answer::(\w+)"
    sorts = {names[variant]: sort for variant, sort in found(pattern, "review_mgr/src/asking.rt", re.S)}
    for name in command_keys():
        sorts[name] = "Imported" if name == "importAssignments" else "Done"
    return sorts


def refusals():
    """The name of each refusal by its code, with the key that its answer has besides, or an empty text."""
    names = dict(found(r'Refusal::(\w+)(?:\(_\))? => "(\w+)",', "rbac_sets/src/refusal.rt"))
    further = {}
    pattern = r'((?:Refusal::\w+\(\w+\)(?: \| )?)+) => (?:\{\s+)?Ok\(Some\(\(\s*"(\w+)"'
    for variants, key in found(pattern, "role_json/src/answer.rt"):
        for variant in re.findall(r"Refusal::(\w+)", variants):
            further[variant] = key
    codes = found(r"Refusal::(\w+)(?:\(_\))? => (\d+),", "rbac_sets/src/refusal.rt")
    return {int(code): (names[variant], further.get(variant, "")) for variant, code in codes}


def kind_words():
    """The word of each kind of a limit, by that of its variant."""
    return dict(found(r'Kind::(\w+) => "(\w+)",', "rbac_sets/src/kind.rt"))


def sizes():
    """The greatest sizes of a request, by what they are of."""
    found_sizes = {"bytes of a body of CSV": MOST["byte"]}
    for words, (path, name) in SIZES.items():
        (number,) = found(rf"const {name}: \w+ = ([\d_]+);", path)
        found_sizes[words] = int(number)
    return found_sizes


def patience():
    """How many seconds a connection is waited for."""
    (seconds,) = found(r"const PATIENCE: u64 = (\d+);", "role_cli/src/machine.rt")
    return int(seconds)


def statuses():
    """The statuses of HTTP that a reply may have."""
    names = {name for path in REPLYING for name in found(r"StatusCode::([A-Z_]+)", path)}
    return {STATUSES[name] for name in names}


def codes_by_status(met):
    """The codes that are answered with each status. Of those that functions meet, what no arm names are conflicts."""
    codes_of, codes = {}, {name: code for code, (name, _) in refusals().items()}
    for variants, name in found(r"^ +(Refusal::.*) => StatusCode::(\w+),", "role_http/src/status.rt"):
        codes_of[STATUSES[name]] = {codes[variant] for variant in re.findall(r"Refusal::(\w+)", variants)}
    (other,) = found(r"^ +_ => StatusCode::(\w+),", "role_http/src/status.rt")
    named = set().union(*codes_of.values())
    return {**codes_of, STATUSES[other]: set(met) - named}


def exits():
    """The exit statuses of the program."""
    return {int(number) for number in found(r"^const [A-Z_]+: u8 = (\d+);", "role_cli/src/program.rt")}


def error_lines():
    """The lines of standard error that are the same each time."""
    pattern = r'b"(rbac: [a-z][^"{]*)\\n"'
    paths = ["role_cli/src/failure.rt", "role_cli/src/program.rt", "rbac/src/main.rt"]
    return {line for path in paths for line in found(pattern, path)}


def causes():
    """What stops a replay, as it is named."""
    pattern = r'Cause::\w+(?:\(\w+\))? => (?:f\.write_str\(|write!\(f, )"(\w+)'
    return set(found(pattern, "role_wire/src/lines.rt"))


def checks():
    """The numbers of the checks by which an office is damaged, in order."""
    paths = [path for crate in JUDGING for path in (ROOT / "crates" / crate / "src").rglob("*.rt")]
    numbers = {number for path in paths for number in re.findall(r"Refusal::Damaged\((\d+)\)", source(path))}
    if not numbers:
        raise ValueError("no check is found")
    return sorted(map(int, numbers))


def most_reads():
    """How many reads a replay makes at most."""
    (number,) = found(r"const MOST_READS: \w+ = ([\d_]+);", "role_wire/src/lines.rt")
    return int(number)
