"""What refuses each function, in the order in which the sources of the crates judge it."""

import inspect
import re
from functools import cache

from machine import assignments

from . import sources

# The folders of the functions that judge commands and questions, and further files of such functions.
FOLDERS = ["admin_mgr/src/judge", "review_mgr/src/review"]
FILES = ["review_mgr/src/access.rt", "role_csv/src/reading.rt"]

# What the body of a function that refuses has: a refusal, with its kind; a violated set; a name that is read; or a
# call that may refuse, with what it is handed.
STEP = re.compile(
    r"Refusal::(?P<name>\w+)(?:\((?:Kind::)?(?P<kind>\w+)\))?"
    r"|(?P<violated>duty\.refusal)\("
    r"|(?P<read>Name::new)\("
    r"|\b(?P<called>(?:refuse|name|read)_\w+)\((?P<handed>[^)]*)"
)

# A kind of separation of duty that a function is handed.
DUTY = r"\b(Static|Dynamic)\b"


def bodies():
    """The bodies of all functions that judge, by their names."""
    crates = sources.ROOT / "crates"
    paths = [path.relative_to(crates) for folder in FOLDERS for path in sorted((crates / folder).glob("*.rt"))]
    found = {}
    for path in [*paths, *FILES]:
        found |= dict(sources.found(r"^(?:pub(?:\(crate\))? )?fn (\w+).*?^\{\n(.*?)^\}", path, re.M | re.S))
    return found


def duties():
    """The kind of the sets of each separation of duty, and the refusal by one."""
    path = "admin_mgr/src/separation_of_duty.rt"
    kinds = dict(sources.found(r"SeparationOfDuty::(\w+) => Kind::(\w+),", path))
    refusals = dict(sources.found(r"SeparationOfDuty::(\w+) => Refusal::(\w+)\(set\),", path))
    return {duty: (kind, refusals[duty]) for duty, kind in kinds.items()}


class Judging:
    """The functions that judge, with the names of refusals and kinds as they are answered."""

    def __init__(self):
        self.known = bodies()
        self.codes = {name: str(code) for code, (name, _) in sources.refusals().items()}
        self.kinds = sources.kind_words()
        self.duties = duties()

    def word(self, name, kind=None):
        """A refusal with its kind, if there is one."""
        return f"{self.codes[name]}:{self.kinds[kind]}" if kind in self.kinds else self.codes[name]

    def steps(self, function, duty=None):
        """What a function refuses by, in the order of its body."""
        for step in STEP.finditer(self.known[function]):
            if step["name"]:
                yield self.word(step["name"], self.duties[duty][0] if step["kind"] == "kind" else step["kind"])
            elif step["violated"]:
                yield self.word(self.duties[duty][1])
            elif step["read"]:
                yield self.word("BadName")
            elif step["called"] in self.known:
                handed = re.search(DUTY, step["handed"])
                yield from self.steps(step["called"], handed[1] if handed else duty)

    def words(self, function, duty=None):
        """The same, each once."""
        return list(dict.fromkeys(self.steps(function, duty)))


@cache
def refusals():
    """What refuses each function, in order. Of an import it is what refuses its text."""
    judging, names, found = Judging(), sources.functions(), {}
    pattern = r"Command::(\w+)(?: \{[^}]*\}|\(pairs\)) => (?:Ok\()?(judge_\w+)\(([^;]*?)\),\n"
    for variant, function, handed in sources.found(pattern, "admin_mgr/src/judge.rt"):
        duty = re.search(DUTY, handed)
        found[names[variant]] = judging.words(function, duty and duty[1])
    for variant, function in sources.found(r"Query::(\w+)(?: \{[^}]*\})? => (\w+)\(", "review_mgr/src/asking.rt"):
        found[names[variant]] = judging.words(function)
    reading = reading_of_csv()
    if not set(found["importAssignments"]) <= set(reading) == set(judging.words("read_assignments")):
        raise ValueError(f"an import is refused by {found['importAssignments']}, and its text by {reading}")
    return {**found, "importAssignments": reading}


def reading_of_csv():
    """What refuses a text of assignments, in the order in which the plain model judges it, record by record."""
    text = inspect.getsource(assignments.read_assignments) + inspect.getsource(assignments.read_pair)
    words = []
    for code, kind in re.findall(r'(?:refuse_if\(.*, |Refused\()(\d+)(?:, kind="(\w+)")?', text):
        word = f"{code}:{kind}" if kind else code
        if words[-1:] != [word]:
            words.append(word)
    return words


def codes_by_status():
    """The codes that are answered with each status of HTTP. Of those that functions meet, what no status names are conflicts."""
    met = {int(word.split(":")[0]) for words in refusals().values() for word in words}
    return sources.codes_by_status(met)
