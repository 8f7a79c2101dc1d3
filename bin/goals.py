#!/usr/bin/env python3
"""What a prover's output says about a function with a must-fail edit: which goals are open, and what that shows.

bin/edits uses this. An edit is refused only by an open goal of a clause, that is, of an `ensures` of its function:

- the prover found values at which the goal is false;
- or no proof was found on a path that the sources have too: the edit changes values, and no call, condition or exit, and no
  answer names what it moved;
- or the edit brings an answer, which proves all of the goal but a hole, and the edit's line shows what is left there.

On a path that the edit makes, a goal without an answer shows nothing: the search may fail at a clause that holds there.

Whatever else leaves a function unproved has a name in KINDS, and shows less, since another proof might be found.
"""

import re
from collections import Counter
from dataclasses import dataclass, replace

CLAUSE = "clause"
KINDS = {
    "unanswered": "no answer is written for the path that the edit makes, and its goals are not shown to be false",
    "moved": "an answer names what the edit moved or removed",
    "invariant": "only the invariant or the measure of a loop isn't proved",
    "requires": "only what a call, a sum or an index requires isn't proved",
    "type": "only the invariant of a type isn't proved",
    "closure": "only a clause of a closure in the function isn't proved",
    "lemma": "only a lemma that the proof cites isn't proved",
    "answer": "an answer that the edit brings is not accepted, and not for a hole",
}
VERDICT = re.compile(r"fn (\S+): (proved|not proved|no proof|could not tell)(.*)")
OPEN = re.compile(r"note: \S+:\d+:\d+: .*\(`([^`]+)`\)(; the facts known there allow values at which this goal is false)?")
UNPROVED = re.compile(r"`search` did not prove ((?:`[^`]+`(?:, )?)+)")
FALSE = re.compile(r"note: `([^`]+)` of proofs/(\S+?)/\w+\.antt may be false: (.*?)(?:: help: .*)?$")
ERROR = re.compile(r"\./proofs/(\S+?)\.antt:\d+:\d+: error: (?:`([^`]+)`(?:: | is not admitted: ))?(.*)")
HOLE = re.compile(r"\./proofs/(\S+?)\.antt:\d+:\d+: goal \? in `([^`]+)`")
NAMES = re.compile(r"has no field|is not in scope|has no `|was not admitted|which was rejected")
CALL = re.compile(r"\b[a-z_]\w*!?(?=\()|\w(?=\[)|\b(?:if|match|while|for|loop|return|break|continue)\b|\?|&&|\|\|")


def kind_of(goal):
    """Returns which part of a proof has a goal of this name."""
    if goal.startswith("returns"):
        return CLAUSE
    if goal.startswith("invariant_of-"):
        return "type"
    if re.search(r"-(init|preserved|smaller)(-clause-.*)?$", goal) or goal.startswith(("invariant-", "decreases-", "ghost-")):
        return "invariant"
    if re.search(r"-requires(-|$)", goal) or re.match(r"(overflow|nonzero|bounds|slice_bounds|offset_bounds)[_-]", goal):
        return "requires"
    return "lemma"


def is_part(name, function):
    """Returns whether this is the function, or a closure in it, whose name has `fn` before the function's name."""
    closure = "::".join(it for it in name.split("::") if it != "fn")
    return name == function or (closure != name and closure.startswith(f"{function}::"))


def is_new_path(pairs):
    """Returns whether the texts of an edit differ in calls, conditions or exits, and not only in values."""
    old, new = (Counter(CALL.findall("\n".join(pair[side] for pair in pairs))) for side in (0, 1))
    return old != new


@dataclass(frozen=True)
class Goal:
    """A goal that is open: its name, of which part of a proof it is, and what the prover says about it."""

    name: str
    kind: str
    says: str
    is_false: bool = False
    is_answered: bool = False
    is_hole: bool = False

    def __str__(self):
        return f"{self.name}: {self.says}"


class Output:
    """The output of a check of a crate."""

    def __init__(self, crate, lines):
        self.crate, self.lines = crate, lines
        self.verdicts = {}
        self.errors, self.holes = [], []
        self.false = {}
        notes = []
        for at, line in enumerate(lines):
            if found := VERDICT.match(line):
                self.verdicts[found[1].removeprefix(f"{crate}::")] = found[2], found[3], notes
                notes = []
            elif found := FALSE.match(line):
                self.false[found[2].replace("/", "::"), found[1]] = found[3]
            elif found := OPEN.match(line):
                notes.append((found[1], bool(found[2])))
            elif found := ERROR.match(line):
                self.errors.append(found.groups())
            elif found := HOLE.match(line):
                self.holes.append((found[1], found[2], self.goal_at(at)))

    def goal_at(self, at):
        """Returns what has to be proved at the hole that this line names."""
        for number, line in enumerate(self.lines[at + 1 :], at + 1):
            if line.startswith("  \u22a2 "):
                rest = [it.strip() for it in self.lines[number + 1 : number + 9]]
                ends = next((one for one, it in enumerate(rest) if it.startswith(("names you can", "the newest"))), 0)
                return " ".join([line.strip(), *rest[:ends]])
            if not line.startswith(" "):
                break
        return "a hole"

    def parts(self, function):
        """Returns the verdicts on a function and on the closures in it, by their names."""
        return {name: found for name, found in self.verdicts.items() if is_part(name, function)}

    def goals(self, function):
        """Returns the goals of a function that are open, and what is wrong with its proof files."""
        found = []
        for name, (_, rest, notes) in self.parts(function).items():
            unproved = {it: False for text in UNPROVED.findall(rest) for it in re.findall(r"`([^`]+)`", text)}
            for goal, is_false in {**unproved, **dict(notes)}.items():
                values = self.false.get((name, goal))
                kind = "closure" if name != function and kind_of(goal) == CLAUSE else kind_of(goal)
                says = f"false if {values.removeprefix('the known facts allow ')}" if values else "false at some values"
                is_false = is_false or values is not None
                found.append(Goal(goal, kind, says if is_false else "not proved", is_false))
        return [*found, *self.refused_answers(function), *self.open_holes(function)]

    def refused_answers(self, function):
        """Returns the answers in the function's proof files that are not accepted."""
        for path, name, says in self.errors:
            part = path.rpartition("/")[0].replace("/", "::")
            if not is_part(part, function):
                continue
            kind = "moved" if NAMES.search(says) else kind_of(name) if name else "answer"
            if kind == CLAUSE and part != function:
                kind = "closure"
            yield Goal(name or path, kind, says, is_answered=True)

    def open_holes(self, function):
        """Returns the goals of the function whose answers have a hole."""
        for path, name, goal in self.holes:
            if path.rpartition("/")[0].replace("/", "::") == function:
                yield Goal(name, kind_of(name), goal, is_answered=True, is_hole=True)

    def failed_lemmas(self):
        """Returns what is wrong outside the proofs of functions."""
        parts = {name.replace("::", "/") for name in self.verdicts}
        return [Goal(name or path, "lemma", says) for path, name, says in self.errors if path.rpartition("/")[0] not in parts]


def shown_by(goal, is_new, brought):
    """Returns the kind of what an open goal of a clause shows, on a path that the edit makes (`is_new`) or not."""
    if goal.is_hole:
        return CLAUSE if goal.name in brought else "unanswered"
    if goal.is_false:
        return CLAUSE
    if goal.name in brought:
        return "answer"
    return "unanswered" if is_new else CLAUSE


def judged(function, output, pairs, brought=(), is_of_specs=False):
    """Returns what an edit of a function comes to, by the prover's output, and why.

    That is CLAUSE if the edit is refused, `proved` if it isn't, one of KINDS, or None if the output decides nothing.
    `brought` are the names of the goals for which the edit brings answers.
    """
    parts = output.parts(function)
    if not parts:
        return "proved", f"the prover reports nothing about {function}"
    if all(it[0] == "proved" for it in parts.values()):
        return "proved", "it is still proved"
    goals = output.goals(function)
    is_new = is_new_path(pairs) or any(it.kind == "moved" for it in goals)
    if any(it.is_answered and it.name.startswith("invariant-") for it in goals):
        # Without the invariant too little is known for a goal to be false.
        goals = [replace(it, is_false=False) for it in goals]
    kinds = {}
    for goal in goals:
        kinds.setdefault(shown_by(goal, is_new, brought) if goal.kind == CLAUSE else goal.kind, []).append(goal)
    for goal in output.failed_lemmas() if is_of_specs else []:
        kinds.setdefault("lemma", []).append(goal)
    if CLAUSE in kinds:
        best = max(kinds[CLAUSE], key=lambda it: (it.is_hole, it.is_false))
        return CLAUSE, str(best)
    for kind in KINDS:
        if kind in kinds:
            return kind, str(kinds[kind][0])
    return None, next(f"{said}{rest}" for said, rest, _ in parts.values() if said != "proved")
