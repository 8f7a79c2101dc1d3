"""Searches for an order in which the answers about one object are those of one office, without any other knowledge of an order."""

import json
from dataclasses import dataclass

from .histories import LOCAL

# What a user of its own may meet, and whether it is there afterwards if the answer is 200.
ADD, DELETE, ASK = "addUser", "deleteUser", "assignedRoles"

# How many steps a search may take. An object whose search takes more is counted, and not judged.
STEPS = 500_000


@dataclass(frozen=True)
class Done:
    """An answered request about an object: when it was sent and answered, and whether the office accepted it."""

    start: float
    end: float
    function: str
    is_accepted: bool

    def follows(self, is_there):
        """Whether there is the object afterwards, or None if the answer isn't that of an office in which it is there, or isn't."""
        if self.function == ADD:
            return None if self.is_accepted == is_there else True
        if self.is_accepted != is_there:
            return None
        return is_there and self.function == ASK


def objects_of(histories, prefix):
    """By the names of the users that begin so: the answered requests, and when those for commands were sent that may be done or not."""
    found = {}
    for asked in (one for history in histories for one in history):
        name = asked.line.get("user", "")
        if not name.startswith(prefix) or asked.kind == LOCAL or asked.line["fn"] not in (ADD, DELETE, ASK):
            continue
        answered, open_ = found.setdefault(name, ([], {ADD: [], DELETE: []}))
        if asked.is_answered:
            answered.append(Done(asked.start, asked.end, asked.line["fn"], bool(json.loads(asked.answer).get("ok"))))
        elif asked.may_be_done and asked.line["fn"] != ASK:
            open_[asked.line["fn"]].append(asked.start)
    return found


def is_linear(answered, open_):
    """Whether there is such an order, None if the search takes too long. A request comes after all that were answered before it was sent.
    A command without an answer may come at any time after it was sent, or never."""
    answered = sorted(answered, key=lambda one: one.start)
    open_ = {function: sorted(starts) for function, starts in open_.items()}
    first = (0, frozenset(), False, 0, 0)
    stack, seen = [first], {first}
    while stack:
        if len(seen) > STEPS:
            return None
        begin, beyond, is_there, adds, deletes = stack.pop()
        while begin in beyond:
            beyond, begin = beyond - {begin}, begin + 1
        if begin == len(answered):
            return True
        left, soonest = [], float("inf")
        for i in range(begin, len(answered)):
            if answered[i].start > soonest:
                break
            if i not in beyond:
                left.append(i)
                soonest = min(soonest, answered[i].end)
        following = []
        if is_there and deletes < len(open_[DELETE]) and open_[DELETE][deletes] <= soonest:
            following.append((begin, beyond, False, adds, deletes + 1))
        if not is_there and adds < len(open_[ADD]) and open_[ADD][adds] <= soonest:
            following.append((begin, beyond, True, adds + 1, deletes))
        for i in reversed(left):
            after = answered[i].follows(is_there)
            if answered[i].start <= soonest and after is not None:
                following.append((begin, beyond | {i}, after, adds, deletes))
        for one in following:
            if one not in seen:
                seen.add(one)
                stack.append(one)
    return False


def judged(histories, prefix):
    """How many objects were judged, how many were not, how many operations they have, and what is wrong."""
    found = objects_of(histories, prefix)
    faults, undecided = [], 0
    for name, (answered, open_) in sorted(found.items()):
        is_right = is_linear(answered, open_)
        undecided += is_right is None
        if is_right is False:
            faults.append(f"no order of the answers about {name} is that of one office: {sorted(answered, key=lambda one: one.start)}, {open_}")
    return {"objects": len(found), "not judged": undecided, "operations": sum(len(one) for one, _ in found.values())}, faults


def check_search(bench):
    """The search accepts what one office may answer, and nothing else."""
    nothing = {ADD: [], DELETE: []}

    def of(*answers):
        return [Done(start, end, function, is_accepted) for function, start, end, is_accepted in answers]

    for what, answered, open_, wanted in [
        ("nothing", [], nothing, True),
        ("one after another", of((ADD, 0, 1, True), (ASK, 2, 3, True), (DELETE, 4, 5, True), (ASK, 6, 7, False)), nothing, True),
        ("an old answer", of((ADD, 0, 1, True), (ASK, 2, 3, False)), nothing, False),
        ("two at once", of((ADD, 0, 3, True), (ASK, 1, 2, False), (ADD, 1, 4, False)), nothing, True),
        ("two that were both accepted", of((ADD, 0, 3, True), (ADD, 1, 4, True)), nothing, False),
        ("accepted twice, with one that may be removed between", of((ADD, 0, 3, True), (ADD, 1, 4, True)), {ADD: [], DELETE: [2]}, True),
        ("a command that was done later", of((ASK, 2, 3, False), (ASK, 4, 5, True)), {ADD: [1], DELETE: []}, True),
        ("a command that was done twice", of((ASK, 2, 3, True), (DELETE, 4, 5, True), (ASK, 6, 7, True)), {ADD: [1], DELETE: []}, False),
        ("a command that was done before it was sent", of((ASK, 2, 3, True)), {ADD: [4], DELETE: []}, False),
    ]:
        bench.same(what, is_linear(answered, open_), wanted)
