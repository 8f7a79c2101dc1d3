"""Judges a history: whether it is that of one office that answers all requests in the order of the log.

The order is that of the log, which a recorder has read from etcd meanwhile. The plain model of tests/machine.py answers its
lines. An answer names the log entry after which it was given, and has to be the model's answer there. Whether this fits what
was answered before, by the clock of the clients, is judged separately.
"""

import bisect
import json
import threading

from machine.replaying import Replay

from .histories import COMMAND, LINEARIZABLE, LOCAL

# The clock of an age is that of the node.
SLACK = 0.05


class Recorder(threading.Thread):
    """Reads the log from etcd while it grows, before it is trimmed."""

    def __init__(self, cluster):
        super().__init__(daemon=True)
        self.cluster, self.done = cluster, threading.Event()
        self.entries, self.faults, self.floor = [], [], 0

    def run(self):
        while not self.done.wait(0.2):
            self.read()

    def read(self):
        """Reads what is new, and returns whether etcd answered."""
        last = self.entries[-1][0] if self.entries else 0
        found = self.cluster.read_log(last)
        if found is None:
            return False
        entries, self.floor = found
        if self.floor > last:
            self.faults.append(f"the log was trimmed up to {self.floor} before {last} was recorded")
        self.entries += entries
        return True

    def close(self):
        """Reads the rest."""
        self.done.set()
        self.join()
        self.cluster.until(self.read, "etcd answers")


class Judge:
    """Finds what is wrong with the histories of clients, compared with a log."""

    def __init__(self, entries, histories):
        self.entries = entries
        self.asked = sorted((one for history in histories for one in history), key=lambda one: one.start)
        self.faults = []
        self.snapshots = {}

    def fault(self, what, asked=None):
        self.faults.append(what if asked is None else f"{what}: {asked}")

    def judge(self, wanted=()):
        """Judges everything. Afterwards `snapshots` has the model's state at the wanted revisions, and `state` the last."""
        self.judge_places()
        self.judge_answers(set(wanted))
        self.judge_times()
        return self.faults

    def judge_places(self):
        """Each answered command is at the place in the log that its answer names, in an entry of the node that was asked. Each
        other line of the log was requested of that node, and not answered, as often as the log has it."""
        lines = {
            (revision, place): (node, text_of(json.loads(line)))
            for revision, entry, node in self.entries
            for place, line in enumerate(entry)
        }
        self.asked_at, waiting = {}, {}
        for asked in self.asked:
            if asked.kind != COMMAND:
                continue
            request, place = (asked.node, text_of(asked.line)), (asked.revision, asked.place)
            if asked.may_be_done:
                waiting.setdefault(request, []).append(asked)
            elif not asked.is_answered:
                continue
            elif place in self.asked_at:
                self.fault(f"another command was answered at the same place: {self.asked_at[place]}", asked)
            elif lines.get(place) != request:
                self.fault(f"an answered command is not at its place in the log, which has {lines.get(place)}", asked)
            else:
                self.asked_at[place] = asked
        for place, request in lines.items():
            if place not in self.asked_at:
                if waiting.get(request):
                    self.asked_at[place] = waiting[request].pop(0)
                else:
                    self.fault(f"the log has {request} at {place}, once more than it was requested")

    def judge_answers(self, wanted):
        """Each answer is that of the model after the entries up to its revision."""
        questions = {}
        for one in self.asked:
            if one.kind != COMMAND and one.is_answered:
                questions.setdefault(one.revision, []).append(one)
        replay, revisions = Replay(), {entry[0] for entry in self.entries}
        for revision, lines, _ in [(0, [], 0), *self.entries]:
            for place, line in enumerate(lines):
                answer = replay.answer(line)
                asked = self.asked_at.get((revision, place))
                if asked is not None and asked.is_answered and asked.answer != answer:
                    self.fault(f"the model answers {answer}", asked)
            for asked in questions.get(revision, []):
                answer = replay.answer(json.dumps(asked.line).encode())
                if asked.answer != answer:
                    self.fault(f"the model answers {answer}", asked)
            if revision in wanted:
                self.snapshots[revision] = replay.state
        for revision in questions.keys() - revisions - {0}:
            self.fault(f"nothing is at {revision} of the log", questions[revision][0])
        self.state = replay.state

    def judge_times(self):
        """Whatever begins after an answer comes after it in the log, and nothing is seen before it was requested."""
        answered = [one for one in self.asked if one.is_answered]
        ends = sorted((one.end, place_of(one)) for one in answered if one.kind != LOCAL)
        newest, times = [], [end for end, _ in ends]
        for _, place in ends:
            newest.append(max(place, newest[-1]) if newest else place)
        begun = {place: one.start for place, one in self.asked_at.items()}
        latest, seen = [], 0.0
        for revision, lines, _ in self.entries:
            seen = max(seen, *(begun.get((revision, place), 0.0) for place in range(len(lines))))
            latest.append((revision, seen))
        for one in answered:
            since = fresh_at(one)
            index = bisect.bisect_left(times, since)
            before = newest[index - 1] if index else (0, 0)
            if one.kind == COMMAND and not place_of(one) > before:
                self.fault(f"it does not come after what was answered before at {before}", one)
            elif one.kind != COMMAND and not place_of(one) >= before:
                self.fault(f"it does not see what was answered before at {before}", one)
            index = bisect.bisect_right(latest, (one.revision, float("inf")))
            if index and latest[index - 1][1] > one.end:
                self.fault("it sees what was requested later", one)


def fresh_at(asked):
    """An answer has what was answered before this time. It is as old as it says when the node writes it, however long it has waited."""
    if asked.kind == COMMAND:
        return asked.start
    return max(asked.written - asked.age - SLACK, asked.start - (asked.age + SLACK if asked.kind == LOCAL else 0))


def text_of(line):
    """A line with its keys in order."""
    return json.dumps(line, sort_keys=True)


def place_of(asked):
    """The place of an answer in the order: a question comes after the whole entry of its revision."""
    return asked.revision, asked.place if asked.kind == COMMAND else float("inf")


def counts_of(histories):
    """Returns how many requests of each kind were sent and answered."""
    asked = [one for history in histories for one in history]
    counts = {}
    for kind in (COMMAND, LINEARIZABLE, LOCAL):
        counts[f"{kind} requests"] = sum(one.kind == kind for one in asked)
        counts[f"{kind} answers"] = sum(one.kind == kind and one.is_answered for one in asked)
    counts["requests that the caller may not send"] = sum(one.status == 403 for one in asked)
    return counts
