"""A busy front, whose replicas decide meanwhile: each decision is that of the plain model, and no older than it says.

The front, its replay and the connections are killed, and connections are held up. Commands are sent a thousand times a second.
"""

import bisect
import http.client
import json
import os
import random
import signal
import threading
import time

import pytest

from front.batches import batch
from front.program import Front, children, until
from front.sessions import digest_of
from machine.texts import rows

from .drawing import QUESTIONS, Drawn, reason_of
from .driving import LANGUAGES, Driven
from .proxies import Proxy

# How many commands are sent a second, in batches of how many, and for how many seconds.
RATE, BATCH, SECONDS_OF_A_ROUND = 1_000, 20, 6
ROUNDS = 20

# A copy that is older doesn't decide, and these are the reasons then.
OLDEST = 3.0
UNDECIDED = ("unavailable", "unreachable", "unanswered")


class Writer:
    """Sends the commands, and keeps which number belongs to which state, and when each was answered."""

    def __init__(self, front, drawn):
        self.front, self.drawn = front, drawn
        self.done = 0
        self.faults = []
        # The number after a start of the front, and how many commands had been done then.
        self.epochs = [(self.number(), 0)]
        # At each of these times, how many commands had been answered.
        self.times, self.counts = [], []

    def snapshot(self):
        """The number and the lines of a snapshot, as soon as the front answers: its replay may just have been killed."""
        found = []

        def is_there():
            connection = self.front.connection()
            connection.request("GET", "/snapshot")
            reply = connection.getresponse()
            lines = reply.read().splitlines()
            connection.close()
            if reply.status == 200:
                found.append((int(reply.headers["Office-Number"]), [json.loads(line) for line in lines]))
            return found

        until(is_there, "the front answers again")
        return found[0]

    def number(self):
        return self.snapshot()[0]

    def run(self, seconds, disturb):
        """Sends commands for some seconds; `disturb` does something to the front before some of the batches."""
        start, kept, sent = time.monotonic(), self.front.connection(), 0
        end = start + seconds  # Nobody decides later, however long the front takes to start again.
        while (now := time.monotonic()) < end and self.done < len(self.drawn.lines):
            due = start + sent / RATE
            if now < due:
                time.sleep(due - now)
            lines = self.drawn.lines[self.done : self.done + BATCH]
            killer = disturb()
            try:
                status, answers = batch(self.front, b"\n".join(lines) + b"\n", connection=kept)
            except (OSError, http.client.HTTPException):
                status, answers = 0, []
            if killer:
                killer.join()
                kept.close()
                kept = self.front.connection()
            if status == 200:
                self.answered(lines, answers)
            else:
                self.find_out(lines)
            if killer or status != 200:
                self.begin_again()
                start = time.monotonic() - sent / RATE
            sent += len(lines)
        kept.close()

    def answered(self, lines, answers):
        if [answer for answer in answers if not answer.startswith('{"ok":true')] or len(answers) != len(lines):
            self.faults.append(f"the answers to {lines}: {answers}")
        self.done += len(lines)
        self.note()

    def note(self):
        self.times.append(time.time())
        self.counts.append(self.done)

    def find_out(self, lines):
        """After a kill: how many of the commands were done, by what is in the office now."""
        self.front.settle()
        _, found = self.snapshot()
        states = self.drawn.states[self.done : self.done + len(lines) + 1]
        held = facts_of_lines(found)
        done = next((at for at, state in enumerate(states) if facts_of_state(state) == held), None)
        if done is None:
            self.faults.append("the office is that of no beginning of the commands")
            done = 0
        self.done += done
        self.note()

    def begin_again(self):
        """After a kill the numbers go on from another one, even if the last batch was answered before."""
        self.front.settle()
        self.epochs.append((self.number(), self.done))

    def state_at(self, number):
        """How many commands had been done at a number, or nothing if there is no such number."""
        at = bisect.bisect_right(self.epochs, (number, len(self.drawn.states))) - 1
        if at < 0:
            return None
        first, done = self.epochs[at]
        last = self.epochs[at + 1][1] if at + 1 < len(self.epochs) else self.done
        place = done + number - first
        return place if place <= last else None

    def known_at(self, moment):
        """How many commands had been answered at a moment."""
        at = bisect.bisect_right(self.times, moment) - 1
        return self.counts[at] if at >= 0 else 0


def facts_of_lines(lines):
    """What is in an office, by the lines of a snapshot."""
    found = set()
    for line in lines:
        values = [tuple(sorted(value)) if isinstance(value, list) else value for value in line.values()]
        found.add(tuple(values))
    return found


def facts_of_state(state):
    """The same, by the plain model."""
    named = rows(state)
    names = {1: "addUser", 2: "addRole", 3: "addPermObj"}
    pairs = {1: "addPermission", 2: "assignUser", 3: "addInheritance"}
    found = {(names[kind], name) for kind, name in named["name_row"]}
    found |= {(pairs[kind], a, b) for kind, a, b in named["pair_row"] if kind in pairs}
    found |= {("grantPermission", *row) for row in named["grant_row"]}
    for function, sets in (("createSsdSet", state.static_sets), ("createDsdSet", state.dynamic_sets)):
        found |= {(function, name, tuple(sorted(roles)), cardinality) for name, (roles, cardinality) in sets.items()}
    found |= {("lockUserAccount", user) for user in state.locked}
    for name, (user, active) in state.sessions.items():
        found.add(("createSession", user, tuple(sorted(active)), digest_of(name)))
    return found


class Disturber:
    """Kills the front, or its replay, and cuts and holds up the connections of the replica now and then."""

    def __init__(self, front, proxy, draws):
        self.front, self.proxy, self.draws = front, proxy, draws
        self.kills = {"the front": 0, "its replay": 0}
        self.next = time.monotonic() + 1.5
        self.ending = threading.Event()
        self.cuts = self.holds = 0
        self.thread = threading.Thread(target=self.disturb_connections, daemon=True)
        self.thread.start()

    def __call__(self):
        """Kills something while a batch is on its way, now and then, and returns the thread that does it."""
        if time.monotonic() < self.next:
            return None
        what = "the front" if self.kills["its replay"] else "its replay"
        if self.kills["the front"]:
            what = self.draws.choice(["the front", "its replay"])
        thread = threading.Thread(target=self.kill, args=(what,), daemon=True)
        thread.start()
        return thread

    def kill(self, what):
        time.sleep(self.draws.uniform(0, 0.01))
        if what == "the front":
            self.front.kill()
            self.front.start()
        else:
            for process in children(self.front.process.pid):
                os.kill(process, signal.SIGKILL)
        self.kills[what] += 1
        self.next = time.monotonic() + self.draws.uniform(1, 2.5)

    def disturb_connections(self):
        while not self.ending.wait(self.draws.uniform(0.1, 0.8)):
            if self.draws.randrange(3):
                self.proxy.cut()
                self.cuts += 1
            else:
                self.proxy.passes.clear()
                self.ending.wait(self.draws.choice([0.05, 0.5, 1.5]))
                self.proxy.passes.set()
                self.holds += 1

    def end(self):
        self.ending.set()
        self.thread.join()


def judge(bench, writer, file):
    """Compares each decision with the model, and what it says about its age with what had been answered before."""
    counts = {"decisions": 0, "decisions that nobody could make": 0}
    faults, oldest, claimed, most = [], 0.0, 0.0, 0
    known = {}
    for line in open(file, encoding="utf-8"):
        start, age, number, reason, question = json.loads(line)
        if reason in UNDECIDED:
            counts["decisions that nobody could make"] += 1
            continue
        counts["decisions"] += 1
        place = writer.state_at(number)
        if place is None or age > OLDEST:
            faults.append(f"number {number}, age {age}")
            continue
        if (place, question) not in known:
            known[place, question] = reason_of(writer.drawn.states[place], QUESTIONS[question])
        if known[place, question] != reason:
            faults.append(f"{reason} for {QUESTIONS[question]} at {number}, and the model says {known[place, question]}")
        if place < writer.known_at(start - age):
            faults.append(f"number {number} is older than {age} seconds")
        claimed = max(claimed, age)
        behind = writer.known_at(start) - place
        if behind > 0:
            most = max(most, behind)
            first = writer.times[bisect.bisect_right(writer.counts, place)]
            oldest = max(oldest, start - first)
    bench.judge("decisions", (faults + writer.faults)[:5])
    counts["the oldest decision, milliseconds"] = round(oldest * 1_000)
    counts["the greatest age that was said, milliseconds"] = round(claimed * 1_000)
    counts["commands that a decision didn't know, at most"] = most
    return counts


def a_round(bench, language, seed, is_disturbed):
    """Commands for some seconds, and the decisions of a replica meanwhile."""
    draws = random.Random(seed)
    drawn = Drawn(seed, RATE * SECONDS_OF_A_ROUND)
    name = f"office{seed}"
    with Front(bench, name=name) as front, Proxy(front.port) as proxy, Driven(bench, language) as driver:
        writer = Writer(front, drawn)
        driver.open(proxy.address, oldest=OLDEST, silence=1.5)
        bench.same("the replica is ready", driver.do("ready", seconds=60), {"ready": True})
        file = bench.path(f"decisions{seed}")
        driver.tell("decide", questions=QUESTIONS, seconds=SECONDS_OF_A_ROUND + 1, file=file)
        disturber = Disturber(front, proxy, draws) if is_disturbed else None
        start = time.monotonic()
        writer.run(SECONDS_OF_A_ROUND, disturber or (lambda: None))
        seconds = time.monotonic() - start
        counts = {"commands": writer.done, "commands a second, all rounds": round(writer.done / seconds)}
        if disturber:
            disturber.end()
            counts.update({f"kills of {what}": count for what, count in disturber.kills.items()})
            counts.update({"connections that were cut": disturber.cuts, "connections that were held up": disturber.holds})
        driver.hear()
        bench.same("what is left", left_of(driver, writer.number()), ends_of(drawn.states[writer.done]))
        counts.update(judge(bench, writer, file))
        # It waits for the driver: what it logs has no names of sessions.
        said = driver.said()
        bench.same("names of sessions in the log", [name for name in ("s0", "s1", "s2", "s3", "s4") if f'"{name}"' in said], [])
    return counts


def left_of(driver, last):
    """What a replica decides that has all commands. Its connection may just have been held up: then its copy is too old for a while."""
    found = []

    def decides():
        has_all = driver.do("status")["number"] == last
        found[:] = [driver.reason(*one) for one in QUESTIONS[::7]]
        return has_all and not set(UNDECIDED).intersection(found)

    until(decides, "the replica has all commands, and decides")
    return found


def ends_of(state):
    return [reason_of(state, one) for one in QUESTIONS[::7]]


def rounds(bench, language, seed, is_disturbed):
    """One round, or many if there is time; greatest values are those of all rounds."""
    total = {}
    for number in range(ROUNDS if bench.is_long else 1):
        for name, count in a_round(bench, language, seed + number, is_disturbed).items():
            is_greatest = "most" in name or "milliseconds" in name or "a second" in name
            total[name] = max(total.get(name, 0), count) if is_greatest else total.get(name, 0) + count
    return total


@pytest.mark.seeds()
@pytest.mark.parametrize("language", LANGUAGES)
def check_disturbed(bench, language, seed):
    """A thousand commands a second, while the front and connections are killed."""
    return {f"{language}, disturbed: {name}": count for name, count in rounds(bench, language, seed, True).items()}


@pytest.mark.long
@pytest.mark.seeds()
@pytest.mark.parametrize("language", LANGUAGES)
def check_undisturbed(bench, language, seed):
    """A thousand commands a second, and nothing else."""
    return {f"{language}, undisturbed: {name}": count for name, count in rounds(bench, language, seed, False).items()}
