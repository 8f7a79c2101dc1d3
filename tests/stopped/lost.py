"""The machine crashes at a call on the files of an office: what was synced stays, and all else or a part of it is lost."""

import random
from collections import Counter
from dataclasses import dataclass, field

import pytest

from program.bench import beside
from program.cases import cases

from .shim import Stopper
from .stories import judge_office, lay, story_named

STORIES = ["init", "replay", "replay of version 1", "import", "migrate"]

# How many random choices of what is lost there are of each story, and with `--long`; in the first, all is lost that wasn't
# synced.
SEEDS, MORE_SEEDS = 2, 40


@dataclass
class Disk:
    """A file as a crash of the machine leaves it: what was synced, and the changes since then, each with its bytes."""

    synced: bytes = b""
    changes: list = field(default_factory=list)

    def change(self, where, content):
        """A write at this place, or a new length if there is no content."""
        self.changes.append((where, content))

    def sync(self):
        """All changes are on the disk."""
        self.synced = self.after(self.changes)
        self.changes = []

    def after(self, changes):
        """What is on the disk if these changes arrived there."""
        found = bytearray(self.synced)
        for where, content in changes:
            if content is None:
                found = found[:where].ljust(where, b"\0")
            else:
                found = found.ljust(where, b"\0")
                found[where : where + len(content)] = content
        return bytes(found)

    def left(self, draws):
        """What a crash leaves: each change since the last sync arrived on the disk whole, in its first half, or not."""
        kept = []
        for where, content in self.changes:
            share = draws.choice([0, 1, 2])
            if share == 2 or (share == 1 and content is None):
                kept.append((where, content))
            elif share == 1:
                kept.append((where, content[: len(content) // 2]))
        return self.after(kept)


def events_of(trace):
    """The events in a trace: each its name, the file, the place, and the bytes of a write."""
    at = 0
    while at < len(trace):
        end = trace.index(b"\n", at)
        event, where, length, name = trace[at:end].split(b" ", 3)
        at = end + 1
        content = None
        if event == b"write":
            content = trace[at : at + int(length)]
            at += int(length)
        yield event.decode(), name.decode(), int(where), content


class Machine:
    """The files of an office as a crash leaves them after each event of a run, and how much was answered by then."""

    def __init__(self, content):
        self.disks = {} if content is None else {"office": Disk(content)}
        self.answered = 0

    def meet(self, event, name, where, content):
        """Follows one event; a sync of the folder changes no file."""
        if event == "answers":
            self.answered = where
        elif event == "gone":
            self.disks.pop(name)
        elif event == "sync" and name:
            self.disks.setdefault(name, Disk()).sync()
        elif event in ("write", "cut"):
            self.disks.setdefault(name, Disk()).change(where, content)
        elif event != "sync":
            raise AssertionError(f"a change that the trace does not know: {event} {name}")

    def lay(self, bench, draws):
        """Writes the files as a crash leaves them; without draws only what was synced is on the disk."""
        lay(bench, None)
        for name, disk in self.disks.items():
            bench.write(name, disk.left(draws) if draws else disk.synced)
        return bench.path("office")


@pytest.mark.parametrize("seed", cases(range(SEEDS), range(SEEDS, MORE_SEEDS)))
@pytest.mark.parametrize("name", STORIES)
def check_stop_machine(bench, name, seed):
    """Traces a story, and continues from what a crash of the machine after each of its events leaves."""
    content, story = story_named(bench, name, beside(bench, "records.csv"))
    stopper, trace = Stopper(bench), beside(bench, "trace")
    done = stopper.run(story.words(lay(bench, content)), story.given, STOP_UNDER=bench.folder, STOP_TRACE=trace)
    bench.same(f"{name}: the run", (done.out, done.status), (b"".join(story.answers), 0))
    with open(trace, "rb") as file:
        events = list(events_of(file.read()))
    machine, draws, counts = Machine(content), random.Random(seed), Counter()
    for number, event in enumerate(events, 1):
        machine.meet(*event)
        what = f"{name}, the machine crashes after event {number} ({event[0]} {event[1]}), seed {seed}"
        path = machine.lay(bench, draws if seed else None)
        answered = machine.answered if story.answers else 0
        if number == len(events):
            answered = len(story.states) - 1
        allowed = range(answered, min(answered + 2, len(story.states)))
        place = judge_office(bench, what, story, path, allowed)
        counts["crashes of the machine"] += 1
        counts["crashes of the machine, one more"] += place is not None and place > answered
    return counts
