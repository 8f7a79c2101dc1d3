"""Random offices of both versions with up to three random changes: the program answers each as the model does.

Rows are dropped, added, doubled, values changed or spoilt, limits exceeded, tables and columns missing: in the tables of an
office, or in others without types and keys, with their columns in another order. Each file is also migrated, and if the tables
are an office's own, lines are replayed over it.
"""

import os
import random
from collections import Counter

import pytest

from machine import opening
from machine.drawing import Draws
from machine.replaying import Replay
from machine.state import LIMITS, State, reach
from machine.texts import rows
from program.cases import cases
from program.offices import Office, read_rows, same_rows

from .files import expect_good, expect_migrated, expect_refused, judged, loose, read, statements_of, write

# How many files there are, and with `--long`; and how many each check has.
FILES, MORE_FILES = 500, 20_000
EACH = 125

# The range of how many random lines make an office, and the most changes of its rows.
LINES = (20, 240)
CHANGES = 3

# How many lines are replayed over a file that is opened and whose tables are those of an office.
REPLAYED = 12

# Values that no office has.
ODD_TEXTS = ["", "n" * 65, "a\tb", "\x7f", "\udcff", "\udced\udca0\udc80", "a\x00b"]
ODD_NUMBERS = [-1, 0, 9, 257, 4_294_967_295, 4_294_967_296, 2**63 - 1, -(2**63)]
ODD_TYPES = [None, 2.0, "2", b"ann", 7]

# The kinds of names in the parts of a row: u users, r roles, o objects, p operations, s sessions, x and y static
# and dynamic sets.
PARTS = {
    "name_row": {1: "u", 2: "r", 3: "o"},
    "pair_row": {1: "op", 2: "ur", 3: "rr", 4: "rr", 5: "xr", 6: "yr", 7: "su", 8: "sr"},
    "set_row": {1: "x", 2: "y"},
}


def names_of(tables):
    """The names of each kind in the tables."""
    found = {kind: set() for kind in "uropsxy"}
    for table, kinds in PARTS.items():
        for kind, *parts in tables[table]:
            for sort, name in zip(kinds.get(kind, ""), parts):
                found[sort].add(name)
    return {sort: sorted(name for name in some if isinstance(name, str)) for sort, some in found.items()}


class Changes:
    """Makes random changes of the rows of an office. `tables` are its rows, `draws` the random numbers."""

    def __init__(self, tables, draws):
        self.tables = {table: list(some) for table, some in tables.items()}
        self.draws = draws
        self.names = names_of(tables)

    def table(self):
        """A table with rows, the more likely the more it has."""
        counts = [len(some) for some in self.tables.values()]
        return self.draws.choices(list(self.tables), counts)[0]

    def place(self):
        """A row: its table and its number."""
        table = self.table()
        return table, self.draws.randrange(len(self.tables[table]))

    def name(self, sort):
        """A name of a kind in the tables; now and then another one."""
        return self.draws.choice(self.names[sort] or ["new"]) if self.draws.randrange(20) else "new"

    def drop(self):
        """Removes a row."""
        table, at = self.place()
        del self.tables[table][at]

    def twin(self):
        """Doubles a row."""
        table, at = self.place()
        self.tables[table].append(self.tables[table][at])

    def change(self):
        """Changes a value of a row to another name, number, or something that no office has."""
        table, at = self.place()
        row = list(self.tables[table][at])
        column = self.draws.randrange(len(row))
        if isinstance(row[column], int):
            row[column] = self.draws.randrange(10)
        else:
            row[column] = self.name(self.draws.choice("uropsxy"))
        self.tables[table][at] = tuple(row)

    def spoil(self):
        """Changes a value of a row to one that no office has."""
        table, at = self.place()
        row = list(self.tables[table][at])
        column = self.draws.randrange(len(row))
        odd = ODD_NUMBERS if isinstance(row[column], int) else ODD_TEXTS
        row[column] = self.draws.choice([*odd, *self.draws.sample(ODD_TYPES, 2)])
        self.tables[table][at] = tuple(row)

    def add(self):
        """Adds a row, most of whose names the office has."""
        table = self.draws.choices(["pair_row", "locked_row", "set_row", "grant_row"], [9, 3, 1, 1])[0]
        if table == "locked_row" and table in self.tables:
            self.tables[table].append((self.name("u"),))
        elif table == "set_row":
            kind = self.draws.choice([1, 2])
            self.tables[table].append((kind, self.name("xy"[kind - 1]), self.draws.randrange(4)))
        elif table == "grant_row":
            self.tables[table].append((self.name("o"), self.name("p"), self.name("r")))
        else:
            kind = self.draws.choices(range(1, 9), [1, 4, 4, 1, 2, 3, 1, 5])[0]
            self.tables["pair_row"].append((kind, *map(self.name, PARTS["pair_row"][kind])))

    def close(self):
        """The pairs of the order become those of the edges, whatever these are."""
        edges = {row[1:] for row in self.tables["pair_row"] if row[0] == opening.EDGE}
        closure = {(asc, desc) for asc, _ in edges for desc in reach(edges, asc) if asc != desc}
        others = [row for row in self.tables["pair_row"] if row[0] != opening.CLOSURE]
        self.tables["pair_row"] = others + [(opening.CLOSURE, *pair) for pair in sorted(closure, key=repr)]

    def cardinality(self):
        """A set gets another cardinality."""
        sets = self.tables["set_row"]
        if sets:
            at = self.draws.randrange(len(sets))
            sets[at] = (*sets[at][:2], self.draws.randrange(5))

    def pairs(self, kind):
        """The pairs of a kind."""
        return [row[1:] for row in self.tables["pair_row"] if row[0] == kind]

    def conflict(self):
        """A user is assigned all members of a set; of a dynamic one all are activated in a session of the user too."""
        kind = self.draws.choice([opening.STATIC_MEMBER, opening.DYNAMIC_MEMBER])
        members, sessions = self.pairs(kind), self.pairs(opening.SESSION)
        if members and sessions:
            name, (session, user) = self.draws.choice(members)[0], self.draws.choice(sessions)
            rows_put = [(opening.ASSIGNMENT, user, role) for one, role in members if one == name]
            if kind == opening.DYNAMIC_MEMBER:
                rows_put += [(opening.ACTIVE, session, role) for one, role in members if one == name]
            self.tables["pair_row"] += [row for row in rows_put if row not in self.tables["pair_row"]]

    def hand_over(self):
        """A session becomes another user's, or that one's as well."""
        sessions = self.pairs(opening.SESSION)
        if sessions:
            session, user = self.draws.choice(sessions)
            if self.draws.randrange(3):
                self.tables["pair_row"].remove((opening.SESSION, session, user))
            self.tables["pair_row"].append((opening.SESSION, session, self.name("u")))

    def overflow(self):
        """Adds rows of a kind, with names of the office, until its limit is reached or exceeded."""
        version = self.tables["meta_row"][0][1] if self.tables["meta_row"] else 2
        kind = self.draws.choice(["role", "ssdSet", "dsdSet"])
        count = LIMITS[kind][version != 1] + self.draws.randrange(2)
        table, number = {"role": ("name_row", 2), "ssdSet": ("set_row", 1), "dsdSet": ("set_row", 2)}[kind]
        more = count - sum(row[0] == number for row in self.tables[table])
        for one in range(more):
            self.tables[table].append((number, f"more {one}") if kind == "role" else (number, f"more {one}", 2))

    def retag(self):
        """Changes the row of the version, or adds another one."""
        row = (self.draws.choice(["rbac", "RBAC", "x"]), self.draws.choice([1, 2, 3, 0, -7, "two", 2.0, None]))
        if self.draws.randrange(2) and self.tables["meta_row"]:
            self.tables["meta_row"][0] = row
        else:
            self.tables["meta_row"].append(row)


# How often each change is chosen.
WEIGHTS = {
    "drop": 3,
    "twin": 1,
    "change": 3,
    "spoil": 3,
    "add": 20,
    "cardinality": 3,
    "conflict": 8,
    "hand_over": 4,
    "overflow": 1,
    "retag": 2,
}


def drawn_tables(draws, seed, version):
    """The rows of a random office, some of them changed."""
    lines = Draws(seed)
    lines.replay.state = State(version=version)
    for _ in range(draws.randrange(*LINES)):
        lines.draw()
    changes = Changes(rows(lines.state), draws)
    for _ in range(1 + draws.randrange(CHANGES)):
        if any(changes.tables.values()):
            getattr(changes, draws.choices(list(WEIGHTS), list(WEIGHTS.values()))[0])()
    if draws.randrange(3):
        changes.close()
    return changes.tables


def loosened(draws, tables):
    """Statements that make tables without types, keys and checks; now and then one lacks a column, or is missing."""
    statements, kept = [], {}
    for table, some in tables.items():
        columns = list(opening.COLUMNS[table])
        draws.shuffle(columns)
        if draws.randrange(6) == 0:
            columns.insert(draws.randrange(len(columns) + 1), "further")
        name, lacks = table, draws.randrange(200)
        if draws.randrange(6) == 0:
            name, columns = name.upper(), [column.upper() for column in columns]
        if lacks == 0:
            continue
        if lacks == 1:
            columns[draws.randrange(len(columns))] = "other"
            some = []
        statements.append(loose(name, columns))
        kept[table] = draws.sample(some, len(some))
    return statements, kept


def word_of(answer):
    """How an answer is counted: its code, with its check if it has one."""
    return "good" if answer is None else answer.decode()


def replayed_on(bench, what, path, state, seed):
    """Counts whether lines are answered over a good office in its own tables as by the model, and what is left.

    A row may have turned an office of version 2 into one of version 1: its table of locks is then foreign, and stays as it is.
    """
    before, lines = read_rows(path), Draws(seed)
    lines.replay.state = state
    given = b"".join(lines.draw()[1] + b"\n" for _ in range(REPLAYED))
    run = Replay()
    run.state = state
    bench.ends(["replay", path], b"".join(run.answers(given)), given=given, what=f"replay: {what}")
    same_rows(bench, f"the rows after a replay: {what}", read_rows(path), {**before, **rows(run.state)})


def try_file(bench, statements, seed):
    """One file: the tables of an office, or loose ones, with random rows. Returns what the model answers."""
    draws = random.Random(seed)
    version = draws.choice([1, 2, 2])
    tables, path = drawn_tables(draws, seed, version), bench.path("office")
    is_loose = draws.randrange(2) == 0
    if is_loose:
        made, tables = loosened(draws, tables)
    else:
        made = [statements[table] for table in tables]
    write(path, made, tables)
    found, what = read(path), f"file {seed}"
    state, answer = judged(opening.open_state, found)
    if answer is None:
        expect_good(bench, what, path, state)
        if not is_loose:
            replayed_on(bench, what, path, state, seed)
            found = read(path)
    else:
        expect_refused(bench, f"{what}, {answer.decode()}", path, answer)
    expect_migrated(bench, what, path, found)
    os.remove(path)
    return f"{'loose' if is_loose else 'own'} tables: {word_of(answer)}"


@pytest.mark.slow
@pytest.mark.parametrize("first", cases(range(10_000, 10_375, EACH), range(10_000 + FILES, 10_000 + MORE_FILES, EACH), [10_375]))
def check_files(bench, first):
    """Files from this seed on are opened and answered as the model does."""
    statements = statements_of(Office(bench, "new").path)
    os.remove(bench.path("new"))
    counts = Counter(try_file(bench, statements, seed) for seed in range(first, first + EACH))
    return {**counts, "files with random rows": EACH}
