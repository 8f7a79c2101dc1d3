"""An office in a file is read by SQLite, after the program has checked it."""

import os
import shutil
import sqlite3
import tempfile
from contextlib import closing
from pathlib import Path
from urllib.parse import quote

from .model import DutySet, State, Stop
from .program import run


def read_office(path: str, name: str | None = None) -> State:
    """What is in an office that no program has open. The program checks it first, and merges its log. `name` is what its user calls it."""
    name = name or path
    if not os.path.exists(path):
        raise Stop(f"{name}: there is no such file")
    status, said = run(["check", path])
    if status:
        more = "; rbac-why says what is wrong, such as that another program has it open" if '"code":41,' in said else ""
        raise Stop(f"{name}: the program refuses this office: {said.removeprefix('rbac: ')}{more}")
    with closing(sqlite3.connect(f"file:{quote(os.path.abspath(path))}?mode=ro&immutable=1", uri=True)) as rows:
        return _state(rows, name)


def read_copy(path: str) -> State:
    """What is in a copy of an office, which may have a log beside it. Neither is changed."""
    with tempfile.TemporaryDirectory() as folder:
        try:
            for name in (path, f"{path}-wal"):
                if name == path or os.path.exists(name):
                    shutil.copyfile(name, Path(folder) / f"office{name[len(path):]}")
        except OSError as error:
            raise Stop(f"{path}: {error.strerror}") from None
        return read_office(str(Path(folder) / "office"), path)


def _state(rows: sqlite3.Connection, path: str) -> State:
    (version,) = rows.execute("SELECT version FROM meta_row WHERE tag = 'rbac'").fetchone()
    if version != 2:
        raise Stop(f"{path}: the office has version {version}: migrate it first (rbac migrate)")
    names: dict[int, list[str]] = {1: [], 2: [], 3: []}
    for kind, name in rows.execute("SELECT kind, a FROM name_row"):
        names[kind].append(name)
    pairs: dict[int, list[tuple[str, str]]] = {kind: [] for kind in range(1, 9)}
    for kind, first, second in rows.execute("SELECT kind, a, b FROM pair_row"):
        pairs[kind].append((first, second))
    locked = {name for (name,) in rows.execute("SELECT a FROM locked_row")}
    cardinalities = {(kind, name): n for kind, name, n in rows.execute("SELECT kind, name, n FROM set_row")}
    members: dict[tuple[int, str], set[str]] = {key: set() for key in cardinalities}
    for kind, of in ((1, 5), (2, 6)):
        for name, role in pairs[of]:
            members[kind, name].add(role)
    sets: dict[int, dict[str, DutySet]] = {1: {}, 2: {}}
    for (kind, name), cardinality in cardinalities.items():
        sets[kind][name] = DutySet(frozenset(members[kind, name]), cardinality)
    active: dict[str, set[str]] = {}
    for session, role in pairs[8]:
        active.setdefault(session, set()).add(role)
    return State(
        users={user: user in locked for user in names[1]},
        roles=set(names[2]),
        objects=set(names[3]),
        permissions=set(pairs[1]),
        grants=set(rows.execute("SELECT ob, op, role FROM grant_row")),
        edges=set(pairs[3]),
        assignments=set(pairs[2]),
        static=sets[1],
        dynamic=sets[2],
        sessions={session: (user, frozenset(active.get(session, ()))) for session, user in pairs[7]},
    )
