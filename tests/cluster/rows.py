"""The rows of the offices that a cluster leaves, in the form of the model's."""

import hashlib
import sqlite3
from pathlib import Path

from machine.texts import rows

from .networks import MACHINES


def rows_of(path):
    """Returns the rows of the office in a file, in the form of the model."""
    with sqlite3.connect(f"file:{path}?mode=ro&immutable=1", uri=True) as database:
        return {table: sorted(database.execute(f"SELECT * FROM {table}")) for table in TABLES}


def digest_of(path):
    """The digest of the rows of an office, as a node makes it."""
    digest = hashlib.sha256()
    for table, found in rows_of(path).items():
        for row in found:
            digest.update("\t".join([table, *map(str, row)]).encode() + b"\n")
    return digest.hexdigest()


TABLES = ["meta_row", "name_row", "pair_row", "grant_row", "set_row", "locked_row"]


def sorted_rows(state):
    return {table: sorted(found) for table, found in rows(state).items()}


# How the names of files end that SQLite has beside one that is read.
OF_SQLITE = ("-wal", "-shm", "-journal")


def snapshots_of(cluster, i):
    """The snapshots of a node by their revisions: what their names contain, and their files."""
    found = {}
    for path in Path(cluster.data(f"node{i}")).glob("snapshots/[0-9]*"):
        revision, commands, digest, *more = path.name.removesuffix("-copied").split("-")
        if path.name.endswith(OF_SQLITE):
            continue
        about = {"revision": int(revision), "commands": int(commands), "digest": digest}
        about.update({"record": one.removeprefix("record") for one in more if one.startswith("record")})
        found[int(revision)] = (about, path)
    return found


def offices(cluster):
    """The file of each node that has ended in order."""
    return [cluster.data(f"node{i}/office/office") for i in range(MACHINES)]
