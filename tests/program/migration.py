"""Offices of version 1, and how they become offices of version 2."""

from machine.drawing import Draws
from machine.texts import rows

from .offices import STORE, Office, changed, read_rows, same_rows, small_office, version_refused

# Tables of other programs: one that counts its rows, one with a foreign key, an index and a view.
OTHERS = [
    "CREATE TABLE firm (id INTEGER PRIMARY KEY AUTOINCREMENT, name TEXT NOT NULL UNIQUE)",
    "CREATE TABLE desk (id INTEGER PRIMARY KEY, firm INTEGER REFERENCES firm (id) ON DELETE CASCADE, a TEXT)",
    "CREATE INDEX desk_of ON desk (firm)",
    "CREATE VIEW person AS SELECT a FROM desk",
    "INSERT INTO firm (name) VALUES ('one'), ('two')",
    "INSERT INTO desk (firm, a) VALUES (1, 'ann'), (2, 'bob')",
]
LOCK = b'{"fn":"lockUserAccount","user":"ann"}\n'


def check_migration(bench):
    """In version 1 no user is locked; `migrate` prints nothing, keeps all that there is, and is done once."""
    office = small_office(bench)
    office.become_version_1()
    office.compare_with_model()
    bench.ends(["replay", office.path], version_refused(1) + b"\n", given=LOCK, keeps=True)
    bench.ends(["migrate", office.path])
    office.model.state = office.model.state.but(version=2)
    office.compare_with_model()
    office.replay([b'{"fn":"sessionRoles","session":"s1"}\n', LOCK, b'{"fn":"sessionRoles","session":"s1"}\n'])
    office.compare_with_model()
    bench.refuses(["migrate", office.path], version_refused(2))
    office.compare_with_model()


def check_new_office(bench):
    """A new office is of version 2 already."""
    bench.refuses(["migrate", Office(bench).path], version_refused(2))


def check_empty_version_1(bench):
    """An empty office of version 1 is migrated as well."""
    office = Office(bench)
    office.become_version_1()
    office.compare_with_model()
    bench.refuses(["init", office.path], STORE)
    bench.ends(["migrate", office.path])
    office.model.state = office.model.state.but(version=2)
    office.compare_with_model()


def check_table_in_the_way(bench):
    """A table `locked_row` in a file of version 1 is ignored, but the file is not migrated."""
    office = small_office(bench)
    office.become_version_1()
    for columns in ("(a TEXT)", "(other)"):
        statements = [f"CREATE TABLE locked_row {columns}", "INSERT INTO locked_row VALUES ('ann')"]
        with changed(office, statements) as path:
            bench.ends(["check", path], b"good\n", keeps=True)
            bench.refuses(["migrate", path], STORE)
            rows = read_rows(path)
            bench.same("the table in the way", rows.pop("locked_row"), [("ann",)])
            bench.same("the other tables", rows, read_rows(office.path))


def check_beside_others(bench):
    """`migrate` in a database that has tables of other programs changes only the office, in either journal mode."""
    office = small_office(bench)
    office.become_version_1()
    wanted = rows(office.model.state.but(version=2))
    for mode in ("DELETE", "WAL"):
        with changed(office, [f"PRAGMA journal_mode = {mode}", *OTHERS]) as path:
            others = {table: found for table, found in read_rows(path).items() if table not in wanted}
            bench.ends(["migrate", path])
            bench.ends(["check", path], b"good\n")
            same_rows(bench, f"the rows after a migration in {mode}", read_rows(path), {**wanted, **others})


def check_drawn_lives(bench):
    """Random lines over an office of version 1 are answered as by the model, before and after it is migrated."""
    for seed in (2_001, 2_002, 2_003):
        draws = Draws(seed)
        office = Office(bench, f"drawn-{seed}")
        office.become_version_1()
        for _ in range(2):
            office.replay([draws.draw()[1] + b"\n" for _ in range(110)])
            office.compare_with_model()
        bench.ends(["migrate", office.path])
        office.model.state = office.model.state.but(version=2)
        for _ in range(2):
            office.replay([draws.draw()[1] + b"\n" for _ in range(60)])
            office.compare_with_model()
