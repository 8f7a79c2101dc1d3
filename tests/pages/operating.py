"""The page of operating: its commands print what it shows, and its tables and statements meet each damage of an office."""

import os
import re
import subprocess
from contextlib import contextmanager

import pytest

from program import damaged
from program.offices import change, changed, small_office
from program.web import Server
from tools.running import lines_of_damage, numbers_shown

from . import command_line, markdown, sources
from .shell import Shell, runs

PAGE, INSTALLING = markdown.page("howto/operate.md"), markdown.page("howto/install.md")
CHECKS = markdown.section(PAGE, "## 5. What `check` reports")

# Each damage of the small office with the statements that make it.
DAMAGES = {**damaged.DAMAGES, **damaged.LOCKS}

# The refusals that opening a file can meet.
OPENING = [40, 41, 50, 51, 32, 52]

# The most lines and bytes that the page may have.
MOST_LINES, MOST_BYTES = 400, 20_000

# The commands are for files on a disk.
ON_DISK = True


def failing_check(bench, path):
    """Returns the number of the check that fails for a damaged office, or None."""
    found = re.search(rb'"check":(\d+),"code":52', bench.run(["check", path]).err)
    return int(found[1]) if found else None


def statements(text):
    """The statements that a text has between double quotes after `sqlite3`, or in blocks of SQL."""
    quoted = re.findall(r'^\$ sqlite3 \S+ "([A-Z][^"]*)"$', text, re.M)
    blocks = ["\n".join(block) for block in markdown.blocks(text, "sql")] if "```sql" in text else []
    return [one for text in [*quoted, *blocks] for one in text.split(";") if one.strip()]


def repairs():
    """The statements that end all sessions, and those that rebuild the pairs of the order."""
    return statements(markdown.section(PAGE, "## 4. Restoring")), statements(CHECKS)


def commands_for(language, part=PAGE + INSTALLING):
    """The blocks of a language, each as one text."""
    return ["\n".join(block) for block in markdown.blocks(part, language)]


def block_with(words):
    """The one block of commands without answers that has some words."""
    (block,) = [block for block in commands_for("sh") if words in block]
    return block


def check_newest_backup(bench):
    """The commands that restore take the newest backup, whatever else is in its folder."""
    name, find = block_with("rbac-node restore").splitlines()[:2]
    names = ["20260102-030405-000006", "20260102-030405-000007", "19990101-000000-000000"]
    others = ["20260102-030405-000007.old", "21", "2x y\nz", "30000101-000000-000000", ".making-a", "20270101-000000-00000", "latest"]
    for one in names + others:
        (bench.folder / "office" / one).mkdir(parents=True)
    script = "\n".join([name, find.replace("/var/backups/rbac/", ""), 'printf %s "$BACKUP"'])
    for shell in ("sh", "bash"):
        done = subprocess.run([shell, "-c", script], cwd=bench.folder, capture_output=True, text=True, check=False)
        bench.same(f"the newest, by {shell}", (done.stdout, done.stderr), (f"office/{names[1]}", ""))


@contextmanager
def reader_of(bench):
    """A shell beside the folder deploy/, whose scripts use the program of the shell."""
    (bench.folder / "deploy").symlink_to(sources.ROOT / "deploy")
    with Shell(bench) as reader:
        reader.type("unset RBAC_PROGRAM")
        yield reader


def check_length(bench):
    """The page is short."""
    bench.same("the page is short", (len(PAGE.splitlines()) <= MOST_LINES, len(PAGE.encode()) <= MOST_BYTES), (True, True))


@pytest.mark.needs("fuser")
def check_commands(bench):
    """The commands of the pages, from their top to its end, print what is shown below them."""
    office = small_office(bench, "office1")
    office.become_version_1()
    with reader_of(bench) as reader:
        for block in markdown.blocks(PAGE + INSTALLING, "console"):
            for command, shown in runs(block):
                reader.shows(command, shown)
            reader.waits()


def check_blocks(bench):
    """Each block of the pages is of a language that is run or compared, here or by tests/installed."""
    text = PAGE + INSTALLING
    bench.same("the languages", set(re.findall(r"^```(\w+)$", text, re.M)), {"console", "sh", "sql"})
    bench.same("blocks without a language", text.count("```"), 2 * len(re.findall(r"^```\w+$", text, re.M)))
    here = ["rsync "]
    # By tests/installed.
    elsewhere = ["apt install ./rbac_*_amd64.deb ./rbac-node_*_amd64.deb\nsystemctl enable", "v1/addUser", "rbac-node restore"]
    elsewhere += ["systemctl start rbac-backup@", "systemctl disable --now rbac\n", "install -m 640", "bank.token", "deploy/nginx/common.conf"]
    bench.same("blocks that are not run", len(commands_for("sh")), len({block_with(words) for words in here + elsewhere}))


def check_one_writer(bench):
    """Beside a server SQLite reports that the database is locked, and the program that it can't be used."""
    path = small_office(bench).path
    with Server(bench, path, 1):
        done = subprocess.run(["sqlite3", path, ".backup other"], capture_output=True, cwd=bench.folder, check=False)
        bench.same("what SQLite prints", (done.returncode != 0, b"locked" in done.stderr), (True, True))
        bench.refuses(["check", path], b'{"code":41,"error":"Store"}')


def check_limits(bench):
    """The table of the limits of a run has the numbers of the sources."""
    table, _ = markdown.tables(markdown.section(PAGE, "## 7. Sizes and limits"))
    limits = {what: limit for what, limit in table}
    _, most = command_line.ranges()["limit"]
    bench.same("the most connections", limits["connections of one run of `serve`"], f"{most:,}")
    waits = limits["seconds that one read or write of a connection waits"]
    bench.same("the longest wait", waits, str(sources.patience()))
    bench.same("the most reads", limits["reads of one run of `replay`"], f"{sources.most_reads():,}")


def check_lines(bench):
    """The first table has each refusal that an opening can meet, the second each check, in order."""
    lines, checks = markdown.tables(CHECKS)
    names = {code: name for code, (name, _) in sources.refusals().items()}
    listed = [re.search(r'"code":(\d+),"error":"(\w+)"', row[0]).groups() for row in lines]
    bench.same("the refusals of an opening", listed, [(str(code), names[code]) for code in OPENING])
    bench.same("the checks", [int(row[0]) for row in checks], sources.checks())
    for row in [*lines, *checks]:
        bench.same(f"a description of {row[0]}", all(row), True)


def check_damages(bench):
    """The queries show nothing of a good office, and of each damage a row with the check that fails."""
    bench.same("the page names them", "`sqlite3 copy < tools/damage.sql`" in markdown.in_one_line(PAGE), True)
    office = small_office(bench)
    bench.same("what is shown of a good office", lines_of_damage(office.path), ([], ""))
    for name, (check, damage) in DAMAGES.items():
        with changed(office, damage) as path:
            shown, faults = numbers_shown(path)
            bench.same(f"{name}: check {check} is shown", (str(check) in shown, faults), (True, ""))
    bench.same("damages of each check are tried", {check for check, _ in DAMAGES.values()}, set(sources.checks()))
    office.become_version_1()
    bench.same("what is shown of version 1", lines_of_damage(office.path), ([], ""))


def check_repairs(bench):
    """If the table says to end the sessions, or to rebuild the pairs, neither that check nor an earlier one fails then."""
    office = small_office(bench)
    ending, making = repairs()
    _, checks = markdown.tables(CHECKS)
    cures = {int(row[0]): row[2] for row in checks}
    for name, (check, damage) in DAMAGES.items():
        cure = ending if cures[check].startswith("End the sessions") else making if check == 6 else None
        with changed(office, damage) as path:
            bench.same(f"{name}: the check that fails", failing_check(bench, path), check)
            if cure:
                change(path, cure)
                after = failing_check(bench, path)
                bench.same(f"{name}: no check up to {check} fails any more", after is None or after > check, True)
    cured = [check for check, text in cures.items() if text.startswith("End the sessions")]
    bench.same("the checks that the ends of sessions cure", cured, [4, 8, 10, 11])


def check_pairs_made(bench):
    """The pairs of the order, if they are rebuilt from the inheritances, are those that the program made."""
    office = small_office(bench)
    lines = ["addAscendant top boss", "addDescendant clerk aide", "addInheritance top aide"]
    requests = [dict(zip(("fn", "asc", "desc"), line.split())) for line in lines]
    office.replay([str(request).replace("'", '"').encode() + b"\n" for request in requests])
    change(office.path, repairs()[1])
    office.compare_with_model()


def check_version_1(bench):
    """The pages agree on where offices of version 1 come from: the program makes none."""
    for path, words in (
        ("CHANGELOG.md", "Only programs before it, which were never released, made offices of version 1."),
        ("docs/reference/api.md", "unless a program before 1.0.0 made it"),
        ("docs/explanation/model.md", "only programs before 1.0.0 made offices of version 1"),
        ("docs/howto/install.md", "Only programs before 1.0.0 made offices of version 1"),
    ):
        text = (sources.ROOT / path).read_text(encoding="utf-8")
        bench.same(f"{path} states: {words}", words in markdown.in_one_line(text), True)


def check_groups(bench):
    """The table of groups names functions of the sources, and states how many the others are."""
    (table,) = markdown.tables(markdown.section(PAGE, "## 8. A proxy before the program alone"))
    said, questions, all_of_them = dict(table), sources.question_keys(), sources.functions().values()
    named = re.findall(r"`(\w+)`", said["applications"])
    bench.same("functions that do not exist", sorted(set(named) - set(all_of_them)), [])
    reviews = f"the {len(questions) - 1} review functions"
    bench.same("the others", (said["auditors"], said["administrators"]), (reviews, f"all {len(all_of_them)}"))


@pytest.mark.needs("rsync", "restic")
def check_copies(bench):
    """rsync and restic copy a backup so that its digest matches."""
    small_office(bench)
    lines = block_with("rsync ").splitlines()
    (bench.folder / "backups").mkdir()
    with reader_of(bench) as reader:
        reader.type("deploy/backup office backups; mkdir backups/.making-x")
        reader.type("export RESTIC_PASSWORD=secret; restic -q -r store init")
        for line in lines:
            reader.shows(line, "")
            if line.startswith("restic"):
                reader.type("restic -q -r store restore latest --target restored; mv restored/backups mirror2")
            place = "mirror2" if line.startswith("restic") else "mirror"
            reader.shows(f"cd {place}/2*/ && sha256sum -c SHA256SUMS; ls -A ..; cd ../..", f"office: OK\n{backup_names(bench)}\n")


def backup_names(bench):
    """The names of the backups of a bench that were made."""
    return "\n".join(name for name in sorted(os.listdir(bench.path("backups"))) if not name.startswith("."))
