"""The program is killed: what it acknowledged is in the office afterwards."""

import os
import shutil
import sqlite3
import subprocess
from contextlib import closing

from machine.drawing import draw_script
from machine.replaying import Replay
from machine.state import State
from machine.texts import rows

from .bench import PROGRAM, SECONDS
from .offices import NO_OFFICE, STORE, Office, rows_of, same_rows, compare_with_state
from .web import Server, post, reply

# How often `init` is killed, and how many milliseconds later each time.
INITS = 25


def drawn_lines(seed, count):
    """Random lines that have answers."""
    return [line + b"\n" for _, line, answer in draw_script(seed, count) if answer]


def rows_beside_log(bench, path):
    """The rows that SQLite reads from a copy of the file and its log, as they were left."""
    copy = bench.path("left")
    for ending in ("", "-wal"):
        if os.path.exists(path + ending):
            shutil.copyfile(path + ending, copy + ending)
    with closing(sqlite3.connect(copy, isolation_level=None)) as base:
        found = rows_of(base)
    for name in os.listdir(bench.folder):
        if name.startswith("left"):
            os.remove(bench.path(name))
    return found


def is_left_with(bench, path, state):
    """After a kill, the file and its log have this state, and the next run leaves the one file."""
    same_rows(bench, "the rows after the kill", rows_beside_log(bench, path), rows(state))
    done = bench.run(["check", path])
    bench.same("check after the kill", (done.out, done.err, done.status), (b"good\n", b"", 0))
    bench.same("which files are left", os.listdir(bench.folder), [os.path.basename(path)])
    compare_with_state(bench, path, state)


def start_replay(path, given):
    """Starts a replay over the office, whose answers can be read."""
    return subprocess.Popen(
        [PROGRAM, "replay", path], stdin=given, stdout=subprocess.PIPE, stderr=subprocess.DEVNULL
    )


def check_killed_between_lines(bench):
    """A replay is killed when it has answered this many lines: the office is the one after these."""
    for count in (0, 1, 7, 150):
        office = Office(bench, "office")
        with start_replay(office.path, subprocess.PIPE) as process:
            for line in drawn_lines(3_000 + count, 170)[:count]:
                process.stdin.write(line)
                process.stdin.flush()
                wanted = office.model.answer(line[:-1]) + b"\n"
                bench.same("an answer before the kill", process.stdout.readline(), wanted)
            process.kill()
            process.wait(SECONDS)
        is_left_with(bench, office.path, office.model.state)
        os.remove(office.path)


def check_killed_at_work(bench):
    """A replay is killed amid its work: the office is the one after the lines that it answered, or one more."""
    for seed, count in [(3_501, 1), (3_502, 30), (3_503, 90), (3_504, 200)]:
        lines = drawn_lines(seed, 500)
        office = Office(bench, "office")
        answers = killed_after(bench, office.path, lines, count)
        model = Replay()
        wanted = [model.answer(line[:-1]) + b"\n" for line in lines[: len(answers)]]
        bench.same("the answers before the kill", answers, wanted)
        state = model.state
        if len(answers) < len(lines) and rows_beside_log(bench, office.path) != rows(state):
            model.answer(lines[len(answers)][:-1])
        is_left_with(bench, office.path, model.state)
        os.remove(office.path)


def killed_after(bench, path, lines, count):
    """The whole answers of a replay that is killed when this many were read."""
    script = bench.write("script", b"".join(lines))
    with open(script, "rb") as given, start_replay(path, given) as process:
        answers = [process.stdout.readline() for _ in range(count)]
        process.kill()
        answers += process.stdout.readlines()
        process.wait(SECONDS)
    os.remove(script)
    return [answer for answer in answers if answer.endswith(b"\n")]


def check_killed_server(bench):
    """A server is killed: what it answered is in the office."""
    office = Office(bench)
    with Server(bench, office.path, 10) as server:
        for user in ("ann", "bob", "eve"):
            body = b'{"user":"%s"}' % user.encode()
            bench.same(f"add {user}", server.ask(post("addUser", body)), reply(200, b'{"ok":true}'))
            office.model.answer(b'{"fn":"addUser",' + body[1:])
        server.process.kill()
        server.process.wait(SECONDS)
    is_left_with(bench, office.path, office.model.state)


def check_killed_after_another(bench):
    """A run that was refused, since a server has the file, removes nothing of what that server writes then."""
    office = Office(bench)
    with Server(bench, office.path, 10) as server:
        for word in ("check", "init", "replay"):
            done = bench.run([word, office.path])
            wanted = (b"", b"rbac: " + STORE + b"\n", 1)
            bench.same(f"{word} beside a server", (done.out, done.err, done.status), wanted)
        answer = server.ask(post("addUser", b'{"user":"ann"}'))
        bench.same("a request after them", answer, reply(200, b'{"ok":true}'))
        server.process.kill()
        server.process.wait(SECONDS)
    office.model.answer(b'{"fn":"addUser","user":"ann"}')
    is_left_with(bench, office.path, office.model.state)


def check_killed_import(bench):
    """An import that is killed has been made as a whole, or not at all."""
    office = Office(bench)
    names = [b'{"fn":"addUser","user":"u%d"}\n' % number for number in range(40)]
    names += [b'{"fn":"addRole","role":"r%d"}\n' % number for number in range(40)]
    office.replay(names)
    pairs = [(f"u{one}", f"r{two}") for one in range(40) for two in range(40)]
    records = bench.write("records.csv", b"user,role\n" + b"".join(f"{u},{r}\n".encode() for u, r in pairs))
    before = office.model.state
    after = before.but(assignments=before.assignments | set(pairs))
    content = open(office.path, "rb").read()
    for milliseconds in range(0, 60, 4):
        bench.write("office", content)
        kill_after(["import", office.path, records], milliseconds)
        found = rows_beside_log(bench, office.path)
        bench.same(f"the rows after {milliseconds} ms", found in (rows(before), rows(after)), True)
        done = bench.run(["check", office.path])
        bench.same(f"check after {milliseconds} ms", (done.out, done.err, done.status), (b"good\n", b"", 0))
        bench.same("which files are left", sorted(os.listdir(bench.folder)), ["office", "records.csv"])


def kill_after(words, milliseconds):
    """Runs the program, and kills it after some time."""
    with subprocess.Popen([PROGRAM, *words], stdout=subprocess.DEVNULL, stderr=subprocess.DEVNULL) as process:
        try:
            process.wait(milliseconds / 1_000)
        except subprocess.TimeoutExpired:
            process.kill()


def check_killed_init(bench):
    """An `init` that is killed leaves no file, one in which an office can be made, or an office."""
    for number in range(INITS):
        path = bench.path("office")
        kill_after(["init", path], number / 2)
        done = bench.run(["check", path])
        outcome = (done.out, done.err, done.status)
        lines = [b"rbac: " + line + b"\n" for line in (STORE, NO_OFFICE)]
        kinds = [(b"good\n", b"", 0), *((b"", line, 1) for line in lines)]
        bench.same(f"check after {number / 2} ms: {outcome}", outcome in kinds, True)
        if outcome[2]:
            done = bench.run(["init", path])
            bench.same(f"init after {number / 2} ms", (done.out, done.err, done.status), (b"", b"", 0))
        compare_with_state(bench, path, State())
        bench.same("which files are left", os.listdir(bench.folder), ["office"])
        os.remove(path)
