"""Long replays, and servers of many requests: the memory doesn't grow with them."""

import json

import pytest

from machine.replaying import Replay
from machine.state import MOST
from program.bench import Done
from program.offices import Office, change
from program.web import Server, post, reply

from .measured import LARGE, SMALL, Meter, is_within, kilobytes_of, size_of

# How often a round of lines is replayed, first and then, and with `--long`; how many requests are sent.
ROUNDS, MORE_ROUNDS = (500, 6_000), (500, 100_000)
REQUESTS, MORE_REQUESTS = 3_000, 100_000

# How many kilobytes more than a short run a long one may use.
GROWTH = 4_096

# The most megabytes of the file after many changes of a small office.
MOST_FILE = 1

OFFICE = [{"fn": "addUser", "user": "ann"}, {"fn": "addRole", "role": "clerk"}, {"fn": "addRole", "role": "boss"}]

# A round leaves the office as it was.
ROUND = [
    {"fn": "assignUser", "user": "ann", "role": "boss"},
    {"fn": "addInheritance", "asc": "boss", "desc": "clerk"},
    {"fn": "createSession", "user": "ann", "roles": ["clerk"], "session": "s1"},
    {"fn": "sessionRoles", "session": "s1"},
    {"fn": "importAssignments", "csv": "user,role\nann,clerk\nann,boss\n"},
    {"fn": "deleteInheritance", "asc": "boss", "desc": "clerk"},
    {"fn": "deassignUser", "user": "ann", "role": "clerk"},
    {"fn": "deassignUser", "user": "ann", "role": "boss"},
    {"fn": "deleteSession", "user": "ann", "session": "s1"},
    {"fn": "addUser", "user": "ann"},
]


def lines_of(requests):
    """Requests as lines."""
    return b"".join(json.dumps(request).encode() + b"\n" for request in requests)


def replay_rounds(bench, words, model, before, rounds):
    """Replays these lines and many rounds, each of which is answered as by the model, and returns what was measured."""
    answers = b"".join(model.answers(before))
    state, once = model.state, lines_of(ROUND)
    again = b"".join(model.answers(once))
    bench.same("the state after a round", model.state, state)
    found = Meter(bench).run(words, [before] + [once] * rounds)
    bench.same(f"{rounds} rounds", found.done, Done(answers + again * rounds, b"", 0))
    return found


@pytest.mark.parametrize("where", ["file", "memory"])
def check_last(bench, where):
    """Many rounds over one office: the memory doesn't grow with them, nor does the file."""
    office, grown, rounds = Office(bench), [], MORE_ROUNDS if bench.is_long else ROUNDS
    if where == "file":
        office.replay([lines_of(OFFICE)])
    for count in rounds:
        if where == "file":
            found = replay_rounds(bench, ["replay", office.path], office.model, b"", count)
        else:
            found = replay_rounds(bench, ["replay", "--memory"], Replay(), lines_of(OFFICE), count)
        what = f"{count * len(ROUND):,} lines over an office in {where}"
        is_within(bench, f"{what}: {found.text()}", found.kilobytes, SMALL)
        grown.append(found.kilobytes)
    bench.same(f"the growth of {grown} kB in {where}", grown[1] - grown[0] <= GROWTH, True)
    bench.same("the file stays small", size_of(office.path) <= MOST_FILE << 20, True)
    office.compare_with_model()
    return {f"lines over an office in {where}": sum(rounds) * len(ROUND)}


def check_serve_many(bench):
    """A server of many requests: the memory doesn't grow with them."""
    office, count = Office(bench), MORE_REQUESTS if bench.is_long else REQUESTS
    memory = []
    requests = [("addUser", b'{"user":"ann"}', 200), ("deleteUser", b'{"user":"ann"}', 200), ("deleteUser", b"{}", 400)]
    with Server(bench, office.path, count + 1) as server:
        for number in range(count):
            function, body, status = requests[number % len(requests)]
            text = b'{"ok":true}' if status == 200 else b'{"code":34,"error":"BadRequest"}'
            answer = server.ask(post(function, body))
            if answer != reply(status, text):
                bench.same(f"request {number}", answer, reply(status, text))
            if number in (count // 4, count - 1):
                memory.append(kilobytes_of(server.process))
        is_within(bench, f"a server of {count:,} requests", memory[-1], SMALL)
        bench.same(f"the growth of {memory} kB", memory[-1] - memory[0] <= GROWTH, True)
        bench.same("the last request", server.ask(post("ssdRoleSets", b"")), reply(200, b'{"ok":true,"value":[]}'))
        server.ends()
    return {"requests to one server": count}


def check_open_largest(bench):
    """An office with as many users, roles, assignments and grants as are allowed is opened, in bounded memory."""
    office = Office(bench)
    users = [f"user {number}".ljust(64, "u") for number in range(MOST["user"])]
    roles = [f"role {number}".ljust(64, "r") for number in range(MOST["role"])]
    ones = [f"operation {number}".ljust(64, "o") for number in range(MOST["permission"])]
    rows = [f"(1, '{user}')" for user in users] + [f"(2, '{role}')" for role in roles] + ["(3, 'safe')"]
    pairs = [f"(1, 'safe', '{one}')" for one in ones]
    pairs += [f"(2, '{user}', '{roles[number % len(roles)]}')" for number, user in enumerate(users)]
    grants = [f"('safe', '{one}', '{roles[number]}')" for number in range(MOST["grant"] // len(ones)) for one in ones]
    statements = [("name_row", rows), ("pair_row", pairs), ("grant_row", grants)]
    change(office.path, [f"INSERT INTO {table} VALUES {', '.join(some)}" for table, some in statements])
    lines = lines_of([{"fn": "assignedUsers", "role": roles[7]}, {"fn": "addUser", "user": "one more"}])
    found = Meter(bench).run(["replay", office.path], [lines])
    answer = json.loads(found.done.out.splitlines()[0])
    bench.same("the users of a role", answer["value"], sorted(users[7 :: len(roles)]))
    line = b'{"code":32,"error":"TooMany","kind":"user"}'
    bench.same("one more", (found.done.out.splitlines()[1:], found.done.status), ([line], 0))
    is_within(bench, f"an office at its limits: {found.text()}", found.kilobytes, LARGE)
