"""All functions by each client, over `rbac serve` and over the front with a token, beside the page and the plain model."""

import json
import os
import shutil
from pathlib import Path

from front.identities import secured
from machine import state
from machine.commands import COMMANDS
from machine.drawing import TAKING, Draws
import pytest

from pages import markdown
from pages.api import all_pairs
from pages.openapi import operations
from program.offices import Office
from program.web import HOST, Server

from .client import PAGE, PATIENT
from .driving import BUILT, FRONT, KEYS, NAMES, Driven

# A seed by which every refusal comes soon, and how many commands are drawn before the refusals that are missing are aimed at.
SEED, MOST, AT_RANDOM = 1, 3_000, 200

# The file of the requests that were drawn.
DRAWN = "requests.json"

# The refusals that need an office at its limits, or of version 1. Two limits are reached below.
OUT_OF_REACH = {32, 51}

# The caller and its token, in the files that front/identities.py makes.
ADMIN, TOKEN = "token:admin", "another"
RIGHTS = {ADMIN: [(function, "office") for function in KEYS]}


def refusals():
    """Each refusal of each function that requests can meet in a small office."""
    listed = {name: one["responses"].get("409", {}).get("x-codes", []) for name, one in operations().items()}
    return {(name, code) for name, codes in listed.items() for code in codes if code not in OUT_OF_REACH}


def draw():
    """Requests of all functions that meet all of these refusals, each with its answer by the model."""
    draws, missing, asked = Draws(SEED), refusals(), []
    while missing and draws.drawn < MOST:
        draws.drawn += 1
        is_aimed = draws.drawn > AT_RANDOM and draws.chance(2)
        function = draws.one({name for name, _ in missing}) if is_aimed else draws.draw_function()
        values = {key: json.loads(value) for key, value in draws.draw_values(function).items()}
        for arguments in varied(draws, function, values, is_aimed, len(asked)):
            answer = draws.replay.answer(json.dumps({"fn": function, **arguments}).encode()).decode()
            asked.append((function, arguments, answer))
            missing.discard((function, json.loads(answer).get("code")))
    return asked, missing


def varied(draws, function, values, is_aimed, number):
    """A request, if it is aimed also with an unknown name at each key, and sometimes twice."""
    unknown = {"roles": ["none"], "csv": "user,role\nnone,none\n", "cardinality": 1}
    if is_aimed:
        yield from ({**values, key: unknown.get(key, f"none {number}")} for key in values)
    if not is_aimed or not function.startswith(TAKING) or draws.chance(4):
        yield values
    if function in COMMANDS and draws.chance(4):
        yield values


def prepare():
    """Draws the requests once for all clients."""
    asked, missing = draw()
    if missing:
        raise ValueError(f"the requests meet no {sorted(missing)}")
    (Path(os.environ[BUILT]) / DRAWN).write_text(json.dumps(asked), encoding="utf-8")


def drawn():
    """The requests that were drawn."""
    return json.loads((Path(os.environ[BUILT]) / DRAWN).read_text(encoding="utf-8"))


def limits():
    """Requests that reach the limits of a session and of a set."""
    count = max(state.MOST["activeRole"], state.MOST["member"]) + 1
    roles = [f"role {number}" for number in range(count)]
    yield "addUser", {"user": "many"}
    for role in roles:
        yield "addRole", {"role": role}
        yield "assignUser", {"user": "many", "role": role}
    yield "createSession", {"user": "many", "roles": roles, "session": "many"}
    yield "createSession", {"user": "many", "roles": roles[1:], "session": "many"}
    yield "addActiveRole", {"user": "many", "session": "many", "role": roles[0]}
    yield "createSsdSet", {"set": "many", "roles": roles, "cardinality": count}


def asks(bench, driver, model):
    """Each request gets the answer of the model, by the method of its function."""
    used = set()
    for function, arguments, answer in drawn():
        bench.same(f"{function} {arguments}", driver.answer(function, **arguments), answer)
        model.answer(json.dumps({"fn": function, **arguments}).encode())
        used.add(function)
    bench.same("functions that weren't used", set(KEYS) - used, set())
    for function, arguments in limits():
        answer = model.answer(json.dumps({"fn": function, **arguments}).encode()).decode()
        bench.same(f"{function} {arguments}", driver.answer(function, **arguments), answer)


@pytest.mark.parametrize("name", NAMES)
def check_over_serve(bench, name):
    """By `rbac serve`. At the end the office is that of the model."""
    office = Office(bench)
    with Server(bench, office.path, 100_000) as server, Driven(bench, name, timeout=PATIENT) as driver:
        driver.open(f"http://{HOST}:{server.port}")
        asks(bench, driver, office.model)
    bench.run(["check", office.path])
    office.compare_with_model()


@pytest.mark.needs(*FRONT)
@pytest.mark.parametrize("name", NAMES)
def check_over_the_front(bench, name):
    """By the front, with a token. At the end the office is that of the model."""
    office = Office(bench)
    with secured(bench, rights=RIGHTS) as front, Driven(bench, name, timeout=PATIENT) as driver:
        driver.open(f"http://{HOST}:{front.port}", token=TOKEN)
        asks(bench, driver, office.model)
        bench.same("the status of the front", front.end(), 0)
    bench.same("what `check` prints", bench.run(["check", office.path]).out, b"good\n")


def repetitions():
    """Returns what refuses each command the second time, according to the page: its code and name, or nothing."""
    (table,) = markdown.tables(markdown.section(PAGE, "## 3. After a timeout"))
    cells = [cell for row in table for cell in (row[:2], row[2:])]
    return {function: refused for functions, refused in cells for function in functions.split(", ")}


def repeated(bench, driver, request, first, refused):
    """Counts whether a command that was accepted is answered a second time as the page says."""
    function, arguments = request.pop("fn"), request
    again = driver.answer(function, **arguments)
    if function == "importAssignments":
        report = json.loads(first)["value"]
        counts = {**report, "already": report["already"] + report["assigned"], "assigned": 0}
        bench.same(f"{function} {request} again", json.loads(again)["value"], counts)
    elif refused == "nothing":
        bench.same(f"{function} {request} again", again, first)
    else:
        code, name = refused.split()
        bench.same(f"{function} {request} again", again, f'{{"code":{code},"error":"{name}"}}')
    if function in ("addAscendant", "addDescendant"):
        edge = driver.answer("addInheritance", asc=request["asc"], desc=request["desc"])
        bench.same(f"the inheritance of {function} {request}", edge, '{"code":14,"error":"EdgeExists"}')


@pytest.mark.parametrize("name", ["python"])
def check_page_repeated(bench, name):
    """Each request of docs/reference/api.md is answered as the page says, even if each command before it was sent twice."""
    refused, done = repetitions(), set()
    bench.same("the commands of the table", sorted(refused), sorted(COMMANDS))
    office = Office(bench)
    with Server(bench, office.path, 1_000) as server, Driven(bench, name, timeout=PATIENT) as driver:
        driver.open(f"http://{HOST}:{server.port}")
        for line, answer in all_pairs():
            request = json.loads(line)
            function = request["fn"]
            arguments = {key: value for key, value in request.items() if key in KEYS.get(function, ())}
            if list(arguments) != [key for key in KEYS.get(function, ["none"])] or not isinstance(
                arguments.get("user", ""), str
            ):
                continue  # No method sends it.
            first = driver.answer(function, **arguments)
            bench.same(f"the answer to {line}", first, answer)
            if function in COMMANDS and first.startswith('{"ok":true'):
                repeated(bench, driver, {"fn": function, **arguments}, first, refused[function])
                done.add(function)
    bench.same("commands that were not repeated", set(COMMANDS) - done, set())
