"""Policies over `rbac serve`, which has no lists: a copy of its office is read, and compared with what it answers."""

import shutil

from program.web import HOST, Server

from .commands import ends, people, policy
from .pairs import rows_of
from .plans import good_office


def check_server(bench):
    """A plan by a fresh copy is done; by a copy that is no longer what the server has nothing is done."""
    good_office(bench)
    shutil.copy(bench.path("office"), bench.path("copy"))
    before = (bench.folder / "copy").read_bytes()
    with Server(bench, bench.path("office"), 10_000) as server:
        at = ["--server", f"http://{HOST}:{server.port}", "--copy", "copy"]
        ends(bench, "no difference", policy(bench, "plan", "good.toml", *at), 0, "No difference.\n")
        ends(bench, "apply", policy(bench, "apply", "changed.toml", *at, "--yes"), 0, "Done: 2 changes.\n")
        bench.same("the copy is as it was", (bench.folder / "copy").read_bytes(), before)
        wanted = "copy: the copy is no longer what the server has: the roles that may"
        for words in (["plan"], ["apply", "--yes"]):
            ends(bench, f"{words[0]} by the old copy", policy(bench, words[0], "good.toml", *at, *words[1:]), 2, err=wanted)
        for name in ("", "-wal"):
            shutil.copy(bench.path(f"office{name}"), bench.path(f"copy{name}"))
        ends(bench, "plan by a new copy with its log", policy(bench, "plan", "changed.toml", *at), 0, "No difference.\n")
        bench.write("people.csv", b"user,roles\nbob,employee\nann,auditor;teller\n")
        done = people(bench, "apply", "people.csv", *at, "--yes")
        ends(
            bench,
            "people",
            done,
            1,
            "Done: 2 changes. Refused: 1.\n",
            "people.csv:3: refused: assign the user ann to the role auditor",
        )
    bench.run(["check", "office"])
    names = [name for kind, name in rows_of(bench.path("office"))["name_row"] if kind == 1]
    bench.same("the users", names, ["ann", "bob"])
    ends(
        bench, "without a copy", policy(bench, "plan", "good.toml", "--server", "http://127.0.0.1:1"), 2, err="belong together"
    )
    done = policy(bench, "plan", "good.toml", "--server", "http://127.0.0.1:1", "--copy", "copy")
    ends(bench, "without a server", done, 2, err="the server does not answer")
