"""The tests of the server in Go, which are beside what they test.

`go test ./...` finds them: a package with a test is a check here. `go list` isn't asked, so that this needs no Go to be collected.
"""

import json

import pytest

from front.running import AS_USUAL, FORM, SERVER, TAGS, build, go
from program.bench import PROGRAM

# The load program of the benchmarks, which is built with the libraries of the server.
LOAD = SERVER.parent / "bench/load"

PACKAGES = sorted({path.parent for path in SERVER.rglob("*_test.go") if SERVER / "vendor" not in path.parents})

pytestmark = pytest.mark.needs("go", "gcc", "libraries of the server")


def name_of(folder):
    return f"rbac-node/{folder.relative_to(SERVER)}"


def go_test(*words):
    """What `go test` says of all packages: its events, what isn't one, and its status. But for races, which need another form, it compiles as
    bin/node does. check_form has `go vet` look at all."""
    form = ["-race", f"-tags={TAGS}"] if "-race" in words else [*FORM, "-vet=off", "-ldflags=-s -w"]
    said, status = go("go", "test", "-count=1", "-json", *form, *AS_USUAL, "./...", RBAC_PROGRAM=PROGRAM)
    lines = said.splitlines()
    return (
        [json.loads(line) for line in lines if line.startswith("{")],
        "\n".join(line for line in lines if not line.startswith("{")),
        status,
    )


def judge(bench, events, others):
    """Counts the tests that passed. One that failed or was skipped, and a package that didn't pass, is a fault."""
    ends = [event for event in events if event["Action"] in ("pass", "fail", "skip")]
    failed = {(event["Package"], event.get("Test")) for event in ends if event["Action"] == "fail"}
    shown = "".join(
        one["Output"] for one in events if one["Action"] == "output" and (one["Package"], one.get("Test")) in failed
    )
    bench.judge("go test", [] if ends and not failed else [(shown + others)[-4000:]])
    tests = [event for event in ends if "Test" in event and "/" not in event["Test"]]
    bench.same("tests that were skipped", [event["Test"] for event in tests if event["Action"] == "skip"], [])
    bench.passed += sum(event["Action"] == "pass" for event in tests)


@pytest.fixture(scope="session")
def tested(built):
    """What `go test ./...` says. It is run once, after the program that shares what is compiled."""
    built("front", build)
    folder = built("go", lambda folder: (folder / "said").write_text(json.dumps(go_test()), encoding="utf-8"))
    return json.loads((folder / "said").read_text(encoding="utf-8"))


@pytest.mark.slow
@pytest.mark.xdist_group("go")
@pytest.mark.parametrize("folder", PACKAGES, ids=name_of)
def check_package(bench, tested, folder):
    """The tests of a package pass."""
    events, others, _ = tested
    judge(bench, [event for event in events if event["Package"] == name_of(folder)], others)


@pytest.mark.gate
def check_races(bench):
    """The tests of all packages pass without two goroutines that race."""
    events, others, status = go_test("-race")
    bench.same("the status", status, 0)
    judge(bench, events, others)


@pytest.mark.gate
@pytest.mark.xdist_group("go")
def check_form(bench):
    """gofmt would change nothing, and `go vet` finds nothing."""
    load = [str(path) for path in sorted(LOAD.glob("*.go"))]
    bench.same("what gofmt would change", go("gofmt", "-l", "cmd", "internal", *load), ("", 0))
    bench.same("what go vet finds", go("go", "vet", *FORM, "./..."), ("", 0))
    bench.same("what go vet finds in the load program", go("go", "vet", *FORM, *load), ("", 0))
