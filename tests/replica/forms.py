"""The form of the package in Go, and what `go vet` finds in it."""

from library.building import TOP
from program.bench import TESTS

import pytest

from clients.building import run

from .driving import go_environment

FOLDERS = [TOP / "clients/go/rbacreplica", TESTS / "replica/drivers/go"]


@pytest.mark.gate
def check_go_form(bench):
    """gofmt changes nothing, and `go vet` finds nothing."""
    for folder in FOLDERS:
        bench.same(f"what gofmt would change in {folder.name}", run("gofmt", "-l", ".", cwd=folder), (0, ""))
        bench.same(f"what go vet finds in {folder.name}", run("go", "vet", "./...", cwd=folder, env=go_environment()), (0, ""))
    found = run("go", "list", "-deps", ".", cwd=TOP / "clients/go/rbacclient", env=go_environment())[1].split()
    bench.same("what calls C in the client without a replica", [name for name in found if "rbacoffice" in name], [])
