"""Builds the front once for all checks of it."""

import os

import pytest

from needs import lacking

from .running import LONG, PROGRAM, build

NEEDED = ("go", "libraries of the server", "gcc")
# What needs nothing but the sources.
OF_SOURCES = {"sources"}


def pytest_collection_modifyitems(items):
    for item in items:
        if item.path.parent.name == "front" and item.path.stem not in OF_SOURCES:
            item.add_marker(pytest.mark.needs(*NEEDED))


@pytest.fixture(scope="session", autouse=True)
def front(built, request):
    """The program, at which the variable RBAC_FRONT points."""
    os.environ[LONG] = "yes" if request.config.getoption("--long") else ""
    if not lacking(NEEDED):
        os.environ[PROGRAM] = str(built("front", build) / "rbac-node")
