"""Builds the front, the library and the drivers once."""

import os

import pytest

from front.running import PROGRAM
from front.running import build as build_front

from . import driving


def pytest_collection_modifyitems(items):
    for item in items:
        if item.path.parent.name == "replica":
            item.add_marker(pytest.mark.needs("go", "gcc", "libraries of the server"))


@pytest.fixture(scope="session", autouse=True)
def drivers(built):
    os.environ[PROGRAM] = str(built("front", build_front) / "rbac-node")
    os.environ["RBAC_BUILT"] = str(built("replica", driving.build))
