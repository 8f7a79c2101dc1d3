"""The packages of a release, which is made once."""

import os

import pytest

from commands.folders import NEEDED, make
from front.running import build as build_front

from . import running


# The checks that boot a system take so long that each is a process's own, though it may wait for the release.
BOOTED = {"booted", "securing"}


def pytest_collection_modifyitems(items):
    for item in items:
        if item.path.parent.name == "installed" and item.path.stem != "units":
            item.add_marker(pytest.mark.needs("go", "libraries of the server"))
            item.add_marker(NEEDED)
            if item.path.stem not in BOOTED:
                item.add_marker(pytest.mark.xdist_group("release"))


@pytest.fixture(autouse=True)
def packages(request):
    if request.path.stem != "units":
        built = request.getfixturevalue("built")
        # What is compiled for the front of the tests is what the package needs too.
        built("front", build_front)
        folder = built("release", make)
        os.environ[running.MADE], os.environ[running.RELEASE] = str(folder / "made"), str(folder / "release")
