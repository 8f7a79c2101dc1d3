"""Makes the package of the commands known, and builds the front once for the checks that need it."""

import os
import sys

import pytest

from front.running import PROGRAM as FRONT
from front.running import build as build_front
from needs import lacking
from program.bench import PROGRAM, TESTS

# What a front with lists needs.
OF_FRONT = ("go", "libraries of the server", "gcc")

PACKAGE = TESTS.parent / "clients/python"
sys.path.insert(0, str(PACKAGE))


@pytest.fixture(autouse=True)
def programs(request, built):
    """The program that the checks use, and the front for those that need it: the others don't wait for it."""
    os.environ["RBAC_PROGRAM"] = PROGRAM
    needed = {name for mark in request.node.iter_markers("needs") for name in mark.args}
    if needed.issuperset(OF_FRONT) and not lacking(OF_FRONT):
        os.environ[FRONT] = str(built("front", build_front) / "rbac-node")
