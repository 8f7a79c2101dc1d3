"""Builds the drivers of the clients, and the front, once."""

import os

import pytest

from front.running import PROGRAM
from front.running import build as build_front
from needs import lacking

from . import driving


@pytest.fixture(scope="session", autouse=True)
def drivers(built):
    os.environ[driving.BUILT] = str(built("clients", driving.build))
    if not lacking(driving.FRONT):
        os.environ[PROGRAM] = str(built("front", build_front) / "rbac-node")
    from . import functions

    functions.prepare()
