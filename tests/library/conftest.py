"""Builds the library, and programs over it in each language, once."""

import os

import pytest

from . import building

# A program that the checks run.
collect_ignore = ["lines.py"]


def pytest_collection_modifyitems(items):
    for item in items:
        if item.path.parent.name == "library":
            item.add_marker(pytest.mark.needs("gcc"))


@pytest.fixture(scope="session", autouse=True)
def library(built):
    def make(folder):
        os.environ["RBAC_BUILT"] = str(folder)
        building.build_all()

    os.environ["RBAC_BUILT"] = str(built("library", make))
