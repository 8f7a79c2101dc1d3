"""Builds the node once: it is the front, for several machines too."""

import os

import pytest

from . import running

OF_SOURCES = {"sources", "matching"}
# Two clusters run at once, no more: what the others wait for is not to depend on the machine. These take as long as the rest.
FIRST = {"judged", "records", "keeping", "stated"}


def pytest_collection_modifyitems(items):
    for item in items:
        if item.path.parent.name == "cluster" and item.path.stem not in OF_SOURCES:
            item.add_marker(pytest.mark.needs("go", "etcd", "etcdctl", "gcc", "libraries of the server"))
            item.add_marker(pytest.mark.xdist_group("clusters 1" if item.path.stem in FIRST else "clusters 2"))
            item.add_marker(pytest.mark.slow)


@pytest.fixture(scope="session", autouse=True)
def node(built):
    os.environ[running.NODE] = str(built("front", running.build) / "rbac-node")


@pytest.fixture
def faulty(built, monkeypatch):
    """Returns a function that returns a node with a fault."""
    node = str(built("faulty", running.build_faulty) / "rbac-node")

    def node_with(name):
        monkeypatch.setenv(running.FAULT, running.fault_of(name))
        return node

    return node_with
