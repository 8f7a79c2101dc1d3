"""Builds the image once."""

import os

import pytest

from . import running

NEEDED = pytest.mark.needs("go", "gcc", "libraries of the server", "buildah", "strip", "dpkg-buildpackage", "users of images")


def pytest_collection_modifyitems(items):
    for item in items:
        if item.path.parent.name == "image":
            item.add_marker(NEEDED)
            item.add_marker(pytest.mark.xdist_group("image"))


@pytest.fixture(autouse=True)
def image(built):
    os.environ[running.IMAGE] = str(built("image", running.build))
