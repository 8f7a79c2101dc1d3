"""Gives this process mounts of its own, which nobody else sees."""

import pytest


@pytest.fixture(scope="session", autouse=True)
def mounts(own_mounts):
    """The checks that need them have a mark."""
