"""Builds the library once."""

import subprocess

import pytest

from program.bench import TESTS


@pytest.fixture(scope="session")
def librbac(built):
    """The folder of the library in C."""
    return built("librbac", lambda folder: subprocess.run([TESTS.parent / "bin/library", folder], check=True, capture_output=True))
