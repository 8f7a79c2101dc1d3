"""The tools are run by sqlite3."""

import pytest

WITHOUT_SQLITE = {"check_refuses_differences", "check_says_usage"}


def pytest_collection_modifyitems(items):
    for item in items:
        if item.path.parent.name == "tools" and item.name not in WITHOUT_SQLITE:
            item.add_marker(pytest.mark.needs("sqlite3"))
