"""Builds the front once, and gives each check of the console a network of its own."""

import os
import sys
from unittest.mock import MagicMock

import pytest

from front.running import PROGRAM, build
from needs import lacking

from .running import LONG

# Without Selenium the modules are collected all the same, so that their checks are counted as skipped.
if lacking(["selenium"]):
    for name in ("", ".webdriver", ".webdriver.chrome.service", ".webdriver.common.by", ".webdriver.common.keys", ".common.exceptions"):
        sys.modules[f"selenium{name}"] = MagicMock()

WITHOUT_BROWSER = {"downloads", "serving", "page", "breaks", "sources"}
# So many Chromiums run, each of which is used by the checks of a group in turn: to start one takes as long as a check.
CHROMIUMS = 4


def pytest_collection_modifyitems(items):
    for number, item in enumerate(items):
        if item.path.parent.name == "console" and item.path.stem != "sources":
            item.add_marker(pytest.mark.needs("go", "libraries of the server", "gcc"))
            if item.path.stem not in WITHOUT_BROWSER:
                item.add_marker(pytest.mark.needs("chromium", "chromedriver", "selenium"))
                item.add_marker(pytest.mark.xdist_group(f"chromium {number % CHROMIUMS}"))
                item.add_marker(pytest.mark.slow)
            if item.path.stem == "limits":
                item.add_marker(pytest.mark.long)


@pytest.fixture(scope="session", autouse=True)
def front(built, request):
    os.environ[LONG] = "yes" if request.config.getoption("--long") else ""
    os.environ[PROGRAM] = str(built("front", build) / "rbac-node")


@pytest.fixture(scope="session", autouse=True)
def chromium(tmp_path_factory):
    """One Chromium for all checks of this process."""
    if lacking(["chromium", "chromedriver", "selenium"]):
        yield
        return
    from .browser import Browser, Chromium

    Browser.chromium = Chromium(tmp_path_factory.mktemp("chromium"))
    yield
    Browser.chromium.quit()


@pytest.fixture(autouse=True)
def network(own_network):
    """Chromium cuts off its requests when other checks make a device. It stays in the network in which it was started."""
