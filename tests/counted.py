"""What a run has counted: comparisons, what was left out, and what all checks of a folder must have met together."""

import importlib
from collections import Counter, defaultdict
from pathlib import Path

import pytest

from needs import avoidable

TESTS = Path(__file__).resolve().parent


class Counted:
    """The last lines of a run. A folder's judging.py has `judge_counts`, which judges the counts of all its checks."""

    def __init__(self, config):
        self.config = config
        self.comparisons, self.processor = 0, 0.0
        self.counts, self.partly, self.faults = defaultdict(Counter), {}, []
        self.failed, self.incomplete = set(), set()

    def pytest_runtest_logreport(self, report):
        folder = folder_of(report.nodeid)
        if report.failed:
            self.failed.add(folder)
        if report.skipped:
            self.incomplete.add(folder)
        if report.when != "call":
            return
        given = dict(report.user_properties)
        self.comparisons += given.get("comparisons", 0)
        self.processor += given.get("processor", 0) + given.get("built", 0)
        self.counts[folder].update(given.get("counts", {}))
        if given.get("partly"):
            self.partly[report.nodeid] = sorted(set(given["partly"]))

    def is_whole(self, folder):
        """Whether each check of a folder ran, so that its counts can be judged."""
        option = self.config.option
        chosen = option.keyword or option.markexpr or option.needing or folder in self.incomplete
        paths = [Path(self.config.invocation_params.dir, one).resolve() for one in self.config.args]
        return not chosen and any((TESTS / folder).is_relative_to(path) for path in paths)

    @pytest.hookimpl(tryfirst=True)
    def pytest_sessionfinish(self, session):
        for folder, counts in self.counts.items():
            if counts and (TESTS / folder / "judging.py").exists() and self.is_whole(folder):
                judge = getattr(importlib.import_module(f"{folder}.judging"), "judge_counts", None)
                more = " (some of its checks failed, and may have counted nothing)" if folder in self.failed else ""
                self.faults += [f"{folder}: {fault}{more}" for fault in (judge(counts) if judge else [])]
        if self.config.getoption("--installed"):
            reasons = [(name, one) for name, said in self.partly.items() for one in said]
            self.faults += [f"{name}: {one}: {fault}" for name, one in reasons if (fault := avoidable(one))]
        if self.faults and session.exitstatus == pytest.ExitCode.OK:
            session.exitstatus = pytest.ExitCode.TESTS_FAILED

    def pytest_terminal_summary(self, terminalreporter):
        for name, said in sorted(self.partly.items()):
            for one in said:
                terminalreporter.write_line(f"PARTLY SKIPPED {name}: {one}")
        for fault in self.faults:
            terminalreporter.write_line(f"FAILED: {fault}", red=True)
        terminalreporter.write_line(f"{self.comparisons:,} comparisons, {self.processor:,.0f} seconds of processors")


def folder_of(nodeid):
    """The folder of tests/ that a check is in."""
    return nodeid.split("/")[1] if nodeid.count("/") > 1 else ""
