"""How many lines there are about decisions that the office hasn't made: clients/conformance/log_lines.json."""

import pytest

from rbac_client import Decision, Reason
from rbac_client._office import Decisions, LogLines

from fake import shared

CASES = shared("log_lines.json")


@pytest.mark.parametrize("case", CASES, ids=[case["name"] for case in CASES])
def test_lines(case):
    now = 1_000.0
    lines = LogLines(lambda: now)
    for number, (seconds, reason, left_out) in enumerate(case["steps"]):
        now = 1_000.0 + seconds
        wanted = {None: None, 0: ""}.get(left_out, f" (and {left_out} more since the last line)")
        assert lines.due(Reason(reason)) == wanted, number


def test_line(caplog):
    decisions = Decisions()
    decisions.keep(Decision(Reason.UNANSWERED, "it took too long"), "open\n\x1b[31m\u2028", "safe" * 1_000)
    decisions.keep(Decision(Reason.UNANSWERED, "it took too long"), "open", "safe")
    assert caplog.messages == [f"no decision about 'open\\n\\x1b[31m\\u2028' on '{'safe' * 20}': unanswered: it took too long"]
    assert decisions.counts == {Reason.UNANSWERED: 2}


def test_no_line_for_decisions(caplog):
    decisions = Decisions()
    for reason in Reason.ALLOWED, Reason.DENIED:
        decisions.keep(Decision(reason), "open", "safe")
    assert caplog.messages == []
