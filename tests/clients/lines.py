"""The client of lines: wrong, late and truncated lines of a child process. None of them allows."""

import contextlib
import select
import time

from .client import HASTY, PATIENT, raised, rbac
from .fakes import ALLOWED, BODIES
from .wrong import changed_bytes

CHECK = ("s1", "open", "safe")

# What the client raises for a wrong answer, and for an incomplete one.
UNEXPECTED, UNANSWERED = "Unexpected", "Unanswered"


def child(bench, *answers, wait=0):
    """A child that waits some seconds after each line, answers it by the next of these bytes, and ends after the last one."""
    paths = [bench.write(f"answer{number}", answer) for number, answer in enumerate(answers)]
    script = "".join(f"read -r _; sleep {wait}; cat '{path}' 2> /dev/null; " for path in paths)
    return contextlib.closing(rbac.Lines(["sh", "-c", script], PATIENT))


def check_wrong_by_lines(bench):
    """Wrong answers as lines, and truncated lines."""
    right = ALLOWED + b"\n"
    lines = [body for body in [*BODIES, *changed_bytes()] if body != ALLOWED and b"\n" not in body]
    wanted = {f"the line {body[:60]} of {len(body)} bytes": (body + b"\n", UNEXPECTED) for body in lines}
    wanted |= {f"{size} bytes of the line": (right[:size], UNANSWERED) for size in range(len(right))}
    wanted["two lines"] = (right * 2, UNEXPECTED)
    wanted["a line and a byte"] = (right + b"{", UNEXPECTED)
    wanted["a line with CR LF"] = (ALLOWED + b"\r\n", UNEXPECTED)
    refusal = b'{"code":26,"error":"NoSession"}'
    wanted[f"the line {refusal} of {len(refusal)} bytes"] = (refusal + b"\n", "Refused")
    wanted["the line that denies"] = (b'{"ok":true,"value":false}\n', False)
    wanted["the right line"] = (right, True)
    for name, (answer, result) in wanted.items():
        with child(bench, answer) as client:
            bench.same(name, raised(client.check_access, *CHECK), result)
            if result in (UNEXPECTED, UNANSWERED):
                bench.same(f"a decision after {name}", raised(client.check_access, *CHECK), "Unreachable")


def check_late_lines(bench):
    """A late answer is not accepted as that of the next line, and what arrives before a line is no answer."""
    right = ALLOWED + b"\n"
    with child(bench, right, right, wait=2 * HASTY) as client:
        client.timeout = HASTY
        bench.same("a decision", raised(client.check_access, *CHECK), UNANSWERED)
        time.sleep(2 * HASTY)
        bench.same("the next decision", raised(client.check_access, *CHECK), "Unreachable")
    script = f"echo '{ALLOWED.decode()}'; read -r _; sleep 9"
    with contextlib.closing(rbac.Lines(["sh", "-c", script], PATIENT)) as client:
        select.select([client._connection], [], [], PATIENT)
        bench.same("a decision that was answered before", raised(client.check_access, *CHECK), UNEXPECTED)
        bench.same("a decision after it", raised(client.check_access, *CHECK), "Unreachable")
