"""The Python client, and the page that describes the clients."""

import json
import sys

from pages import markdown
from program.bench import PROGRAM, TESTS
from program.web import HOST

sys.path.insert(0, str(TESTS.parent / "clients/python"))
import rbac_client as rbac

PAGE = markdown.page("howto/integrate.md")

# How long a call may take if it is meant to be answered, and if it is not.
PATIENT, HASTY = 60, 0.3


def office_at(port, timeout=PATIENT):
    """A client over HTTP that asks each question once: half of its time is over after a pause."""
    return rbac.Client(f"http://{HOST}:{port}", timeout=timeout, pause=timeout)


def lines_of(office):
    """A client over the lines of `rbac replay` with this argument."""
    return rbac.Lines([PROGRAM, "replay", office], PATIENT)


def raised(call, *given, **named):
    """The name of the class that a call raises, or what it returns."""
    try:
        return call(*given, **named)
    except rbac.Error as error:
        return type(error).__name__
    except ValueError:
        return "ValueError"


def outcome(call, *given, **named):
    """Returns the outcome of a call, as the text of the answer that it corresponds to."""
    try:
        value = call(*given, **named)
        answer = {"ok": True} if value is None else {"ok": True, "value": plain(value)}
    except rbac.Refused as refused:
        answer = {"code": refused.code, "error": refused.name, **refused.details}
    return json.dumps(answer, ensure_ascii=False, separators=(",", ":"), sort_keys=True)


def plain(value):
    """A value as `rbac` has it."""
    if isinstance(value, rbac.ImportReport):
        refused = [{"code": one.code, "record": one.record} for one in value.refused]
        return {"already": value.already, "assigned": value.assigned, "refused": refused}
    return value
