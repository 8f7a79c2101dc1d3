"""The bodies of requests and of answers. An answer is read only if it is exactly one that `rbac` sends."""

import json
from typing import Any, Callable, Dict, List, Mapping, NoReturn, Optional, Set, Tuple

from ._decision import REASONS_OF_STATUSES, Reason, Refused, Unexpected, Unsendable
from ._functions import AGAIN as OF_FUNCTIONS
from ._functions import NAMES, STATUSES, VALUES
from ._values import ImportReport, LeftOut, OpenedSession, Permission, RefusedRecord

ALLOWED = b'{"ok":true,"value":true}'
DENIED = b'{"ok":true,"value":false}'
LONGEST_ANSWER = 4 * 1024 * 1024

# What only the front answers: a session that it opens, and the end of one that is known by its digest.
OPENS, ENDS = "POST /sessions", "DELETE /sessions/"

# The question about a user that only the front answers.
BY_USER = "decideByUser"

KINDS: Mapping[str, str] = {**VALUES, OPENS: "session", ENDS: "done", BY_USER: "access"}
AGAIN: Mapping[str, int] = {**OF_FUNCTIONS, ENDS: 26}

# The further keys of refusals.
_DETAILS: List[Set[str]] = [set(), {"set"}, {"kind"}, {"record"}, {"version"}, {"check"}]


def written(value: Any, is_sorted: bool = False) -> bytes:
    """A value as `rbac` writes it, if its keys are sorted. Raises `ValueError` for what can't be sent."""
    try:
        return json.dumps(value, ensure_ascii=False, allow_nan=False, separators=(",", ":"), sort_keys=is_sorted).encode()
    except (TypeError, ValueError):
        # Their errors would show the names of the request.
        raise Unsendable("a value is neither a text nor a number, or has half of a character") from None


def target_of(function: str, arguments: Mapping[str, Any]) -> str:
    """The method and the path of a request."""
    if function == ENDS:
        return ENDS + str(arguments["digest"])
    return function if function == OPENS else f"POST /v1/{function}"


def body_of(function: str, arguments: Mapping[str, Any]) -> Optional[bytes]:
    """The body of a request, if it has one."""
    if function == "importAssignments":
        return str(arguments["csv"]).encode()
    if function == ENDS:
        return None
    return written(arguments)


def read_answer(function: str, status: Optional[int], text: bytes) -> Any:
    """The value of an answer, whose status is None for lines. Raises `Refused` for a refusal, otherwise `Unexpected`."""
    if KINDS[function] == "access" and status in (None, 200) and text in (ALLOWED, DENIED):
        return text == ALLOWED
    answer = _read_exactly(text)
    if answer.get("ok") is True and answer.keys() <= {"ok", "value"} and status in (None, 200):
        kind = KINDS[function]
        if kind != "access" and _IS_RIGHT[kind](answer.get("value")) and ("value" in answer) == (kind != "done"):
            return _RESULTS.get(kind, lambda value: value)(answer.get("value"))
    raise_refusal(function, status, text)


def raise_refusal(function: str, status: Optional[int], text: bytes, others: Tuple[int, ...] = ()) -> NoReturn:
    """Raises `Refused` for a refusal, whose status may also be one of some others, and otherwise `Unexpected`."""
    answer = _read_exactly(text)
    code, name = answer.pop("code", None), answer.pop("error", None)
    is_refusal = type(code) is int and isinstance(name, str) and set(answer) in _DETAILS and NAMES.get(code, name) == name
    if is_refusal and (status is None or status in (*STATUSES.get(code, (409,)), *others)):
        raise Refused(code, name, answer)
    reason = REASONS_OF_STATUSES.get(status or 0, Reason.UNEXPECTED)
    status_text = "" if status is None else f"status {status}, "
    raise Unexpected(f"no answer of rbac to {function}: {status_text}{len(text)} bytes", reason)


def _read_exactly(text: bytes) -> Dict[str, Any]:
    """The object that a text is, if `rbac` writes it so. Otherwise it is empty."""
    try:
        answer = json.loads(text)
        return answer if isinstance(answer, dict) and written(answer, True) == text else {}
    except (ValueError, RecursionError):
        return {}


def _is_names(value: Any) -> bool:
    return isinstance(value, list) and all(isinstance(name, str) for name in value)


def _is_pairs(value: Any) -> bool:
    return isinstance(value, list) and all(_is_names(pair) and len(pair) == 2 for pair in value)


def _is_count(value: Any) -> bool:
    return type(value) is int and value >= 0


def _is_report(value: Any) -> bool:
    if not isinstance(value, dict) or list(value) != ["already", "assigned", "refused"]:
        return False
    records = value["refused"]
    is_right = isinstance(records, list) and all(isinstance(one, dict) and list(one) == ["code", "record"] for one in records)
    counts = [value["already"], value["assigned"]]
    return is_right and all(_is_count(one) for one in [*counts, *(one for record in records for one in record.values())])


def _is_session(value: Any) -> bool:
    if not isinstance(value, dict) or list(value) != ["left", "roles", "session"] or not isinstance(value["left"], list):
        return False
    return _is_names(value["roles"]) and _is_name(value["session"]) and all(_is_left(one) for one in value["left"])


def _is_name(value: Any) -> bool:
    return isinstance(value, str) and value != ""


def _is_left(value: Any) -> bool:
    if not isinstance(value, dict) or set(value) - {"code", "error", "role"} not in _DETAILS:
        return False
    return _is_count(value.get("code")) and _is_name(value.get("error")) and _is_name(value.get("role"))


def _opened(value: Dict[str, Any]) -> OpenedSession:
    left = [LeftOut(one.pop("role"), one.pop("code"), one.pop("error"), one) for one in value["left"]]
    return OpenedSession(value["session"], value["roles"], left)


# What the value of each kind looks like, and what becomes of it.
_IS_RIGHT: Dict[str, Callable[[Any], bool]] = {
    "done": lambda value: value is None,
    "import": _is_report,
    "names": _is_names,
    "permissions": _is_pairs,
    "count": _is_count,
    "session": _is_session,
}
_RESULTS: Dict[str, Callable[[Any], Any]] = {
    "import": lambda value: ImportReport(
        value["already"], value["assigned"], [RefusedRecord(one["record"], one["code"]) for one in value["refused"]]
    ),
    "permissions": lambda value: [Permission(*pair) for pair in value],
    "session": _opened,
}
