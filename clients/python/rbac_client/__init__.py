"""A client of the role administration server `rbac` and of its front, for Python 3.9 or later.

`Client` waits for its answers, and the methods of `AsyncClient` are awaited. Both have a method for each of the 51 functions of
docs/reference/api.md, `check`, `may` and `decide_by_user` for decisions, and `open_session`. `Lines` has the same over a child process `rbac replay`.
`rbac_client.middleware` guards applications of WSGI and ASGI. docs/howto/integrate.md shows how an application uses them.
"""

from ._async import AsyncClient
from ._client import Client, Office
from ._decision import Decision, Error, Reason, Refused, Unanswered, Unexpected, Unreachable
from ._lines import Lines
from ._sessions import AsyncSession, Session, session_name
from ._values import ImportReport, LeftOut, Permission, RefusedRecord, session_digest

__version__ = "1.0.0"

__all__ = [
    "AsyncClient",
    "AsyncSession",
    "Client",
    "Decision",
    "Error",
    "ImportReport",
    "LeftOut",
    "Lines",
    "Office",
    "Permission",
    "Reason",
    "Refused",
    "RefusedRecord",
    "Session",
    "Unanswered",
    "Unexpected",
    "Unreachable",
    "session_digest",
    "session_name",
]
