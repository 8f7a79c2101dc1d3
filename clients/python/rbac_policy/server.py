"""An office behind `rbac serve`, which has no lists: what it has is read from a checked copy, and compared as far as it can be."""

import http.client
import json
from collections.abc import Iterator, Sequence

from .front import Access, Connection
from .model import Command, State, Stop, shown
from .rows import read_copy
from .target import Broken, Judge, refusal_of
from .validating import juniors_of


class Server:
    """The office behind `rbac serve`, of which a copy was made. A change of others during `apply` is not noticed."""

    def __init__(self, access: Access, copy: str) -> None:
        """`copy` is the file of a copy of the office, with its log beside it if it has one."""
        self._connection, self._copy = Connection(access), copy

    def read(self) -> State:
        state = read_copy(self._copy)
        self._compare(state)
        return state

    def apply(self, commands: Sequence[Command], judge: Judge, starts: Sequence[int] = ()) -> None:
        for command in commands:
            arguments = {key: value for key, value in command.items() if key != "fn"}
            try:
                answer = self._call(command["fn"], arguments)
            except (OSError, http.client.HTTPException) as error:
                raise Broken(f"the server does not answer: {error or type(error).__name__}", 1) from None
            if answer.get("code") in (41, 42):
                raise Broken(f"the store of the server failed: {answer['code']} {answer['error']}", 1)
            if not judge(command, None if answer.get("ok") is True else answer):
                return

    def close(self) -> None:
        self._connection.close()

    def _call(self, function: str, arguments: dict[str, object]) -> dict[str, object]:
        body = json.dumps(arguments, ensure_ascii=False).encode()
        _, _, text = self._connection.ask("POST", f"/v1/{function}", body, {})
        return refusal_of(text)

    def _compare(self, state: State) -> None:
        """Raises `Stop` if the server has something else than the copy in what it can be asked."""
        try:
            for what, function, arguments, wanted in _questions(state):
                answer = self._call(function, arguments)
                if answer.get("value") != wanted:
                    raise Stop(f"{self._copy}: the copy is no longer what the server has: {what}")
        except (OSError, http.client.HTTPException, ValueError) as error:
            raise Stop(f"the server does not answer: {error or type(error).__name__}") from None


def _questions(state: State) -> Iterator[tuple[str, str, dict[str, object], object]]:
    """Questions to a server, with the answers of a state."""
    for kind, sets in (("ssd", state.static), ("dsd", state.dynamic)):
        yield "the sets", f"{kind}RoleSets", {}, sorted(sets)
        for name, duty in sorted(sets.items()):
            yield f"the set {shown(name)}", f"{kind}RoleSetRoles", {"set": name}, sorted(duty.roles)
            yield f"the set {shown(name)}", f"{kind}RoleSetCardinality", {"set": name}, duty.cardinality
    users: dict[str, list[str]] = {role: [] for role in state.roles}
    for user, role in sorted(state.assignments):
        users[role].append(user)
    for role, assigned in sorted(users.items()):
        yield f"the users of the role {shown(role)}", "assignedUsers", {"role": role}, assigned
    granted: dict[tuple[str, str], list[str]] = {permission: [] for permission in state.permissions}
    for ob, op, role in sorted(state.grants):
        granted[ob, op].append(role)
    for (ob, op), roles in sorted(granted.items()):
        yield f"the roles that may {shown(op)} {shown(ob)}", "permissionRoles", {"object": ob, "operation": op}, roles
    for role, below in sorted(juniors_of(state).items()):
        own = sorted({(ob, op) for ob, op, granted_to in state.grants if granted_to in below})
        yield f"the permissions of the role {shown(role)}", "rolePermissions", {"role": role}, [list(one) for one in own]
