"""Realms that Keycloak has exported: roles of the realm and of clients, composites, groups and users."""

import json
from collections.abc import Iterator
from pathlib import Path
from typing import Any

from .imported import Imported
from .model import Stop, shown

# Keys of a realm that say who may do what in a way that no office has.
_OTHERS = (
    "clientScopeMappings",
    "scopeMappings",
    "identityProviderMappers",
    "userFederationProviders",
    "userFederationMappers",
)


def from_keycloak(path: str) -> Imported:
    """Reads a realm. A role of a client is CLIENT:ROLE, and a group is the role `group /PATH`. Raises `Stop` if it is none."""
    try:
        realm = json.loads(Path(path).read_bytes())
        found = Imported()
        _read_roles(found, realm.get("roles", {}))
        _read_groups(found, realm.get("groups", []), "")
        _read_users(found, realm.get("users", []))
        _leave_clients(found, realm.get("clients", []))
    except OSError as error:
        raise Stop(f"{path}: {error.strerror}") from None
    except (ValueError, TypeError, AttributeError, KeyError, RecursionError):
        raise Stop(f"{path}: this is no realm that Keycloak has exported") from None
    for key in _OTHERS:
        if realm.get(key):
            found.leave(f"{key} of the realm", "an office has no such thing")
    _leave_unknown(found)
    return found


def _mapped(value: dict[str, Any], realm_key: str, client_key: str) -> Iterator[str]:
    """The roles that something is mapped to."""
    yield from map(str, value.get(realm_key) or [])
    for client, roles in (value.get(client_key) or {}).items():
        yield from (f"{client}:{role}" for role in roles)


def _read_roles(found: Imported, roles: dict[str, Any]) -> None:
    named = [(str(role["name"]), role) for role in roles.get("realm", [])]
    for client, own in roles.get("client", {}).items():
        named += [(f"{client}:{role['name']}", role) for role in own]
    names = [name for name, _ in named]
    for name in sorted({name for name in names if names.count(name) > 1}):
        raise Stop(f"two roles would have the name {shown(name)}: one of the realm, and one of a client")
    for name, role in named:
        found.roles.add(name)
        for junior in _mapped(role.get("composites") or {}, "realm", "client"):
            found.edges.add((name, junior))
        if role.get("attributes"):
            found.leave(f"the attributes of the role {shown(name)}", "an office has none")


def _read_groups(found: Imported, groups: list[dict[str, Any]], above: str) -> None:
    """Members of a group have its roles, and those of the groups above it."""
    for group in groups:
        path = f"{above}/{group['name']}"
        role = f"group {path}"
        if role in found.roles:
            raise Stop(f"two roles would have the name {shown(role)}")
        found.roles.add(role)
        if above:
            found.edges.add((role, f"group {above}"))
        for junior in _mapped(group, "realmRoles", "clientRoles"):
            found.edges.add((role, junior))
        _read_groups(found, group.get("subGroups") or [], path)


def _read_users(found: Imported, users: list[dict[str, Any]]) -> None:
    for user in users:
        name = str(user["username"])
        if user.get("serviceAccountClientId"):
            found.leave(f"the user {shown(name)}", "it is the service account of a client")
            continue
        # Without the key the account is enabled only if Keycloak says so.
        found.users[name] = user.get("enabled") is not True
        found.assignments |= {(name, role) for role in _mapped(user, "realmRoles", "clientRoles")}
        found.assignments |= {(name, f"group {path}") for path in user.get("groups") or []}


def _leave_clients(found: Imported, clients: list[dict[str, Any]]) -> None:
    for client in clients:
        if client.get("authorizationSettings"):
            found.leave(f"the permissions of the client {shown(str(client.get('clientId')))}", "grant them to roles by hand")
        if client.get("serviceAccountsEnabled"):
            found.leave(f"the service account of the client {shown(str(client.get('clientId')))}", "it is no user of the file")


def _leave_unknown(found: Imported) -> None:
    """Leaves out what names a role that isn't in the file."""
    for asc, desc in sorted(found.edges):
        if desc not in found.roles:
            found.leave(f"that {shown(asc)} has the role {shown(desc)}", "the file has no such role")
    for user, role in sorted(found.assignments):
        if role not in found.roles:
            found.leave(f"that {shown(user)} has the role {shown(role)}", "the file has no such role")
    found.edges = {pair for pair in found.edges if pair[1] in found.roles}
    found.assignments = {pair for pair in found.assignments if pair[1] in found.roles}
