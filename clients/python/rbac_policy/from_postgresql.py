"""Roles of a database of PostgreSQL, and what is granted on its tables. psql asks, as a child: a password is never an argument."""

import json
import subprocess
from typing import Any

from .imported import Imported, Permission
from .model import Stop, shown

# All that is read, as one text of JSON, at one moment. Before version 16 the member alone says whether it inherits. 'closed' has the users
# who can't reach a schema, or not even the database.
_QUERY = """
SELECT json_build_object(
    'roles', (SELECT json_agg(json_build_object('name', rolname, 'login', rolcanlogin, 'super', rolsuper,
            'until', nullif(rolvaliduntil, 'infinity'), 'over', rolvaliduntil <= now()))
        FROM pg_roles WHERE rolname !~ '^pg_'),
    'members', (SELECT coalesce(json_agg(json_build_array(m.rolname, r.rolname,
            coalesce((to_jsonb(g) ->> 'inherit_option')::bool, m.rolinherit))), '[]')
        FROM pg_auth_members g JOIN pg_roles m ON m.oid = g.member JOIN pg_roles r ON r.oid = g.roleid),
    'tables', (SELECT coalesce(json_agg(json_build_object(
            'schema', nspname, 'table', relname, 'rows', relrowsecurity, 'invoker', coalesce((SELECT option_value::bool
                FROM pg_options_to_table(reloptions) WHERE option_name = 'security_invoker'), false),
            'columns', EXISTS (SELECT FROM pg_attribute WHERE attrelid = c.oid AND attacl IS NOT NULL),
            'grants', (SELECT json_agg(json_build_array(g.rolname, privilege_type))
                FROM aclexplode(coalesce(relacl, acldefault('r', relowner))) LEFT JOIN pg_roles g ON g.oid = grantee))), '[]')
        FROM pg_class c JOIN pg_namespace n ON n.oid = relnamespace
        WHERE relkind IN ('r', 'p', 'v', 'm', 'f') AND nspname !~ '^pg_' AND nspname <> 'information_schema'),
    'closed', (SELECT coalesce(json_agg(json_build_array(rolname, nspname)), '[]')
        FROM pg_roles, pg_namespace WHERE rolcanlogin AND NOT rolsuper AND (rolconnlimit = 0
            OR NOT has_database_privilege(pg_roles.oid, current_database(), 'CONNECT')
            OR NOT has_schema_privilege(pg_roles.oid, pg_namespace.oid, 'USAGE'))))
"""

# The role that has what is granted to everybody.
_PUBLIC = "public"


def from_postgresql(address: str) -> Imported:
    """Reads a database: login roles are users, and each role a role with their name. Raises `Stop` if psql can't read it."""
    read = _ask(address)
    found = Imported()
    for role in read["roles"]:
        found.roles.add(role["name"])
        if role["login"]:
            found.users[role["name"]] = role["over"] is True
            if role["until"] is not None:
                words = f"an office knows no time{'; the user is locked' * found.users[role['name']]}"
                found.leave(f"that the password of {shown(role['name'])} is valid until {role['until']}", words)
            found.assignments |= {(role["name"], role["name"]), (role["name"], _PUBLIC)}
        if role["super"]:
            found.leave(f"that {shown(role['name'])} is a superuser", "an office has none: grant what is needed to a role")
    if _PUBLIC in found.roles:
        raise Stop("a role is named public, as what everybody has")
    found.roles.add(_PUBLIC)
    for member, role, inherits in read["members"]:
        if role not in found.roles or member not in found.roles:
            found.leave(
                f"that {shown(member)} is a member of {shown(role)}", "the roles of the system itself aren't carried over"
            )
        elif inherits:
            found.edges.add((member, role))
        else:
            found.leave(f"that {shown(member)} is a member of {shown(role)}", "it doesn't inherit: it has to ask for the role")
    for table in read["tables"]:
        _read_table(found, table)
    closed: dict[str, set[Permission]] = {}
    for user, schema in read["closed"]:
        closed.setdefault(user, set()).update((ob, op) for ob, op, _ in found.grants if ob.startswith(f"{schema}."))
    found.deny({user: permissions for user, permissions in closed.items() if user in found.users})
    return found


def _read_table(found: Imported, table: dict[str, object]) -> None:
    ob = f"{table['schema']}.{table['table']}"
    if "." in f"{table['schema']}" or "." in f"{table['table']}":
        found.leave(f"the table {shown(ob)}", "its name has a dot")
        return
    if table["rows"]:
        found.leave(f"the table {shown(ob)}", "its rows have a security of their own")
        return
    if table["invoker"]:
        found.leave(f"the view {shown(ob)}", "it needs the rights of whoever reads it to other tables")
        return
    if table["columns"]:
        found.leave(f"what is granted on columns of {shown(ob)}", "an office knows the table as a whole")
    grants = table["grants"]
    assert isinstance(grants, list)
    for role, privilege in grants:
        name = _PUBLIC if role is None else str(role)
        if name in found.roles:
            found.grants.add((ob, str(privilege), name))


def _ask(address: str) -> dict[str, list[Any]]:
    words = [
        "psql",
        "--no-psqlrc",
        "--no-password",
        "--tuples-only",
        "--no-align",
        "--quiet",
        "--dbname",
        address,
        "--command",
        _QUERY,
    ]
    if "password=" in address.replace(" ", "") or ":" in address.rpartition("@")[0].partition("://")[2]:
        raise Stop("the address has a password, which others could see: put it into PGPASSFILE or PGSERVICEFILE")
    try:
        done = subprocess.run(words, capture_output=True, check=False, stdin=subprocess.DEVNULL)
    except OSError as error:
        raise Stop(f"psql: {error.strerror}: install postgresql-client") from None
    if done.returncode:
        raise Stop(f"psql: {done.stderr.decode(errors='replace').strip()}")
    value: dict[str, list[Any]] = json.loads(done.stdout)
    return value
