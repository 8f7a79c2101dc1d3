"""The functions of docs/reference/api.md as methods. bin/clients writes this file: do not edit it."""

from typing import Any, Dict, Iterable, List, Mapping, Tuple

from ._values import ImportReport, Permission, names

# What the answer of each function has as its value.
VALUES: Mapping[str, str] = {
    "addUser": "done",
    "deleteUser": "done",
    "addRole": "done",
    "deleteRole": "done",
    "addPermObj": "done",
    "deletePermObj": "done",
    "addPermission": "done",
    "deletePermission": "done",
    "grantPermission": "done",
    "revokePermission": "done",
    "assignUser": "done",
    "deassignUser": "done",
    "addInheritance": "done",
    "deleteInheritance": "done",
    "addAscendant": "done",
    "addDescendant": "done",
    "createSsdSet": "done",
    "addSsdRoleMember": "done",
    "deleteSsdRoleMember": "done",
    "setSsdSetCardinality": "done",
    "deleteSsdSet": "done",
    "createDsdSet": "done",
    "addDsdRoleMember": "done",
    "deleteDsdRoleMember": "done",
    "setDsdSetCardinality": "done",
    "deleteDsdSet": "done",
    "createSession": "done",
    "deleteSession": "done",
    "addActiveRole": "done",
    "dropActiveRole": "done",
    "lockUserAccount": "done",
    "unlockUserAccount": "done",
    "importAssignments": "import",
    "checkAccess": "access",
    "assignedUsers": "names",
    "assignedRoles": "names",
    "authorizedUsers": "names",
    "authorizedRoles": "names",
    "rolePermissions": "permissions",
    "userPermissions": "permissions",
    "sessionRoles": "names",
    "sessionPermissions": "permissions",
    "roleOperationsOnObject": "names",
    "userOperationsOnObject": "names",
    "ssdRoleSets": "names",
    "ssdRoleSetRoles": "names",
    "ssdRoleSetCardinality": "count",
    "dsdRoleSets": "names",
    "dsdRoleSetRoles": "names",
    "dsdRoleSetCardinality": "count",
    "permissionRoles": "names",
}

# The statuses of the refusals that have another one than 409, by their codes.
STATUSES: Mapping[int, Tuple[int, ...]] = {
    1: (400,),
    34: (400, 405, 411, 413, 431, 501),
    35: (404,),
    36: (400,),
    40: (503,),
    41: (500,),
    42: (500,),
    60: (503,),
    61: (503,),
    62: (401,),
    63: (403,),
    64: (429,),
    65: (403,),
    66: (421,),
    67: (412,),
}

# The names of the refusals, by their codes.
NAMES: Mapping[int, str] = {
    1: "BadName",
    2: "NoUser",
    3: "UserExists",
    4: "NoRole",
    5: "RoleExists",
    6: "NoObject",
    7: "ObjectExists",
    8: "NoPermission",
    9: "PermissionExists",
    10: "AlreadyAssigned",
    11: "NotAssigned",
    12: "AlreadyGranted",
    13: "NotGranted",
    14: "EdgeExists",
    15: "NoEdge",
    16: "Cycle",
    17: "RoleInUse",
    18: "ObjectInUse",
    19: "SetExists",
    20: "NoSet",
    21: "MemberExists",
    22: "NoMember",
    23: "BadCardinality",
    24: "StaticSeparation",
    25: "DynamicSeparation",
    26: "NoSession",
    27: "SessionExists",
    28: "NotOwner",
    29: "NotAuthorized",
    30: "AlreadyActive",
    31: "NotActive",
    32: "TooMany",
    33: "NoOperation",
    34: "BadRequest",
    35: "UnknownFunction",
    36: "BadCsv",
    37: "UserLocked",
    40: "Memory",
    41: "Store",
    42: "Closed",
    50: "NotAnOffice",
    51: "Version",
    52: "Damaged",
    60: "Unavailable",
    61: "Diverged",
    62: "Unauthorized",
    63: "Forbidden",
    64: "TooManyRequests",
    65: "ForeignOrigin",
    66: "ForeignHost",
    67: "Outdated",
}

# The commands that may be repeated if their answer was lost. The code, if it isn't 0, then says that it was done.
AGAIN: Mapping[str, int] = {
    "addPermission": 9,
    "grantPermission": 12,
    "assignUser": 10,
    "addInheritance": 14,
    "addSsdRoleMember": 21,
    "setSsdSetCardinality": 0,
    "addDsdRoleMember": 21,
    "setDsdSetCardinality": 0,
    "addActiveRole": 30,
    "lockUserAccount": 0,
    "unlockUserAccount": 0,
    "importAssignments": 0,
}


class Functions:
    """The functions as methods. Their parameters are keys of docs/reference/api.md.

    Each raises `Refused`, `Unanswered`, `Unreachable` or `Unexpected`, all of the class `Error`, if it has no result.
    """

    def _call(self, function: str, arguments: Dict[str, Any]) -> Any:
        raise NotImplementedError

    def add_user(self, user: str) -> None:
        """AddUser: adds the user `user`, who is assigned no role.

        Refused: 3 UserExists for `user`; 32 TooMany `user`.
        """
        self._call("addUser", {"user": user})

    def delete_user(self, user: str) -> None:
        """DeleteUser: removes the user `user` with its assignments and its lock, and ends its sessions.

        Refused: 2 NoUser for `user`.
        """
        self._call("deleteUser", {"user": user})

    def add_role(self, role: str) -> None:
        """AddRole: adds the role `role`, to which nobody is assigned and nothing is granted.

        Refused: 5 RoleExists for `role`; 32 TooMany `role`.
        """
        self._call("addRole", {"role": role})

    def delete_role(self, role: str) -> None:
        """DeleteRole: removes the role `role` with its assignments and its grants, and ends each session in which it was
        activated.

        Refused: 4 NoRole for `role`; 17 RoleInUse while it has an immediate inheritance, as ascendant or as descendant,
        or is a member of a separation of duty set.
        """
        self._call("deleteRole", {"role": role})

    def add_perm_obj(self, object: str) -> None:
        """No function of the standard: adds the object `object`, which has no permission.

        Refused: 7 ObjectExists for `object`; 32 TooMany `object`.
        """
        self._call("addPermObj", {"object": object})

    def delete_perm_obj(self, object: str) -> None:
        """No function of the standard: removes the object `object`.

        Refused: 6 NoObject for `object`; 18 ObjectInUse while it has a permission.
        """
        self._call("deletePermObj", {"object": object})

    def add_permission(self, object: str, operation: str) -> None:
        """No function of the standard: adds the permission for the operation `operation` on the object `object`, which is
        granted to no role. An operation exists as long as a permission of any object has it.

        Refused: 6 NoObject for `object`; 9 PermissionExists for the two; 32 TooMany `permission`.
        """
        self._call("addPermission", {"object": object, "operation": operation})

    def delete_permission(self, object: str, operation: str) -> None:
        """No function of the standard: removes the permission for `operation` on `object` with its grants.

        Refused: 6 NoObject for `object`; 8 NoPermission for the two.
        """
        self._call("deletePermission", {"object": object, "operation": operation})

    def grant_permission(self, object: str, operation: str, role: str) -> None:
        """GrantPermission: grants the permission for `operation` on `object` to the role `role`. It is then a permission
        of the role and of each role senior to it.

        Refused: 6 NoObject for `object`; 8 NoPermission for `object` and `operation`; 4 NoRole for `role`; 12
        AlreadyGranted for the three; 32 TooMany `grant`.
        """
        self._call("grantPermission", {"object": object, "operation": operation, "role": role})

    def revoke_permission(self, object: str, operation: str, role: str) -> None:
        """RevokePermission: removes the grant of the permission for `operation` on `object` to `role`. What is granted to
        a junior of `role` stays.

        Refused: 6 NoObject for `object`; 8 NoPermission for `object` and `operation`; 4 NoRole for `role`; 13
        NotGranted for the three.
        """
        self._call("revokePermission", {"object": object, "operation": operation, "role": role})

    def assign_user(self, user: str, role: str) -> None:
        """AssignUser: assigns the user `user` to the role `role`. The user is then authorized for the role and for each
        junior of it.

        Refused: 2 NoUser for `user`; 4 NoRole for `role`; 10 AlreadyAssigned for the two; 32 TooMany `assignment`; 24
        StaticSeparation if `user` would be authorized for too many members of a static set.
        """
        self._call("assignUser", {"user": user, "role": role})

    def deassign_user(self, user: str, role: str) -> None:
        """DeassignUser: removes the assignment of `user` to `role`, and ends each session of the user in which a role was
        activated for which no other assignment authorizes the user.

        Refused: 2 NoUser for `user`; 4 NoRole for `role`; 11 NotAssigned for the two.
        """
        self._call("deassignUser", {"user": user, "role": role})

    def add_inheritance(self, asc: str, desc: str) -> None:
        """AddInheritance: makes the role `asc` an immediate ascendant of the role `desc`, even if it is already senior to
        it through other roles. `asc` inherits the permissions of `desc`, and the users of `asc` are authorized for
        `desc`.

        Refused: 4 NoRole for `asc` or `desc`; 14 EdgeExists for the two; 16 Cycle if `desc` is `asc` or senior to it;
        32 TooMany `edge`; 24 StaticSeparation if a user would be authorized for too many members of a static set; 25
        DynamicSeparation if a session would have too many members of a dynamic set.
        """
        self._call("addInheritance", {"asc": asc, "desc": desc})

    def delete_inheritance(self, asc: str, desc: str) -> None:
        """DeleteInheritance: removes the immediate inheritance of `asc` from `desc`. `asc` stays senior to `desc` if other
        inheritances lead there. Ends each session whose user is no longer authorized for a role that was activated in
        it.

        Refused: 4 NoRole for `asc` or `desc`; 15 NoEdge for the two.
        """
        self._call("deleteInheritance", {"asc": asc, "desc": desc})

    def add_ascendant(self, asc: str, desc: str) -> None:
        """AddAscendant: adds the role `asc` and makes it an immediate ascendant of the role `desc`.

        Refused: 4 NoRole for `desc`; 5 RoleExists for `asc`; 32 TooMany `role`; 32 TooMany `edge`.
        """
        self._call("addAscendant", {"asc": asc, "desc": desc})

    def add_descendant(self, asc: str, desc: str) -> None:
        """AddDescendant: adds the role `desc` and makes the role `asc` an immediate ascendant of it.

        Refused: 4 NoRole for `asc`; 5 RoleExists for `desc`; 32 TooMany `role`; 32 TooMany `edge`.
        """
        self._call("addDescendant", {"asc": asc, "desc": desc})

    def create_ssd_set(self, set: str, roles: Iterable[str], cardinality: int) -> None:
        """CreateSsdSet: makes the static separation of duty set `set` with the members `roles`. From then on each user is
        authorized for fewer of them than `cardinality`.

        Refused: 4 NoRole for one of `roles`; 19 SetExists for `set`; 23 BadCardinality unless 2 <= `cardinality` <=
        number of `roles`; 32 TooMany `ssdSet`; 32 TooMany `member`; 24 StaticSeparation for the new set.
        """
        self._call("createSsdSet", {"set": set, "roles": names(roles), "cardinality": cardinality})

    def add_ssd_role_member(self, set: str, role: str) -> None:
        """AddSsdRoleMember: makes the role `role` a member of the static set `set`.

        Refused: 20 NoSet for `set`; 4 NoRole for `role`; 21 MemberExists for the two; 32 TooMany `member`; 24
        StaticSeparation for the set with its new member.
        """
        self._call("addSsdRoleMember", {"set": set, "role": role})

    def delete_ssd_role_member(self, set: str, role: str) -> None:
        """DeleteSsdRoleMember: removes the member `role` from the static set `set`.

        Refused: 20 NoSet for `set`; 4 NoRole for `role`; 22 NoMember for the two; 23 BadCardinality unless the
        cardinality is less than the number of members.
        """
        self._call("deleteSsdRoleMember", {"set": set, "role": role})

    def set_ssd_set_cardinality(self, set: str, cardinality: int) -> None:
        """SetSsdSetCardinality: gives the static set `set` the cardinality `cardinality`, which may be the current one.

        Refused: 20 NoSet for `set`; 23 BadCardinality unless 2 <= `cardinality` <= number of members; 24
        StaticSeparation for the set with its new cardinality.
        """
        self._call("setSsdSetCardinality", {"set": set, "cardinality": cardinality})

    def delete_ssd_set(self, set: str) -> None:
        """DeleteSsdSet: removes the static set `set`. Its members stay as roles.

        Refused: 20 NoSet for `set`.
        """
        self._call("deleteSsdSet", {"set": set})

    def create_dsd_set(self, set: str, roles: Iterable[str], cardinality: int) -> None:
        """CreateDsdSet: makes the dynamic separation of duty set `set` with the members `roles`. From then on each session
        has fewer of them among its roles (sessionRoles) than `cardinality`.

        Refused: 4 NoRole for one of `roles`; 19 SetExists for `set`; 23 BadCardinality unless 2 <= `cardinality` <=
        number of `roles`; 32 TooMany `dsdSet`; 32 TooMany `member`; 25 DynamicSeparation for the new set.
        """
        self._call("createDsdSet", {"set": set, "roles": names(roles), "cardinality": cardinality})

    def add_dsd_role_member(self, set: str, role: str) -> None:
        """AddDsdRoleMember: makes the role `role` a member of the dynamic set `set`.

        Refused: 20 NoSet for `set`; 4 NoRole for `role`; 21 MemberExists for the two; 32 TooMany `member`; 25
        DynamicSeparation for the set with its new member.
        """
        self._call("addDsdRoleMember", {"set": set, "role": role})

    def delete_dsd_role_member(self, set: str, role: str) -> None:
        """DeleteDsdRoleMember: removes the member `role` from the dynamic set `set`.

        Refused: 20 NoSet for `set`; 4 NoRole for `role`; 22 NoMember for the two; 23 BadCardinality unless the
        cardinality is less than the number of members.
        """
        self._call("deleteDsdRoleMember", {"set": set, "role": role})

    def set_dsd_set_cardinality(self, set: str, cardinality: int) -> None:
        """SetDsdSetCardinality: gives the dynamic set `set` the cardinality `cardinality`, which may be the current one.

        Refused: 20 NoSet for `set`; 23 BadCardinality unless 2 <= `cardinality` <= number of members; 25
        DynamicSeparation for the set with its new cardinality.
        """
        self._call("setDsdSetCardinality", {"set": set, "cardinality": cardinality})

    def delete_dsd_set(self, set: str) -> None:
        """DeleteDsdSet: removes the dynamic set `set`. Its members stay as roles.

        Refused: 20 NoSet for `set`.
        """
        self._call("deleteDsdSet", {"set": set})

    def create_session(self, user: str, roles: Iterable[str], session: str) -> None:
        """CreateSession: makes the session `session` of the user `user`, in which exactly the roles `roles` are activated.
        It has these roles and their juniors.

        Refused: 2 NoUser for `user`; 4 NoRole for one of `roles`; 27 SessionExists for `session`; 29 NotAuthorized if
        `user` is not authorized for one of `roles`; 37 UserLocked for `user`; 32 TooMany `session`; 32 TooMany
        `activeRole`; 25 DynamicSeparation if the session would have too many members of a dynamic set.
        """
        self._call("createSession", {"user": user, "roles": names(roles), "session": session})

    def delete_session(self, user: str, session: str) -> None:
        """DeleteSession: ends the session `session` of the user `user`.

        Refused: 2 NoUser for `user`; 26 NoSession for `session`; 28 NotOwner if the session has another user.
        """
        self._call("deleteSession", {"user": user, "session": session})

    def add_active_role(self, user: str, session: str, role: str) -> None:
        """AddActiveRole: activates the role `role` in the session `session` of the user `user`. The session then has this
        role and its juniors.

        Refused: 2 NoUser for `user`; 26 NoSession for `session`; 4 NoRole for `role`; 28 NotOwner if the session has
        another user; 30 AlreadyActive if `role` itself was activated; 29 NotAuthorized if `user` is not authorized for
        `role`; 32 TooMany `activeRole`; 25 DynamicSeparation if the session would have too many members of a dynamic
        set.
        """
        self._call("addActiveRole", {"user": user, "session": session, "role": role})

    def drop_active_role(self, user: str, session: str, role: str) -> None:
        """DropActiveRole: deactivates the role `role` in the session `session` of the user `user`. The session still has
        it if it is a junior of another activated role.

        Refused: 2 NoUser for `user`; 26 NoSession for `session`; 4 NoRole for `role`; 28 NotOwner if the session has
        another user; 31 NotActive if `role` itself was not activated.
        """
        self._call("dropActiveRole", {"user": user, "session": session, "role": role})

    def lock_user_account(self, user: str) -> None:
        """No function of the standard: locks the user `user`, who may be locked already, and ends the user's sessions. A
        locked user keeps its assignments, but gets no session.

        Refused: 51 Version in an office of version 1; 2 NoUser for `user`.
        """
        self._call("lockUserAccount", {"user": user})

    def unlock_user_account(self, user: str) -> None:
        """No function of the standard: removes the lock of the user `user`, if there is one.

        Refused: 51 Version in an office of version 1; 2 NoUser for `user`.
        """
        self._call("unlockUserAccount", {"user": user})

    def import_assignments(self, csv: str) -> ImportReport:
        """No function of the standard: does assignUser for each record of `csv` in turn. The answer counts the pairs that
        were already assigned and those that it assigned, and lists every other record, counted from 1, with its
        refusal: 2, 4, 24 or 32.

        Refused: 32 TooMany `record`.
        """
        value: ImportReport = self._call("importAssignments", {"csv": csv})
        return value

    def check_access(self, session: str, operation: str, object: str) -> bool:
        """CheckAccess: whether the session `session` may do the operation `operation` on the object `object`. It may if
        the permission is granted to one of its roles.

        Refused: 26 NoSession for `session`; 6 NoObject for `object`; 33 NoOperation for `operation`.
        """
        value: bool = self._call("checkAccess", {"session": session, "operation": operation, "object": object})
        return value

    def assigned_users(self, role: str) -> List[str]:
        """AssignedUsers: the users who are assigned to the role `role`.

        Refused: 4 NoRole for `role`.
        """
        value: List[str] = self._call("assignedUsers", {"role": role})
        return value

    def assigned_roles(self, user: str) -> List[str]:
        """AssignedRoles: the roles that the user `user` is assigned to.

        Refused: 2 NoUser for `user`.
        """
        value: List[str] = self._call("assignedRoles", {"user": user})
        return value

    def authorized_users(self, role: str) -> List[str]:
        """AuthorizedUsers: the users who are assigned to the role `role` or to a senior of it.

        Refused: 4 NoRole for `role`.
        """
        value: List[str] = self._call("authorizedUsers", {"role": role})
        return value

    def authorized_roles(self, user: str) -> List[str]:
        """AuthorizedRoles: the roles that the user `user` is assigned to, and their juniors.

        Refused: 2 NoUser for `user`.
        """
        value: List[str] = self._call("authorizedRoles", {"user": user})
        return value

    def role_permissions(self, role: str) -> List[Permission]:
        """RolePermissions: the permissions that are granted to the role `role` or to a junior of it.

        Refused: 4 NoRole for `role`.
        """
        value: List[Permission] = self._call("rolePermissions", {"role": role})
        return value

    def user_permissions(self, user: str) -> List[Permission]:
        """UserPermissions: the permissions that are granted to the roles for which the user `user` is authorized.

        Refused: 2 NoUser for `user`.
        """
        value: List[Permission] = self._call("userPermissions", {"user": user})
        return value

    def session_roles(self, session: str) -> List[str]:
        """SessionRoles: the roles that were activated in the session `session`, and their juniors.

        Refused: 26 NoSession for `session`.
        """
        value: List[str] = self._call("sessionRoles", {"session": session})
        return value

    def session_permissions(self, session: str) -> List[Permission]:
        """SessionPermissions: the permissions that are granted to the roles of the session `session`.

        Refused: 26 NoSession for `session`.
        """
        value: List[Permission] = self._call("sessionPermissions", {"session": session})
        return value

    def role_operations_on_object(self, role: str, object: str) -> List[str]:
        """RoleOperationsOnObject: the operations on the object `object` among the permissions of the role `role`.

        Refused: 4 NoRole for `role`; 6 NoObject for `object`.
        """
        value: List[str] = self._call("roleOperationsOnObject", {"role": role, "object": object})
        return value

    def user_operations_on_object(self, user: str, object: str) -> List[str]:
        """UserOperationsOnObject: the operations on the object `object` among the permissions of the user `user`.

        Refused: 2 NoUser for `user`; 6 NoObject for `object`.
        """
        value: List[str] = self._call("userOperationsOnObject", {"user": user, "object": object})
        return value

    def ssd_role_sets(self) -> List[str]:
        """SsdRoleSets: the static separation of duty sets."""
        value: List[str] = self._call("ssdRoleSets", {})
        return value

    def ssd_role_set_roles(self, set: str) -> List[str]:
        """SsdRoleSetRoles: the members of the static set `set`.

        Refused: 20 NoSet for `set`.
        """
        value: List[str] = self._call("ssdRoleSetRoles", {"set": set})
        return value

    def ssd_role_set_cardinality(self, set: str) -> int:
        """SsdRoleSetCardinality: the cardinality of the static set `set`.

        Refused: 20 NoSet for `set`.
        """
        value: int = self._call("ssdRoleSetCardinality", {"set": set})
        return value

    def dsd_role_sets(self) -> List[str]:
        """DsdRoleSets: the dynamic separation of duty sets."""
        value: List[str] = self._call("dsdRoleSets", {})
        return value

    def dsd_role_set_roles(self, set: str) -> List[str]:
        """DsdRoleSetRoles: the members of the dynamic set `set`.

        Refused: 20 NoSet for `set`.
        """
        value: List[str] = self._call("dsdRoleSetRoles", {"set": set})
        return value

    def dsd_role_set_cardinality(self, set: str) -> int:
        """DsdRoleSetCardinality: the cardinality of the dynamic set `set`.

        Refused: 20 NoSet for `set`.
        """
        value: int = self._call("dsdRoleSetCardinality", {"set": set})
        return value

    def permission_roles(self, object: str, operation: str) -> List[str]:
        """No function of the standard: the roles to which the permission for `operation` on `object` is granted directly.

        Refused: 6 NoObject for `object`; 8 NoPermission for the two.
        """
        value: List[str] = self._call("permissionRoles", {"object": object, "operation": operation})
        return value


class AsyncFunctions:
    """The functions as methods to await. Their parameters are keys of docs/reference/api.md.

    Each raises `Refused`, `Unanswered`, `Unreachable` or `Unexpected`, all of the class `Error`, if it has no result.
    """

    async def _call(self, function: str, arguments: Dict[str, Any]) -> Any:
        raise NotImplementedError

    async def add_user(self, user: str) -> None:
        """AddUser: adds the user `user`, who is assigned no role.

        Refused: 3 UserExists for `user`; 32 TooMany `user`.
        """
        await self._call("addUser", {"user": user})

    async def delete_user(self, user: str) -> None:
        """DeleteUser: removes the user `user` with its assignments and its lock, and ends its sessions.

        Refused: 2 NoUser for `user`.
        """
        await self._call("deleteUser", {"user": user})

    async def add_role(self, role: str) -> None:
        """AddRole: adds the role `role`, to which nobody is assigned and nothing is granted.

        Refused: 5 RoleExists for `role`; 32 TooMany `role`.
        """
        await self._call("addRole", {"role": role})

    async def delete_role(self, role: str) -> None:
        """DeleteRole: removes the role `role` with its assignments and its grants, and ends each session in which it was
        activated.

        Refused: 4 NoRole for `role`; 17 RoleInUse while it has an immediate inheritance, as ascendant or as descendant,
        or is a member of a separation of duty set.
        """
        await self._call("deleteRole", {"role": role})

    async def add_perm_obj(self, object: str) -> None:
        """No function of the standard: adds the object `object`, which has no permission.

        Refused: 7 ObjectExists for `object`; 32 TooMany `object`.
        """
        await self._call("addPermObj", {"object": object})

    async def delete_perm_obj(self, object: str) -> None:
        """No function of the standard: removes the object `object`.

        Refused: 6 NoObject for `object`; 18 ObjectInUse while it has a permission.
        """
        await self._call("deletePermObj", {"object": object})

    async def add_permission(self, object: str, operation: str) -> None:
        """No function of the standard: adds the permission for the operation `operation` on the object `object`, which is
        granted to no role. An operation exists as long as a permission of any object has it.

        Refused: 6 NoObject for `object`; 9 PermissionExists for the two; 32 TooMany `permission`.
        """
        await self._call("addPermission", {"object": object, "operation": operation})

    async def delete_permission(self, object: str, operation: str) -> None:
        """No function of the standard: removes the permission for `operation` on `object` with its grants.

        Refused: 6 NoObject for `object`; 8 NoPermission for the two.
        """
        await self._call("deletePermission", {"object": object, "operation": operation})

    async def grant_permission(self, object: str, operation: str, role: str) -> None:
        """GrantPermission: grants the permission for `operation` on `object` to the role `role`. It is then a permission
        of the role and of each role senior to it.

        Refused: 6 NoObject for `object`; 8 NoPermission for `object` and `operation`; 4 NoRole for `role`; 12
        AlreadyGranted for the three; 32 TooMany `grant`.
        """
        await self._call("grantPermission", {"object": object, "operation": operation, "role": role})

    async def revoke_permission(self, object: str, operation: str, role: str) -> None:
        """RevokePermission: removes the grant of the permission for `operation` on `object` to `role`. What is granted to
        a junior of `role` stays.

        Refused: 6 NoObject for `object`; 8 NoPermission for `object` and `operation`; 4 NoRole for `role`; 13
        NotGranted for the three.
        """
        await self._call("revokePermission", {"object": object, "operation": operation, "role": role})

    async def assign_user(self, user: str, role: str) -> None:
        """AssignUser: assigns the user `user` to the role `role`. The user is then authorized for the role and for each
        junior of it.

        Refused: 2 NoUser for `user`; 4 NoRole for `role`; 10 AlreadyAssigned for the two; 32 TooMany `assignment`; 24
        StaticSeparation if `user` would be authorized for too many members of a static set.
        """
        await self._call("assignUser", {"user": user, "role": role})

    async def deassign_user(self, user: str, role: str) -> None:
        """DeassignUser: removes the assignment of `user` to `role`, and ends each session of the user in which a role was
        activated for which no other assignment authorizes the user.

        Refused: 2 NoUser for `user`; 4 NoRole for `role`; 11 NotAssigned for the two.
        """
        await self._call("deassignUser", {"user": user, "role": role})

    async def add_inheritance(self, asc: str, desc: str) -> None:
        """AddInheritance: makes the role `asc` an immediate ascendant of the role `desc`, even if it is already senior to
        it through other roles. `asc` inherits the permissions of `desc`, and the users of `asc` are authorized for
        `desc`.

        Refused: 4 NoRole for `asc` or `desc`; 14 EdgeExists for the two; 16 Cycle if `desc` is `asc` or senior to it;
        32 TooMany `edge`; 24 StaticSeparation if a user would be authorized for too many members of a static set; 25
        DynamicSeparation if a session would have too many members of a dynamic set.
        """
        await self._call("addInheritance", {"asc": asc, "desc": desc})

    async def delete_inheritance(self, asc: str, desc: str) -> None:
        """DeleteInheritance: removes the immediate inheritance of `asc` from `desc`. `asc` stays senior to `desc` if other
        inheritances lead there. Ends each session whose user is no longer authorized for a role that was activated in
        it.

        Refused: 4 NoRole for `asc` or `desc`; 15 NoEdge for the two.
        """
        await self._call("deleteInheritance", {"asc": asc, "desc": desc})

    async def add_ascendant(self, asc: str, desc: str) -> None:
        """AddAscendant: adds the role `asc` and makes it an immediate ascendant of the role `desc`.

        Refused: 4 NoRole for `desc`; 5 RoleExists for `asc`; 32 TooMany `role`; 32 TooMany `edge`.
        """
        await self._call("addAscendant", {"asc": asc, "desc": desc})

    async def add_descendant(self, asc: str, desc: str) -> None:
        """AddDescendant: adds the role `desc` and makes the role `asc` an immediate ascendant of it.

        Refused: 4 NoRole for `asc`; 5 RoleExists for `desc`; 32 TooMany `role`; 32 TooMany `edge`.
        """
        await self._call("addDescendant", {"asc": asc, "desc": desc})

    async def create_ssd_set(self, set: str, roles: Iterable[str], cardinality: int) -> None:
        """CreateSsdSet: makes the static separation of duty set `set` with the members `roles`. From then on each user is
        authorized for fewer of them than `cardinality`.

        Refused: 4 NoRole for one of `roles`; 19 SetExists for `set`; 23 BadCardinality unless 2 <= `cardinality` <=
        number of `roles`; 32 TooMany `ssdSet`; 32 TooMany `member`; 24 StaticSeparation for the new set.
        """
        await self._call("createSsdSet", {"set": set, "roles": names(roles), "cardinality": cardinality})

    async def add_ssd_role_member(self, set: str, role: str) -> None:
        """AddSsdRoleMember: makes the role `role` a member of the static set `set`.

        Refused: 20 NoSet for `set`; 4 NoRole for `role`; 21 MemberExists for the two; 32 TooMany `member`; 24
        StaticSeparation for the set with its new member.
        """
        await self._call("addSsdRoleMember", {"set": set, "role": role})

    async def delete_ssd_role_member(self, set: str, role: str) -> None:
        """DeleteSsdRoleMember: removes the member `role` from the static set `set`.

        Refused: 20 NoSet for `set`; 4 NoRole for `role`; 22 NoMember for the two; 23 BadCardinality unless the
        cardinality is less than the number of members.
        """
        await self._call("deleteSsdRoleMember", {"set": set, "role": role})

    async def set_ssd_set_cardinality(self, set: str, cardinality: int) -> None:
        """SetSsdSetCardinality: gives the static set `set` the cardinality `cardinality`, which may be the current one.

        Refused: 20 NoSet for `set`; 23 BadCardinality unless 2 <= `cardinality` <= number of members; 24
        StaticSeparation for the set with its new cardinality.
        """
        await self._call("setSsdSetCardinality", {"set": set, "cardinality": cardinality})

    async def delete_ssd_set(self, set: str) -> None:
        """DeleteSsdSet: removes the static set `set`. Its members stay as roles.

        Refused: 20 NoSet for `set`.
        """
        await self._call("deleteSsdSet", {"set": set})

    async def create_dsd_set(self, set: str, roles: Iterable[str], cardinality: int) -> None:
        """CreateDsdSet: makes the dynamic separation of duty set `set` with the members `roles`. From then on each session
        has fewer of them among its roles (sessionRoles) than `cardinality`.

        Refused: 4 NoRole for one of `roles`; 19 SetExists for `set`; 23 BadCardinality unless 2 <= `cardinality` <=
        number of `roles`; 32 TooMany `dsdSet`; 32 TooMany `member`; 25 DynamicSeparation for the new set.
        """
        await self._call("createDsdSet", {"set": set, "roles": names(roles), "cardinality": cardinality})

    async def add_dsd_role_member(self, set: str, role: str) -> None:
        """AddDsdRoleMember: makes the role `role` a member of the dynamic set `set`.

        Refused: 20 NoSet for `set`; 4 NoRole for `role`; 21 MemberExists for the two; 32 TooMany `member`; 25
        DynamicSeparation for the set with its new member.
        """
        await self._call("addDsdRoleMember", {"set": set, "role": role})

    async def delete_dsd_role_member(self, set: str, role: str) -> None:
        """DeleteDsdRoleMember: removes the member `role` from the dynamic set `set`.

        Refused: 20 NoSet for `set`; 4 NoRole for `role`; 22 NoMember for the two; 23 BadCardinality unless the
        cardinality is less than the number of members.
        """
        await self._call("deleteDsdRoleMember", {"set": set, "role": role})

    async def set_dsd_set_cardinality(self, set: str, cardinality: int) -> None:
        """SetDsdSetCardinality: gives the dynamic set `set` the cardinality `cardinality`, which may be the current one.

        Refused: 20 NoSet for `set`; 23 BadCardinality unless 2 <= `cardinality` <= number of members; 25
        DynamicSeparation for the set with its new cardinality.
        """
        await self._call("setDsdSetCardinality", {"set": set, "cardinality": cardinality})

    async def delete_dsd_set(self, set: str) -> None:
        """DeleteDsdSet: removes the dynamic set `set`. Its members stay as roles.

        Refused: 20 NoSet for `set`.
        """
        await self._call("deleteDsdSet", {"set": set})

    async def create_session(self, user: str, roles: Iterable[str], session: str) -> None:
        """CreateSession: makes the session `session` of the user `user`, in which exactly the roles `roles` are activated.
        It has these roles and their juniors.

        Refused: 2 NoUser for `user`; 4 NoRole for one of `roles`; 27 SessionExists for `session`; 29 NotAuthorized if
        `user` is not authorized for one of `roles`; 37 UserLocked for `user`; 32 TooMany `session`; 32 TooMany
        `activeRole`; 25 DynamicSeparation if the session would have too many members of a dynamic set.
        """
        await self._call("createSession", {"user": user, "roles": names(roles), "session": session})

    async def delete_session(self, user: str, session: str) -> None:
        """DeleteSession: ends the session `session` of the user `user`.

        Refused: 2 NoUser for `user`; 26 NoSession for `session`; 28 NotOwner if the session has another user.
        """
        await self._call("deleteSession", {"user": user, "session": session})

    async def add_active_role(self, user: str, session: str, role: str) -> None:
        """AddActiveRole: activates the role `role` in the session `session` of the user `user`. The session then has this
        role and its juniors.

        Refused: 2 NoUser for `user`; 26 NoSession for `session`; 4 NoRole for `role`; 28 NotOwner if the session has
        another user; 30 AlreadyActive if `role` itself was activated; 29 NotAuthorized if `user` is not authorized for
        `role`; 32 TooMany `activeRole`; 25 DynamicSeparation if the session would have too many members of a dynamic
        set.
        """
        await self._call("addActiveRole", {"user": user, "session": session, "role": role})

    async def drop_active_role(self, user: str, session: str, role: str) -> None:
        """DropActiveRole: deactivates the role `role` in the session `session` of the user `user`. The session still has
        it if it is a junior of another activated role.

        Refused: 2 NoUser for `user`; 26 NoSession for `session`; 4 NoRole for `role`; 28 NotOwner if the session has
        another user; 31 NotActive if `role` itself was not activated.
        """
        await self._call("dropActiveRole", {"user": user, "session": session, "role": role})

    async def lock_user_account(self, user: str) -> None:
        """No function of the standard: locks the user `user`, who may be locked already, and ends the user's sessions. A
        locked user keeps its assignments, but gets no session.

        Refused: 51 Version in an office of version 1; 2 NoUser for `user`.
        """
        await self._call("lockUserAccount", {"user": user})

    async def unlock_user_account(self, user: str) -> None:
        """No function of the standard: removes the lock of the user `user`, if there is one.

        Refused: 51 Version in an office of version 1; 2 NoUser for `user`.
        """
        await self._call("unlockUserAccount", {"user": user})

    async def import_assignments(self, csv: str) -> ImportReport:
        """No function of the standard: does assignUser for each record of `csv` in turn. The answer counts the pairs that
        were already assigned and those that it assigned, and lists every other record, counted from 1, with its
        refusal: 2, 4, 24 or 32.

        Refused: 32 TooMany `record`.
        """
        value: ImportReport = await self._call("importAssignments", {"csv": csv})
        return value

    async def check_access(self, session: str, operation: str, object: str) -> bool:
        """CheckAccess: whether the session `session` may do the operation `operation` on the object `object`. It may if
        the permission is granted to one of its roles.

        Refused: 26 NoSession for `session`; 6 NoObject for `object`; 33 NoOperation for `operation`.
        """
        value: bool = await self._call("checkAccess", {"session": session, "operation": operation, "object": object})
        return value

    async def assigned_users(self, role: str) -> List[str]:
        """AssignedUsers: the users who are assigned to the role `role`.

        Refused: 4 NoRole for `role`.
        """
        value: List[str] = await self._call("assignedUsers", {"role": role})
        return value

    async def assigned_roles(self, user: str) -> List[str]:
        """AssignedRoles: the roles that the user `user` is assigned to.

        Refused: 2 NoUser for `user`.
        """
        value: List[str] = await self._call("assignedRoles", {"user": user})
        return value

    async def authorized_users(self, role: str) -> List[str]:
        """AuthorizedUsers: the users who are assigned to the role `role` or to a senior of it.

        Refused: 4 NoRole for `role`.
        """
        value: List[str] = await self._call("authorizedUsers", {"role": role})
        return value

    async def authorized_roles(self, user: str) -> List[str]:
        """AuthorizedRoles: the roles that the user `user` is assigned to, and their juniors.

        Refused: 2 NoUser for `user`.
        """
        value: List[str] = await self._call("authorizedRoles", {"user": user})
        return value

    async def role_permissions(self, role: str) -> List[Permission]:
        """RolePermissions: the permissions that are granted to the role `role` or to a junior of it.

        Refused: 4 NoRole for `role`.
        """
        value: List[Permission] = await self._call("rolePermissions", {"role": role})
        return value

    async def user_permissions(self, user: str) -> List[Permission]:
        """UserPermissions: the permissions that are granted to the roles for which the user `user` is authorized.

        Refused: 2 NoUser for `user`.
        """
        value: List[Permission] = await self._call("userPermissions", {"user": user})
        return value

    async def session_roles(self, session: str) -> List[str]:
        """SessionRoles: the roles that were activated in the session `session`, and their juniors.

        Refused: 26 NoSession for `session`.
        """
        value: List[str] = await self._call("sessionRoles", {"session": session})
        return value

    async def session_permissions(self, session: str) -> List[Permission]:
        """SessionPermissions: the permissions that are granted to the roles of the session `session`.

        Refused: 26 NoSession for `session`.
        """
        value: List[Permission] = await self._call("sessionPermissions", {"session": session})
        return value

    async def role_operations_on_object(self, role: str, object: str) -> List[str]:
        """RoleOperationsOnObject: the operations on the object `object` among the permissions of the role `role`.

        Refused: 4 NoRole for `role`; 6 NoObject for `object`.
        """
        value: List[str] = await self._call("roleOperationsOnObject", {"role": role, "object": object})
        return value

    async def user_operations_on_object(self, user: str, object: str) -> List[str]:
        """UserOperationsOnObject: the operations on the object `object` among the permissions of the user `user`.

        Refused: 2 NoUser for `user`; 6 NoObject for `object`.
        """
        value: List[str] = await self._call("userOperationsOnObject", {"user": user, "object": object})
        return value

    async def ssd_role_sets(self) -> List[str]:
        """SsdRoleSets: the static separation of duty sets."""
        value: List[str] = await self._call("ssdRoleSets", {})
        return value

    async def ssd_role_set_roles(self, set: str) -> List[str]:
        """SsdRoleSetRoles: the members of the static set `set`.

        Refused: 20 NoSet for `set`.
        """
        value: List[str] = await self._call("ssdRoleSetRoles", {"set": set})
        return value

    async def ssd_role_set_cardinality(self, set: str) -> int:
        """SsdRoleSetCardinality: the cardinality of the static set `set`.

        Refused: 20 NoSet for `set`.
        """
        value: int = await self._call("ssdRoleSetCardinality", {"set": set})
        return value

    async def dsd_role_sets(self) -> List[str]:
        """DsdRoleSets: the dynamic separation of duty sets."""
        value: List[str] = await self._call("dsdRoleSets", {})
        return value

    async def dsd_role_set_roles(self, set: str) -> List[str]:
        """DsdRoleSetRoles: the members of the dynamic set `set`.

        Refused: 20 NoSet for `set`.
        """
        value: List[str] = await self._call("dsdRoleSetRoles", {"set": set})
        return value

    async def dsd_role_set_cardinality(self, set: str) -> int:
        """DsdRoleSetCardinality: the cardinality of the dynamic set `set`.

        Refused: 20 NoSet for `set`.
        """
        value: int = await self._call("dsdRoleSetCardinality", {"set": set})
        return value

    async def permission_roles(self, object: str, operation: str) -> List[str]:
        """No function of the standard: the roles to which the permission for `operation` on `object` is granted directly.

        Refused: 6 NoObject for `object`; 8 NoPermission for the two.
        """
        value: List[str] = await self._call("permissionRoles", {"object": object, "operation": operation})
        return value
