"""Names of many functions at once, as operations in a policy of callers. No function has a space in its name."""

from collections.abc import Iterable

GROUPS = {
    "all commands": frozenset(
        """addUser deleteUser lockUserAccount unlockUserAccount addRole deleteRole addPermObj deletePermObj addPermission
        deletePermission grantPermission revokePermission assignUser deassignUser addInheritance deleteInheritance addAscendant
        addDescendant createSsdSet createDsdSet addSsdRoleMember deleteSsdRoleMember addDsdRoleMember deleteDsdRoleMember
        setSsdSetCardinality setDsdSetCardinality deleteSsdSet deleteDsdSet createSession deleteSession addActiveRole
        dropActiveRole importAssignments""".split()
    ),
    "all questions": frozenset(
        """checkAccess assignedUsers authorizedUsers rolePermissions assignedRoles authorizedRoles userPermissions sessionRoles
        sessionPermissions roleOperationsOnObject userOperationsOnObject ssdRoleSets dsdRoleSets ssdRoleSetRoles
        ssdRoleSetCardinality dsdRoleSetRoles dsdRoleSetCardinality permissionRoles""".split()
    ),
}


def members(name: str) -> list[str]:
    """The functions that a name means: those of a group, or the one that has it."""
    return sorted(GROUPS.get(name, (name,)))


def grouped(functions: Iterable[str]) -> list[str]:
    """The shortest list that means some functions."""
    left, names = set(functions), []
    for name, group in GROUPS.items():
        if group <= left:
            names.append(name)
            left -= group
    return names + sorted(left)
