package rbac.client;

import java.util.Collection;
import java.util.LinkedHashMap;
import java.util.List;
import java.util.Map;
import java.util.Set;

/**
 * The functions of docs/reference/api.md as methods. Their parameters are keys of that page. Each throws an {@link
 * OfficeException} if it has no result. bin/clients writes this file: do not edit it.
 */
public abstract class Functions {
    /** The statuses of the refusals that have another one than 409, by their codes. */
    static final Map<Integer, List<Integer>> STATUSES =
        Map.ofEntries(
            Map.entry(1, List.of(400)),
            Map.entry(34, List.of(400, 405, 411, 413, 431, 501)),
            Map.entry(35, List.of(404)),
            Map.entry(36, List.of(400)),
            Map.entry(40, List.of(503)),
            Map.entry(41, List.of(500)),
            Map.entry(42, List.of(500)),
            Map.entry(60, List.of(503)),
            Map.entry(61, List.of(503)),
            Map.entry(62, List.of(401)),
            Map.entry(63, List.of(403)),
            Map.entry(64, List.of(429)),
            Map.entry(65, List.of(403)),
            Map.entry(66, List.of(421)),
            Map.entry(67, List.of(412)));

    /** The names of the refusals, by their codes. */
    static final Map<Integer, String> NAMES =
        Map.ofEntries(
            Map.entry(1, "BadName"),
            Map.entry(2, "NoUser"),
            Map.entry(3, "UserExists"),
            Map.entry(4, "NoRole"),
            Map.entry(5, "RoleExists"),
            Map.entry(6, "NoObject"),
            Map.entry(7, "ObjectExists"),
            Map.entry(8, "NoPermission"),
            Map.entry(9, "PermissionExists"),
            Map.entry(10, "AlreadyAssigned"),
            Map.entry(11, "NotAssigned"),
            Map.entry(12, "AlreadyGranted"),
            Map.entry(13, "NotGranted"),
            Map.entry(14, "EdgeExists"),
            Map.entry(15, "NoEdge"),
            Map.entry(16, "Cycle"),
            Map.entry(17, "RoleInUse"),
            Map.entry(18, "ObjectInUse"),
            Map.entry(19, "SetExists"),
            Map.entry(20, "NoSet"),
            Map.entry(21, "MemberExists"),
            Map.entry(22, "NoMember"),
            Map.entry(23, "BadCardinality"),
            Map.entry(24, "StaticSeparation"),
            Map.entry(25, "DynamicSeparation"),
            Map.entry(26, "NoSession"),
            Map.entry(27, "SessionExists"),
            Map.entry(28, "NotOwner"),
            Map.entry(29, "NotAuthorized"),
            Map.entry(30, "AlreadyActive"),
            Map.entry(31, "NotActive"),
            Map.entry(32, "TooMany"),
            Map.entry(33, "NoOperation"),
            Map.entry(34, "BadRequest"),
            Map.entry(35, "UnknownFunction"),
            Map.entry(36, "BadCsv"),
            Map.entry(37, "UserLocked"),
            Map.entry(40, "Memory"),
            Map.entry(41, "Store"),
            Map.entry(42, "Closed"),
            Map.entry(50, "NotAnOffice"),
            Map.entry(51, "Version"),
            Map.entry(52, "Damaged"),
            Map.entry(60, "Unavailable"),
            Map.entry(61, "Diverged"),
            Map.entry(62, "Unauthorized"),
            Map.entry(63, "Forbidden"),
            Map.entry(64, "TooManyRequests"),
            Map.entry(65, "ForeignOrigin"),
            Map.entry(66, "ForeignHost"),
            Map.entry(67, "Outdated"));

    /** The commands that may be repeated if their answer was lost. The code, if it isn't 0, then says that it was done. */
    static final Map<String, Integer> AGAIN =
        Map.ofEntries(
            Map.entry("addPermission", 9),
            Map.entry("grantPermission", 12),
            Map.entry("assignUser", 10),
            Map.entry("addInheritance", 14),
            Map.entry("addSsdRoleMember", 21),
            Map.entry("setSsdSetCardinality", 0),
            Map.entry("addDsdRoleMember", 21),
            Map.entry("setDsdSetCardinality", 0),
            Map.entry("addActiveRole", 30),
            Map.entry("lockUserAccount", 0),
            Map.entry("unlockUserAccount", 0),
            Map.entry("importAssignments", 0));

    /** The functions that change the office. */
    static final Set<String> COMMANDS =
        Set.of(
            "addUser",
            "deleteUser",
            "addRole",
            "deleteRole",
            "addPermObj",
            "deletePermObj",
            "addPermission",
            "deletePermission",
            "grantPermission",
            "revokePermission",
            "assignUser",
            "deassignUser",
            "addInheritance",
            "deleteInheritance",
            "addAscendant",
            "addDescendant",
            "createSsdSet",
            "addSsdRoleMember",
            "deleteSsdRoleMember",
            "setSsdSetCardinality",
            "deleteSsdSet",
            "createDsdSet",
            "addDsdRoleMember",
            "deleteDsdRoleMember",
            "setDsdSetCardinality",
            "deleteDsdSet",
            "createSession",
            "deleteSession",
            "addActiveRole",
            "dropActiveRole",
            "lockUserAccount",
            "unlockUserAccount",
            "importAssignments");

    /**
     * AddUser: adds the user {@code user}, who is assigned no role.
     *
     * <p>Refused: 3 UserExists for {@code user}; 32 TooMany {@code user}.
     */
    public void addUser(String user) {
        call("addUser", keys("user", user), Reader.DONE);
    }

    /**
     * DeleteUser: removes the user {@code user} with its assignments and its lock, and ends its sessions.
     *
     * <p>Refused: 2 NoUser for {@code user}.
     */
    public void deleteUser(String user) {
        call("deleteUser", keys("user", user), Reader.DONE);
    }

    /**
     * AddRole: adds the role {@code role}, to which nobody is assigned and nothing is granted.
     *
     * <p>Refused: 5 RoleExists for {@code role}; 32 TooMany {@code role}.
     */
    public void addRole(String role) {
        call("addRole", keys("role", role), Reader.DONE);
    }

    /**
     * DeleteRole: removes the role {@code role} with its assignments and its grants, and ends each session in which it
     * was activated.
     *
     * <p>Refused: 4 NoRole for {@code role}; 17 RoleInUse while it has an immediate inheritance, as ascendant or as
     * descendant, or is a member of a separation of duty set.
     */
    public void deleteRole(String role) {
        call("deleteRole", keys("role", role), Reader.DONE);
    }

    /**
     * No function of the standard: adds the object {@code object}, which has no permission.
     *
     * <p>Refused: 7 ObjectExists for {@code object}; 32 TooMany {@code object}.
     */
    public void addPermObj(String object) {
        call("addPermObj", keys("object", object), Reader.DONE);
    }

    /**
     * No function of the standard: removes the object {@code object}.
     *
     * <p>Refused: 6 NoObject for {@code object}; 18 ObjectInUse while it has a permission.
     */
    public void deletePermObj(String object) {
        call("deletePermObj", keys("object", object), Reader.DONE);
    }

    /**
     * No function of the standard: adds the permission for the operation {@code operation} on the object {@code
     * object}, which is granted to no role. An operation exists as long as a permission of any object has it.
     *
     * <p>Refused: 6 NoObject for {@code object}; 9 PermissionExists for the two; 32 TooMany {@code permission}.
     */
    public void addPermission(String object, String operation) {
        call("addPermission", keys("object", object, "operation", operation), Reader.DONE);
    }

    /**
     * No function of the standard: removes the permission for {@code operation} on {@code object} with its grants.
     *
     * <p>Refused: 6 NoObject for {@code object}; 8 NoPermission for the two.
     */
    public void deletePermission(String object, String operation) {
        call("deletePermission", keys("object", object, "operation", operation), Reader.DONE);
    }

    /**
     * GrantPermission: grants the permission for {@code operation} on {@code object} to the role {@code role}. It is
     * then a permission of the role and of each role senior to it.
     *
     * <p>Refused: 6 NoObject for {@code object}; 8 NoPermission for {@code object} and {@code operation}; 4 NoRole for
     * {@code role}; 12 AlreadyGranted for the three; 32 TooMany {@code grant}.
     */
    public void grantPermission(String object, String operation, String role) {
        call("grantPermission", keys("object", object, "operation", operation, "role", role), Reader.DONE);
    }

    /**
     * RevokePermission: removes the grant of the permission for {@code operation} on {@code object} to {@code role}.
     * What is granted to a junior of {@code role} stays.
     *
     * <p>Refused: 6 NoObject for {@code object}; 8 NoPermission for {@code object} and {@code operation}; 4 NoRole for
     * {@code role}; 13 NotGranted for the three.
     */
    public void revokePermission(String object, String operation, String role) {
        call("revokePermission", keys("object", object, "operation", operation, "role", role), Reader.DONE);
    }

    /**
     * AssignUser: assigns the user {@code user} to the role {@code role}. The user is then authorized for the role and
     * for each junior of it.
     *
     * <p>Refused: 2 NoUser for {@code user}; 4 NoRole for {@code role}; 10 AlreadyAssigned for the two; 32 TooMany
     * {@code assignment}; 24 StaticSeparation if {@code user} would be authorized for too many members of a static
     * set.
     */
    public void assignUser(String user, String role) {
        call("assignUser", keys("user", user, "role", role), Reader.DONE);
    }

    /**
     * DeassignUser: removes the assignment of {@code user} to {@code role}, and ends each session of the user in which
     * a role was activated for which no other assignment authorizes the user.
     *
     * <p>Refused: 2 NoUser for {@code user}; 4 NoRole for {@code role}; 11 NotAssigned for the two.
     */
    public void deassignUser(String user, String role) {
        call("deassignUser", keys("user", user, "role", role), Reader.DONE);
    }

    /**
     * AddInheritance: makes the role {@code asc} an immediate ascendant of the role {@code desc}, even if it is already
     * senior to it through other roles. {@code asc} inherits the permissions of {@code desc}, and the users of {@code
     * asc} are authorized for {@code desc}.
     *
     * <p>Refused: 4 NoRole for {@code asc} or {@code desc}; 14 EdgeExists for the two; 16 Cycle if {@code desc} is
     * {@code asc} or senior to it; 32 TooMany {@code edge}; 24 StaticSeparation if a user would be authorized for
     * too many members of a static set; 25 DynamicSeparation if a session would have too many members of a dynamic
     * set.
     */
    public void addInheritance(String asc, String desc) {
        call("addInheritance", keys("asc", asc, "desc", desc), Reader.DONE);
    }

    /**
     * DeleteInheritance: removes the immediate inheritance of {@code asc} from {@code desc}. {@code asc} stays senior
     * to {@code desc} if other inheritances lead there. Ends each session whose user is no longer authorized for a role
     * that was activated in it.
     *
     * <p>Refused: 4 NoRole for {@code asc} or {@code desc}; 15 NoEdge for the two.
     */
    public void deleteInheritance(String asc, String desc) {
        call("deleteInheritance", keys("asc", asc, "desc", desc), Reader.DONE);
    }

    /**
     * AddAscendant: adds the role {@code asc} and makes it an immediate ascendant of the role {@code desc}.
     *
     * <p>Refused: 4 NoRole for {@code desc}; 5 RoleExists for {@code asc}; 32 TooMany {@code role}; 32 TooMany {@code
     * edge}.
     */
    public void addAscendant(String asc, String desc) {
        call("addAscendant", keys("asc", asc, "desc", desc), Reader.DONE);
    }

    /**
     * AddDescendant: adds the role {@code desc} and makes the role {@code asc} an immediate ascendant of it.
     *
     * <p>Refused: 4 NoRole for {@code asc}; 5 RoleExists for {@code desc}; 32 TooMany {@code role}; 32 TooMany {@code
     * edge}.
     */
    public void addDescendant(String asc, String desc) {
        call("addDescendant", keys("asc", asc, "desc", desc), Reader.DONE);
    }

    /**
     * CreateSsdSet: makes the static separation of duty set {@code set} with the members {@code roles}. From then on
     * each user is authorized for fewer of them than {@code cardinality}.
     *
     * <p>Refused: 4 NoRole for one of {@code roles}; 19 SetExists for {@code set}; 23 BadCardinality unless 2 &lt;=
     * {@code cardinality} &lt;= number of {@code roles}; 32 TooMany {@code ssdSet}; 32 TooMany {@code member}; 24
     * StaticSeparation for the new set.
     */
    public void createSsdSet(String set, Collection<String> roles, long cardinality) {
        call("createSsdSet", keys("set", set, "roles", roles, "cardinality", cardinality), Reader.DONE);
    }

    /**
     * AddSsdRoleMember: makes the role {@code role} a member of the static set {@code set}.
     *
     * <p>Refused: 20 NoSet for {@code set}; 4 NoRole for {@code role}; 21 MemberExists for the two; 32 TooMany {@code
     * member}; 24 StaticSeparation for the set with its new member.
     */
    public void addSsdRoleMember(String set, String role) {
        call("addSsdRoleMember", keys("set", set, "role", role), Reader.DONE);
    }

    /**
     * DeleteSsdRoleMember: removes the member {@code role} from the static set {@code set}.
     *
     * <p>Refused: 20 NoSet for {@code set}; 4 NoRole for {@code role}; 22 NoMember for the two; 23 BadCardinality
     * unless the cardinality is less than the number of members.
     */
    public void deleteSsdRoleMember(String set, String role) {
        call("deleteSsdRoleMember", keys("set", set, "role", role), Reader.DONE);
    }

    /**
     * SetSsdSetCardinality: gives the static set {@code set} the cardinality {@code cardinality}, which may be the
     * current one.
     *
     * <p>Refused: 20 NoSet for {@code set}; 23 BadCardinality unless 2 &lt;= {@code cardinality} &lt;= number of
     * members; 24 StaticSeparation for the set with its new cardinality.
     */
    public void setSsdSetCardinality(String set, long cardinality) {
        call("setSsdSetCardinality", keys("set", set, "cardinality", cardinality), Reader.DONE);
    }

    /**
     * DeleteSsdSet: removes the static set {@code set}. Its members stay as roles.
     *
     * <p>Refused: 20 NoSet for {@code set}.
     */
    public void deleteSsdSet(String set) {
        call("deleteSsdSet", keys("set", set), Reader.DONE);
    }

    /**
     * CreateDsdSet: makes the dynamic separation of duty set {@code set} with the members {@code roles}. From then on
     * each session has fewer of them among its roles (sessionRoles) than {@code cardinality}.
     *
     * <p>Refused: 4 NoRole for one of {@code roles}; 19 SetExists for {@code set}; 23 BadCardinality unless 2 &lt;=
     * {@code cardinality} &lt;= number of {@code roles}; 32 TooMany {@code dsdSet}; 32 TooMany {@code member}; 25
     * DynamicSeparation for the new set.
     */
    public void createDsdSet(String set, Collection<String> roles, long cardinality) {
        call("createDsdSet", keys("set", set, "roles", roles, "cardinality", cardinality), Reader.DONE);
    }

    /**
     * AddDsdRoleMember: makes the role {@code role} a member of the dynamic set {@code set}.
     *
     * <p>Refused: 20 NoSet for {@code set}; 4 NoRole for {@code role}; 21 MemberExists for the two; 32 TooMany {@code
     * member}; 25 DynamicSeparation for the set with its new member.
     */
    public void addDsdRoleMember(String set, String role) {
        call("addDsdRoleMember", keys("set", set, "role", role), Reader.DONE);
    }

    /**
     * DeleteDsdRoleMember: removes the member {@code role} from the dynamic set {@code set}.
     *
     * <p>Refused: 20 NoSet for {@code set}; 4 NoRole for {@code role}; 22 NoMember for the two; 23 BadCardinality
     * unless the cardinality is less than the number of members.
     */
    public void deleteDsdRoleMember(String set, String role) {
        call("deleteDsdRoleMember", keys("set", set, "role", role), Reader.DONE);
    }

    /**
     * SetDsdSetCardinality: gives the dynamic set {@code set} the cardinality {@code cardinality}, which may be the
     * current one.
     *
     * <p>Refused: 20 NoSet for {@code set}; 23 BadCardinality unless 2 &lt;= {@code cardinality} &lt;= number of
     * members; 25 DynamicSeparation for the set with its new cardinality.
     */
    public void setDsdSetCardinality(String set, long cardinality) {
        call("setDsdSetCardinality", keys("set", set, "cardinality", cardinality), Reader.DONE);
    }

    /**
     * DeleteDsdSet: removes the dynamic set {@code set}. Its members stay as roles.
     *
     * <p>Refused: 20 NoSet for {@code set}.
     */
    public void deleteDsdSet(String set) {
        call("deleteDsdSet", keys("set", set), Reader.DONE);
    }

    /**
     * CreateSession: makes the session {@code session} of the user {@code user}, in which exactly the roles {@code
     * roles} are activated. It has these roles and their juniors.
     *
     * <p>Refused: 2 NoUser for {@code user}; 4 NoRole for one of {@code roles}; 27 SessionExists for {@code session};
     * 29 NotAuthorized if {@code user} is not authorized for one of {@code roles}; 37 UserLocked for {@code user};
     * 32 TooMany {@code session}; 32 TooMany {@code activeRole}; 25 DynamicSeparation if the session would have too
     * many members of a dynamic set.
     */
    public void createSession(String user, Collection<String> roles, String session) {
        call("createSession", keys("user", user, "roles", roles, "session", session), Reader.DONE);
    }

    /**
     * DeleteSession: ends the session {@code session} of the user {@code user}.
     *
     * <p>Refused: 2 NoUser for {@code user}; 26 NoSession for {@code session}; 28 NotOwner if the session has another
     * user.
     */
    public void deleteSession(String user, String session) {
        call("deleteSession", keys("user", user, "session", session), Reader.DONE);
    }

    /**
     * AddActiveRole: activates the role {@code role} in the session {@code session} of the user {@code user}. The
     * session then has this role and its juniors.
     *
     * <p>Refused: 2 NoUser for {@code user}; 26 NoSession for {@code session}; 4 NoRole for {@code role}; 28 NotOwner
     * if the session has another user; 30 AlreadyActive if {@code role} itself was activated; 29 NotAuthorized if
     * {@code user} is not authorized for {@code role}; 32 TooMany {@code activeRole}; 25 DynamicSeparation if the
     * session would have too many members of a dynamic set.
     */
    public void addActiveRole(String user, String session, String role) {
        call("addActiveRole", keys("user", user, "session", session, "role", role), Reader.DONE);
    }

    /**
     * DropActiveRole: deactivates the role {@code role} in the session {@code session} of the user {@code user}. The
     * session still has it if it is a junior of another activated role.
     *
     * <p>Refused: 2 NoUser for {@code user}; 26 NoSession for {@code session}; 4 NoRole for {@code role}; 28 NotOwner
     * if the session has another user; 31 NotActive if {@code role} itself was not activated.
     */
    public void dropActiveRole(String user, String session, String role) {
        call("dropActiveRole", keys("user", user, "session", session, "role", role), Reader.DONE);
    }

    /**
     * No function of the standard: locks the user {@code user}, who may be locked already, and ends the user's
     * sessions. A locked user keeps its assignments, but gets no session.
     *
     * <p>Refused: 51 Version in an office of version 1; 2 NoUser for {@code user}.
     */
    public void lockUserAccount(String user) {
        call("lockUserAccount", keys("user", user), Reader.DONE);
    }

    /**
     * No function of the standard: removes the lock of the user {@code user}, if there is one.
     *
     * <p>Refused: 51 Version in an office of version 1; 2 NoUser for {@code user}.
     */
    public void unlockUserAccount(String user) {
        call("unlockUserAccount", keys("user", user), Reader.DONE);
    }

    /**
     * No function of the standard: does assignUser for each record of {@code csv} in turn. The answer counts the pairs
     * that were already assigned and those that it assigned, and lists every other record, counted from 1, with its
     * refusal: 2, 4, 24 or 32.
     *
     * <p>Refused: 32 TooMany {@code record}.
     */
    public ImportReport importAssignments(String csv) {
        return call("importAssignments", keys("csv", csv), Reader.IMPORT);
    }

    /**
     * CheckAccess: whether the session {@code session} may do the operation {@code operation} on the object {@code
     * object}. It may if the permission is granted to one of its roles.
     *
     * <p>Refused: 26 NoSession for {@code session}; 6 NoObject for {@code object}; 33 NoOperation for {@code
     * operation}.
     */
    public boolean checkAccess(String session, String operation, String object) {
        return call("checkAccess", keys("session", session, "operation", operation, "object", object), Reader.ACCESS);
    }

    /**
     * AssignedUsers: the users who are assigned to the role {@code role}.
     *
     * <p>Refused: 4 NoRole for {@code role}.
     */
    public List<String> assignedUsers(String role) {
        return call("assignedUsers", keys("role", role), Reader.NAMES);
    }

    /**
     * AssignedRoles: the roles that the user {@code user} is assigned to.
     *
     * <p>Refused: 2 NoUser for {@code user}.
     */
    public List<String> assignedRoles(String user) {
        return call("assignedRoles", keys("user", user), Reader.NAMES);
    }

    /**
     * AuthorizedUsers: the users who are assigned to the role {@code role} or to a senior of it.
     *
     * <p>Refused: 4 NoRole for {@code role}.
     */
    public List<String> authorizedUsers(String role) {
        return call("authorizedUsers", keys("role", role), Reader.NAMES);
    }

    /**
     * AuthorizedRoles: the roles that the user {@code user} is assigned to, and their juniors.
     *
     * <p>Refused: 2 NoUser for {@code user}.
     */
    public List<String> authorizedRoles(String user) {
        return call("authorizedRoles", keys("user", user), Reader.NAMES);
    }

    /**
     * RolePermissions: the permissions that are granted to the role {@code role} or to a junior of it.
     *
     * <p>Refused: 4 NoRole for {@code role}.
     */
    public List<Permission> rolePermissions(String role) {
        return call("rolePermissions", keys("role", role), Reader.PERMISSIONS);
    }

    /**
     * UserPermissions: the permissions that are granted to the roles for which the user {@code user} is authorized.
     *
     * <p>Refused: 2 NoUser for {@code user}.
     */
    public List<Permission> userPermissions(String user) {
        return call("userPermissions", keys("user", user), Reader.PERMISSIONS);
    }

    /**
     * SessionRoles: the roles that were activated in the session {@code session}, and their juniors.
     *
     * <p>Refused: 26 NoSession for {@code session}.
     */
    public List<String> sessionRoles(String session) {
        return call("sessionRoles", keys("session", session), Reader.NAMES);
    }

    /**
     * SessionPermissions: the permissions that are granted to the roles of the session {@code session}.
     *
     * <p>Refused: 26 NoSession for {@code session}.
     */
    public List<Permission> sessionPermissions(String session) {
        return call("sessionPermissions", keys("session", session), Reader.PERMISSIONS);
    }

    /**
     * RoleOperationsOnObject: the operations on the object {@code object} among the permissions of the role {@code
     * role}.
     *
     * <p>Refused: 4 NoRole for {@code role}; 6 NoObject for {@code object}.
     */
    public List<String> roleOperationsOnObject(String role, String object) {
        return call("roleOperationsOnObject", keys("role", role, "object", object), Reader.NAMES);
    }

    /**
     * UserOperationsOnObject: the operations on the object {@code object} among the permissions of the user {@code
     * user}.
     *
     * <p>Refused: 2 NoUser for {@code user}; 6 NoObject for {@code object}.
     */
    public List<String> userOperationsOnObject(String user, String object) {
        return call("userOperationsOnObject", keys("user", user, "object", object), Reader.NAMES);
    }

    /**
     * SsdRoleSets: the static separation of duty sets.
     */
    public List<String> ssdRoleSets() {
        return call("ssdRoleSets", keys(), Reader.NAMES);
    }

    /**
     * SsdRoleSetRoles: the members of the static set {@code set}.
     *
     * <p>Refused: 20 NoSet for {@code set}.
     */
    public List<String> ssdRoleSetRoles(String set) {
        return call("ssdRoleSetRoles", keys("set", set), Reader.NAMES);
    }

    /**
     * SsdRoleSetCardinality: the cardinality of the static set {@code set}.
     *
     * <p>Refused: 20 NoSet for {@code set}.
     */
    public long ssdRoleSetCardinality(String set) {
        return call("ssdRoleSetCardinality", keys("set", set), Reader.COUNT);
    }

    /**
     * DsdRoleSets: the dynamic separation of duty sets.
     */
    public List<String> dsdRoleSets() {
        return call("dsdRoleSets", keys(), Reader.NAMES);
    }

    /**
     * DsdRoleSetRoles: the members of the dynamic set {@code set}.
     *
     * <p>Refused: 20 NoSet for {@code set}.
     */
    public List<String> dsdRoleSetRoles(String set) {
        return call("dsdRoleSetRoles", keys("set", set), Reader.NAMES);
    }

    /**
     * DsdRoleSetCardinality: the cardinality of the dynamic set {@code set}.
     *
     * <p>Refused: 20 NoSet for {@code set}.
     */
    public long dsdRoleSetCardinality(String set) {
        return call("dsdRoleSetCardinality", keys("set", set), Reader.COUNT);
    }

    /**
     * No function of the standard: the roles to which the permission for {@code operation} on {@code object} is granted
     * directly.
     *
     * <p>Refused: 6 NoObject for {@code object}; 8 NoPermission for the two.
     */
    public List<String> permissionRoles(String object, String operation) {
        return call("permissionRoles", keys("object", object, "operation", operation), Reader.NAMES);
    }

    /** Calls a function, and reads its answer. */
    abstract <T> T call(String function, Map<String, Object> keys, Reader<T> reader);

    /** The keys of a request with their values, in turn. */
    static Map<String, Object> keys(Object... pairs) {
        var keys = new LinkedHashMap<String, Object>();
        for (var at = 0; at < pairs.length; at += 2) {
            keys.put((String) pairs[at], pairs[at + 1]);
        }
        return keys;
    }
}
