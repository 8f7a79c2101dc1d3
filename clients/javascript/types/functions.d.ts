/**
 * What the answer of each function has as its value.
 *
 * @type {Readonly<Record<string, string>>}
 */
export const VALUES: Readonly<Record<string, string>>;
/**
 * The statuses of the refusals that have another one than 409, by their codes.
 *
 * @type {Readonly<Record<number, number[]>>}
 */
export const STATUSES: Readonly<Record<number, number[]>>;
/**
 * The names of the refusals, by their codes.
 *
 * @type {Readonly<Record<number, string>>}
 */
export const NAMES: Readonly<Record<number, string>>;
/**
 * The commands that may be repeated if their answer was lost. The code, if it isn't 0, then says that it was done.
 *
 * @type {Readonly<Record<string, number>>}
 */
export const AGAIN: Readonly<Record<string, number>>;
/**
 * The functions as methods. Their parameters are keys of docs/reference/api.md. The promise of each is rejected with an
 * `OfficeError` if it has no result.
 */
export class Functions {
    /**
     * @protected
     * @param {string} name
     * @param {Record<string, unknown>} keys
     * @returns {Promise<any>}
     */
    protected call(name: string, keys: Record<string, unknown>): Promise<any>;
    /**
     * AddUser: adds the user `user`, who is assigned no role.
     *
     * Refused: 3 UserExists for `user`; 32 TooMany `user`.
     *
     * @param {string} user
     * @returns {Promise<void>}
     */
    addUser(user: string): Promise<void>;
    /**
     * DeleteUser: removes the user `user` with its assignments and its lock, and ends its sessions.
     *
     * Refused: 2 NoUser for `user`.
     *
     * @param {string} user
     * @returns {Promise<void>}
     */
    deleteUser(user: string): Promise<void>;
    /**
     * AddRole: adds the role `role`, to which nobody is assigned and nothing is granted.
     *
     * Refused: 5 RoleExists for `role`; 32 TooMany `role`.
     *
     * @param {string} role
     * @returns {Promise<void>}
     */
    addRole(role: string): Promise<void>;
    /**
     * DeleteRole: removes the role `role` with its assignments and its grants, and ends each session in which it was
     * activated.
     *
     * Refused: 4 NoRole for `role`; 17 RoleInUse while it has an immediate inheritance, as ascendant or as descendant, or
     * is a member of a separation of duty set.
     *
     * @param {string} role
     * @returns {Promise<void>}
     */
    deleteRole(role: string): Promise<void>;
    /**
     * No function of the standard: adds the object `object`, which has no permission.
     *
     * Refused: 7 ObjectExists for `object`; 32 TooMany `object`.
     *
     * @param {string} object
     * @returns {Promise<void>}
     */
    addPermObj(object: string): Promise<void>;
    /**
     * No function of the standard: removes the object `object`.
     *
     * Refused: 6 NoObject for `object`; 18 ObjectInUse while it has a permission.
     *
     * @param {string} object
     * @returns {Promise<void>}
     */
    deletePermObj(object: string): Promise<void>;
    /**
     * No function of the standard: adds the permission for the operation `operation` on the object `object`, which is
     * granted to no role. An operation exists as long as a permission of any object has it.
     *
     * Refused: 6 NoObject for `object`; 9 PermissionExists for the two; 32 TooMany `permission`.
     *
     * @param {string} object
     * @param {string} operation
     * @returns {Promise<void>}
     */
    addPermission(object: string, operation: string): Promise<void>;
    /**
     * No function of the standard: removes the permission for `operation` on `object` with its grants.
     *
     * Refused: 6 NoObject for `object`; 8 NoPermission for the two.
     *
     * @param {string} object
     * @param {string} operation
     * @returns {Promise<void>}
     */
    deletePermission(object: string, operation: string): Promise<void>;
    /**
     * GrantPermission: grants the permission for `operation` on `object` to the role `role`. It is then a permission of
     * the role and of each role senior to it.
     *
     * Refused: 6 NoObject for `object`; 8 NoPermission for `object` and `operation`; 4 NoRole for `role`; 12
     * AlreadyGranted for the three; 32 TooMany `grant`.
     *
     * @param {string} object
     * @param {string} operation
     * @param {string} role
     * @returns {Promise<void>}
     */
    grantPermission(object: string, operation: string, role: string): Promise<void>;
    /**
     * RevokePermission: removes the grant of the permission for `operation` on `object` to `role`. What is granted to a
     * junior of `role` stays.
     *
     * Refused: 6 NoObject for `object`; 8 NoPermission for `object` and `operation`; 4 NoRole for `role`; 13 NotGranted
     * for the three.
     *
     * @param {string} object
     * @param {string} operation
     * @param {string} role
     * @returns {Promise<void>}
     */
    revokePermission(object: string, operation: string, role: string): Promise<void>;
    /**
     * AssignUser: assigns the user `user` to the role `role`. The user is then authorized for the role and for each
     * junior of it.
     *
     * Refused: 2 NoUser for `user`; 4 NoRole for `role`; 10 AlreadyAssigned for the two; 32 TooMany `assignment`; 24
     * StaticSeparation if `user` would be authorized for too many members of a static set.
     *
     * @param {string} user
     * @param {string} role
     * @returns {Promise<void>}
     */
    assignUser(user: string, role: string): Promise<void>;
    /**
     * DeassignUser: removes the assignment of `user` to `role`, and ends each session of the user in which a role was
     * activated for which no other assignment authorizes the user.
     *
     * Refused: 2 NoUser for `user`; 4 NoRole for `role`; 11 NotAssigned for the two.
     *
     * @param {string} user
     * @param {string} role
     * @returns {Promise<void>}
     */
    deassignUser(user: string, role: string): Promise<void>;
    /**
     * AddInheritance: makes the role `asc` an immediate ascendant of the role `desc`, even if it is already senior to it
     * through other roles. `asc` inherits the permissions of `desc`, and the users of `asc` are authorized for `desc`.
     *
     * Refused: 4 NoRole for `asc` or `desc`; 14 EdgeExists for the two; 16 Cycle if `desc` is `asc` or senior to it; 32
     * TooMany `edge`; 24 StaticSeparation if a user would be authorized for too many members of a static set; 25
     * DynamicSeparation if a session would have too many members of a dynamic set.
     *
     * @param {string} asc
     * @param {string} desc
     * @returns {Promise<void>}
     */
    addInheritance(asc: string, desc: string): Promise<void>;
    /**
     * DeleteInheritance: removes the immediate inheritance of `asc` from `desc`. `asc` stays senior to `desc` if other
     * inheritances lead there. Ends each session whose user is no longer authorized for a role that was activated in it.
     *
     * Refused: 4 NoRole for `asc` or `desc`; 15 NoEdge for the two.
     *
     * @param {string} asc
     * @param {string} desc
     * @returns {Promise<void>}
     */
    deleteInheritance(asc: string, desc: string): Promise<void>;
    /**
     * AddAscendant: adds the role `asc` and makes it an immediate ascendant of the role `desc`.
     *
     * Refused: 4 NoRole for `desc`; 5 RoleExists for `asc`; 32 TooMany `role`; 32 TooMany `edge`.
     *
     * @param {string} asc
     * @param {string} desc
     * @returns {Promise<void>}
     */
    addAscendant(asc: string, desc: string): Promise<void>;
    /**
     * AddDescendant: adds the role `desc` and makes the role `asc` an immediate ascendant of it.
     *
     * Refused: 4 NoRole for `asc`; 5 RoleExists for `desc`; 32 TooMany `role`; 32 TooMany `edge`.
     *
     * @param {string} asc
     * @param {string} desc
     * @returns {Promise<void>}
     */
    addDescendant(asc: string, desc: string): Promise<void>;
    /**
     * CreateSsdSet: makes the static separation of duty set `set` with the members `roles`. From then on each user is
     * authorized for fewer of them than `cardinality`.
     *
     * Refused: 4 NoRole for one of `roles`; 19 SetExists for `set`; 23 BadCardinality unless 2 <= `cardinality` <= number
     * of `roles`; 32 TooMany `ssdSet`; 32 TooMany `member`; 24 StaticSeparation for the new set.
     *
     * @param {string} set
     * @param {readonly string[]} roles
     * @param {number} cardinality
     * @returns {Promise<void>}
     */
    createSsdSet(set: string, roles: readonly string[], cardinality: number): Promise<void>;
    /**
     * AddSsdRoleMember: makes the role `role` a member of the static set `set`.
     *
     * Refused: 20 NoSet for `set`; 4 NoRole for `role`; 21 MemberExists for the two; 32 TooMany `member`; 24
     * StaticSeparation for the set with its new member.
     *
     * @param {string} set
     * @param {string} role
     * @returns {Promise<void>}
     */
    addSsdRoleMember(set: string, role: string): Promise<void>;
    /**
     * DeleteSsdRoleMember: removes the member `role` from the static set `set`.
     *
     * Refused: 20 NoSet for `set`; 4 NoRole for `role`; 22 NoMember for the two; 23 BadCardinality unless the cardinality
     * is less than the number of members.
     *
     * @param {string} set
     * @param {string} role
     * @returns {Promise<void>}
     */
    deleteSsdRoleMember(set: string, role: string): Promise<void>;
    /**
     * SetSsdSetCardinality: gives the static set `set` the cardinality `cardinality`, which may be the current one.
     *
     * Refused: 20 NoSet for `set`; 23 BadCardinality unless 2 <= `cardinality` <= number of members; 24 StaticSeparation
     * for the set with its new cardinality.
     *
     * @param {string} set
     * @param {number} cardinality
     * @returns {Promise<void>}
     */
    setSsdSetCardinality(set: string, cardinality: number): Promise<void>;
    /**
     * DeleteSsdSet: removes the static set `set`. Its members stay as roles.
     *
     * Refused: 20 NoSet for `set`.
     *
     * @param {string} set
     * @returns {Promise<void>}
     */
    deleteSsdSet(set: string): Promise<void>;
    /**
     * CreateDsdSet: makes the dynamic separation of duty set `set` with the members `roles`. From then on each session
     * has fewer of them among its roles (sessionRoles) than `cardinality`.
     *
     * Refused: 4 NoRole for one of `roles`; 19 SetExists for `set`; 23 BadCardinality unless 2 <= `cardinality` <= number
     * of `roles`; 32 TooMany `dsdSet`; 32 TooMany `member`; 25 DynamicSeparation for the new set.
     *
     * @param {string} set
     * @param {readonly string[]} roles
     * @param {number} cardinality
     * @returns {Promise<void>}
     */
    createDsdSet(set: string, roles: readonly string[], cardinality: number): Promise<void>;
    /**
     * AddDsdRoleMember: makes the role `role` a member of the dynamic set `set`.
     *
     * Refused: 20 NoSet for `set`; 4 NoRole for `role`; 21 MemberExists for the two; 32 TooMany `member`; 25
     * DynamicSeparation for the set with its new member.
     *
     * @param {string} set
     * @param {string} role
     * @returns {Promise<void>}
     */
    addDsdRoleMember(set: string, role: string): Promise<void>;
    /**
     * DeleteDsdRoleMember: removes the member `role` from the dynamic set `set`.
     *
     * Refused: 20 NoSet for `set`; 4 NoRole for `role`; 22 NoMember for the two; 23 BadCardinality unless the cardinality
     * is less than the number of members.
     *
     * @param {string} set
     * @param {string} role
     * @returns {Promise<void>}
     */
    deleteDsdRoleMember(set: string, role: string): Promise<void>;
    /**
     * SetDsdSetCardinality: gives the dynamic set `set` the cardinality `cardinality`, which may be the current one.
     *
     * Refused: 20 NoSet for `set`; 23 BadCardinality unless 2 <= `cardinality` <= number of members; 25 DynamicSeparation
     * for the set with its new cardinality.
     *
     * @param {string} set
     * @param {number} cardinality
     * @returns {Promise<void>}
     */
    setDsdSetCardinality(set: string, cardinality: number): Promise<void>;
    /**
     * DeleteDsdSet: removes the dynamic set `set`. Its members stay as roles.
     *
     * Refused: 20 NoSet for `set`.
     *
     * @param {string} set
     * @returns {Promise<void>}
     */
    deleteDsdSet(set: string): Promise<void>;
    /**
     * CreateSession: makes the session `session` of the user `user`, in which exactly the roles `roles` are activated. It
     * has these roles and their juniors.
     *
     * Refused: 2 NoUser for `user`; 4 NoRole for one of `roles`; 27 SessionExists for `session`; 29 NotAuthorized if
     * `user` is not authorized for one of `roles`; 37 UserLocked for `user`; 32 TooMany `session`; 32 TooMany
     * `activeRole`; 25 DynamicSeparation if the session would have too many members of a dynamic set.
     *
     * @param {string} user
     * @param {readonly string[]} roles
     * @param {string} session
     * @returns {Promise<void>}
     */
    createSession(user: string, roles: readonly string[], session: string): Promise<void>;
    /**
     * DeleteSession: ends the session `session` of the user `user`.
     *
     * Refused: 2 NoUser for `user`; 26 NoSession for `session`; 28 NotOwner if the session has another user.
     *
     * @param {string} user
     * @param {string} session
     * @returns {Promise<void>}
     */
    deleteSession(user: string, session: string): Promise<void>;
    /**
     * AddActiveRole: activates the role `role` in the session `session` of the user `user`. The session then has this
     * role and its juniors.
     *
     * Refused: 2 NoUser for `user`; 26 NoSession for `session`; 4 NoRole for `role`; 28 NotOwner if the session has
     * another user; 30 AlreadyActive if `role` itself was activated; 29 NotAuthorized if `user` is not authorized for
     * `role`; 32 TooMany `activeRole`; 25 DynamicSeparation if the session would have too many members of a dynamic set.
     *
     * @param {string} user
     * @param {string} session
     * @param {string} role
     * @returns {Promise<void>}
     */
    addActiveRole(user: string, session: string, role: string): Promise<void>;
    /**
     * DropActiveRole: deactivates the role `role` in the session `session` of the user `user`. The session still has it
     * if it is a junior of another activated role.
     *
     * Refused: 2 NoUser for `user`; 26 NoSession for `session`; 4 NoRole for `role`; 28 NotOwner if the session has
     * another user; 31 NotActive if `role` itself was not activated.
     *
     * @param {string} user
     * @param {string} session
     * @param {string} role
     * @returns {Promise<void>}
     */
    dropActiveRole(user: string, session: string, role: string): Promise<void>;
    /**
     * No function of the standard: locks the user `user`, who may be locked already, and ends the user's sessions. A
     * locked user keeps its assignments, but gets no session.
     *
     * Refused: 51 Version in an office of version 1; 2 NoUser for `user`.
     *
     * @param {string} user
     * @returns {Promise<void>}
     */
    lockUserAccount(user: string): Promise<void>;
    /**
     * No function of the standard: removes the lock of the user `user`, if there is one.
     *
     * Refused: 51 Version in an office of version 1; 2 NoUser for `user`.
     *
     * @param {string} user
     * @returns {Promise<void>}
     */
    unlockUserAccount(user: string): Promise<void>;
    /**
     * No function of the standard: does assignUser for each record of `csv` in turn. The answer counts the pairs that
     * were already assigned and those that it assigned, and lists every other record, counted from 1, with its refusal:
     * 2, 4, 24 or 32.
     *
     * Refused: 32 TooMany `record`.
     *
     * @param {string} csv
     * @returns {Promise<import("./values.js").ImportReport>}
     */
    importAssignments(csv: string): Promise<import("./values.js").ImportReport>;
    /**
     * CheckAccess: whether the session `session` may do the operation `operation` on the object `object`. It may if the
     * permission is granted to one of its roles.
     *
     * Refused: 26 NoSession for `session`; 6 NoObject for `object`; 33 NoOperation for `operation`.
     *
     * @param {string} session
     * @param {string} operation
     * @param {string} object
     * @returns {Promise<boolean>}
     */
    checkAccess(session: string, operation: string, object: string): Promise<boolean>;
    /**
     * AssignedUsers: the users who are assigned to the role `role`.
     *
     * Refused: 4 NoRole for `role`.
     *
     * @param {string} role
     * @returns {Promise<string[]>}
     */
    assignedUsers(role: string): Promise<string[]>;
    /**
     * AssignedRoles: the roles that the user `user` is assigned to.
     *
     * Refused: 2 NoUser for `user`.
     *
     * @param {string} user
     * @returns {Promise<string[]>}
     */
    assignedRoles(user: string): Promise<string[]>;
    /**
     * AuthorizedUsers: the users who are assigned to the role `role` or to a senior of it.
     *
     * Refused: 4 NoRole for `role`.
     *
     * @param {string} role
     * @returns {Promise<string[]>}
     */
    authorizedUsers(role: string): Promise<string[]>;
    /**
     * AuthorizedRoles: the roles that the user `user` is assigned to, and their juniors.
     *
     * Refused: 2 NoUser for `user`.
     *
     * @param {string} user
     * @returns {Promise<string[]>}
     */
    authorizedRoles(user: string): Promise<string[]>;
    /**
     * RolePermissions: the permissions that are granted to the role `role` or to a junior of it.
     *
     * Refused: 4 NoRole for `role`.
     *
     * @param {string} role
     * @returns {Promise<import("./values.js").Permission[]>}
     */
    rolePermissions(role: string): Promise<import("./values.js").Permission[]>;
    /**
     * UserPermissions: the permissions that are granted to the roles for which the user `user` is authorized.
     *
     * Refused: 2 NoUser for `user`.
     *
     * @param {string} user
     * @returns {Promise<import("./values.js").Permission[]>}
     */
    userPermissions(user: string): Promise<import("./values.js").Permission[]>;
    /**
     * SessionRoles: the roles that were activated in the session `session`, and their juniors.
     *
     * Refused: 26 NoSession for `session`.
     *
     * @param {string} session
     * @returns {Promise<string[]>}
     */
    sessionRoles(session: string): Promise<string[]>;
    /**
     * SessionPermissions: the permissions that are granted to the roles of the session `session`.
     *
     * Refused: 26 NoSession for `session`.
     *
     * @param {string} session
     * @returns {Promise<import("./values.js").Permission[]>}
     */
    sessionPermissions(session: string): Promise<import("./values.js").Permission[]>;
    /**
     * RoleOperationsOnObject: the operations on the object `object` among the permissions of the role `role`.
     *
     * Refused: 4 NoRole for `role`; 6 NoObject for `object`.
     *
     * @param {string} role
     * @param {string} object
     * @returns {Promise<string[]>}
     */
    roleOperationsOnObject(role: string, object: string): Promise<string[]>;
    /**
     * UserOperationsOnObject: the operations on the object `object` among the permissions of the user `user`.
     *
     * Refused: 2 NoUser for `user`; 6 NoObject for `object`.
     *
     * @param {string} user
     * @param {string} object
     * @returns {Promise<string[]>}
     */
    userOperationsOnObject(user: string, object: string): Promise<string[]>;
    /**
     * SsdRoleSets: the static separation of duty sets.
     *
     * @returns {Promise<string[]>}
     */
    ssdRoleSets(): Promise<string[]>;
    /**
     * SsdRoleSetRoles: the members of the static set `set`.
     *
     * Refused: 20 NoSet for `set`.
     *
     * @param {string} set
     * @returns {Promise<string[]>}
     */
    ssdRoleSetRoles(set: string): Promise<string[]>;
    /**
     * SsdRoleSetCardinality: the cardinality of the static set `set`.
     *
     * Refused: 20 NoSet for `set`.
     *
     * @param {string} set
     * @returns {Promise<number>}
     */
    ssdRoleSetCardinality(set: string): Promise<number>;
    /**
     * DsdRoleSets: the dynamic separation of duty sets.
     *
     * @returns {Promise<string[]>}
     */
    dsdRoleSets(): Promise<string[]>;
    /**
     * DsdRoleSetRoles: the members of the dynamic set `set`.
     *
     * Refused: 20 NoSet for `set`.
     *
     * @param {string} set
     * @returns {Promise<string[]>}
     */
    dsdRoleSetRoles(set: string): Promise<string[]>;
    /**
     * DsdRoleSetCardinality: the cardinality of the dynamic set `set`.
     *
     * Refused: 20 NoSet for `set`.
     *
     * @param {string} set
     * @returns {Promise<number>}
     */
    dsdRoleSetCardinality(set: string): Promise<number>;
    /**
     * No function of the standard: the roles to which the permission for `operation` on `object` is granted directly.
     *
     * Refused: 6 NoObject for `object`; 8 NoPermission for the two.
     *
     * @param {string} object
     * @param {string} operation
     * @returns {Promise<string[]>}
     */
    permissionRoles(object: string, operation: string): Promise<string[]>;
}
