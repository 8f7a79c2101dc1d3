// The functions of docs/reference/api.md as methods. bin/clients writes this file: do not edit it.

/**
 * What the answer of each function has as its value.
 *
 * @type {Readonly<Record<string, string>>}
 */
export const VALUES = {
  addUser: "done",
  deleteUser: "done",
  addRole: "done",
  deleteRole: "done",
  addPermObj: "done",
  deletePermObj: "done",
  addPermission: "done",
  deletePermission: "done",
  grantPermission: "done",
  revokePermission: "done",
  assignUser: "done",
  deassignUser: "done",
  addInheritance: "done",
  deleteInheritance: "done",
  addAscendant: "done",
  addDescendant: "done",
  createSsdSet: "done",
  addSsdRoleMember: "done",
  deleteSsdRoleMember: "done",
  setSsdSetCardinality: "done",
  deleteSsdSet: "done",
  createDsdSet: "done",
  addDsdRoleMember: "done",
  deleteDsdRoleMember: "done",
  setDsdSetCardinality: "done",
  deleteDsdSet: "done",
  createSession: "done",
  deleteSession: "done",
  addActiveRole: "done",
  dropActiveRole: "done",
  lockUserAccount: "done",
  unlockUserAccount: "done",
  importAssignments: "import",
  checkAccess: "access",
  assignedUsers: "names",
  assignedRoles: "names",
  authorizedUsers: "names",
  authorizedRoles: "names",
  rolePermissions: "permissions",
  userPermissions: "permissions",
  sessionRoles: "names",
  sessionPermissions: "permissions",
  roleOperationsOnObject: "names",
  userOperationsOnObject: "names",
  ssdRoleSets: "names",
  ssdRoleSetRoles: "names",
  ssdRoleSetCardinality: "count",
  dsdRoleSets: "names",
  dsdRoleSetRoles: "names",
  dsdRoleSetCardinality: "count",
  permissionRoles: "names",
};

/**
 * The statuses of the refusals that have another one than 409, by their codes.
 *
 * @type {Readonly<Record<number, number[]>>}
 */
export const STATUSES = {
  1: [400],
  34: [400, 405, 411, 413, 431, 501],
  35: [404],
  36: [400],
  40: [503],
  41: [500],
  42: [500],
  60: [503],
  61: [503],
  62: [401],
  63: [403],
  64: [429],
  65: [403],
  66: [421],
  67: [412],
};

/**
 * The names of the refusals, by their codes.
 *
 * @type {Readonly<Record<number, string>>}
 */
export const NAMES = {
  1: "BadName",
  2: "NoUser",
  3: "UserExists",
  4: "NoRole",
  5: "RoleExists",
  6: "NoObject",
  7: "ObjectExists",
  8: "NoPermission",
  9: "PermissionExists",
  10: "AlreadyAssigned",
  11: "NotAssigned",
  12: "AlreadyGranted",
  13: "NotGranted",
  14: "EdgeExists",
  15: "NoEdge",
  16: "Cycle",
  17: "RoleInUse",
  18: "ObjectInUse",
  19: "SetExists",
  20: "NoSet",
  21: "MemberExists",
  22: "NoMember",
  23: "BadCardinality",
  24: "StaticSeparation",
  25: "DynamicSeparation",
  26: "NoSession",
  27: "SessionExists",
  28: "NotOwner",
  29: "NotAuthorized",
  30: "AlreadyActive",
  31: "NotActive",
  32: "TooMany",
  33: "NoOperation",
  34: "BadRequest",
  35: "UnknownFunction",
  36: "BadCsv",
  37: "UserLocked",
  40: "Memory",
  41: "Store",
  42: "Closed",
  50: "NotAnOffice",
  51: "Version",
  52: "Damaged",
  60: "Unavailable",
  61: "Diverged",
  62: "Unauthorized",
  63: "Forbidden",
  64: "TooManyRequests",
  65: "ForeignOrigin",
  66: "ForeignHost",
  67: "Outdated",
};

/**
 * The commands that may be repeated if their answer was lost. The code, if it isn't 0, then says that it was done.
 *
 * @type {Readonly<Record<string, number>>}
 */
export const AGAIN = {
  addPermission: 9,
  grantPermission: 12,
  assignUser: 10,
  addInheritance: 14,
  addSsdRoleMember: 21,
  setSsdSetCardinality: 0,
  addDsdRoleMember: 21,
  setDsdSetCardinality: 0,
  addActiveRole: 30,
  lockUserAccount: 0,
  unlockUserAccount: 0,
  importAssignments: 0,
};

/**
 * The functions as methods. Their parameters are keys of docs/reference/api.md. The promise of each is rejected with an
 * `OfficeError` if it has no result.
 */
export class Functions {
  /**
   * @protected
   * @param {string} name
   * @param {Record<string, unknown>} keys
   * @returns {Promise<any>}
   */
  async call(name, keys) {
    throw new Error(`${name} of ${Object.keys(keys)} has no server`);
  }

  /**
   * AddUser: adds the user `user`, who is assigned no role.
   *
   * Refused: 3 UserExists for `user`; 32 TooMany `user`.
   *
   * @param {string} user
   * @returns {Promise<void>}
   */
  async addUser(user) {
    return this.call("addUser", { user });
  }

  /**
   * DeleteUser: removes the user `user` with its assignments and its lock, and ends its sessions.
   *
   * Refused: 2 NoUser for `user`.
   *
   * @param {string} user
   * @returns {Promise<void>}
   */
  async deleteUser(user) {
    return this.call("deleteUser", { user });
  }

  /**
   * AddRole: adds the role `role`, to which nobody is assigned and nothing is granted.
   *
   * Refused: 5 RoleExists for `role`; 32 TooMany `role`.
   *
   * @param {string} role
   * @returns {Promise<void>}
   */
  async addRole(role) {
    return this.call("addRole", { role });
  }

  /**
   * DeleteRole: removes the role `role` with its assignments and its grants, and ends each session in which it was
   * activated.
   *
   * Refused: 4 NoRole for `role`; 17 RoleInUse while it has an immediate inheritance, as ascendant or as descendant, or
   * is a member of a separation of duty set.
   *
   * @param {string} role
   * @returns {Promise<void>}
   */
  async deleteRole(role) {
    return this.call("deleteRole", { role });
  }

  /**
   * No function of the standard: adds the object `object`, which has no permission.
   *
   * Refused: 7 ObjectExists for `object`; 32 TooMany `object`.
   *
   * @param {string} object
   * @returns {Promise<void>}
   */
  async addPermObj(object) {
    return this.call("addPermObj", { object });
  }

  /**
   * No function of the standard: removes the object `object`.
   *
   * Refused: 6 NoObject for `object`; 18 ObjectInUse while it has a permission.
   *
   * @param {string} object
   * @returns {Promise<void>}
   */
  async deletePermObj(object) {
    return this.call("deletePermObj", { object });
  }

  /**
   * No function of the standard: adds the permission for the operation `operation` on the object `object`, which is
   * granted to no role. An operation exists as long as a permission of any object has it.
   *
   * Refused: 6 NoObject for `object`; 9 PermissionExists for the two; 32 TooMany `permission`.
   *
   * @param {string} object
   * @param {string} operation
   * @returns {Promise<void>}
   */
  async addPermission(object, operation) {
    return this.call("addPermission", { object, operation });
  }

  /**
   * No function of the standard: removes the permission for `operation` on `object` with its grants.
   *
   * Refused: 6 NoObject for `object`; 8 NoPermission for the two.
   *
   * @param {string} object
   * @param {string} operation
   * @returns {Promise<void>}
   */
  async deletePermission(object, operation) {
    return this.call("deletePermission", { object, operation });
  }

  /**
   * GrantPermission: grants the permission for `operation` on `object` to the role `role`. It is then a permission of
   * the role and of each role senior to it.
   *
   * Refused: 6 NoObject for `object`; 8 NoPermission for `object` and `operation`; 4 NoRole for `role`; 12
   * AlreadyGranted for the three; 32 TooMany `grant`.
   *
   * @param {string} object
   * @param {string} operation
   * @param {string} role
   * @returns {Promise<void>}
   */
  async grantPermission(object, operation, role) {
    return this.call("grantPermission", { object, operation, role });
  }

  /**
   * RevokePermission: removes the grant of the permission for `operation` on `object` to `role`. What is granted to a
   * junior of `role` stays.
   *
   * Refused: 6 NoObject for `object`; 8 NoPermission for `object` and `operation`; 4 NoRole for `role`; 13 NotGranted
   * for the three.
   *
   * @param {string} object
   * @param {string} operation
   * @param {string} role
   * @returns {Promise<void>}
   */
  async revokePermission(object, operation, role) {
    return this.call("revokePermission", { object, operation, role });
  }

  /**
   * AssignUser: assigns the user `user` to the role `role`. The user is then authorized for the role and for each
   * junior of it.
   *
   * Refused: 2 NoUser for `user`; 4 NoRole for `role`; 10 AlreadyAssigned for the two; 32 TooMany `assignment`; 24
   * StaticSeparation if `user` would be authorized for too many members of a static set.
   *
   * @param {string} user
   * @param {string} role
   * @returns {Promise<void>}
   */
  async assignUser(user, role) {
    return this.call("assignUser", { user, role });
  }

  /**
   * DeassignUser: removes the assignment of `user` to `role`, and ends each session of the user in which a role was
   * activated for which no other assignment authorizes the user.
   *
   * Refused: 2 NoUser for `user`; 4 NoRole for `role`; 11 NotAssigned for the two.
   *
   * @param {string} user
   * @param {string} role
   * @returns {Promise<void>}
   */
  async deassignUser(user, role) {
    return this.call("deassignUser", { user, role });
  }

  /**
   * AddInheritance: makes the role `asc` an immediate ascendant of the role `desc`, even if it is already senior to it
   * through other roles. `asc` inherits the permissions of `desc`, and the users of `asc` are authorized for `desc`.
   *
   * Refused: 4 NoRole for `asc` or `desc`; 14 EdgeExists for the two; 16 Cycle if `desc` is `asc` or senior to it; 32
   * TooMany `edge`; 24 StaticSeparation if a user would be authorized for too many members of a static set; 25
   * DynamicSeparation if a session would have too many members of a dynamic set.
   *
   * @param {string} asc
   * @param {string} desc
   * @returns {Promise<void>}
   */
  async addInheritance(asc, desc) {
    return this.call("addInheritance", { asc, desc });
  }

  /**
   * DeleteInheritance: removes the immediate inheritance of `asc` from `desc`. `asc` stays senior to `desc` if other
   * inheritances lead there. Ends each session whose user is no longer authorized for a role that was activated in it.
   *
   * Refused: 4 NoRole for `asc` or `desc`; 15 NoEdge for the two.
   *
   * @param {string} asc
   * @param {string} desc
   * @returns {Promise<void>}
   */
  async deleteInheritance(asc, desc) {
    return this.call("deleteInheritance", { asc, desc });
  }

  /**
   * AddAscendant: adds the role `asc` and makes it an immediate ascendant of the role `desc`.
   *
   * Refused: 4 NoRole for `desc`; 5 RoleExists for `asc`; 32 TooMany `role`; 32 TooMany `edge`.
   *
   * @param {string} asc
   * @param {string} desc
   * @returns {Promise<void>}
   */
  async addAscendant(asc, desc) {
    return this.call("addAscendant", { asc, desc });
  }

  /**
   * AddDescendant: adds the role `desc` and makes the role `asc` an immediate ascendant of it.
   *
   * Refused: 4 NoRole for `asc`; 5 RoleExists for `desc`; 32 TooMany `role`; 32 TooMany `edge`.
   *
   * @param {string} asc
   * @param {string} desc
   * @returns {Promise<void>}
   */
  async addDescendant(asc, desc) {
    return this.call("addDescendant", { asc, desc });
  }

  /**
   * CreateSsdSet: makes the static separation of duty set `set` with the members `roles`. From then on each user is
   * authorized for fewer of them than `cardinality`.
   *
   * Refused: 4 NoRole for one of `roles`; 19 SetExists for `set`; 23 BadCardinality unless 2 <= `cardinality` <= number
   * of `roles`; 32 TooMany `ssdSet`; 32 TooMany `member`; 24 StaticSeparation for the new set.
   *
   * @param {string} set
   * @param {readonly string[]} roles
   * @param {number} cardinality
   * @returns {Promise<void>}
   */
  async createSsdSet(set, roles, cardinality) {
    return this.call("createSsdSet", { set, roles, cardinality });
  }

  /**
   * AddSsdRoleMember: makes the role `role` a member of the static set `set`.
   *
   * Refused: 20 NoSet for `set`; 4 NoRole for `role`; 21 MemberExists for the two; 32 TooMany `member`; 24
   * StaticSeparation for the set with its new member.
   *
   * @param {string} set
   * @param {string} role
   * @returns {Promise<void>}
   */
  async addSsdRoleMember(set, role) {
    return this.call("addSsdRoleMember", { set, role });
  }

  /**
   * DeleteSsdRoleMember: removes the member `role` from the static set `set`.
   *
   * Refused: 20 NoSet for `set`; 4 NoRole for `role`; 22 NoMember for the two; 23 BadCardinality unless the cardinality
   * is less than the number of members.
   *
   * @param {string} set
   * @param {string} role
   * @returns {Promise<void>}
   */
  async deleteSsdRoleMember(set, role) {
    return this.call("deleteSsdRoleMember", { set, role });
  }

  /**
   * SetSsdSetCardinality: gives the static set `set` the cardinality `cardinality`, which may be the current one.
   *
   * Refused: 20 NoSet for `set`; 23 BadCardinality unless 2 <= `cardinality` <= number of members; 24 StaticSeparation
   * for the set with its new cardinality.
   *
   * @param {string} set
   * @param {number} cardinality
   * @returns {Promise<void>}
   */
  async setSsdSetCardinality(set, cardinality) {
    return this.call("setSsdSetCardinality", { set, cardinality });
  }

  /**
   * DeleteSsdSet: removes the static set `set`. Its members stay as roles.
   *
   * Refused: 20 NoSet for `set`.
   *
   * @param {string} set
   * @returns {Promise<void>}
   */
  async deleteSsdSet(set) {
    return this.call("deleteSsdSet", { set });
  }

  /**
   * CreateDsdSet: makes the dynamic separation of duty set `set` with the members `roles`. From then on each session
   * has fewer of them among its roles (sessionRoles) than `cardinality`.
   *
   * Refused: 4 NoRole for one of `roles`; 19 SetExists for `set`; 23 BadCardinality unless 2 <= `cardinality` <= number
   * of `roles`; 32 TooMany `dsdSet`; 32 TooMany `member`; 25 DynamicSeparation for the new set.
   *
   * @param {string} set
   * @param {readonly string[]} roles
   * @param {number} cardinality
   * @returns {Promise<void>}
   */
  async createDsdSet(set, roles, cardinality) {
    return this.call("createDsdSet", { set, roles, cardinality });
  }

  /**
   * AddDsdRoleMember: makes the role `role` a member of the dynamic set `set`.
   *
   * Refused: 20 NoSet for `set`; 4 NoRole for `role`; 21 MemberExists for the two; 32 TooMany `member`; 25
   * DynamicSeparation for the set with its new member.
   *
   * @param {string} set
   * @param {string} role
   * @returns {Promise<void>}
   */
  async addDsdRoleMember(set, role) {
    return this.call("addDsdRoleMember", { set, role });
  }

  /**
   * DeleteDsdRoleMember: removes the member `role` from the dynamic set `set`.
   *
   * Refused: 20 NoSet for `set`; 4 NoRole for `role`; 22 NoMember for the two; 23 BadCardinality unless the cardinality
   * is less than the number of members.
   *
   * @param {string} set
   * @param {string} role
   * @returns {Promise<void>}
   */
  async deleteDsdRoleMember(set, role) {
    return this.call("deleteDsdRoleMember", { set, role });
  }

  /**
   * SetDsdSetCardinality: gives the dynamic set `set` the cardinality `cardinality`, which may be the current one.
   *
   * Refused: 20 NoSet for `set`; 23 BadCardinality unless 2 <= `cardinality` <= number of members; 25 DynamicSeparation
   * for the set with its new cardinality.
   *
   * @param {string} set
   * @param {number} cardinality
   * @returns {Promise<void>}
   */
  async setDsdSetCardinality(set, cardinality) {
    return this.call("setDsdSetCardinality", { set, cardinality });
  }

  /**
   * DeleteDsdSet: removes the dynamic set `set`. Its members stay as roles.
   *
   * Refused: 20 NoSet for `set`.
   *
   * @param {string} set
   * @returns {Promise<void>}
   */
  async deleteDsdSet(set) {
    return this.call("deleteDsdSet", { set });
  }

  /**
   * CreateSession: makes the session `session` of the user `user`, in which exactly the roles `roles` are activated. It
   * has these roles and their juniors.
   *
   * Refused: 2 NoUser for `user`; 4 NoRole for one of `roles`; 27 SessionExists for `session`; 29 NotAuthorized if
   * `user` is not authorized for one of `roles`; 37 UserLocked for `user`; 32 TooMany `session`; 32 TooMany
   * `activeRole`; 25 DynamicSeparation if the session would have too many members of a dynamic set.
   *
   * @param {string} user
   * @param {readonly string[]} roles
   * @param {string} session
   * @returns {Promise<void>}
   */
  async createSession(user, roles, session) {
    return this.call("createSession", { user, roles, session });
  }

  /**
   * DeleteSession: ends the session `session` of the user `user`.
   *
   * Refused: 2 NoUser for `user`; 26 NoSession for `session`; 28 NotOwner if the session has another user.
   *
   * @param {string} user
   * @param {string} session
   * @returns {Promise<void>}
   */
  async deleteSession(user, session) {
    return this.call("deleteSession", { user, session });
  }

  /**
   * AddActiveRole: activates the role `role` in the session `session` of the user `user`. The session then has this
   * role and its juniors.
   *
   * Refused: 2 NoUser for `user`; 26 NoSession for `session`; 4 NoRole for `role`; 28 NotOwner if the session has
   * another user; 30 AlreadyActive if `role` itself was activated; 29 NotAuthorized if `user` is not authorized for
   * `role`; 32 TooMany `activeRole`; 25 DynamicSeparation if the session would have too many members of a dynamic set.
   *
   * @param {string} user
   * @param {string} session
   * @param {string} role
   * @returns {Promise<void>}
   */
  async addActiveRole(user, session, role) {
    return this.call("addActiveRole", { user, session, role });
  }

  /**
   * DropActiveRole: deactivates the role `role` in the session `session` of the user `user`. The session still has it
   * if it is a junior of another activated role.
   *
   * Refused: 2 NoUser for `user`; 26 NoSession for `session`; 4 NoRole for `role`; 28 NotOwner if the session has
   * another user; 31 NotActive if `role` itself was not activated.
   *
   * @param {string} user
   * @param {string} session
   * @param {string} role
   * @returns {Promise<void>}
   */
  async dropActiveRole(user, session, role) {
    return this.call("dropActiveRole", { user, session, role });
  }

  /**
   * No function of the standard: locks the user `user`, who may be locked already, and ends the user's sessions. A
   * locked user keeps its assignments, but gets no session.
   *
   * Refused: 51 Version in an office of version 1; 2 NoUser for `user`.
   *
   * @param {string} user
   * @returns {Promise<void>}
   */
  async lockUserAccount(user) {
    return this.call("lockUserAccount", { user });
  }

  /**
   * No function of the standard: removes the lock of the user `user`, if there is one.
   *
   * Refused: 51 Version in an office of version 1; 2 NoUser for `user`.
   *
   * @param {string} user
   * @returns {Promise<void>}
   */
  async unlockUserAccount(user) {
    return this.call("unlockUserAccount", { user });
  }

  /**
   * No function of the standard: does assignUser for each record of `csv` in turn. The answer counts the pairs that
   * were already assigned and those that it assigned, and lists every other record, counted from 1, with its refusal:
   * 2, 4, 24 or 32.
   *
   * Refused: 32 TooMany `record`.
   *
   * @param {string} csv
   * @returns {Promise<import("./values.js").ImportReport>}
   */
  async importAssignments(csv) {
    return this.call("importAssignments", { csv });
  }

  /**
   * CheckAccess: whether the session `session` may do the operation `operation` on the object `object`. It may if the
   * permission is granted to one of its roles.
   *
   * Refused: 26 NoSession for `session`; 6 NoObject for `object`; 33 NoOperation for `operation`.
   *
   * @param {string} session
   * @param {string} operation
   * @param {string} object
   * @returns {Promise<boolean>}
   */
  async checkAccess(session, operation, object) {
    return this.call("checkAccess", { session, operation, object });
  }

  /**
   * AssignedUsers: the users who are assigned to the role `role`.
   *
   * Refused: 4 NoRole for `role`.
   *
   * @param {string} role
   * @returns {Promise<string[]>}
   */
  async assignedUsers(role) {
    return this.call("assignedUsers", { role });
  }

  /**
   * AssignedRoles: the roles that the user `user` is assigned to.
   *
   * Refused: 2 NoUser for `user`.
   *
   * @param {string} user
   * @returns {Promise<string[]>}
   */
  async assignedRoles(user) {
    return this.call("assignedRoles", { user });
  }

  /**
   * AuthorizedUsers: the users who are assigned to the role `role` or to a senior of it.
   *
   * Refused: 4 NoRole for `role`.
   *
   * @param {string} role
   * @returns {Promise<string[]>}
   */
  async authorizedUsers(role) {
    return this.call("authorizedUsers", { role });
  }

  /**
   * AuthorizedRoles: the roles that the user `user` is assigned to, and their juniors.
   *
   * Refused: 2 NoUser for `user`.
   *
   * @param {string} user
   * @returns {Promise<string[]>}
   */
  async authorizedRoles(user) {
    return this.call("authorizedRoles", { user });
  }

  /**
   * RolePermissions: the permissions that are granted to the role `role` or to a junior of it.
   *
   * Refused: 4 NoRole for `role`.
   *
   * @param {string} role
   * @returns {Promise<import("./values.js").Permission[]>}
   */
  async rolePermissions(role) {
    return this.call("rolePermissions", { role });
  }

  /**
   * UserPermissions: the permissions that are granted to the roles for which the user `user` is authorized.
   *
   * Refused: 2 NoUser for `user`.
   *
   * @param {string} user
   * @returns {Promise<import("./values.js").Permission[]>}
   */
  async userPermissions(user) {
    return this.call("userPermissions", { user });
  }

  /**
   * SessionRoles: the roles that were activated in the session `session`, and their juniors.
   *
   * Refused: 26 NoSession for `session`.
   *
   * @param {string} session
   * @returns {Promise<string[]>}
   */
  async sessionRoles(session) {
    return this.call("sessionRoles", { session });
  }

  /**
   * SessionPermissions: the permissions that are granted to the roles of the session `session`.
   *
   * Refused: 26 NoSession for `session`.
   *
   * @param {string} session
   * @returns {Promise<import("./values.js").Permission[]>}
   */
  async sessionPermissions(session) {
    return this.call("sessionPermissions", { session });
  }

  /**
   * RoleOperationsOnObject: the operations on the object `object` among the permissions of the role `role`.
   *
   * Refused: 4 NoRole for `role`; 6 NoObject for `object`.
   *
   * @param {string} role
   * @param {string} object
   * @returns {Promise<string[]>}
   */
  async roleOperationsOnObject(role, object) {
    return this.call("roleOperationsOnObject", { role, object });
  }

  /**
   * UserOperationsOnObject: the operations on the object `object` among the permissions of the user `user`.
   *
   * Refused: 2 NoUser for `user`; 6 NoObject for `object`.
   *
   * @param {string} user
   * @param {string} object
   * @returns {Promise<string[]>}
   */
  async userOperationsOnObject(user, object) {
    return this.call("userOperationsOnObject", { user, object });
  }

  /**
   * SsdRoleSets: the static separation of duty sets.
   *
   * @returns {Promise<string[]>}
   */
  async ssdRoleSets() {
    return this.call("ssdRoleSets", {});
  }

  /**
   * SsdRoleSetRoles: the members of the static set `set`.
   *
   * Refused: 20 NoSet for `set`.
   *
   * @param {string} set
   * @returns {Promise<string[]>}
   */
  async ssdRoleSetRoles(set) {
    return this.call("ssdRoleSetRoles", { set });
  }

  /**
   * SsdRoleSetCardinality: the cardinality of the static set `set`.
   *
   * Refused: 20 NoSet for `set`.
   *
   * @param {string} set
   * @returns {Promise<number>}
   */
  async ssdRoleSetCardinality(set) {
    return this.call("ssdRoleSetCardinality", { set });
  }

  /**
   * DsdRoleSets: the dynamic separation of duty sets.
   *
   * @returns {Promise<string[]>}
   */
  async dsdRoleSets() {
    return this.call("dsdRoleSets", {});
  }

  /**
   * DsdRoleSetRoles: the members of the dynamic set `set`.
   *
   * Refused: 20 NoSet for `set`.
   *
   * @param {string} set
   * @returns {Promise<string[]>}
   */
  async dsdRoleSetRoles(set) {
    return this.call("dsdRoleSetRoles", { set });
  }

  /**
   * DsdRoleSetCardinality: the cardinality of the dynamic set `set`.
   *
   * Refused: 20 NoSet for `set`.
   *
   * @param {string} set
   * @returns {Promise<number>}
   */
  async dsdRoleSetCardinality(set) {
    return this.call("dsdRoleSetCardinality", { set });
  }

  /**
   * No function of the standard: the roles to which the permission for `operation` on `object` is granted directly.
   *
   * Refused: 6 NoObject for `object`; 8 NoPermission for the two.
   *
   * @param {string} object
   * @param {string} operation
   * @returns {Promise<string[]>}
   */
  async permissionRoles(object, operation) {
    return this.call("permissionRoles", { object, operation });
  }
}
