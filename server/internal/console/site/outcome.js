/** Whether what commands ask for is so now: their answers were lost, or say what is also answered to a command that is repeated. */

import { Lost, may, readTogether, Refused } from "./api.js";

const isThere = ([rows]) => rows.length > 0;
const isGone = ([rows]) => rows.length === 0;

/** For each command the lists that show it, each with the keys that choose its rows, and whether the rows say that it is so. */
const OUTCOMES = {
    lockUserAccount: [[["locked", "user"]], isThere],
    unlockUserAccount: [[["users", "user"], ["locked", "user"]], ([users, locked]) => users.length > 0 && locked.length === 0],
    addAscendant: [[["inheritances", "asc", "desc"]], isThere],
    addDescendant: [[["inheritances", "asc", "desc"]], isThere],
    deleteSession: [[["sessions", "session"]], isGone], // By its digest.
};
for (const [added, removed, ...list] of [
    ["addUser", "deleteUser", "users", "user"],
    ["addRole", "deleteRole", "roles", "role"],
    ["addPermObj", "deletePermObj", "objects", "object"],
    ["addPermission", "deletePermission", "permissions", "object", "operation"],
    ["assignUser", "deassignUser", "assignments", "user", "role"],
    ["grantPermission", "revokePermission", "grants", "object", "operation", "role"],
    ["addInheritance", "deleteInheritance", "inheritances", "asc", "desc"],
]) {
    Object.assign(OUTCOMES, { [added]: [[list], isThere], [removed]: [[list], isGone] });
}
for (const [kind, list] of [["Ssd", "staticSets"], ["Dsd", "dynamicSets"]]) {
    const lists = [[list, "set"]];
    const hasMember = ([[set]], { role }) => set !== undefined && set.roles.includes(role);
    const same = (one, other) => JSON.stringify([...one].sort()) === JSON.stringify([...other].sort());
    const isLike = ([[set]], { roles, cardinality }) => set?.cardinality === cardinality && same(set.roles, roles);
    Object.assign(OUTCOMES, {
        [`create${kind}Set`]: [lists, isLike], [`delete${kind}Set`]: [lists, isGone],
        [`add${kind}RoleMember`]: [lists, hasMember], [`delete${kind}RoleMember`]: [lists, (rows, values) => !hasMember(rows, values)],
        [`set${kind}SetCardinality`]: [lists, ([[set]], { cardinality }) => set?.cardinality === cardinality],
    });
}

/** Returns, for each command, whether what it asks for is so now; null if that can't be known. */
export async function areSo(commands) {
    const known = commands.map(({ fn, ...values }) => {
        const [lists, is] = Object.hasOwn(OUTCOMES, fn) ? OUTCOMES[fn] : [[], null];
        const queries = lists.map(([list, ...keys]) => [list, Object.fromEntries(keys.map((key) => [key, values[key]]))]);
        return { queries, is: (rows) => (is ? is(rows, values) : null) };
    });
    if (!may("lists")) {
        return commands.map(() => null);
    }
    try {
        const [found] = await readTogether((reading) => reading.lists(...known.flatMap(({ queries }) => queries)));
        return known.map(({ queries, is }) => is(found.splice(0, queries.length)));
    } catch (error) {
        if (error instanceof Lost || error instanceof Refused) {
            return commands.map(() => null);
        }
        throw error;
    }
}
