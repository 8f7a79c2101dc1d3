/** The users, and one user: roles, permissions with the roles that give them, sessions, nearness to each separation of duty set. */

import { endSession, may, maySome } from "./api.js";
import { browse } from "./browse.js";
import { Hierarchy } from "./hierarchy.js";
import { action, awhile, button, command, deliberate, early, field, folded, form, later, NONE_FOUND, searchForm, section, table } from "./parts.js";
import { brief, counted, h, hashOf, link, listed, name, object, plain, role, set, some, time, user } from "./text.js";

const SHOWN_OF_USER = 20;

const lock = () => h("span", { class: "mark no" }, "locked");

export async function usersPage({ query, reading, anew }) {
    const { contains = "" } = query;
    const [users, locked] = await reading.lists(["users", { contains }], ["locked", { contains }]);
    const isLocked = new Set(locked);
    const nodes = [h("h1", {}, "Users"), section("Find a user", searchForm("users", contains),
        await browse(contains ? `Users whose names contain “${plain(contains)}”` : "Users in the order of their names", ["User", "Condition"], users,
            (part) => part.map((one) => [user(one), isLocked.has(one) ? lock() : ""]), { empty: contains ? NONE_FOUND : "There is no user yet." }))];
    if (maySome("addUser")) {
        nodes.push(section("Add a user", form("Add a user", [field("Name", "user", { required: true })], "Add",
            (values) => command("addUser", values, anew))));
    }
    return nodes;
}

export async function userPage([text], { reading, anew }) {
    const values = { user: text };
    const having = early(reading.values({ fn: "userPermissions", ...values }));
    const [[known, locked, assignments, sessions, inheritances, fixed, dynamic], [authorized]] = await Promise.all([
        reading.lists(["users", values], ["locked", values], ["assignments", values], ["sessions", values], ["inheritances"],
            ["staticSets"], ["dynamicSets"]),
        reading.values({ fn: "authorizedRoles", ...values }),
    ]);
    if (known.length === 0) {
        return [h("h1", {}, "User ", name(text)), h("p", {}, "There is no such user.")];
    }
    const assigned = assignments.map((row) => row.role);
    const isLocked = locked.length > 0;
    const hierarchy = new Hierarchy(inheritances);
    const permissions = may("userPermissions", values)
        ? early(having.then(([pairs]) => permissionsOf(text, authorized, pairs ?? [], reading))) : null;
    await awhile([permissions]);
    return [
        h("h1", {}, "User ", name(text), isLocked ? [" ", lock()] : null),
        isLocked ? h("p", {}, name(text), " is locked: no session is possible.") : null,
        actionsOf(text, isLocked, reading, anew),
        h("div", { class: "columns" }, rolesSection(text, assigned, authorized, (one) => hierarchy.violated(dynamic, one), anew),
            authorized ? section("Separation of duty", nearness(text, authorized, hierarchy, fixed, dynamic)) : null),
        permissions ? later("Permissions", () => permissions) : null,
        section("Sessions", await sessionsOf(text, sessions, anew)),
    ];
}

function actionsOf(text, isLocked, reading, anew) {
    const values = { user: text };
    const actions = [];
    if (isLocked && may("unlockUserAccount", values)) {
        actions.push(button("Unlock", `Unlock ${text}`, () => command("unlockUserAccount", values, anew)));
    }
    if (!isLocked && may("lockUserAccount", values)) {
        actions.push(deliberate("Lock", `Lock ${text}`, "Lock, and end all sessions?", () => command("lockUserAccount", values, anew)));
    }
    if (may("deleteUser", values)) {
        actions.push(deliberate("Delete", `Delete ${text}`, "Delete the user with all assignments?",
            () => command("deleteUser", values, anew, { after: hashOf(["users"]), revision: reading.revision })));
    }
    if (maySome("decideByUser")) {
        actions.push(link(["explain", text], "Explain what this user may do"));
    }
    return h("div", { class: "actions" }, actions);
}

/** The roles of a user. `violated` returns the dynamic set of which a role includes too many, if there is one. */
function rolesSection(text, assigned, authorized, violated, anew) {
    const remove = (one) => {
        const values = { user: text, role: one };
        return may("deassignUser", values)
            ? button("Remove", `Remove the assignment to ${one}`, () => command("deassignUser", values, anew)) : null;
    };
    const never = (one) => (violated(one) ? [" ", h("span", { class: "mark no" }, "can never be activated")] : null);
    const nodes = [table("Assigned roles", ["Role", ""], assigned.map((one) => [[role(one), never(one)], action(remove(one))]), "No role is assigned.")];
    const more = (authorized ?? []).filter((one) => !assigned.includes(one));
    if (more.length > 0) {
        nodes.push(h("p", {}, "Also authorized, by inheritance: ", folded(more, role, `Show all roles of ${text}`)));
    }
    if (maySome("assignUser")) {
        nodes.push(form("Assign a role", [field("Role", "role", { from: "roles", required: true })], "Assign",
            (values) => command("assignUser", { user: text, ...values }, anew)));
    }
    return section("Roles", nodes);
}

// How many sets are shown: the nearest ones.
const MOST_SETS = 5;

/** How near a user is to each set of which the user has a member, the nearest first. */
function nearness(text, authorized, hierarchy, fixed, dynamic) {
    const has = new Set(authorized);
    const found = [["static", fixed], ["dynamic", dynamic]].flatMap(([kind, sets]) => sets.map((one) => [kind, one, one.roles.filter((member) => has.has(member))]))
        .filter(([, , held]) => held.length > 0).sort(([, a, x], [, b, y]) => a.cardinality - x.length - (b.cardinality - y.length));
    const lines = found.slice(0, MOST_SETS).map((one) => h("li", {}, lineOf(hierarchy, ...one)));
    if (lines.length === 0) {
        return h("p", { class: "quiet" }, name(text), " has no member of a separation of duty set.");
    }
    return [h("ul", { class: "sets" }, lines), found.length > MOST_SETS ? h("p", {}, `These are the nearest ${MOST_SETS} of ${counted(found.length, "set")}. `,
        may("reports") ? h("a", { href: `${hashOf(["reports", "near"])}?${new URLSearchParams({ user: text })}` }, "All in a report") : null) : null];
}

function lineOf(hierarchy, kind, found, held) {
    const { set: setName, cardinality, roles } = found;
    const begin = [set(kind, setName), ` (${kind}): has `, some(held, role), ". "];
    const left = cardinality - held.length;
    if (left <= 0) {
        const which = cardinality === 2 && held.length === 2 ? "both" : `${cardinality} of them`;
        return [begin, kind === "static" ? `Nobody may have ${which}.` : `No session may have ${which}.`];
    }
    // A dynamic set limits what a session has, and nobody's assignments.
    const who = kind === "static" ? "May" : `A session with ${held.length === 1 ? "it" : "them"} may`;
    const more = left === 1 ? null : [`${who} have ${left - 1} more of `, some(roles.filter((one) => !held.includes(one)), role), ". "];
    const barred = hierarchy.barred(found, held);
    return [begin, more, barred.length ? [kind === "static" ? "Can't become " : "No session may also have ", some(barred, role, "or"), "."] : null];
}

/** A user's permissions, each with the roles that give it, if the caller may know them. */
function permissionsOf(text, authorized, pairs, reading) {
    const has = new Set(authorized ?? []);
    const cells = async (part) => {
        const givers = await reading.values(...part.map(([on, operation]) => ({ fn: "permissionRoles", object: on, operation })));
        return part.map(([on, operation], i) => [
            object(on), brief(operation), some((givers[i] ?? []).filter((one) => has.has(one)), role, "and", 3),
            action(maySome("decideByUser") ? link(["explain", text, operation, on], "Why") : null),
        ]);
    };
    return browse("Permissions through all roles", ["Object", "Operation", "Given by", ""], pairs, cells, { empty: "No permission.", size: SHOWN_OF_USER, names: (pair) => pair });
}

function sessionsOf(text, sessions, anew) {
    const end = (one) => button("End", `End the session ${one.session.slice(0, 8)}`,
        () => command("deleteSession", { user: text, session: one.session }, anew, { perform: () => endSession(one.session) }));
    const cells = (one) => [
        h("span", { class: "mono" }, one.session.slice(0, 12)), one.roles.length ? listed(one.roles.map(role)) : h("span", { class: "quiet" }, "none"),
        { class: "time", child: time(one.since) }, { class: "time", child: time(one.used) },
        action(may("deleteSession", { user: text }) ? end(one) : null),
    ];
    return browse("Sessions, by a digest of their names", ["Digest", "Activated roles", "Since (UTC)", "Last used (UTC)", ""], sessions, (part) => part.map(cells),
        { empty: "No session.", size: SHOWN_OF_USER });
}
