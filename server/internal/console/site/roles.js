/** The roles: the hierarchy as a tree, and one role with its neighbours, users, permissions and sets. */

import { may, maySome } from "./api.js";
import { browse } from "./browse.js";
import { Hierarchy } from "./hierarchy.js";
import { action, awhile, button, command, deliberate, drawn, early, field, form, later, NONE_FOUND, searchForm, section, table } from "./parts.js";
import { brief, counted, few, h, hashOf, link, name, object, role, set, some, user } from "./text.js";

// The most roles at the top of the hierarchy of which the lower ones are shown too.
const MOST_OPEN = 100;
const SHOWN_USERS = 25;
// How many sets are shown of those that have a role.
const MOST_SETS = 5;

export async function rolesPage({ query, reading, anew }) {
    const { contains = "" } = query;
    const content = contains ? await foundRoles(contains, reading) : await hierarchy(reading);
    const nodes = [h("h1", {}, "Roles"), section(contains ? "Found" : "Hierarchy", searchForm("roles", contains), content)];
    if (maySome("addRole")) {
        nodes.push(section("Add a role", form("Add a role", [field("Name", "role", { required: true })], "Add",
            (values) => command("addRole", values, anew))));
    }
    return nodes;
}

async function foundRoles(contains, reading) {
    return browse("Roles whose names contain the text", ["Role"], await reading.everything("roles", { contains }), (part) => part.map((one) => [role(one)]),
        { empty: NONE_FOUND });
}

/** The hierarchy as a tree: at its top the roles without seniors, below each role those that it inherits from. */
async function hierarchy(reading) {
    const [roles, edges] = await reading.lists(["roles"], ["inheritances"]);
    const juniors = new Map(roles.map((one) => [one, []]));
    const hasSenior = new Set();
    for (const { asc, desc } of edges) {
        juniors.get(asc)?.push(desc);
        hasSenior.add(desc);
    }
    const tops = roles.filter((one) => !hasSenior.has(one));
    return [h("p", { class: "quiet" }, `${counted(roles.length, "role")}. Below a role are those that it inherits from.`),
        tops.length ? branch(tops, juniors, tops.length <= MOST_OPEN ? 2 : 0) : h("p", {}, "There is no role.")];
}

/** A part of the tree. Lower parts are made when they are opened, since a role may be below many others. */
function branch(roles, juniors, open) {
    return h("ul", { class: "tree" }, roles.map((one) => {
        const below = juniors.get(one) ?? [];
        if (below.length === 0) {
            return h("li", { class: "leaf" }, role(one));
        }
        const details = h("details", {}, h("summary", {}, role(one), h("span", { class: "quiet" }, ` (${below.length})`)));
        const fill = () => {
            if (details.open && details.children.length === 1) {
                details.append(branch(below, juniors, open - 1));
            }
        };
        details.addEventListener("toggle", fill);
        details.open = open > 0;
        fill();
        return h("li", {}, details);
    }));
}

export async function rolePage([text], { reading, anew }) {
    const values = { role: text };
    // Everything is asked for at once, what takes longest first.
    const drawing = early(reading.picture(values));
    const asking = early(reading.values({ fn: "authorizedUsers", ...values }, { fn: "rolePermissions", ...values }));
    const [known, inheritances, assignments, granted, fixed, dynamic] = await reading.lists(["roles", values], ["inheritances"], ["assignments", values],
        ["grants", values], ["staticSets"], ["dynamicSets"]);
    if (known.length === 0) {
        return [h("h1", {}, "Role ", name(text)), h("p", {}, "There is no such role.")];
    }
    await awhile([asking]);
    const seniors = inheritances.filter(({ desc }) => desc === text);
    const juniors = inheritances.filter(({ asc }) => asc === text);
    const met = setsMet(new Hierarchy(inheritances), text, fixed, dynamic);
    return [
        h("h1", {}, "Role ", name(text)), impossible(met.filter((one) => one.isTooMany)),
        may("deleteRole", values) ? h("div", { class: "actions" }, deliberate("Delete", `Delete the role ${text}`,
            "Delete the role with all of its assignments and grants?",
            () => command("deleteRole", values, anew, { after: hashOf(["roles"]), revision: reading.revision }))) : null,
        h("div", { class: "columns" },
            section("Inheritance",
                edges("Senior roles, which inherit from this one", seniors, "asc", "No role inherits from this one.", anew),
                edges("Junior roles, from which this one inherits", juniors, "desc", "It inherits from no role.", anew),
                addEdges(text, anew)),
            section("Neighbours", drawn({ role: text }, aboutPicture(seniors, juniors), drawing))),
        h("div", { class: "columns" }, later("Users", async () => usersOf(text, assignments.map((row) => row.user), (await asking)[0], anew)),
            section("Separation of duty", setsOf(met))),
        later("Permissions", async () => permissionsOf(text, granted, (await asking)[1], anew)),
    ];
}

function aboutPicture(seniors, juniors) {
    return `The role with ${counted(seniors.length, "senior role")} and ${counted(juniors.length, "junior role")}, as in the lists beside it, `
        + "and all separation of duty sets that have one of these roles as a member";
}

function edges(caption, found, key, empty, anew) {
    const remove = (edge) => (may("deleteInheritance", edge)
        ? button("Remove", `Remove the inheritance from ${edge[key]}`, () => command("deleteInheritance", edge, anew)) : null);
    return table(caption, ["Role", ""], found.map((edge) => [role(edge[key]), action(remove(edge))]), empty);
}

function addEdges(text, anew) {
    if (!maySome("addInheritance")) {
        return null;
    }
    const which = h("select", { id: "direction", "data-key": "which" }, h("option", { value: "desc" }, "junior role"), h("option", { value: "asc" }, "senior role"));
    return form("Add an inheritance", [h("label", { for: "direction" }, h("span", {}, "Add a"), which), field("Role", "role", { from: "roles", required: true })], "Add",
        (values) => command("addInheritance", values.which === "desc" ? { asc: text, desc: values.role } : { asc: values.role, desc: text }, anew));
}

async function usersOf(text, assigned, authorized, anew) {
    const direct = new Set(assigned);
    const more = (authorized ?? []).filter((one) => !direct.has(one));
    const remove = (one) => {
        const values = { user: one, role: text };
        return may("deassignUser", values) ? button("Remove", `Remove the assignment of ${one}`, () => command("deassignUser", values, anew)) : null;
    };
    const names = (one) => [one];
    const nodes = [await browse("Assigned users", ["User", ""], assigned, (part) => part.map((one) => [user(one), action(remove(one))]),
        { empty: "Nobody is assigned.", size: SHOWN_USERS, names })];
    if (more.length > 0) {
        nodes.push(await browse("Authorized through a senior role", ["User"], more, (part) => part.map((one) => [user(one)]), { size: SHOWN_USERS, names }));
    }
    if (may("assignUser", { role: text })) {
        nodes.push(form("Assign a user", [field("User", "user", { from: "users", required: true })], "Assign",
            (values) => command("assignUser", { ...values, role: text }, anew)));
    }
    return nodes;
}

/** Returns the sets of which a role includes members, itself or by inheritance. */
function setsMet(hierarchy, text, fixed, dynamic) {
    const below = hierarchy.below(text);
    const all = [["static", fixed], ["dynamic", dynamic]].flatMap(([kind, sets]) => sets.map((one) => ({ kind, one, members: one.roles.filter((member) => below.has(member)) })));
    return all.filter(({ members }) => members.length > 0).map(({ kind, one, members }) => ({
        kind, one, members, inherited: members.filter((member) => member !== text), isTooMany: members.length >= one.cardinality,
        barred: () => (members.length < one.cardinality ? hierarchy.barred(one, members) : []),
    })).sort((a, b) => b.isTooMany - a.isTooMany);
}

/** "No session can have this role: it includes cashier and cash supervisor, and cash (dynamic) allows one of cashier and cash supervisor." */
function impossible(violated) {
    if (violated.length === 0) {
        return null;
    }
    const [{ kind, one, members }] = violated;
    return h("p", { class: "warning" }, kind === "static" ? "Nobody can be authorized for this role: it includes " : "No session can have this role: it includes ",
        some(members, role), ", and ", set(kind, one.set), ` (${kind}) allows ${few(one.cardinality - 1)} of `, some(one.roles, role), ".",
        violated.length > 1 ? ` It includes too many roles of ${counted(violated.length - 1, "more set")}.` : null);
}

function setsOf(met) {
    if (met.length === 0) {
        return h("p", { class: "quiet" }, "Neither the role nor one from which it inherits is in a set.");
    }
    const line = ({ kind, one, inherited, isTooMany, barred }) => {
        const others = barred();
        return h("li", {}, set(kind, one.set), ` (${kind}): at most ${few(one.cardinality - 1)} of `, some(one.roles, role), ".",
            inherited.length ? [" By inheritance the role includes ", some(inherited, role), "."] : null,
            isTooMany ? [" ", h("b", {}, kind === "static" ? "Nobody can be authorized for it." : "It can never be activated.")] : null,
            others.length ? [kind === "static" ? " Who has the role can't become " : " A session with the role can't have ", some(others, role, "or"), "."] : null);
    };
    return [h("ul", { class: "sets" }, met.slice(0, MOST_SETS).map(line)), met.length > MOST_SETS ? h("p", {}, `These are the first ${MOST_SETS} of ${counted(met.length, "set")}. `,
        link(["separation"], "All sets")) : null];
}

/** What is granted to a role itself, and what it has by inheritance, as far as the caller may know it. */
async function permissionsOf(text, granted, having, anew) {
    const remove = ({ object: on, operation }) => {
        const values = { object: on, operation, role: text };
        return may("revokePermission", values) ? button("Revoke", `Revoke ${operation} on ${on}`, () => command("revokePermission", values, anew)) : null;
    };
    const names = (row) => [row.object, row.operation];
    const nodes = [await browse("Granted to this role itself", ["Object", "Operation", ""], granted,
        (part) => part.map((row) => [object(row.object), brief(row.operation), action(remove(row))]), { empty: "Nothing is granted to this role itself.", names })];
    const own = new Set(granted.map((row) => `${row.object}\t${row.operation}`));
    const inherited = (having ?? []).map(([on, operation]) => ({ object: on, operation })).filter((row) => !own.has(`${row.object}\t${row.operation}`));
    if (inherited.length > 0) {
        nodes.push(await browse("Inherited from junior roles", ["Object", "Operation"], inherited,
            (part) => part.map((row) => [object(row.object), brief(row.operation)]), { size: 50, names }));
    }
    if (maySome("grantPermission")) {
        nodes.push(form("Grant a permission", [field("Operation", "operation", { from: "operations", required: true }), field("Object", "object", { from: "objects", required: true })], "Grant",
            (values) => command("grantPermission", { ...values, role: text }, anew)));
    }
    return nodes;
}
