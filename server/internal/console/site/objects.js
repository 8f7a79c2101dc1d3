/** The objects, and one object: its operations, who may do each, and why. */

import { may, maySome } from "./api.js";
import { browse } from "./browse.js";
import { Hierarchy } from "./hierarchy.js";
import { action, button, command, deliberate, field, form, later, NONE_FOUND, searchForm, section, table } from "./parts.js";
import { brief, h, hashOf, link, listed, name, object, plain, role, set, user } from "./text.js";

/** The most operations of an object that are shown on its page; of more there is a list. */
const MOST_OPERATIONS = 50;

export async function objectsPage({ query, reading, anew }) {
    const { contains = "" } = query;
    const nodes = [h("h1", {}, "Objects"), section("Find an object", searchForm("objects", contains),
        await browse(contains ? `Objects whose names contain “${plain(contains)}”` : "Objects in the order of their names", ["Object"],
            await reading.everything("objects", { contains }), (part) => part.map((one) => [object(one)]),
            { empty: contains ? NONE_FOUND : "There is no object yet." }))];
    if (maySome("addPermObj")) {
        nodes.push(section("Add an object", form("Add an object", [field("Name", "object", { required: true })], "Add",
            (values) => command("addPermObj", values, anew))));
    }
    return nodes;
}

/** The page of an object, or of one of its operations. */
export async function objectPage([text, only], { reading, anew }) {
    const [known, permissions, inheritances, dynamic] = await reading.lists(["objects", { object: text }], ["permissions", { object: text }],
        ["inheritances"], ["dynamicSets"]);
    if (known.length === 0) {
        return [h("h1", {}, "Object ", name(text)), h("p", {}, "There is no such object.")];
    }
    const values = { object: text };
    const isMany = only === undefined && permissions.length > MOST_OPERATIONS;
    const shown = isMany ? [] : permissions.filter(({ operation }) => only === undefined || operation === only);
    const granted = await reading.values(...shown.map((row) => ({ fn: "permissionRoles", ...row })));
    const nodes = [
        h("h1", {}, "Object ", only === undefined ? name(text) : object(text)),
        may("deletePermObj", values) ? h("div", { class: "actions" }, deliberate("Delete", `Delete the object ${text}`, "Delete the object?",
            () => command("deletePermObj", values, anew, { after: hashOf(["objects"]), revision: reading.revision }))) : null,
    ];
    const hierarchy = new Hierarchy(inheritances);
    const violated = (one) => hierarchy.violated(dynamic, one);
    if (isMany) {
        nodes.push(section("Operations", await browse("Operations", ["Operation"], permissions,
            (part) => part.map(({ operation }) => [link(["objects", text, operation], brief(operation))]), { names: ({ operation }) => [operation] })));
    }
    shown.forEach(({ operation }, i) => nodes.push(operationSection(text, operation, granted[i], violated, { reading, anew })));
    if (shown.length === 0 && !isMany) {
        nodes.push(section("Operations", h("p", { class: "quiet" }, only === undefined ? "The object has no operations." : "There is no such operation.")));
    }
    if (may("addPermission", values)) {
        nodes.push(section("Add an operation", form("Add an operation", [field("Operation", "operation", { from: "operations", required: true })], "Add",
            (given) => command("addPermission", { ...values, ...given }, anew))));
    }
    return nodes;
}

/**
 * An operation: the roles that it is granted to, and who may do it by which of them. `violated` returns the dynamic set of which a role
 * includes too many, if there is one.
 */
function operationSection(text, operation, granted, violated, { reading, anew }) {
    const values = { object: text, operation };
    const revoke = (one) => (may("revokePermission", { ...values, role: one })
        ? button("Revoke", `Revoke ${operation} from ${one}`, () => command("revokePermission", { ...values, role: one }, anew)) : null);
    const parts = [];
    if (!granted) {
        parts.push(h("p", { class: "quiet" }, "You have no right to see to which roles it is granted."));
    } else {
        const never = (one) => (violated(one) ? [" ", h("span", { class: "mark no" }, "can never be activated")] : null);
        parts.push(table("Granted to", ["Role", ""], granted.map((one) => [[role(one), never(one)], action(revoke(one))]), "No role has this permission."));
        if (granted.length > 0 && granted.every((one) => may("authorizedUsers", { role: one }))) {
            parts.push(holdersOf(text, operation, granted, violated, reading));
        }
    }
    const forms = [];
    if (maySome("grantPermission")) {
        forms.push(form(`Grant ${plain(operation)}`, [field("Grant to the role", "role", { from: "roles", required: true })], "Grant",
            (given) => command("grantPermission", { ...values, ...given }, anew)));
    }
    if (may("deletePermission", values)) {
        forms.push(h("p", {}, deliberate("Delete the operation", `Delete the permission for ${operation}`, "Delete it with all of its grants?",
            () => command("deletePermission", values, anew, { revision: reading.revision }))));
    }
    return section(["Operation ", name(operation)], parts, forms);
}

/** Who may do it, and who is authorized for a role that has the permission and may not; asked for when it is opened. */
function holdersOf(text, operation, granted, violated, reading) {
    const holder = h("details", {}, h("summary", {}, "Who may do it, and why"));
    holder.addEventListener("toggle", async () => {
        if (holder.open && holder.children.length === 1) {
            holder.append(later("Users", () => holders(text, operation, granted, violated, reading)));
        }
    });
    return holder;
}

async function holders(text, operation, granted, violated, reading) {
    const questions = granted.map((one) => ({ fn: "authorizedUsers", role: one }));
    const [answers, locked] = await Promise.all([reading.askAll(questions), reading.everything("locked")]);
    const by = new Map();
    answers.forEach((answer, i) => (answer.value ?? []).forEach((one) => by.set(one, [...(by.get(one) ?? []), granted[i]])));
    const isLocked = new Set(locked);
    const usable = new Map([...by].map(([one, roles]) => [one, roles.filter((each) => !violated(each))]));
    const all = [...by.keys()].sort();
    const isAble = (one) => !isLocked.has(one) && usable.get(one).length > 0;
    const [able, unable] = [all.filter(isAble), all.filter((one) => !isAble(one))];
    const why = (one) => action(maySome("decideByUser") ? link(["explain", one, operation, text], "Why") : null);
    const names = (one) => [one];
    const hindered = (one) => (isLocked.has(one) ? h("span", { class: "mark no" }, "locked")
        : ["no session can have ", listed(by.get(one).map(role), "or"), ", which ", set("dynamic", violated(by.get(one)[0]).set), " forbids"]);
    return [
        await browse("Users who may do it", ["User", "Because", ""], able,
            (part) => part.map((one) => [user(one), ["authorized for ", listed(usable.get(one).map(role))], why(one)]),
            { empty: "Nobody may do it.", names, of: operation }),
        unable.length === 0 ? null : await browse("Users with such a role who may not do it", ["User", "Because", ""], unable,
            (part) => part.map((one) => [user(one), hindered(one), why(one)]), { names, of: operation }),
    ];
}
