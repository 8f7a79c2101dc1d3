/** Separation of duty: the sets, and one set with its members and with those who are near to it. */

import { may, maySome } from "./api.js";
import { browse } from "./browse.js";
import { Hierarchy } from "./hierarchy.js";
import { action, button, command, deliberate, field, form, later, section, table } from "./parts.js";
import { few, h, hashOf, name, role, set, some, user } from "./text.js";

const LISTS = { static: "staticSets", dynamic: "dynamicSets" };
const PREFIXES = { static: "Ssd", dynamic: "Dsd" };
const MEANINGS = {
    static: "Nobody may be authorized for as many roles of a static set as its cardinality says.",
    dynamic: "No session may have as many roles of a dynamic set as its cardinality says.",
};

export async function separationPage({ reading, anew }) {
    const kinds = Object.keys(LISTS);
    const found = await reading.lists(...kinds.map((kind) => [LISTS[kind]]));
    const sections = kinds.map(async (kind, i) => {
        const [title, names] = [kind === "static" ? "Static sets" : "Dynamic sets", (one) => [one.set, ...one.roles]];
        const cells = (part) => part.map((one) => [set(kind, one.set), `at most ${few(one.cardinality - 1)} of ${one.roles.length}`, some(one.roles, role)]);
        return section(title, h("p", { class: "quiet" }, MEANINGS[kind]),
            await browse(title, ["Set", "Allows", "Members"], found[i], cells, { empty: `There is no ${kind} set.`, names }),
            maySome(`create${PREFIXES[kind]}Set`) ? createForm(kind, anew) : null);
    });
    return [h("h1", {}, "Separation of duty"), await Promise.all(sections)];
}

function createForm(kind, anew) {
    const inputs = [
        field("Name", "set", { required: true }), field("First member", "one", { from: "roles", required: true }),
        field("Second member", "other", { from: "roles", required: true }),
    ];
    return form(`Add a ${kind} set of two roles, of which one is allowed`, inputs, `Add a ${kind} set`, (values) =>
        command(`create${PREFIXES[kind]}Set`, { set: values.set, roles: [values.one, values.other], cardinality: 2 }, anew));
}

export async function setPage([kind, text], { reading, anew }) {
    const isKind = Object.hasOwn(LISTS, kind);
    const [sets, inheritances] = isKind ? await reading.lists([LISTS[kind], { set: text }], ["inheritances"]) : [[], []];
    const [found] = sets;
    if (!found) {
        return [h("h1", {}, "Set ", name(text ?? "")), h("p", {}, "There is no such set.")];
    }
    const prefix = PREFIXES[kind];
    const { roles, cardinality } = found;
    const remove = (one) => (may(`delete${prefix}RoleMember`, { role: one })
        ? button("Remove", `Remove the member ${one}`, () => command(`delete${prefix}RoleMember`, { set: text, role: one }, anew)) : null);
    const hierarchy = new Hierarchy(inheritances);
    const impossible = hierarchy.impossible(found);
    const mayAsk = roles.every((one) => may("authorizedUsers", { role: one }));
    return [
        h("h1", {}, kind === "static" ? "Static set " : "Dynamic set ", name(text)),
        may(`delete${prefix}Set`) ? h("div", { class: "actions" }, deliberate("Delete", `Delete the set ${text}`, "Delete the set?",
            () => command(`delete${prefix}Set`, { set: text }, anew, { after: hashOf(["separation"]), revision: reading.revision }))) : null,
        section("Rule", h("p", {}, kind === "static" ? "A user may be authorized for at most " : "A session may have at most ",
            `${few(cardinality - 1)} of `, some(roles, role), `. The cardinality is ${cardinality}.`),
        impossible.length ? h("p", { class: "warning" }, kind === "static" ? "Nobody can be authorized for a role that includes too many of them: "
            : "A role that includes too many of them can never be activated: ", some(impossible, role), ".") : null,
        table("Members", ["Role", ""], roles.map((one) => [role(one), action(remove(one))])),
        maySome(`add${prefix}RoleMember`) ? form("Add a member", [field("Role", "role", { from: "roles", required: true })], "Add",
            (values) => command(`add${prefix}RoleMember`, { set: text, ...values }, anew)) : null,
        may(`set${prefix}SetCardinality`) ? form("Change the cardinality", [field("Cardinality", "cardinality", { type: "number", min: 2, value: cardinality, required: true })], "Change",
            (values) => command(`set${prefix}SetCardinality`, { set: text, cardinality: Number(values.cardinality) }, anew)) : null),
        mayAsk ? later(kind === "static" ? "Who is one role away" : "Who could violate it by activation", () => nearest(kind, found, hierarchy, reading)) : null,
    ];
}

/** Users whom a static set bars from a role that others can have, or who have too many roles of a dynamic set for one session. */
async function nearest(kind, found, hierarchy, reading) {
    const answers = await reading.askAll(found.roles.map((one) => ({ fn: "authorizedUsers", role: one })));
    const held = new Map();
    answers.forEach((answer, i) => (answer.value ?? []).forEach((one) => held.set(one, [...(held.get(one) ?? []), found.roles[i]])));
    const barred = barring(found, hierarchy);
    const near = [...held].filter(([, members]) => (kind === "static" ? barred(members).length > 0 : members.length >= found.cardinality))
        .sort(([a], [b]) => (a < b ? -1 : 1));
    const cells = (part) => part.map(([one, members]) => [user(one), some(members, role),
        kind === "static" ? ["can't become ", some(barred(members), role, "or")] : "not all in one session"]);
    const meaning = kind === "static"
        ? "One more role would violate the set; the office refuses that." : "These users have enough roles of the set; the office refuses a session with too many.";
    return [h("p", { class: "quiet" }, meaning), await browse("Users", ["User", "Has", "So"], near, cells, { empty: "Nobody.", names: ([one]) => [one] })];
}

/** Returns a function that returns the roles that who has some members of a set can't become, without those that nobody can. */
function barring(found, hierarchy) {
    const impossible = hierarchy.impossible(found);
    const known = new Map();
    return (members) => {
        const key = members.join("\t");
        if (!known.has(key)) {
            known.set(key, hierarchy.barred(found, members).filter((one) => !impossible.includes(one)));
        }
        return known.get(key);
    };
}
