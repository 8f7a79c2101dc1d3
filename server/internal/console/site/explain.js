/** Explain: whether a user, or a session, may do an operation on an object, and why. */

import { may, maySome, readTogether, Refused } from "./api.js";
import { MIXED } from "./notice.js";
import { drawn, fail, field, form, section } from "./parts.js";
import { h, listed, name, object, role, set, some, user } from "./text.js";
import { why } from "./words.js";

export async function explainPage(context) {
    return pageOf({}, context);
}

/** The page with fields that an address has filled in: a user, and perhaps an operation and an object. */
export async function explainAddress([text, operation, on], context) {
    return pageOf({ user: text, operation, object: on }, context);
}

async function pageOf(given) {
    const place = h("div", { id: "answer", "aria-live": "polite" });
    const byUser = maySome("decideByUser");
    const kind = h("select", { id: "kind", "data-key": "kind" },
        byUser ? h("option", { value: "user" }, "a user, in some session") : null,
        maySome("checkAccess") ? h("option", { value: "session" }, "a session, by its name") : null);
    const who = h("span", { class: "inputs" });
    const ofUsers = field("Name", "name", { required: true, value: given.user ?? "", from: "users" });
    const ofSessions = field("Name", "name", { required: true });
    const choose = () => who.replaceChildren(kind.value === "user" ? ofUsers : ofSessions);
    kind.addEventListener("change", choose);
    choose();
    const inputs = [
        h("label", { for: "kind" }, h("span", {}, "May"), kind), who,
        field("do the operation", "operation", { required: true, value: given.operation ?? "", from: "operations" }),
        field("on the object", "object", { required: true, value: given.object ?? "", from: "objects" }),
    ];
    const ask = async (values) => {
        const query = { [values.kind]: values.name, operation: values.operation, object: values.object };
        const [nodes, reading] = await readTogether((each) => answerTo(query, each));
        place.replaceChildren(...nodes, reading.isMixed ? h("p", { class: "warning" }, MIXED) : "");
    };
    const question = form("Ask whether something is allowed", inputs, "Explain", ask);
    if (given.operation && given.object && byUser) {
        await ask({ kind: "user", name: given.user, operation: given.operation, object: given.object }).catch((error) => fail(error));
    }
    return [h("h1", {}, "Explain"), section("Question", question), place];
}

/** The answer to a query: a sentence, what it follows from, and a picture of the way. */
async function answerTo(query, reading) {
    let told;
    try {
        told = await reading.explain(query);
    } catch (error) {
        if (!(error instanceof Refused)) {
            throw error;
        }
        return [section("Answer", h("p", { class: "answer no" }, "No answer: ", await why(query, error)))];
    }
    const subject = query.user !== undefined ? user(query.user) : ["The session"];
    const verdict = h("p", { class: `answer ${told.allowed ? "yes" : "no"}` }, h("b", {}, told.allowed ? "Yes. " : "No. "),
        subject, told.allowed ? " may do " : " may not do ", name(query.operation), " on ", object(query.object), ".");
    const reasons = query.user !== undefined ? await reasonsOfUser(query, told, reading) : reasonsOfSession(told);
    const nodes = [section("Answer", verdict, reasons.map((line) => h("p", {}, line)),
        h("p", { class: "quiet" }, "The proved library has decided this; the reasons come from its review functions, locks and sets. ",
            "The request was POST /explain with ",
            h("bdi", { class: "mono" }, JSON.stringify(query.session === undefined ? query : { ...query, session: "…" })), "."))];
    const way = (told.by ?? told.inactive ?? [])[0];
    if (way && may("lists")) {
        nodes.push(wayOf(query, way));
    }
    return nodes;
}

/** Why a user may do it, or not. */
async function reasonsOfUser(query, told, reading) {
    const lines = (told.by ?? []).map((one) => sourceOf(user(query.user), one, "assigned"));
    const hasRole = lines.length > 0;
    for (const { role: one, set: setName, members } of told.blocked ?? []) {
        lines.push(["The permission is granted to ", role(one), ", but no session can have that role",
            setName ? [": it includes ", listed((members ?? []).map(role)), ", too many roles of ", set("dynamic", setName)] : null, "."]);
    }
    if (lines.length === 0 && !told.allowed) {
        lines.push(await lackOf(query, reading));
    }
    // Who has such a role and still may not do it is locked, whether or not the front says so to this caller.
    if (told.locked || (hasRole && !told.allowed)) {
        const without = hasRole ? "Without the lock:" : "Without the lock the answer would still be no:";
        lines.unshift([user(query.user), " is locked, and may do nothing. ", without]);
    }
    return lines;
}

/** "ann is assigned to branch manager, to which it is granted." */
function sourceOf(subject, one, key) {
    const from = one[key] ?? [];
    const isDirect = from.includes(one.role);
    const verb = key === "assigned" ? " is assigned to " : " has activated ";
    if (from.length === 0) {
        return ["It is granted to ", role(one.role), "."];
    }
    const others = from.filter((other) => other !== one.role);
    if (isDirect) {
        return [subject, verb, role(one.role), ", to which it is granted."];
    }
    return [subject, verb, listed(others.map(role)), others.length === 1 ? ", which inherits from " : ", which inherit from ", role(one.role), ", to which it is granted."];
}

/** What a user would need. The front leaves out the roles by which a user may do it if the caller may not know them. */
async function lackOf(query, reading) {
    if (!["permissionRoles", "authorizedRoles", "assignedRoles"].every((fn) => may(fn, query))) {
        return ["You have no right to see why."];
    }
    if (!may("lists")) {
        return ["No role gives this permission to the user."];
    }
    const grants = await reading.everything("grants", { object: query.object, operation: query.operation });
    if (grants.length === 0) {
        return ["No role has this permission."];
    }
    return ["It is granted to ", some(grants.map((row) => row.role), role, "and", 20), ", and ",
        user(query.user), grants.length === 1 ? " is not authorized for that role." : " is authorized for none of these roles."];
}

function reasonsOfSession(told) {
    const lines = (told.by ?? []).map((one) => sourceOf("The session", one, "activated"));
    if (lines.length === 0) {
        for (const one of told.inactive ?? []) {
            lines.push(["Its user is authorized for ", role(one.role), ", which has the permission, but the session doesn't have that role."]);
        }
        for (const { role: one, set: setName, members, kind } of told.blocked ?? []) {
            lines.push(["Its user is authorized for ", role(one), ", which has the permission, but the session can't have that role",
                setName ? [": it would have ", listed((members ?? []).map(role)), ", too many roles of ", set("dynamic", setName)]
                    : kind ? ": it has as many activated roles as there may be" : null, "."]);
        }
    }
    return lines.length || told.allowed ? lines : [["No role of the session has this permission, and its user is authorized for none that has it."]];
}

function wayOf(query, { role: last, assigned = [], activated = [] }) {
    const from = assigned.length ? assigned : activated;
    const about = "The way from the user over roles to the permission, as in the sentence above";
    const path = { role: last, from: from.join("\t"), operation: query.operation, object: query.object, user: query.user };
    return section("The way", from.length ? drawn(path, about) : h("p", { class: "quiet" }, "You have no right to see the roles between."));
}
