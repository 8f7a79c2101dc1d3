/** The record: who asked for which command, when and why, and what the office answered. */

import { visit } from "./address.js";
import { record, Refused } from "./api.js";
import { field, form, section, table } from "./parts.js";
import { h, hashOf, name, time } from "./text.js";
import { done, FUNCTIONS, short, wanted, why } from "./words.js";

/** Returns a table of entries. In a short one there are no reasons and numbers. */
export function entriesTable(caption, entries, isShort = false) {
    const heads = isShort ? ["When (UTC)", "Who", "What"] : [{ class: "number", child: "Number" }, "When (UTC)", "Who", "What", "Why"];
    const rows = entries.map((entry) => {
        const cells = [{ class: "time", child: time(entry.at) }, name(entry.caller), whatOf(entry)];
        const why = entry.reason ? name(entry.reason) : h("span", { class: "quiet" }, "–");
        return isShort ? cells : [{ class: "number", child: String(entry.number) }, ...cells, why];
    });
    return table(caption, heads, rows, "There is no such entry.");
}

/** What an entry says, in a sentence. */
function whatOf({ request, answer, found }) {
    if (answer?.lost) {
        const what = request.fn ? wanted(request.fn, request) : ["the end of the review ", name(request.review)];
        return [...what, ": the office never got it, since the front or its replay ended before."];
    }
    if (request.record === "reviewed") {
        return ["The review ", name(request.review), ` has ended: ${request.kept} kept, ${request.removed} removed, ${request.open} open. SHA-256 of its list: `,
            h("span", { class: "mono" }, request.sha256), "."];
    }
    if (request.record === "adopts" && request.restored) {
        return h("span", { class: "quiet" }, "The backup ", name(request.restored), " was restored, by ", name(request.by), ".");
    }
    if (request.record === "adopts" && request.by) {
        return h("span", { class: "quiet" }, "The record adopts the office as it is, by ", name(request.by), ".");
    }
    if (request.record !== undefined) {
        return h("span", { class: "quiet" }, `The record ${request.record}.`);
    }
    const note = found ? h("span", { class: "quiet" }, " (found out at a start)") : null;
    if (!answer) {
        return [...wanted(request.fn, request), ": no answer is known yet."];
    }
    if (answer.unknown) {
        return [request.fn, ": whether it was done isn't known."];
    }
    if (answer.error !== undefined) {
        return [h("span", { class: "mark no" }, "refused"), " ", wanted(request.fn, request), ": ", short(answer, request), ".", note];
    }
    return [done(request.fn, request), note];
}

const FILTERS = [
    "user", "role", "object", "operation", "set", "session", "reason", "function", "caller", "since", "until", "refused", "before",
];

export async function recordPage({ query }) {
    const wantedQuery = Object.fromEntries(Object.entries(query).filter(([key]) => FILTERS.includes(key)));
    const nodes = [h("h1", {}, "Record")];
    let found;
    try {
        found = await record({ limit: 50, ...wantedQuery });
    } catch (error) {
        if (!(error instanceof Refused && error.status === 400)) {
            throw error;
        }
        return [...nodes, section("Entries", filterForm(query), h("p", { class: "warning" }, "The record was not searched: ", await why({}, error)))];
    }
    const { entries, head, next } = found;
    const older = { ...wantedQuery, before: next };
    const count = `${entries.length} ${entries.length === 1 ? "entry" : "entries"}${next ? ", and there are older ones" : ""}`;
    return [
        ...nodes,
        section("Entries", filterForm(query),
            entriesTable(`The newest first${Object.keys(wantedQuery).length ? ", chosen by the filter" : ""}: ${count}`, entries),
            h("p", { class: "pager" },
                query.before ? h("a", { href: hashOf(["record"]) }, "Newest entries") : null, query.before && next ? " · " : null,
                next ? h("a", { href: `${hashOf(["record"])}?${new URLSearchParams(older)}` }, "Older entries") : null)),
        section("Head of the chain",
            h("p", {}, "Each entry has a digest of itself and of all entries before it. Write this head down elsewhere: ",
                h("span", { class: "mono" }, "rbac-node record verify --head"), " then finds whether somebody has changed what came before."),
            h("p", { class: "mono", id: "head" }, head)),
    ];
}

/** Returns a field for a day, or for what else an address has. */
function timeField(label, key, value = "") {
    const made = field(label, key, { value, type: "date" });
    const input = made.querySelector("input");
    if (input.value !== value) {
        Object.assign(input, { type: "text", value });
    }
    return made;
}

function filterForm(query) {
    const text = (label, key, more = {}) => field(label, key, { value: query[key] ?? "", ...more });
    const chosen = query.function ?? "";
    const functions = h("select", { id: "function", "data-key": "function" }, ["", ...new Set([...FUNCTIONS, chosen])].filter((one, i) => i === 0 || one !== "")
        .map((one) => h("option", { value: one, selected: one === chosen }, one || "any")));
    const refused = field("Only refused", "refused", { type: "checkbox", checked: query.refused === "true" });
    refused.className = "check";
    const inputs = [
        text("User", "user", { from: "users" }), text("Role", "role", { from: "roles" }), text("Object", "object", { from: "objects" }),
        text("Operation", "operation", { from: "operations" }), text("Separation of duty set", "set"), text("Session (digest)", "session"),
        h("label", { for: "function" }, h("span", {}, "Function"), functions), text("Caller", "caller"), text("Why contains", "reason"),
        timeField("Since (UTC)", "since", query.since), timeField("Before (UTC)", "until", query.until), refused,
    ];
    return form("Filter the record", inputs, "Filter", (values) => {
        const given = Object.entries(values).filter(([, value]) => value !== "" && value !== false);
        visit(`${hashOf(["record"])}?${new URLSearchParams(given)}`);
    }, { class: "search" });
}
