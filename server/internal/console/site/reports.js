/** Reports: shown to be read, printed and signed, or as files, each by a ticket for one download. */

import { visit } from "./address.js";
import { Refused, report, reportLines, who } from "./api.js";
import { say } from "./notice.js";
import { button, fail, field, form, section, table } from "./parts.js";
import { brief, counted, h, hashOf, link, name, time } from "./text.js";
import { differencePage } from "./difference.js";
import { KINDS } from "./overview.js";

const HOLDS = [["User", "user", "users"], ["Role", "role", "roles"], ["Object", "object", "objects"], ["Operation", "operation", "operations"]];

/** The reports: a title, what is in them, fields that choose lines, heads of columns, and what narrows a report that is too long. */
const REPORTS = {
    permissions: {
        title: "Who may do what", fields: HOLDS, narrow: "Choose a user, a role, an object or an operation.",
        about: "A line for each way in which a user has a permission: the role that is assigned, and the role to which it is granted. No session can have what is granted to a role that violates a dynamic set by itself, and a locked user has no session.",
        heads: ["User", "Locked", "Object", "Operation", "Assigned", "Granted to", "Violates"],
    },
    near: {
        title: "Who is near to a set", narrow: "Choose a user, a set, or a smaller number of roles.",
        fields: [["User", "user", "users"], ["Set", "set", "staticSets"], ["Roles left, at most", "left", null, { type: "number" }]],
        about: "A line for each member of a separation of duty set that a user is authorized for, or that a session has: how many more would violate the set, and the role that gives the member. With 1 in the last field: who is one role away.",
        heads: ["Left", "Kind", "Set", "Cardinality", "Holder", "Name", "Members", "Member", "By"],
    },
    sessions: {
        title: "Sessions", fields: HOLDS, narrow: "Choose a user, a role, an object or an operation.",
        about: "A line for each activated role and each permission that it gives. The name of a session isn't shown, but a digest of it.",
        heads: ["Digest", "User", "Activated", "Object", "Operation", "Granted to"],
    },
    room: {
        title: "Room", fields: [], about: "How many there are of each kind, how many there may be, and how many are left.",
        heads: ["Kind", "There are", "At most", "Left"],
    },
    dump: {
        title: "The policy as lines", fields: [], about: "Request lines that make the same office, without its sessions. Keep one of each review: the difference of two says what has changed.",
        heads: ["Line"],
    },
};

// How many lines a page shows at first, and at most.
const SHOWN = 500;
const MOST_SHOWN = 10_000;

export async function reportsPage() {
    const entry = (segment, title, about) => h("li", {}, h("b", {}, link(["reports", segment], title)), h("p", { class: "quiet" }, about));
    return [h("h1", {}, "Reports"), section("To read, to print and to sign, or as files",
        h("ul", { class: "sets" }, Object.entries(REPORTS).map(([segment, { title, about }]) => entry(segment, title, about)),
            entry("difference", "What has changed", "The difference of two copies of the policy, or of one and the office as it is.")))];
}

export async function reportPage([segment], { query }) {
    if (segment === "difference") {
        return differencePage();
    }
    const told = Object.hasOwn(REPORTS, segment) ? REPORTS[segment] : null;
    if (!told) {
        return [h("h1", {}, "Report ", name(segment)), h("p", {}, "There is no such report.")];
    }
    const chosen = chosenOf(told, query);
    const nodes = [h("h1", {}, told.title), section("What is in it", h("p", {}, told.about), told.fields.length ? filterForm(segment, told, query) : null)];
    try {
        nodes.push(await shown(segment, told, chosen, query));
    } catch (error) {
        if (!(error instanceof Refused && error.lines)) {
            throw error;
        }
        nodes.push(section("Lines", h("p", { class: "warning" }, tooLong(told, error))));
    }
    return nodes;
}

/** Returns what the fields of a report choose. */
function chosenOf(told, query) {
    const given = told.fields.map(([, key]) => key).filter((key) => query[key]);
    return Object.fromEntries(given.map((key) => [key, key === "left" ? Number(query[key]) : query[key]]));
}

function tooLong({ narrow }, { lines }) {
    return `This would be ${counted(lines, "line")}, and a report has at most 1,000,000. ${narrow}`;
}

function filterForm(segment, told, query) {
    const inputs = told.fields.map(([label, key, from, more]) => field(label, key, { from, value: query[key] ?? "", ...more }));
    return form(`Choose lines: ${told.title}`, inputs, "Show", (values) => {
        const given = Object.entries(values).filter(([, value]) => value !== "");
        visit(`${hashOf(["reports", segment])}?${new URLSearchParams(given)}`);
    }, { class: "search" });
}

/** Returns the section with the lines of a report. */
async function shown(segment, told, chosen, query) {
    const most = query.all ? MOST_SHOWN : SHOWN;
    const made = await report(segment, { ...chosen, format: "lines", limit: most });
    const lines = await reportLines(made.ticket);
    const cells = (line) => JSON.parse(line).map((cell) => brief(segment === "room" ? KINDS[cell] ?? cell : cell));
    const rows = lines.map((line) => (made.columns ? cells(line) : [h("span", { class: "mono" }, brief(line))]));
    const more = { ...chosen, all: "yes" };
    const filters = told.fields.filter(([, key]) => key in chosen).map(([label, key]) => [", ", label.toLowerCase(), " ", name(String(chosen[key]))]);
    const about = [counted(made.lines, "line"), " of ", time(made.at), ` UTC, revision ${made.policy} of the policy`, filters,
        who().open ? null : [", asked by ", name(who().caller)], "."];
    return section("Lines",
        h("p", { id: "about" }, about),
        h("div", { class: "actions" },
            button("Print", `Print: ${told.title}`, () => window.print(), "main"),
            button(made.columns ? "Download CSV" : "Download lines", `Download: ${told.title}`, () => download(segment, told, chosen))),
        table(told.title, told.heads, rows, "There is no such line."),
        made.lines > lines.length ? h("p", {}, `These are the first ${lines.length.toLocaleString("en")} lines. The file has all. `,
            query.all ? null : h("a", { href: `${hashOf(["reports", segment])}?${new URLSearchParams(more)}` }, `Show up to ${MOST_SHOWN.toLocaleString("en")}`)) : null,
        h("p", { class: "sign" }, "Date, name and signature"));
}

/** Asks for a ticket, and lets the browser download the file that it is for. */
async function download(segment, told, chosen) {
    let made;
    try {
        made = await report(segment, chosen);
    } catch (error) {
        return error instanceof Refused && error.lines ? say("refused", [tooLong(told, error)]) : fail(error);
    }
    h("a", { href: `../reports/${made.ticket}`, download: true }).click();
    say("done", [`A file of ${counted(made.lines, "line")} is being downloaded.`]);
}
