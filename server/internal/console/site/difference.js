/** The difference of two copies of the policy. The files are read by the browser: they go nowhere. */

import { report, reportLines } from "./api.js";
import { csvOfRows, download } from "./files.js";
import { say } from "./notice.js";
import { button, field, form, section, table } from "./parts.js";
import { counted, h, name } from "./text.js";

/** The facts of each line of a copy, in the order in which they are shown. {roles} is one role of the list: each has a fact. */
const FACTS = {
    addUser: ["user {user}"], addRole: ["role {role}"], addInheritance: ["inheritance: {asc} is an immediate ascendant of {desc}"],
    addPermObj: ["object {object}"], addPermission: ["permission: {operation} on {object}"],
    grantPermission: ["grant: {operation} on {object} to the role {role}"],
    createSsdSet: ["static set {set} of cardinality {cardinality}", "member of the static set {set}: the role {roles}"],
    createDsdSet: ["dynamic set {set} of cardinality {cardinality}", "member of the dynamic set {set}: the role {roles}"],
    assignUser: ["assignment: the user {user} to the role {role}"],
    createSession: ["session {digest} of the user {user}", "activated role of the session {digest}: {roles}"],
    lockUserAccount: ["lock of the user {user}"],
};
const ORDER = Object.values(FACTS).flat();

/** Why a file can't be compared. */
class Unreadable extends Error {}

/** Returns the facts of a copy, each at a text that no other fact has. */
function factsOf(lines, what) {
    const facts = new Map();
    lines.forEach((line, i) => {
        const fault = (why) => new Unreadable(`Line ${i + 1} of ${what} ${why}.`);
        let request;
        try {
            request = JSON.parse(line);
        } catch {
            throw fault("is none of a copy of the policy");
        }
        if (request?.session !== undefined) {
            throw fault("has the name of a session, which nobody should see: make the copy without names");
        }
        if (!Object.hasOwn(FACTS, request?.fn ?? "")) {
            throw fault("is none of a copy of the policy");
        }
        for (const template of FACTS[request.fn]) {
            for (const one of template.includes("{roles}") ? [request.roles ?? []].flat() : [undefined]) {
                const parts = template.split(/\{(\w+)\}/).map((part, at) => (at % 2 === 0 ? part : { value: part === "roles" ? one : request[part] }));
                if (parts.some((part) => part.value === undefined && typeof part !== "string")) {
                    throw fault("lacks a part");
                }
                facts.set(JSON.stringify([ORDER.indexOf(template), ...parts]), parts);
            }
        }
    });
    return facts;
}

/** Returns what only one of two copies has, in order: where, and the parts of the fact. */
function differences(first, second) {
    const only = (where, facts, others) => [...facts].filter(([key]) => !others.has(key)).map(([key, parts]) => ({ where, key, parts }));
    const place = ({ key }) => JSON.parse(key)[0];
    return [...only("first", first, second), ...only("second", second, first)]
        .sort((a, b) => place(a) - place(b) || (a.key < b.key ? -1 : a.key > b.key ? 1 : 0));
}

const sentence = (parts, show) => parts.map((part) => (typeof part === "string" ? part : show(String(part.value))));

function save(found) {
    const rows = found.map(({ where, parts }) => [`only in the ${where}`, sentence(parts, (text) => text).join("")]);
    download("difference.csv", "text/csv", csvOfRows([["where", "what"], ...rows]));
}

export async function differencePage() {
    const place = h("div", { id: "answer", "aria-live": "polite" });
    const choose = (label, key, more) => field(label, key, { type: "file", accept: ".jsonl", ...more });
    const [first, second] = [choose("First copy", "first", { required: true }), choose("Second copy; without one, the office as it is now", "second")];
    const fileOf = (label) => label.querySelector("input").files[0];
    const compare = async () => {
        try {
            place.replaceChildren(...await compared(fileOf(first), fileOf(second)));
        } catch (error) {
            if (!(error instanceof Unreadable)) {
                throw error;
            }
            place.replaceChildren();
            say("refused", [name(error.message)]);
        }
    };
    return [h("h1", {}, "What has changed"), section("The copies",
        h("p", {}, "Copies are files of “The policy as lines”, or what tools/dump.sql prints. They stay in this browser."),
        form("Compare two copies", [first, second], "Compare", compare)), place];
}

async function linesIn(file) {
    return (await file.text()).split("\n").filter((line) => line !== "");
}

async function compared(first, second) {
    const now = second ? null : await report("dump");
    const before = factsOf(await linesIn(first), "the first copy");
    const after = factsOf(now ? await reportLines(now.ticket) : await linesIn(second), "the second copy");
    const found = differences(before, after);
    const rows = found.map(({ where, parts }) => [h("span", { class: `mark ${where === "first" ? "no" : "yes"}` }, `only in the ${where}`), sentence(parts, name)]);
    const count = (where) => found.filter((one) => one.where === where).length;
    return [section("Difference",
        h("p", { id: "about" }, "First: ", name(first.name), "; second: ", second ? name(second.name) : `the office at revision ${now.policy} of the policy`, `. ${counted(count("first"), "line")} only in the first, ${count("second")} only in the second.`),
        found.length ? h("div", { class: "actions" }, button("Print", "Print the difference", () => window.print(), "main"),
            button("Download CSV", "Download the difference", () => save(found))) : null,
        table("What only one of the two copies has", ["Where", "What"], rows, "Nothing has changed."),
        h("p", { class: "sign" }, "Date, name and signature"))];
}
