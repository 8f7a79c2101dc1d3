/** Review: a recertification of who has what. It is in this page alone until the reviewer saves it to a file. */

import { endReview, Lost, may, readTogether, record } from "./api.js";
import { download } from "./files.js";
import { say } from "./notice.js";
import { button, deliberate, field, form, section, table, Unfit } from "./parts.js";
import { csvOf, digestOf, fileName, MOST_LINES, opened, peopleOf, reviewName, saved, textOf } from "./reviewfile.js";
import { counted, h, listed, name, plain, role, user } from "./text.js";

import { MOST, performed, trial } from "./whatif.js";

// The review at hand, or null. `permissions` has those of each role; `shown` and `first` say which lines are on the page.
let review = null;
const SHOWN = 50;
const GIVEN = 5;
const GIVEN_IN_FILE = 100;

export function forgetReview() {
    review = null;
}

/** Whether decisions or notes would be lost if the page were left. */
export const isUnsaved = () => review?.isUnsaved === true;

export async function reviewPage({ anew }) {
    return review ? pageOf(anew) : [h("h1", {}, "Review"), section("Begin a review", beginForm(anew)), section("Go on with a review", openForm(anew))];
}

const CHOICES = [["all", "all users"], ["role", "those who are assigned to the role"], ["only", "the role alone, and who is assigned to it"],
    ["contains", "those whose names contain"], ["people", "those in the people file"]];

function file(label, key, accept) {
    return field(label, key, { type: "file", accept });
}

function beginForm(anew) {
    const kind = h("select", { id: "whom", "data-key": "whom" }, CHOICES.map(([value, text]) => h("option", { value }, text)));
    const which = field("Role, or part of a name", "which", { from: "roles" });
    const people = file("People file (CSV), if there is one", "file", ".csv,text/csv");
    const inputs = [field("Name of the review", "name", { required: true, maxlength: "120", placeholder: "Q4 2026" }),
        h("label", { for: "whom" }, h("span", {}, "Review"), kind), which, people];
    return [
        h("p", {}, "Decide for each assignment whether it is kept or removed. A people file has the columns user, name, department and manager, ",
            "which are only shown."),
        form("Begin a review", inputs, "Begin", async (values) => {
            const chosen = people.querySelector("input").files[0];
            const found = chosen || values.whom === "people" ? peopleOf(await textOf(chosen)) : new Map();
            const begun = { name: reviewName(values.name), begun: new Date().toISOString(), ended: null, people: found };
            await fill(anew, async (reading) => ({ ...begun, ...await chosenBy(values.whom, values.which, found, reading) }));
        }),
    ];
}

function openForm(anew) {
    const saving = file("File of a review", "file", ".json,application/json");
    return form("Go on with a review", [saving], "Open", async () => {
        const found = opened(await textOf(saving.querySelector("input").files[0]));
        await fill(anew, async (reading) => (found.ended ? found : compared(found, reading)));
    });
}

const newLine = (row, isNew = false) => ({ user: row.user, role: row.role, decision: "", note: "", state: "", isNew });

/** Returns the users that are chosen, and a line for each of their assignments. */
async function chosenBy(whom, which, people, reading) {
    if (["role", "only", "contains"].includes(whom) && which === "") {
        throw new Unfit("Say which role, or which part of a name.");
    }
    const only = whom === "only" ? which : "";
    const chosen = ["role", "only"].includes(whom) ? ["assignments", { role: which }] : ["users", whom === "contains" ? { contains: which } : {}];
    const [rows, assignments] = await reading.lists(chosen, ["assignments", only ? { role: only } : {}]);
    const users = new Set(whom === "people" ? people.keys() : rows.map((row) => row.user ?? row));
    const lines = assignments.filter((row) => users.has(row.user)).map((row) => newLine(row));
    if (lines.length === 0) {
        throw new Unfit("Nobody whom you have chosen is assigned to a role.");
    }
    if (lines.length > MOST_LINES) {
        throw new Unfit(`These are ${lines.length.toLocaleString("en")} assignments. At most ${MOST_LINES.toLocaleString("en")} can be reviewed at once: choose fewer users.`);
    }
    return { only, users: [...users], lines };
}

/** Returns a review that was saved, compared with what the office has now. */
async function compared(file, reading) {
    const found = { ...file, lines: file.lines.map((line) => ({ ...line })) };
    const users = new Set(found.users);
    const rows = (await reading.everything("assignments", found.only ? { role: found.only } : {})).filter((row) => users.has(row.user));
    const keyOf = (one) => JSON.stringify([one.user, one.role]);
    const now = new Set(rows.map(keyOf));
    const known = new Map(found.lines.map((line) => [keyOf(line), line]));
    for (const line of found.lines) {
        if (line.state !== "removed") {
            line.state = now.has(keyOf(line)) ? "" : "gone";
        }
    }
    for (const row of rows) {
        const line = known.get(keyOf(row));
        if (!line) {
            found.lines.push(newLine(row, true));
        } else if (line.state === "removed") {
            Object.assign(line, newLine(row, true)); // Somebody has assigned it again.
        }
    }
    return found;
}

/** Reads a review together with the permissions of its roles, and shows it. */
async function fill(anew, read) {
    const [found, { isMixed }] = await readTogether(async (reading) => {
        const chosen = await read(reading);
        const roles = [...new Set(chosen.lines.map((line) => line.role))];
        const answers = await reading.values(...roles.map((one) => ({ fn: "rolePermissions", role: one })));
        const permissions = new Map(roles.map((one, i) => [one, (answers[i] ?? []).map(([object, operation]) => [operation, object])]));
        return { ...chosen, permissions, shown: "all", first: 0 };
    });
    review = found;
    if (isMixed) {
        say("unsure", ["The policy changed while the review was read, so lines may be missing. Close it, and begin again."]);
    }
    await anew();
}

const decided = (decision) => review.lines.filter((line) => line.decision === decision && line.state !== "gone");
const pending = () => decided("remove").filter((line) => line.state === "");

function summary() {
    const count = (text, number) => `${number.toLocaleString("en")} ${text}`;
    const removed = review.lines.filter((line) => line.state === "removed").length;
    return [count("to keep", decided("keep").length), count("to remove", decided("remove").length - removed), count("removed", removed),
        count("undecided", decided("").length), count("no longer assigned", review.lines.filter((line) => line.state === "gone").length)].join(", ");
}

function pageOf(anew) {
    const place = h("div", { id: "answer", "aria-live": "polite" });
    const counts = h("p", { id: "counts" }, summary());
    const holder = h("div", {});
    const lines = (isWhole = false) => holder.replaceChildren(...linesOf(counts, lines, isWhole));
    lines();
    onPrint(holder, lines);
    const isOpen = !review.ended;
    return [
        h("h1", {}, "Review ", name(review.name)),
        endOf(), actionsOf(anew), changesOf(),
        section("Who has what", counts, holder),
        isOpen && may("whatIf") ? section("What the removals would do", removals(place, anew)) : null, place,
        isOpen ? section("End of the review", ending(anew)) : null,
        h("div", { class: "paper" }, h("p", {}, `Begun on ${review.begun.slice(0, 10)}. Printed on ${new Date().toISOString().slice(0, 10)}.`),
            h("p", {}, "Reviewed by: ______________________________    Date: ______________    Signature: ______________________________")),
    ];
}

/** On paper there are all lines. */
function onPrint(holder, lines) {
    const both = [["beforeprint", () => lines(true)], ["afterprint", () => lines()]].map(([event, show]) => [event, () => {
        if (holder.isConnected) {
            show();
        } else {
            both.forEach(([other, listener]) => window.removeEventListener(other, listener));
        }
    }]);
    both.forEach(([event, listener]) => window.addEventListener(event, listener));
}

function endOf() {
    return review.ended ? h("p", {}, `This review has ended: entry ${review.ended.number} of the record. The SHA-256 digest of its list is `,
        h("span", { class: "mono" }, review.ended.sha256), ".") : null;
}

function actionsOf(anew) {
    const close = deliberate("Close", "Close the review", "Close it? What you haven't saved is lost.", async () => {
        forgetReview();
        await anew();
    });
    return h("div", { class: "actions" },
        button("Save", "Save the review to a file", () => {
            download(fileName(review, "json"), "application/json", saved(review));
            review.isUnsaved = false;
            say("done", ["The review is in a file of your browser's downloads. Open it here to go on."]);
        }),
        button("CSV", "Download the list as CSV", () => download(fileName(review, "csv"), "text/csv", list())),
        button("Print", "Print the list", () => window.print()),
        review.ended ? null : deliberate("Keep the others", "Keep all that is undecided", "Keep all that is undecided?", async () => {
            decided("").forEach((line) => { line.decision = "keep"; });
            review.isUnsaved = true;
            await anew();
        }),
        close);
}

/** What the office has that the review hadn't when it was saved, and the other way round. */
function changesOf() {
    const gone = review.lines.filter((line) => line.state === "gone");
    const fresh = review.lines.filter((line) => line.isNew);
    const known = new Set(review.lines.map((line) => line.user));
    const unknown = [...review.people.keys()].filter((one) => !known.has(one));
    const of = (rows) => listed(rows.slice(0, SHOWN).map((line) => [user(line.user), " as ", role(line.role)]));
    const more = (rows) => (rows.length > SHOWN ? `, and ${rows.length - SHOWN} more` : "");
    const parts = [
        gone.length ? h("p", {}, "No longer assigned: ", of(gone), more(gone), ".") : null,
        fresh.length ? h("p", {}, "Assigned since then: ", of(fresh), more(fresh), ".") : null,
        unknown.length ? h("p", {}, "In the people file, and without a line here: ", listed(unknown.slice(0, SHOWN).map(name)), more(unknown), ".") : null,
    ].filter(Boolean);
    return parts.length ? section("What is different in the office", parts) : null;
}

/** The permissions of a role in words, the first ones. */
function given(one) {
    const all = review.permissions.get(one) ?? [];
    const shown = all.slice(0, GIVEN).map(([operation, object]) => [name(operation), " on ", name(object)]);
    return all.length === 0 ? h("span", { class: "quiet" }, "nothing") : [listed(shown), all.length > GIVEN ? ` and ${all.length - GIVEN} more` : null];
}

function givenInFile(one) {
    const all = (review.permissions.get(one) ?? []).map(([operation, object]) => `${operation} on ${object}`);
    return all.slice(0, GIVEN_IN_FILE).join("; ") + (all.length > GIVEN_IN_FILE ? `; and ${all.length - GIVEN_IN_FILE} more` : "");
}

const RESULTS = new Map([["", ""], ["removed", "removed"], ["gone", "no longer assigned"]]);

function resultOf(line) {
    return RESULTS.get(line.state) ?? `refused: ${line.state}`;
}

const list = () => csvOf(review, givenInFile, resultOf);

const FILTERS = { all: () => true, undecided: (line) => line.decision === "", remove: (line) => line.decision === "remove" };

function linesOf(counts, again, isWhole) {
    const chosen = review.lines.filter(FILTERS[isWhole ? "all" : review.shown]);
    const first = isWhole ? 0 : review.first;
    const part = isWhole ? chosen : chosen.slice(first, first + SHOWN);
    const select = h("select", { id: "shown" }, [["all", "all lines"], ["undecided", "what is undecided"], ["remove", "what is to be removed"]]
        .map(([value, text]) => h("option", { value, selected: value === review.shown }, text)));
    select.addEventListener("change", () => {
        Object.assign(review, { shown: select.value, first: 0 });
        again();
        document.getElementById("shown").focus();
    });
    const turn = (text, to) => button(text, `${text} of the lines`, () => {
        review.first = to;
        again();
    });
    const caption = part.length === 0 ? "Lines" : `Lines ${first + 1} to ${first + part.length} of ${chosen.length.toLocaleString("en")}`;
    return [
        h("div", { class: "actions" }, h("label", { for: "shown" }, h("span", {}, "Show"), select),
            first > 0 ? turn("Earlier part", first - SHOWN) : null, first + SHOWN < chosen.length && !isWhole ? turn("Next part", first + SHOWN) : null),
        table(caption, ["User", "Role", "Gives", "Decision", "Note"], part.map((line) => rowOf(line, counts)), "There is no such line."),
    ];
}

let groups = 0;

function rowOf(line, counts) {
    const person = review.people.get(line.user);
    const about = [person?.name, person?.department, person?.manager && `manager: ${person.manager}`].filter(Boolean);
    const on = h("span", { class: "paper" }, wordsOf(line));
    const noted = h("span", { class: "paper" }, name(line.note));
    const isOpen = !review.ended && line.state !== "removed" && line.state !== "gone";
    groups += 1;
    const radio = (value, text) => {
        const input = h("input", { type: "radio", name: `decision-${groups}`, value, checked: line.decision === value });
        input.addEventListener("change", () => {
            Object.assign(line, { decision: value, state: "" });
            review.isUnsaved = true;
            on.replaceChildren(wordsOf(line));
            counts.replaceChildren(summary());
        });
        return h("label", { class: "check" }, input, text);
    };
    const note = h("input", { value: line.note, maxlength: "500", autocomplete: "off" });
    note.addEventListener("input", () => {
        line.note = note.value;
        review.isUnsaved = true;
        noted.replaceChildren(name(line.note));
    });
    const whose = `${plain(line.role)} of ${plain(line.user)}`;
    return [
        [user(line.user), about.length ? h("div", { class: "quiet" }, about.flatMap((one, i) => [i > 0 ? ", " : "", name(one)])) : null],
        role(line.role), given(line.role),
        isOpen ? [h("fieldset", { "aria-label": `Decision about ${whose}` }, radio("keep", "Keep"), radio("remove", "Remove")), on,
            line.state === "" ? null : h("span", { class: "mark no" }, "refused: ", line.state)] : wordsOf(line),
        isOpen ? [h("label", {}, h("span", { class: "unseen" }, `Note about ${whose}`), note), noted] : name(line.note),
    ];
}

function wordsOf(line) {
    return resultOf(line) || { keep: "keep", remove: "remove" }[line.decision] || "undecided";
}

const commandOf = (line) => ({ fn: "deassignUser", user: line.user, role: line.role });

/** Tries the next removals over a copy, and does them if that is wanted: the record has the review's name as the reason. */
function removals(place, anew) {
    const perform = (lines, commands) => async (revision) => {
        const { answers = [], so = [] } = await performed(commands, revision, review.name);
        answers.forEach((answer, i) => {
            // 11: it isn't assigned any more. 2 and 4: the user or the role isn't there any more.
            lines[i].state = answer.ok ? "removed" : [2, 4, 11].includes(answer.code) ? "gone" : answer.error;
        });
        lines.filter((_, i) => so[i]).forEach((line) => { line.state = "gone"; });
        if (answers.length + so.length > 0) {
            await anew();
        }
    };
    return [
        h("p", {}, `The removals are tried on a copy of the office first, up to ${MOST} at once. When they are done, the record has the name of the review as their reason.`),
        button("Try the removals", "Try the removals on a copy", async () => {
            place.replaceChildren();
            const lines = pending().slice(0, MOST);
            if (lines.length === 0) {
                throw new Unfit("Nothing is to be removed.");
            }
            const commands = lines.map(commandOf);
            place.replaceChildren(...await trial(commands, { perform: perform(lines, commands) }));
        }),
    ];
}

/** Returns the number of the entry with the digest of a list, of which the answer is lost. The record says whether it is there. */
async function recordedEnd(error, sha256) {
    if (!(error instanceof Lost && may("record"))) {
        throw error;
    }
    const { entries } = await record({ limit: 50 }).catch(() => { throw error; });
    const found = entries.find(({ request }) => request.record === "reviewed" && request.sha256 === sha256);
    if (!found) {
        throw error;
    }
    return found.number;
}

/** Records that the review has ended, with the digest of its list. */
function ending(anew) {
    const end = async () => {
        const count = decided("").length;
        if (count > 0) {
            throw new Unfit(`${counted(count, "line")} ${count === 1 ? "is" : "are"} undecided. Decide about all lines first.`);
        }
        const text = list();
        const sha256 = await digestOf(text);
        const kept = decided("keep").length;
        const removed = review.lines.filter((line) => line.state === "removed").length;
        const values = { review: review.name, sha256, kept, removed, open: review.lines.length - kept - removed };
        const number = await endReview(values).catch((error) => recordedEnd(error, sha256));
        Object.assign(review, { ended: { number, sha256 }, isUnsaved: false }); // The list that is downloaded has all of it.
        download(fileName(review, "csv"), "text/csv", text);
        say("done", [`The review has ended: entry ${number} of the record has the SHA-256 digest of the list, which your browser has downloaded.`]);
        await anew();
    };
    return [
        h("p", {}, "The end of the review becomes an entry of the record, with the SHA-256 digest of the list as CSV. Keep that list."),
        deliberate("End the review", "End the review", "End it? Its decisions can't be changed afterwards.", end),
    ];
}
