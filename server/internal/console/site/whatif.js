/** What if: commands are tried over a copy of the office by the proved program, and done for real if that is wanted. */

import { doAll, Lost, may, Refused, whatIf } from "./api.js";
import { NOT_YET, say, UNSAID } from "./notice.js";
import { areSo } from "./outcome.js";
import { deliberate, fail, field, form, number, section, table, Unfit } from "./parts.js";
import { counted, h, json, name, object, role, user } from "./text.js";
import { done, short, wanted } from "./words.js";

/** The most commands that are tried at once. */
export const MOST = 100;

// What can be chosen: a label, the function, and its keys.
const CHOICES = [
    ["Assign a role", "assignUser", "user", "role"], ["Remove an assignment", "deassignUser", "user", "role"],
    ["Add a user", "addUser", "user"], ["Delete a user", "deleteUser", "user"],
    ["Lock a user", "lockUserAccount", "user"], ["Unlock a user", "unlockUserAccount", "user"],
    ["Grant a permission", "grantPermission", "operation", "object", "role"],
    ["Revoke a permission", "revokePermission", "operation", "object", "role"],
    ["Add an inheritance", "addInheritance", "asc", "desc"], ["Remove an inheritance", "deleteInheritance", "asc", "desc"],
    ["Add a role", "addRole", "role"], ["Delete a role", "deleteRole", "role"],
    ["Add a permission", "addPermission", "operation", "object"], ["Delete a permission", "deletePermission", "operation", "object"],
    ["Add a member to a static set", "addSsdRoleMember", "set", "role"], ["Add a member to a dynamic set", "addDsdRoleMember", "set", "role"],
    ["Remove a member of a static set", "deleteSsdRoleMember", "set", "role"],
    ["Remove a member of a dynamic set", "deleteDsdRoleMember", "set", "role"],
];
const KEYS = {
    user: ["User", "users"], role: ["Role", "roles"], asc: ["Senior role", "roles"], desc: ["Junior role", "roles"],
    operation: ["Operation", "operations"], object: ["Object", "objects"], set: ["Set", null],
};

export async function whatIfPage() {
    const typed = h("textarea", { id: "commands", "data-key": "commands", rows: "6", spellcheck: "false", dir: "ltr", required: true,
        placeholder: '{"fn":"assignUser","user":"…","role":"…"}' });
    const place = h("div", { id: "answer", "aria-live": "polite" });
    const attempt = form("Try commands", [h("label", { for: "commands", class: "wide" }, h("span", {}, "Commands, one on each line"), typed)], "Try",
        async () => {
            place.replaceChildren();
            const lines = linesOf(typed.value);
            place.replaceChildren(...await trial(lines, { place }));
        });
    return [
        h("h1", {}, "What if"),
        section("Commands", h("p", {}, `See what up to ${MOST} commands would change before they are done. They are tried on a copy of the office.`),
            builder(typed), attempt),
        place,
    ];
}

/** A form that adds a command to those that are typed. */
function builder(typed) {
    const kind = h("select", { id: "choice" }, CHOICES.map(([label], i) => h("option", { value: i }, label)));
    const inputs = h("span", { class: "inputs" });
    const show = () => {
        const [, , ...keys] = CHOICES[kind.value];
        inputs.replaceChildren(...keys.map((key) => field(KEYS[key][0], key, { from: KEYS[key][1], required: true })));
    };
    kind.addEventListener("change", show);
    show();
    return form("Add a command", [h("label", { for: "choice" }, h("span", {}, "Command"), kind), inputs], "Add", (values) => {
        const line = json({ fn: CHOICES[kind.value][1], ...values });
        typed.value = `${typed.value.trim()}${typed.value.trim() ? "\n" : ""}${line}`;
        show();
        inputs.querySelector("input").focus();
    });
}

/** Returns the commands that are typed. */
function linesOf(text) {
    const lines = text.split("\n").map((line, i) => [line.trim(), i + 1]).filter(([line]) => line !== "");
    const commands = lines.map(([line, i]) => {
        let values;
        try {
            values = JSON.parse(line);
        } catch {
            values = null;
        }
        if (typeof values?.fn !== "string") {
            throw new Unfit(`Line ${i} is no command: write {"fn": …} as JSON, with the name of a function.`);
        }
        return values;
    });
    if (commands.length > MOST) {
        throw new Unfit(`These are ${commands.length} commands. At most ${MOST} can be tried at once.`);
    }
    return commands;
}

/** Tries commands, and returns what would come of them, with a button that does them. `perform` does them in another way. */
export async function trial(lines, { place, perform }) {
    const result = await whatIf(lines.map((line) => JSON.stringify(line))).catch((error) => { throw unfitOf(error); });
    const accepted = lines.filter((_, i) => result.answers[i].ok);
    const nodes = [section("Answers", answersTable("What the office would answer", lines, result.answers)), ...effects(result)];
    nodes.push(section("Where this comes from",
        h("p", {}, "The proved program has answered this on a copy of the office, of policy revision ", String(result.revision),
            ". Nothing in the office has changed. What users could do is concluded from its answers, from locks and from dynamic sets."),
        actionOf(accepted, result, perform ?? ((revision) => real(accepted, revision, place))), requests(lines)));
    return nodes;
}

/** Nothing is done by trying, whatever goes wrong. */
function unfitOf(error) {
    if (error instanceof Lost) {
        return new Unfit("No answer has come in time. Nothing was done: this was only to be tried. Try it again.");
    }
    return error instanceof Refused && error.line ? new Unfit(`Command ${error.line} is none that the office knows, or lacks something.`) : error;
}

/** The request that was sent. */
function requests(lines) {
    return h("details", { class: "screen" }, h("summary", {}, "The request that was sent"), h("p", { class: "mono" }, "POST /what-if"),
        lines.map((line) => h("p", { class: "mono" }, name(json(line)))));
}

function actionOf(accepted, result, perform) {
    if (accepted.length === 0) {
        return h("p", {}, "There is nothing to do: the office would refuse all of it.");
    }
    if (!accepted.every(({ fn, ...values }) => may(fn, values))) {
        return h("p", {}, "You have no right to do ", accepted.length === 1 ? "this." : "all of this.");
    }
    const what = accepted.length === result.answers.length ? counted(accepted.length, "command") : `${counted(accepted.length, "command")} that would be accepted`;
    return h("div", { class: "actions" }, deliberate("Do it", `Do ${what} in the office`, `Do ${what} in the office, if the policy is still the same?`,
        () => perform(result.revision)));
}

/** Does commands in the office itself, and shows its answers in a place. */
async function real(lines, revision, place) {
    const { answers, so } = await performed(lines, revision);
    if (answers) {
        place.replaceChildren(section("Done", answersTable("What the office has answered", lines, answers)));
    } else if (so) {
        place.replaceChildren(section("What is so now", outcomeTable(lines, so)));
    }
}

/**
 * Does commands if the policy still has a revision, and says what has come of it. Returns the answers; or, if they are lost, whether what
 * each command asks for is so now.
 */
export async function performed(lines, revision, why) {
    let answers;
    try {
        answers = await doAll(lines.map((line) => JSON.stringify(line)), revision, why);
    } catch (error) {
        if (error instanceof Lost || (error instanceof Refused && error.code === 67)) {
            return unanswered(lines, error);
        }
        await fail(error);
        return {};
    }
    const count = answers.filter((one) => one.ok).length;
    say(count === answers.length ? "done" : "refused", [`The office has done ${count} of ${counted(answers.length, "command")}.`]);
    return { answers };
}

/**
 * Says what is so now of commands whose answers are lost. The browser may have sent them again by itself: if the first ones were done, the
 * policy has another revision for the second ones.
 */
async function unanswered(lines, error) {
    // The lists have sessions by their digests, and no command names one so.
    const so = await areSo(lines.map((line) => ("session" in line ? { fn: "" } : line)));
    const isLost = error instanceof Lost;
    if (isLost && so.every((one) => one === null)) {
        await fail(error);
        return {};
    }
    if (!isLost && so.every((one) => one === false)) {
        say("refused", ["Nothing was done: somebody has changed the policy since this was tried. ",
            "Try it again, and look at what it would change now."]);
        return {};
    }
    const count = so.filter((one) => one === true).length;
    const others = isLost ? " Look again in two minutes, before you repeat the others." : " Try the others again.";
    say("unsure", count === 0 ? [NOT_YET] : [isLost ? UNSAID : "The policy has changed since this was tried.",
        ` Of ${counted(so.length, "command")}, ${count} ${count === 1 ? "is" : "are"} so now, done by this click or by somebody else.`,
        count < so.length ? others : null]);
    return { so };
}

function outcomeTable(lines, so) {
    const mark = (is) => h("span", { class: is ? "mark yes" : "mark no" }, is === null ? "not known" : is ? "is so now" : "is not so now");
    const rows = lines.map(({ fn, ...values }, i) => [number(i + 1), mark(so[i]), done(fn, values)]);
    return table("What the commands ask for", [{ class: "number", child: "Number" }, "Now", "Command"], rows);
}

function answersTable(caption, lines, answers) {
    const rows = lines.map(({ fn, ...values }, i) => {
        const answer = answers[i];
        return [number(i + 1), h("span", { class: `mark ${answer.ok ? "yes" : "no"}` }, answer.ok ? "accepted" : "refused"),
            answer.ok ? [done(fn, values), importOf(answer.value)] : [wanted(fn, values), ": ", short(answer, values), "."]];
    });
    return table(caption, [{ class: "number", child: "Number" }, "Answer", "Command"], rows);
}

/** What an import has done. */
function importOf(value) {
    return value?.assigned === undefined ? null
        : ` ${counted(value.assigned, "new assignment")}, ${value.already} that were there, ${value.refused.length} refused.`;
}

/** Who would gain or lose what, and which sessions would end. */
function effects({ gained, lost, ended }) {
    const marked = (kind, text) => (one) => [user(one.user), name(one.operation), object(one.object), h("span", { class: `mark ${kind}` }, text)];
    const rows = [...lost.rows.map(marked("no", "loses")), ...gained.rows.map(marked("yes", "gains"))];
    const left = lost.count + gained.count - rows.length;
    const sum = `${counted(lost.count, "permission")} would be lost, and ${gained.count.toLocaleString("en")} gained`;
    return [
        section("Who would gain or lose what", rows.length === 0 ? h("p", {}, "Nobody would gain or lose a permission.") : [
            table(sum, ["User", "Operation", "Object", "Change"], rows),
            left > 0 ? h("p", { class: "warning" }, `${counted(left, "more change")} ${left === 1 ? "is" : "are"} left out here.`) : null]),
        ended.length === 0 ? null : section("Sessions that would end", table(counted(ended.length, "session"), ["Digest", "User"],
            ended.map((one) => [h("span", { class: "mono" }, one.session.slice(0, 12)), user(one.user)]))),
    ].filter(Boolean);
}
