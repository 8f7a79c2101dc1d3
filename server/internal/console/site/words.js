/** Refusals and commands in words. A sentence is a list of texts and of names. */

import { Reading } from "./api.js";
import { few, listed, name, object, role, set, user } from "./text.js";

const permission = (v) => [name(v.operation), " on ", object(v.object)];
const pair = (v) => [role(v.asc), " inherits from ", role(v.desc)];
const both = (v) => [user(v.user), " is assigned to ", role(v.role)];

/** What a command does: in a sentence about it, and in one about its refusal. */
const COMMANDS = {
    addUser: [(v) => [user(v.user), " is a user now"], (v) => [name(v.user), " can't become a user"]],
    deleteUser: [(v) => [name(v.user), " is deleted"], (v) => [name(v.user), " can't be deleted"]],
    lockUserAccount: [(v) => [user(v.user), " is locked, without sessions"], (v) => [user(v.user), " can't be locked"]],
    unlockUserAccount: [(v) => [user(v.user), " is unlocked"], (v) => [user(v.user), " can't be unlocked"]],
    addRole: [(v) => [role(v.role), " is a role now"], (v) => [name(v.role), " can't become a role"]],
    deleteRole: [(v) => ["The role ", name(v.role), " is deleted"], (v) => ["The role ", role(v.role), " can't be deleted"]],
    assignUser: [both, (v) => [user(v.user), " can't become ", role(v.role)]],
    deassignUser: [
        (v) => [user(v.user), " is no longer assigned to ", role(v.role)],
        (v) => ["The assignment of ", user(v.user), " to ", role(v.role), " can't be removed"],
    ],
    addInheritance: [pair, (v) => [role(v.asc), " can't inherit from ", role(v.desc)]],
    deleteInheritance: [
        (v) => [role(v.asc), " no longer inherits from ", role(v.desc)],
        (v) => ["The inheritance of ", role(v.asc), " from ", role(v.desc), " can't be removed"],
    ],
    addAscendant: [pair, (v) => [name(v.asc), " can't become a senior role of ", role(v.desc)]],
    addDescendant: [pair, (v) => [name(v.desc), " can't become a junior role of ", role(v.asc)]],
    addPermObj: [(v) => [object(v.object), " is an object now"], (v) => [name(v.object), " can't become an object"]],
    deletePermObj: [(v) => ["The object ", name(v.object), " is deleted"], (v) => [object(v.object), " can't be deleted"]],
    addPermission: [
        (v) => ["There is a permission for ", permission(v)],
        (v) => ["A permission for ", permission(v), " can't be added"],
    ],
    deletePermission: [
        (v) => ["The permission for ", permission(v), " is deleted"],
        (v) => ["The permission for ", permission(v), " can't be deleted"],
    ],
    grantPermission: [
        (v) => [permission(v), " is granted to ", role(v.role)],
        (v) => [permission(v), " can't be granted to ", role(v.role)],
    ],
    revokePermission: [
        (v) => [permission(v), " is no longer granted to ", role(v.role)],
        (v) => [permission(v), " can't be revoked from ", role(v.role)],
    ],
    importAssignments: [() => ["Assignments are imported"], () => ["The assignments can't be imported"]],
    createSession: [
        (v) => ["A session of ", user(v.user), " with ", rolesOf(v.roles), " has begun"],
        (v) => ["A session of ", user(v.user), " with ", rolesOf(v.roles), " can't begin"],
    ],
    deleteSession: [
        (v) => ["A session", ofUser(v), " has ended"],
        (v) => ["The session", ofUser(v), " can't be ended"],
    ],
    addActiveRole: [
        (v) => [role(v.role), " is activated in a session of ", user(v.user)],
        (v) => [role(v.role), " can't be activated in a session of ", user(v.user)],
    ],
    dropActiveRole: [
        (v) => [role(v.role), " is dropped from a session of ", user(v.user)],
        (v) => [role(v.role), " can't be dropped from a session of ", user(v.user)],
    ],
};

for (const [kind, word] of [["Ssd", "static"], ["Dsd", "dynamic"]]) {
    const the = (v) => [`the ${word} set `, set(word, v.set)];
    Object.assign(COMMANDS, {
        [`create${kind}Set`]: [
            (v) => ["There is ", the(v), ": at most ", few(v.cardinality - 1), " of ", rolesOf(v.roles)],
            (v) => [`The ${word} set `, name(v.set), " can't be made"],
        ],
        [`delete${kind}Set`]: [(v) => [`The ${word} set `, name(v.set), " is deleted"], (v) => [the(v), " can't be deleted"]],
        [`add${kind}RoleMember`]: [
            (v) => [role(v.role), " is a member of ", the(v)],
            (v) => [role(v.role), " can't become a member of ", the(v)],
        ],
        [`delete${kind}RoleMember`]: [
            (v) => [role(v.role), " is no longer a member of ", the(v)],
            (v) => [role(v.role), " can't leave ", the(v)],
        ],
        [`set${kind}SetCardinality`]: [
            (v) => ["The cardinality of ", the(v), " is ", String(v.cardinality)],
            (v) => ["The cardinality of ", the(v), " can't become ", String(v.cardinality)],
        ],
    });
}

/** The commands, in the order of their names. */
export const FUNCTIONS = Object.keys(COMMANDS).sort();

const wordsOf = (fn) => (Object.hasOwn(COMMANDS, fn) ? COMMANDS[fn] : null);

function ofUser(v) {
    return v.user === undefined ? "" : [" of ", user(v.user)];
}

function rolesOf(roles) {
    return roles?.length ? listed(roles.map(role)) : "no role";
}

/** Returns what an accepted command has done. */
export function done(fn, values) {
    return [...(wordsOf(fn)?.[0](values) ?? [fn]), "."];
}

/** Returns what is so now, though it isn't known who has done it. */
export function soNow(fn, values) {
    return ["It is so now: ", done(fn, values), " It may have been done by this click or by somebody else."];
}

/** Returns what a refused command should have done. */
export function wanted(fn, values) {
    return wordsOf(fn)?.[1](values) ?? [fn];
}

/** Why a command is refused, by the number of the refusal. */
const REASONS = {
    1: () => ["a name has 1 to 64 bytes and no control characters"],
    2: (v) => ["there is no user ", name(v.user ?? "")],
    3: (v) => ["there already is a user ", user(v.user)],
    4: (v) => ["there is no such role", v.role === undefined ? "" : [" as ", name(v.role)]],
    5: () => ["there already is a role with this name"],
    6: (v) => ["there is no object ", name(v.object ?? "")],
    7: (v) => ["there already is an object ", object(v.object)],
    8: (v) => ["no permission allows ", permission(v)],
    9: () => ["there already is such a permission"],
    10: (v) => [both(v), " already"],
    11: (v) => [user(v.user), " is not assigned to ", role(v.role), "; a senior role may give it"],
    12: () => ["it is granted already"],
    13: () => ["it is not granted to this role itself; a junior role may have it"],
    14: () => ["it already does"],
    15: () => ["there is no such inheritance; it may lead over other roles"],
    16: (v) => [role(v.desc), v.asc === v.desc ? " is the same role" : [" already inherits from ", role(v.asc)]],
    17: () => ["it has an inheritance or is in a separation of duty set; remove that first"],
    18: () => ["it has permissions; delete them first"],
    19: () => ["there already is a set of this kind with this name"],
    20: () => ["there is no such set"],
    21: () => ["it is a member already"],
    22: () => ["it is not a member"],
    23: () => ["a cardinality is from 2 to the number of members"],
    26: () => ["there is no such session; it may have ended"],
    27: () => ["there already is such a session"],
    28: () => ["the session belongs to another user"],
    29: (v) => [user(v.user), " is not authorized for ", v.role === undefined ? "a role" : role(v.role)],
    30: () => ["it is active already"],
    31: () => ["it was not activated itself"],
    32: (_, refused) => [`the office has as many as it may have (limit: ${refused.kind ?? "unknown"})`],
    33: (v) => ["no permission has the operation ", name(v.operation ?? "")],
    34: (_, refused) => [refused.why ?? "the front can't read the request"],
    37: (v) => [user(v.user), " is locked"],
    62: () => ["the front doesn't know this token; log in again"],
    63: () => ["you have no right to this"],
    64: () => ["you have too many requests under way; try again"],
    65: () => ["the front doesn't take requests of this page's address; its option --origin names those that it takes"],
    66: () => ["the front doesn't take requests sent to this name"],
    67: () => ["somebody has changed the policy since this page was read, and it is shown again as it is now"],
};

/** Returns " allows one of auditor, teller". */
function allows({ roles, cardinality }) {
    return [` allows ${few(cardinality - 1)} of `, roles.flatMap((one, i) => (i > 0 ? [", ", role(one)] : [role(one)]))];
}

// How many of the sets that a command would violate are named, and how many users of each.
const MOST_SETS = 3;
const MOST_HOLDERS = 3;

/** "teller through branch manager" */
function memberOf({ role: one, by }) {
    return by.includes(one) ? role(one) : [role(one), " through ", listed(by.map(role))];
}

/** "erin is auditor", or "ann would be auditor and teller". */
function heldBy(values, { user: holder, members }) {
    const has = members.filter(({ by }) => by.some((one) => one !== values.role));
    if (holder !== undefined && holder === values.user && has.length > 0 && has.length < members.length) {
        return [user(holder), " is ", listed(has.map(memberOf))];
    }
    return [holder === undefined ? "a session" : user(holder), " would be ", listed(members.map(({ role: one }) => role(one)))];
}

function conflictOf(values, conflict, isNew) {
    const { kind, set: setName, holders = [] } = conflict;
    const rule = [isNew ? name(setName) : set(kind, setName), allows(conflict), kind === "dynamic" ? " in one session" : ""];
    const nodes = holders.slice(0, MOST_HOLDERS).map((one) => heldBy(values, one));
    if (nodes.length === 0) {
        return rule;
    }
    return [nodes.flatMap((one) => [one, ", "]), holders.length > nodes.length ? `so would ${holders.length - nodes.length} more, ` : "", "and ", rule];
}

/** Why separation of duty refuses a command: the front explains it with all sets and users, as far as the caller may know them. */
async function separated(fn, values, refused, kind) {
    const told = await new Reading().explain({ command: { fn, ...values } }).catch(() => ({}));
    const conflicts = (told.conflicts ?? []).slice(0, MOST_SETS);
    if (conflicts.length === 0) {
        return [`the ${kind} separation of duty set `, name(refused.set), " forbids it"];
    }
    const isNew = fn.startsWith("create") && fn.endsWith("Set");
    return conflicts.flatMap((one, i) => [i > 0 ? "; " : "", conflictOf(values, one, isNew)]);
}

/** Why a command was refused. */
async function whyOf(fn, values, refused) {
    const kind = { 24: "static", 25: "dynamic" }[refused.code];
    if (kind) {
        return separated(fn, values, refused, kind);
    }
    return REASONS[refused.code]?.(values, refused) ?? [`the front says ${refused.message}`];
}

/** Returns the sentence that says why a command is refused. */
export async function refusal(fn, values, refused) {
    return [...wanted(fn, values), ": ", await whyOf(fn, values, refused), "."];
}

/** Returns why a question is refused. */
export async function why(values, refused) {
    return [await whyOf("", values, refused), "."];
}

/** The refusal of an entry of the record, in a few words. */
export function short(answer, values) {
    if (answer.set !== undefined) {
        return ["the set ", name(answer.set), " forbids it"];
    }
    return REASONS[answer.code]?.(values, answer) ?? [answer.error ?? "unknown"];
}

/** Names that a field suggests: those of a list that have a text. */
export async function suggestions(listName, text) {
    const found = await new Reading().everything(listName, { contains: text, limit: 20 });
    return found.map((row) => (typeof row === "string" ? row : (row.set ?? row.operation)));
}
