/** What the front is asked. The token is here alone, in a variable: it is gone when the page is loaded again. */

let token = "";
let caller = { caller: "", open: false, rights: [] };
let reason = "";

/** The front has refused something: its status, and the parts of its answer. */
export class Refused extends Error {
    constructor(status, answer) {
        super(answer.error ?? `status ${status}`);
        const { code = 0, set, kind, line, lines, why } = answer;
        Object.assign(this, { status, code, set, kind, line, lines, why });
    }
}

/** No answer of the front has come. If a change was asked for, it may or may not have been done. */
export class Lost extends Error {
    constructor(why, isChange = false) {
        super(why);
        this.isChange = isChange;
    }
}

/** What somebody has typed or opened can't be used; the message says why. */
export class Unfit extends Error {}

const PATIENCE = 60_000;
/** The most bytes of a reason. */
const MOST_REASON = 256;
/** The most rows of a list that one answer has, the most questions that are asked at once, and the most lists of one request. */
const MOST_ROWS = 1000;
const MOST_ASKED = 500;
const MOST_LISTS = 20;

// The codes with which the front says that it doesn't know what has become of a command.
const UNKNOWN = new Set([41, 60, 61]);

/** Returns what a text is as JSON, or nothing if it is none. */
function parsed(text) {
    try {
        return JSON.parse(text);
    } catch {
        return null;
    }
}

const isDone = (answer) => answer?.ok === true;
const isRefusal = (answer) => Number.isInteger(answer?.code) && answer.code < 100 && /^[A-Z][A-Za-z]+$/.test(answer.error);

/** What the front may answer: `{"ok":true}` with a value, a line for each of some questions, or a text of a type. */
const asAnswer = (text) => {
    const answer = parsed(text);
    return isDone(answer) ? answer : null;
};
const asLines = (count) => (text) => {
    const lines = text.trim().split("\n").map(parsed);
    return lines.length === count && lines.every((line) => isDone(line) || isRefusal(line)) ? lines : null;
};
const asText = (type) => (text, fields) => ((fields.get("Content-Type") ?? "").startsWith(type) ? text : null);

/**
 * Sends a request, and returns what `read` finds in the answer, and the answer's fields. Whatever isn't written as the front writes it
 * comes from something in between, and says nothing of the office.
 */
async function send(method, path, body, { isChange = false, read = asAnswer, ...headers } = {}) {
    if (token) {
        headers.Authorization = `Bearer ${token}`;
    }
    let reply, text;
    try {
        reply = await fetch(`../${path}`, {
            method, headers, body, cache: "no-store", credentials: "same-origin", redirect: "error", referrerPolicy: "no-referrer",
            signal: AbortSignal.timeout(PATIENCE),
        });
        text = await reply.text();
    } catch {
        throw new Lost("no answer", isChange);
    }
    const answer = reply.ok ? read(text, reply.headers) : parsed(text);
    if (reply.ok && answer !== null) {
        return { answer, fields: reply.headers };
    }
    if (!reply.ok && isRefusal(answer) && !UNKNOWN.has(answer.code)) {
        throw new Refused(reply.status, { ...answer, line: reply.headers.get("Office-Line"), why: reply.headers.get("Office-Why") });
    }
    throw new Lost("the answer isn't one of the front", isChange);
}

/** Sends a request, and returns the value of the answer. */
async function valueOf(method, path, body, more) {
    return (await send(method, path, body, more)).answer.value;
}

const linesOf = (values) => values.map((value) => JSON.stringify(value)).join("\n");

/** Bytes of UTF-8 as characters, since a field of a header is made of bytes. */
function bytesOf(text) {
    return String.fromCharCode(...new TextEncoder().encode(text));
}

/** Returns what is sent with a change: its reason and the revision that the policy has to have are fields of the header. */
function change(why = reason, revision = undefined) {
    const bytes = bytesOf(why);
    if (bytes.length > MOST_REASON) {
        throw new Unfit(`Nothing was done: the reason has ${bytes.length} bytes, and may have ${MOST_REASON}. A letter has 1 to 4.`);
    }
    return {
        isChange: true,
        ...(why ? { "Office-Reason": bytes } : {}),
        ...(revision === undefined ? {} : { "If-Policy-Revision": String(revision) }),
    };
}

/** Says why the next commands are asked for; the record keeps it. Returns whether it is short enough. */
export function setReason(text) {
    reason = text.trim();
    return bytesOf(reason).length <= MOST_REASON;
}

/** Finds out who asks with a token, or without one, and what that caller may do. */
export async function login(text) {
    const before = token;
    token = text;
    try {
        if (/[^\x21-\x7e]/.test(text)) {
            throw new Refused(401, { code: 62 });
        }
        caller = await valueOf("GET", "caller");
    } catch (error) {
        token = before;
        throw error;
    }
}

export function logout() {
    token = "";
    caller = { caller: "", open: false, rights: [] };
}

export const who = () => caller;

// Whether answers name the revision of the policy: a proxy may take that field away.
let hasRevisions = false;

/** Answers that are shown together, of which it is known whether the policy has changed between them. */
export class Reading {
    #revisions = new Set();
    /** What is awaited before an answer is returned that doesn't fit those before. */
    onMixed = () => {};

    /** Whether the answers are of several revisions of the policy, or of one that changed meanwhile. */
    get isMixed() {
        return this.#revisions.size > 1 || (hasRevisions && this.#revisions.has(0));
    }

    /** The revision of the policy of all answers, if it is known. Of several it is an old one, with which nothing is done any more. */
    get revision() {
        return hasRevisions ? Math.min(...this.#revisions) : undefined;
    }

    async #send(path, body, read, method = "POST") {
        const { answer, fields } = await send(method, path, body, { read });
        const revision = Number(fields.get("Policy-Revision"));
        hasRevisions ||= revision > 0;
        this.#revisions.add(revision);
        if (this.isMixed) {
            await this.onMixed();
        }
        return answer;
    }

    /** Asks for several questions at once, and returns their answers. Those that are too long together are asked in two parts. */
    async askAll(lines) {
        if (lines.length === 0) {
            return [];
        }
        const half = Math.ceil(lines.length / 2);
        const inParts = async () => [...await this.askAll(lines.slice(0, half)), ...await this.askAll(lines.slice(half))];
        if (lines.length > MOST_ASKED) {
            return inParts();
        }
        try {
            return await this.#send("v1/batch", linesOf(lines), asLines(lines.length));
        } catch (error) {
            if (lines.length < 2 || !(error instanceof Refused) || error.status !== 413) {
                throw error;
            }
            return inParts();
        }
    }

    /** Asks those questions that the caller may ask, and returns the values of the answers, or null. */
    async values(...lines) {
        const allowed = lines.filter(({ fn, ...values }) => may(fn, values));
        const answers = allowed.length > 0 ? await this.askAll(allowed) : [];
        return lines.map((line) => answers[allowed.indexOf(line)]?.value ?? null);
    }

    /**
     * Returns several lists, each a name and a query: to their ends, or as far as the limit of the query. A list of somebody who isn't
     * there is empty.
     */
    async lists(...queries) {
        const found = queries.map(() => ({ value: [] }));
        let open = queries.map((query, i) => i);
        while (open.length > 0) {
            const some = open.slice(0, MOST_LISTS);
            const lines = some.map((i) => {
                const [name, query = {}] = queries[i];
                return { list: name, limit: MOST_ROWS, ...query, after: found[i].next ?? query.after };
            });
            const parts = await this.#send("lists", linesOf(lines), asLines(lines.length));
            parts.forEach((part, place) => {
                found[some[place]].value.push(...(part.value ?? []));
                found[some[place]].next = part.next;
            });
            open = [...some.filter((i) => found[i].next && queries[i][1]?.limit === undefined), ...open.slice(MOST_LISTS)];
        }
        return found.map((one) => one.value);
    }

    /** Returns all rows of a list. */
    async everything(name, query = {}) {
        return (await this.lists([name, query]))[0];
    }

    /** Returns a picture as a blob. */
    async picture(query) {
        const type = "image/svg+xml";
        return new Blob([await this.#send(pathOf("picture", query), undefined, asText(type), "GET")], { type });
    }

    /** Asks whether and why something is allowed, or why a command is refused. */
    async explain(values) {
        return (await this.#send("explain", JSON.stringify(values))).value;
    }
}

// How often something is read that changes while it is read.
const MOST_READINGS = 5;

/** Calls a function with a reading, again if the policy has changed meanwhile. Returns what it returned last, and that reading. */
export async function readTogether(read) {
    for (let count = 1; ; count += 1) {
        const reading = new Reading();
        const found = await read(reading);
        if (!reading.isMixed || count === MOST_READINGS) {
            return [found, reading];
        }
    }
}

/** Lets the office do a command, and with a revision only if the policy still has that one. */
export async function order(fn, values = {}, revision = undefined) {
    await send("POST", `v1/${fn}`, JSON.stringify(values), change(reason, revision));
}

function pathOf(path, query) {
    const text = new URLSearchParams(Object.entries(query).filter(([, value]) => value !== "" && value !== undefined)).toString();
    return text ? `${path}?${text}` : path;
}

export async function room() {
    return (await valueOf("GET", "room")).room;
}

export async function record(query) {
    return valueOf("GET", pathOf("record", query));
}

export async function endSession(digest) {
    await send("DELETE", `sessions/${digest}`, undefined, change());
}

/** Tries commands over a copy of the office, and returns what they would change. */
export async function whatIf(lines) {
    return valueOf("POST", "what-if", lines.join("\n"));
}

/** Does lines if the policy still has a revision, and returns their answers. */
export async function doAll(lines, revision, why = reason) {
    return (await send("POST", "v1/batch", lines.join("\n"), { read: asLines(lines.length), ...change(why, revision) })).answer;
}

/** Records that a review has ended, and returns the number of its entry. */
export async function endReview(values) {
    return (await valueOf("POST", "reviews", JSON.stringify(values), change(""))).number;
}

/** Returns the condition of the front. It needs no identity. */
export async function health() {
    const asking = fetch("../healthz", { cache: "no-store", signal: AbortSignal.timeout(PATIENCE) });
    const found = await asking.then((reply) => reply.json()).catch(() => null);
    if (typeof found?.ready !== "boolean") {
        throw new Lost("no answer");
    }
    return found;
}

/** Asks for a report: a ticket for one download of it, how many lines it has, and of which revision of the policy and when it is. */
export async function report(name, values = {}) {
    return valueOf("POST", `reports/${name}`, JSON.stringify(values));
}

/** Returns the lines of a report that was asked for as lines, each as it is written. */
export async function reportLines(ticket) {
    return (await send("GET", `reports/${ticket}`, undefined, { read: asText("application/jsonl") })).answer.split("\n").slice(0, -1);
}

// The keys of each function that scopes are about: roles, objects, users.
const ROLES = ["role", "asc", "desc"];

function has(fn, scope) {
    return caller.open || caller.rights.some((right) => right.scope === scope && right.functions.includes(fn));
}

function scopesOfObject(text) {
    const prefixes = [...text].flatMap((letter, i, all) => (letter === ":" ? [all.slice(0, i + 1).join("")] : []));
    return [text, ...prefixes].map((one) => `object ${one}`);
}

/** Whether the caller may ask for a function about these names. The front decides: this only says what is worth showing. */
export function may(fn, values = {}) {
    if (has(fn, "office")) {
        return true;
    }
    const groups = [...ROLES.filter((key) => key in values).map((key) => [`role ${values[key]}`])];
    groups.push(...(values.roles ?? []).map((one) => [`role ${one}`]));
    if ("object" in values) {
        groups.push(scopesOfObject(values.object));
    }
    if (groups.length === 0 && "user" in values) {
        groups.push([`user ${values.user}`]);
    }
    return groups.length > 0 && groups.every((scopes) => scopes.some((scope) => has(fn, scope)));
}

/** Whether the caller may ask for a function about anything. */
export function maySome(fn) {
    return caller.open || caller.rights.some((right) => right.functions.includes(fn));
}
