/** The files of a review: the one that the reviewer keeps, the people file, and the list as CSV. */

import { csvOfRows } from "./files.js";
import { Unfit } from "./parts.js";

const FORMAT = "office review";
const VERSION = 1;
export const MOST_LINES = 5_000;
const MOST_BYTES = 20_000_000;
/** The most bytes of a review's name, which becomes the reason of its removals. */
export const MOST_NAME = 200;

/** Reads a chosen file as text. */
export async function textOf(file) {
    if (!file) {
        throw new Unfit("Choose a file first.");
    }
    if (file.size > MOST_BYTES) {
        throw new Unfit("The file is too large: it may have 20 MB.");
    }
    try {
        return new TextDecoder("utf-8", { fatal: true }).decode(await file.arrayBuffer());
    } catch {
        throw new Unfit("The file is not text in UTF-8.");
    }
}

/** Returns the name of a file of a review. */
export function fileName(review, ending) {
    return `review ${review.name.replace(/[^\p{L}\p{N} _-]/gu, "_").slice(0, 60)}.${ending}`;
}

/** Returns the name of a review, or refuses one that can't be a reason. */
export function reviewName(text) {
    const name = text.trim();
    if (!name || new TextEncoder().encode(name).length > MOST_NAME || /[\p{Cc}\u2028\u2029]/u.test(name)) {
        throw new Unfit(`The name of a review has 1 to ${MOST_NAME} bytes, and no control characters or line separators.`);
    }
    return name;
}

/** Returns a review as the text of a file. */
export function saved(review) {
    const { name, begun, only, users, lines, ended } = review;
    const people = [...review.people].map(([user, one]) => ({ user, ...one }));
    return JSON.stringify({ format: FORMAT, version: VERSION, name, begun, saved: new Date().toISOString(), only, users, people, lines, ended }, null, 1);
}

const isText = (value) => typeof value === "string";
const isOneOf = (...values) => (value) => values.includes(value);
const LINE = { user: isText, role: isText, decision: isOneOf("", "keep", "remove"), note: isText, state: isText, isNew: isOneOf(true, false) };
const PERSON = { user: isText, name: isText, department: isText, manager: isText };
const fits = (shape) => (one) => typeof one === "object" && one !== null && Object.entries(shape).every(([key, is]) => is(one[key]));
const are = (is) => (value) => Array.isArray(value) && value.every(is);
const isEnd = (value) => value === null || fits({ number: Number.isInteger, sha256: isText })(value);
const REVIEW = { name: isText, begun: isText, saved: isText, only: isText, users: are(isText), people: are(fits(PERSON)), lines: are(fits(LINE)), ended: isEnd };

/** Returns the review that a file has. */
export function opened(text) {
    let found;
    try {
        found = JSON.parse(text);
    } catch {
        throw new Unfit("This file is not JSON. Choose one that this page has saved.");
    }
    if (found?.format !== FORMAT) {
        throw new Unfit("This file is not a review that this page has saved.");
    }
    if (found.version !== VERSION) {
        throw new Unfit(`This review was saved in another version of the format (${Number(found.version)}). This console reads version ${VERSION}.`);
    }
    const wrong = Object.keys(REVIEW).find((key) => !REVIEW[key](found[key]));
    if (wrong) {
        throw new Unfit(`This review is damaged: its part "${wrong}" is not what it should be.`);
    }
    if (found.lines.length > MOST_LINES) {
        throw new Unfit(`This review has ${found.lines.length} lines. At most ${MOST_LINES.toLocaleString("en")} can be reviewed at once.`);
    }
    reviewName(found.name);
    const pick = (shape) => (one) => Object.fromEntries(Object.keys(shape).map((key) => [key, one[key]]));
    const people = new Map(found.people.map(({ user, ...one }) => [user, pick({ name: 1, department: 1, manager: 1 })(one)]));
    return { ...pick(REVIEW)(found), lines: found.lines.map(pick(LINE)), people };
}

/** Returns the records of a text of CSV, each a list of fields. */
function recordsOf(text) {
    const records = [[]];
    const field = /("(?:[^"]|"")*"|[^",\r\n]*)(,|\r?\n|$)/y;
    for (field.lastIndex = 0; ; ) {
        const found = field.exec(text);
        if (!found) {
            throw new Unfit(`Record ${records.length} of the people file is not CSV.`);
        }
        records.at(-1).push(found[1].startsWith('"') ? found[1].slice(1, -1).replaceAll('""', '"') : found[1]);
        if (found[2] === "" || field.lastIndex === text.length) {
            return records.filter((record) => record.length > 1 || record[0] !== "");
        }
        if (found[2] !== ",") {
            records.push([]);
        }
    }
}

/** Returns the people of a people file by their users. */
export function peopleOf(text) {
    const [head = [], ...rest] = recordsOf(text.replace(/^\ufeff/, ""));
    const places = Object.fromEntries(Object.keys(PERSON).map((key) => [key, head.findIndex((one) => one.trim().toLowerCase() === key)]));
    if (places.user < 0) {
        throw new Unfit("The first line of the people file has to name its columns: user, name, department, manager.");
    }
    const people = new Map();
    rest.forEach((record, i) => {
        const at = (key) => (places[key] < 0 ? "" : record[places[key]] ?? "");
        if (record.length !== head.length) {
            throw new Unfit(`Record ${i + 2} of the people file has ${record.length} fields, and its first line names ${head.length}.`);
        }
        if (people.has(at("user"))) {
            throw new Unfit(`Record ${i + 2} of the people file names a user again.`);
        }
        people.set(at("user"), { name: at("name"), department: at("department"), manager: at("manager") });
    });
    return people;
}

/** Returns the list of a review as CSV. `permissions` returns those of a role in words, and `result` what came of a line. */
export function csvOf(review, permissions, result) {
    const rows = review.lines.map((line) => {
        const { name = "", department = "", manager = "" } = review.people.get(line.user) ?? {};
        return [line.user, name, department, manager, line.role, permissions(line.role), line.decision || "undecided", line.note, result(line)];
    });
    const heads = ["user", "name", "department", "manager", "role", "permissions", "decision", "note", "result"];
    return csvOfRows([heads, ...rows]);
}

/** Returns the SHA-256 digest of a text in UTF-8. */
export async function digestOf(text) {
    if (!globalThis.crypto?.subtle) {
        throw new Unfit("This browser computes no digest for a page without TLS. Open the console by https, or by localhost.");
    }
    const sum = await crypto.subtle.digest("SHA-256", new TextEncoder().encode(text));
    return [...new Uint8Array(sum)].map((byte) => byte.toString(16).padStart(2, "0")).join("");
}
