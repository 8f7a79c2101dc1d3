// The bodies of requests and of answers. An answer is read only if it is exactly one that `rbac` sends.

import { OfficeError, REASONS_OF_STATUSES, RefusedError } from "./decision.js";
import { AGAIN, NAMES, STATUSES, VALUES } from "./functions.js";

const ALLOWED = '{"ok":true,"value":true}';
const DENIED = '{"ok":true,"value":false}';
export const LONGEST_ANSWER = 4 * 1024 * 1024;

// What only the front answers: a session that it opens, and the end of one that is known by its digest.
export const OPENS = "POST /sessions";
export const ENDS = "DELETE /sessions/";

// The question about a user that only the front answers.
export const BY_USER = "decideByUser";

// What follows the code and the name of a refusal.
const DETAILS = ["set", "kind", "record", "version"];

const UTF_8 = new TextDecoder("utf-8", { fatal: true, ignoreBOM: true });

/**
 * What the answer to a function has as its value.
 *
 * @param {string} name
 */
export function kindOf(name) {
  return name === OPENS ? "session" : name === BY_USER ? "access" : name.startsWith(ENDS) ? "done" : VALUES[name] ?? "";
}

/**
 * The code that means that a command which was sent again was done, if it may be sent again.
 *
 * @param {string} name
 */
export function againOf(name) {
  return name.startsWith(ENDS) ? 26 : AGAIN[name];
}

/**
 * The body of a request.
 *
 * @param {string} name
 * @param {Record<string, unknown>} keys
 */
export function bodyOf(name, keys) {
  if (name.startsWith(ENDS)) {
    return "";
  }
  const body = name === "importAssignments" ? String(keys.csv) : JSON.stringify(keys);
  if (/\p{Surrogate}/u.test(body) || /(?<!\\)(?:\\\\)*\\ud[89a-f]/.test(body)) {
    throw new OfficeError("invalid_request", "a name has half of a character", false);
  }
  return body;
}

/**
 * The value of an answer. Throws a `RefusedError` for a refusal, otherwise an `OfficeError`.
 *
 * @param {string} name
 * @param {number} status
 * @param {Uint8Array} bytes
 * @returns {unknown}
 */
export function readAnswer(name, status, bytes) {
  const text = decoded(bytes);
  const kind = kindOf(name);
  if (kind === "access" && status === 200 && (text === ALLOWED || text === DENIED)) {
    return text === ALLOWED;
  }
  const answer = readExactly(text);
  if (status === 200 && answer.ok === true && Object.keys(answer).join() === (kind === "done" ? "ok" : "ok,value")) {
    if (kind === "done" || (IS_RIGHT[kind] ?? never)(answer.value)) {
      return answer.value;
    }
  }
  const { code, error, ...details } = answer;
  const isRefusal = Object.keys(answer).slice(0, 2).join() === "code,error" && isCount(code) && typeof error === "string";
  const [key, ...more] = Object.keys(details);
  if (isRefusal && (NAMES[code] ?? error) === error && (key === undefined || DETAILS.includes(key)) && more.length === 0) {
    if ((STATUSES[code] ?? [409]).includes(status)) {
      throw new RefusedError(code, error, /** @type {Record<string, string | number>} */ (details));
    }
  }
  const what = name.startsWith(ENDS) ? ENDS : name;
  const message = `no answer of rbac to ${what}: status ${status}, ${bytes.length} bytes`;
  throw new OfficeError(REASONS_OF_STATUSES[status] ?? "unexpected", message, true);
}

/**
 * The text of some bytes, or nothing if they aren't UTF-8.
 *
 * @param {Uint8Array} bytes
 */
function decoded(bytes) {
  try {
    return UTF_8.decode(bytes);
  } catch {
    return "";
  }
}

/**
 * The object that a text is, if `rbac` writes it so. Otherwise it is empty.
 *
 * @param {string} text
 * @returns {Record<string, any>}
 */
function readExactly(text) {
  try {
    const answer = JSON.parse(text);
    const isObject = typeof answer === "object" && answer !== null && !Array.isArray(answer);
    return isObject && JSON.stringify(answer) === text ? answer : {};
  } catch {
    return {};
  }
}

/** @param {unknown} value */
function isCount(value) {
  return Number.isSafeInteger(value) && /** @type {number} */ (value) >= 0;
}

/** @param {unknown} value */
function isNames(value) {
  return Array.isArray(value) && value.every((name) => typeof name === "string");
}

/** @param {unknown} value */
function isPairs(value) {
  return Array.isArray(value) && value.every((pair) => isNames(pair) && pair.length === 2);
}

/** @param {any} value */
function isReport(value) {
  if (typeof value !== "object" || value === null || Object.keys(value).join() !== "already,assigned,refused") {
    return false;
  }
  return isCount(value.already) && isCount(value.assigned) && Array.isArray(value.refused) && value.refused.every(isRecord);
}

/** @param {any} value */
function isRecord(value) {
  const isObject = typeof value === "object" && value !== null;
  return isObject && Object.keys(value).join() === "code,record" && isCount(value.code) && isCount(value.record);
}

/** @param {any} value */
function isSession(value) {
  const isObject = typeof value === "object" && value !== null && Object.keys(value).join() === "left,roles,session";
  return isObject && Array.isArray(value.left) && value.left.every(isLeft) && isNames(value.roles) && isName(value.session);
}

/** @param {any} value */
function isLeft(value) {
  if (typeof value !== "object" || value === null) {
    return false;
  }
  const { code, error, role, ...details } = value;
  const [key, ...more] = Object.keys(details);
  return isCount(code) && isName(error) && isName(role) && (key === undefined || DETAILS.includes(key)) && more.length === 0;
}

/** @param {unknown} value */
function isName(value) {
  return typeof value === "string" && value !== "";
}

function never() {
  return false;
}

/**
 * What the value of each kind looks like.
 *
 * @type {Record<string, (value: unknown) => boolean>}
 */
const IS_RIGHT = { import: isReport, names: isNames, permissions: isPairs, count: isCount, session: isSession };
