// Decisions with their reasons, and the errors of calls without a result.

import { NAMES } from "./functions.js";
import { inOneLine } from "./log.js";

/**
 * Why a decision allows or denies, or why a call has no result. docs/howto/integrate.md, section 1, has what to do.
 *
 * @typedef {"allowed" | "denied" | "ended_session" | "unknown_name" | "refused" | "invalid_request" | "unauthenticated" | "forbidden"
 *   | "unavailable" | "unreachable" | "untrusted" | "unanswered" | "unexpected"} Reason
 */

/** Whether a session may do something, and why. */
export class Decision {
  /**
   * @param {Reason} reason
   * @param {string} detail what the log has about it
   * @param {number} code that of the refusal, or 0
   */
  constructor(reason, detail = "", code = 0) {
    this.reason = reason;
    this.detail = detail;
    this.code = code;
    Object.freeze(this);
  }

  /** Whether to allow: only after the one answer that allows. */
  get allowed() {
    return this.reason === "allowed";
  }

  /** Whether the office has decided. If not, the reason is to be reported. */
  get isDecided() {
    return this.reason === "allowed" || this.reason === "denied";
  }
}

/**
 * A call has no result. A command wasn't done unless `mayBeDone`: after a lost answer that is unknown, also if no server can be reached
 * afterwards. The message has no name of a session, no token, and nothing of an answer but numbers.
 */
export class OfficeError extends Error {
  /**
   * @param {Reason} reason
   * @param {string} message
   * @param {boolean} mayBeDone
   */
  constructor(reason, message, mayBeDone) {
    super(message);
    this.name = "OfficeError";
    this.reason = reason;
    this.mayBeDone = mayBeDone;
  }
}

/** The server refused the request. `code` and `refusal` are those of docs/reference/api.md, `details` has the further key, if any. */
export class RefusedError extends OfficeError {
  /**
   * @param {number} code
   * @param {string} refusal
   * @param {Record<string, string | number>} details
   */
  constructor(code, refusal, details) {
    // What a server sends is no text of a log: the name is that of docs/reference/api.md, and the name of a set is only in `details`.
    const more = Object.entries(details).map(([key, value]) => (typeof value === "number" ? ` ${key} ${value}` : ""));
    super(REASONS[code] ?? "refused", `${code} ${NAMES[code] ?? "(a later refusal)"}${more.join("")}`, [41, 60, 61].includes(code));
    this.name = "RefusedError";
    this.code = code;
    /** @type {string} */
    this.refusal = NAMES[code] ?? "";
    /** @type {Record<string, string | number>} */
    this.details = {};
    Object.defineProperty(this, "refusal", { value: refusal, enumerable: false });
    Object.defineProperty(this, "details", { value: details, enumerable: false });
  }
}

/**
 * The reasons of the refusals that a decision can get, by their codes.
 *
 * @type {Record<number, Reason>}
 */
const REASONS = {
  26: "ended_session",
  6: "unknown_name",
  33: "unknown_name",
  1: "invalid_request",
  34: "invalid_request",
  35: "invalid_request",
  36: "invalid_request",
  62: "unauthenticated",
  63: "forbidden",
  65: "forbidden",
  66: "forbidden",
  40: "unavailable",
  41: "unavailable",
  42: "unavailable",
  60: "unavailable",
  61: "unavailable",
  64: "unavailable",
};

const NO_USER = 2;

/**
 * The reasons of answers that aren't those of `rbac`, by their statuses: a proxy sends them.
 *
 * @type {Record<number, Reason>}
 */
export const REASONS_OF_STATUSES = {
  401: "unauthenticated",
  403: "forbidden",
  429: "unavailable",
  502: "unavailable",
  503: "unavailable",
  504: "unavailable",
};

/**
 * The decision if the question has no answer: it denies.
 *
 * @param {unknown} error
 */
export function undecided(error) {
  if (!(error instanceof OfficeError)) {
    // What other errors say isn't shown: it may have a name or a token.
    return new Decision("invalid_request", error instanceof Error ? inOneLine(error.name) : typeof error);
  }
  const code = error instanceof RefusedError ? error.code : 0;
  // No other refusal is an answer to this question, but that of a user who isn't known.
  const reason = code === NO_USER ? "unknown_name" : error.reason === "refused" ? "unexpected" : error.reason;
  return new Decision(reason, error.message, code);
}
