/**
 * The decision if the question has no answer: it denies.
 *
 * @param {unknown} error
 */
export function undecided(error: unknown): Decision;
/**
 * Why a decision allows or denies, or why a call has no result. docs/howto/integrate.md, section 1, has what to do.
 *
 * @typedef {"allowed" | "denied" | "ended_session" | "unknown_name" | "refused" | "invalid_request" | "unauthenticated" | "forbidden"
 *   | "unavailable" | "unreachable" | "untrusted" | "unanswered" | "unexpected"} Reason
 */
/** Whether a session may do something, and why. */
export class Decision {
    /**
     * @param {Reason} reason
     * @param {string} detail what the log has about it
     * @param {number} code that of the refusal, or 0
     */
    constructor(reason: Reason, detail?: string, code?: number);
    reason: Reason;
    detail: string;
    code: number;
    /** Whether to allow: only after the one answer that allows. */
    get allowed(): boolean;
    /** Whether the office has decided. If not, the reason is to be reported. */
    get isDecided(): boolean;
}
/**
 * A call has no result. A command wasn't done unless `mayBeDone`: after a lost answer that is unknown, also if no server can be reached
 * afterwards. The message has no name of a session, no token, and nothing of an answer but numbers.
 */
export class OfficeError extends Error {
    /**
     * @param {Reason} reason
     * @param {string} message
     * @param {boolean} mayBeDone
     */
    constructor(reason: Reason, message: string, mayBeDone: boolean);
    reason: Reason;
    mayBeDone: boolean;
}
/** The server refused the request. `code` and `refusal` are those of docs/reference/api.md, `details` has the further key, if any. */
export class RefusedError extends OfficeError {
    /**
     * @param {number} code
     * @param {string} refusal
     * @param {Record<string, string | number>} details
     */
    constructor(code: number, refusal: string, details: Record<string, string | number>);
    code: number;
    /** @type {string} */
    refusal: string;
    /** @type {Record<string, string | number>} */
    details: Record<string, string | number>;
}
/**
 * The reasons of answers that aren't those of `rbac`, by their statuses: a proxy sends them.
 *
 * @type {Record<number, Reason>}
 */
export const REASONS_OF_STATUSES: Record<number, Reason>;
/**
 * Why a decision allows or denies, or why a call has no result. docs/howto/integrate.md, section 1, has what to do.
 */
export type Reason = "allowed" | "denied" | "ended_session" | "unknown_name" | "refused" | "invalid_request" | "unauthenticated" | "forbidden" | "unavailable" | "unreachable" | "untrusted" | "unanswered" | "unexpected";
