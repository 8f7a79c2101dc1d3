/**
 * What a client is made from. One address answers for all.
 *
 * @typedef {object} Options
 * @property {string | readonly string[]} addresses one or more of `http://HOST:PORT`, `https://HOST:PORT` and `unix:PATH`
 * @property {string | (() => string)} [token] shows who asks; a text, or a function that returns the present one. The end of a line
 *   after it is ignored
 * @property {boolean} [tokenOverHttp] whether the token is sent to other machines without TLS too, over a network that encrypts by itself
 * @property {number} [timeout] how many milliseconds a call may take as a whole, with all of its attempts, and a check with the renewal of
 *   its session; 10,000 if absent
 * @property {string | Uint8Array} [ca] the certificates of the authorities that are trusted instead of those of Node
 * @property {string | Uint8Array} [certificate] the client's own certificate
 * @property {string | Uint8Array} [key] the key of that certificate
 * @property {number} [pause] how many milliseconds pass before a command is sent again, or a question at the same addresses, which is done
 *   while half of the time is left; each time twice as many; 100 if absent
 * @property {boolean} [repeats] whether a command whose answer was lost is sent again, if docs/howto/integrate.md, section 3, says that it
 *   may be; true if absent
 * @property {(line: string) => void} [log] gets lines about decisions that the office hasn't made: one for each change of the reason, and
 *   otherwise one a second, which counts the others
 */
/** A server, or several servers of one office. */
export class Client extends Functions {
    /** @param {Options} options */
    constructor(options: Options);
    /**
     * Until then sessions are made by createSession, since the server opens none.
     *
     * @internal
     */
    createsUntil: number;
    /** Closes the connections that are kept. A further call opens a new one. */
    close(): void;
    /** How many decisions there were, by their reasons. */
    get counts(): Map<import("./decision.js").Reason, number>;
    /**
     * Whether the session may do the operation on the object, and why. It is never rejected: without an answer it denies.
     *
     * @param {string} session
     * @param {string} operation
     * @param {string} object
     * @returns {Promise<Decision>}
     */
    check(session: string, operation: string, object: string): Promise<Decision>;
    /**
     * Whether to let the session do the operation on the object.
     *
     * @param {string} session
     * @param {string} operation
     * @param {string} object
     * @returns {Promise<boolean>}
     */
    may(session: string, operation: string, object: string): Promise<boolean>;
    /**
     * Whether the user may do the operation on the object in some session, and why: for applications without sessions. The front decides;
     * `rbac serve` can't. It is never rejected: without an answer it denies.
     *
     * @param {string} user
     * @param {string} operation
     * @param {string} object
     * @returns {Promise<Decision>}
     */
    decideByUser(user: string, operation: string, object: string): Promise<Decision>;
    /**
     * Makes a session of the user, under a new name that nobody can guess. The front activates as many of the roles in their order, or of
     * all that the user is assigned to, as it can, and `left` of the session has the others. `rbac serve` activates exactly these roles, or
     * refuses. With `renews` the session is made again when a decision finds that it has ended, with those of its roles that are left, and
     * never with others.
     *
     * @param {string} user
     * @param {readonly string[]} [roles]
     * @param {{ renews?: boolean }} [options]
     * @returns {Promise<Session>}
     */
    openSession(user: string, roles?: readonly string[] | undefined, options?: {
        renews?: boolean | undefined;
    } | undefined): Promise<Session>;
    /**
     * Ends the session that has this digest, as lists and records of the front show it.
     *
     * @param {string} digest
     * @returns {Promise<void>}
     */
    endSession(digest: string): Promise<void>;
    /**
     * A decision that isn't counted yet.
     *
     * @internal
     * @param {string} session
     * @param {string} operation
     * @param {string} object
     * @param {number} [limit] when it has to have been made
     */
    decide(session: string, operation: string, object: string, limit?: number | undefined): Promise<Decision>;
    /**
     * When a call that begins now has to have ended.
     *
     * @internal
     */
    limit(): number;
    /**
     * Counts a decision, and logs it if the office hasn't made it. The log has no names of sessions.
     *
     * @internal
     * @param {Decision} decision
     * @param {string} operation
     * @param {string} object
     */
    keep(decision: Decision, operation: string, object: string): Decision;
    /**
     * Calls a function. `again` is the code that means that the command was done, if its answer was lost before. `limit` is when the call
     * has to have ended, if it is a part of something that takes longer.
     *
     * @internal
     * @param {string} name
     * @param {Record<string, unknown>} keys
     * @param {number} [again]
     * @param {number} [limit]
     * @returns {Promise<any>}
     */
    call(name: string, keys: Record<string, unknown>, again?: number | undefined, limit?: number | undefined): Promise<any>;
    #private;
}
/**
 * What a client is made from. One address answers for all.
 */
export type Options = {
    /**
     * one or more of `http://HOST:PORT`, `https://HOST:PORT` and `unix:PATH`
     */
    addresses: string | readonly string[];
    /**
     * shows who asks; a text, or a function that returns the present one. The end of a line
     * after it is ignored
     */
    token?: string | (() => string) | undefined;
    /**
     * whether the token is sent to other machines without TLS too, over a network that encrypts by itself
     */
    tokenOverHttp?: boolean | undefined;
    /**
     * how many milliseconds a call may take as a whole, with all of its attempts, and a check with the renewal of
     * its session; 10,000 if absent
     */
    timeout?: number | undefined;
    /**
     * the certificates of the authorities that are trusted instead of those of Node
     */
    ca?: string | Uint8Array | undefined;
    /**
     * the client's own certificate
     */
    certificate?: string | Uint8Array | undefined;
    /**
     * the key of that certificate
     */
    key?: string | Uint8Array | undefined;
    /**
     * how many milliseconds pass before a command is sent again, or a question at the same addresses, which is done
     * while half of the time is left; each time twice as many; 100 if absent
     */
    pause?: number | undefined;
    /**
     * whether a command whose answer was lost is sent again, if docs/howto/integrate.md, section 3, says that it
     * may be; true if absent
     */
    repeats?: boolean | undefined;
    /**
     * gets lines about decisions that the office hasn't made: one for each change of the reason, and
     * otherwise one a second, which counts the others
     */
    log?: ((line: string) => void) | undefined;
};
import { Functions } from "./functions.js";
import { Decision } from "./decision.js";
import { Session } from "./session.js";
