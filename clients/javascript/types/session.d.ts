/** A new name for a session, which nobody can guess and no other session has. */
export function sessionName(): string;
/**
 * What the front shows to others instead of the name of a session.
 *
 * @param {string} name
 */
export function sessionDigest(name: string): string;
/** A session of a user. */
export class Session {
    /**
     * @param {import("./client.js").Client} office
     * @param {string} user
     * @param {readonly string[] | undefined} roles
     * @param {boolean} renews
     */
    constructor(office: import("./client.js").Client, user: string, roles: readonly string[] | undefined, renews: boolean);
    office: import("./client.js").Client;
    user: string;
    renews: boolean;
    /**
     * The roles that were activated when the session was made.
     *
     * @type {readonly string[]}
     */
    roles: readonly string[];
    /**
     * Those of the wanted roles that the front has left out.
     *
     * @type {readonly LeftOut[]}
     */
    left: readonly LeftOut[];
    /** The present name. Whoever knows it can ask. */
    get name(): string;
    /**
     * Makes the session, under a new name.
     *
     * @internal
     * @param {number} [limit] when it has to have been made
     */
    open(limit?: number | undefined): Promise<void>;
    /** Ends the session, for good. It is no error if it has ended before. */
    close(): Promise<void>;
    /**
     * Whether the session may do the operation on the object, and why.
     *
     * @param {string} operation
     * @param {string} object
     */
    check(operation: string, object: string): Promise<import("./decision.js").Decision>;
    /**
     * Whether to let the session do the operation on the object.
     *
     * @param {string} operation
     * @param {string} object
     */
    may(operation: string, object: string): Promise<boolean>;
    #private;
}
/**
 * A role that wasn't activated in a session, and the refusal of docs/reference/api.md that says why, with its further key if there is one.
 */
export type LeftOut = {
    role: string;
    code: number;
    error: string;
    set?: string;
    kind?: string;
};
