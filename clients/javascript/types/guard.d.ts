/**
 * What a guard uses of an answer of Node or of Express.
 *
 * @typedef {object} Answer
 * @property {number} statusCode
 * @property {(name: string, value: string) => unknown} setHeader
 * @property {(text: string) => unknown} end
 */
/**
 * What a function returns, or promises.
 *
 * @template T
 * @typedef {T | Promise<T>} Promised
 */
/**
 * An office that decides, such as a `Client`.
 *
 * @typedef {Pick<import("./client.js").Client, "check">} Checking
 * @typedef {Pick<import("./client.js").Client, "decideByUser">} Deciding
 */
/**
 * A guard. `need` returns what a request needs, an operation and an object, or nothing if it passes without a question; `session` the
 * name of its session, which the application keeps, or nothing. Both may return a promise.
 *
 * If one of them fails, the request doesn't pass: `next` gets the error. A `next` without a parameter would not see it, and isn't called:
 * the answer is 500 then, and `console.error` has the error.
 *
 * @template Request
 * @param {Checking} office
 * @param {(request: Request) => Promised<readonly [operation: string, object: string] | undefined>} need
 * @param {(request: Request) => Promised<string | undefined>} session
 * @returns {(request: Request, answer: Answer, next: (error?: unknown) => void) => Promise<void>}
 */
export function guard<Request>(office: Checking, need: (request: Request) => Promised<readonly [operation: string, object: string] | undefined>, session: (request: Request) => Promised<string | undefined>): (request: Request, answer: Answer, next: (error?: unknown) => void) => Promise<void>;
/**
 * A guard for applications without sessions: `user` returns the user whom the application has authenticated, or nothing.
 *
 * @template Request
 * @param {Deciding} office
 * @param {(request: Request) => Promised<readonly [operation: string, object: string] | undefined>} need
 * @param {(request: Request) => Promised<string | undefined>} user
 * @returns {(request: Request, answer: Answer, next: (error?: unknown) => void) => Promise<void>}
 */
export function guardByUser<Request>(office: Deciding, need: (request: Request) => Promised<readonly [operation: string, object: string] | undefined>, user: (request: Request) => Promised<string | undefined>): (request: Request, answer: Answer, next: (error?: unknown) => void) => Promise<void>;
/**
 * What a guard uses of an answer of Node or of Express.
 */
export type Answer = {
    statusCode: number;
    setHeader: (name: string, value: string) => unknown;
    end: (text: string) => unknown;
};
/**
 * What a function returns, or promises.
 */
export type Promised<T> = T | Promise<T>;
/**
 * An office that decides, such as a `Client`.
 */
export type Checking = Pick<import("./client.js").Client, "check">;
/**
 * An office that decides, such as a `Client`.
 */
export type Deciding = Pick<import("./client.js").Client, "decideByUser">;
/**
 * What decides about a session, or about a user.
 */
export type Decides = (holder: string, operation: string, object: string) => Promised<import("./decision.js").Decision>;
