// A guard in Express's form: a request passes only if its session may do what it needs.

/**
 * What a guard uses of an answer of Node or of Express.
 *
 * @typedef {object} Answer
 * @property {number} statusCode
 * @property {(name: string, value: string) => unknown} setHeader
 * @property {(text: string) => unknown} end
 */

/**
 * What a function returns, or promises.
 *
 * @template T
 * @typedef {T | Promise<T>} Promised
 */

/**
 * An office that decides, such as a `Client`.
 *
 * @typedef {Pick<import("./client.js").Client, "check">} Checking
 * @typedef {Pick<import("./client.js").Client, "decideByUser">} Deciding
 */

/**
 * A guard. `need` returns what a request needs, an operation and an object, or nothing if it passes without a question; `session` the
 * name of its session, which the application keeps, or nothing. Both may return a promise.
 *
 * If one of them fails, the request doesn't pass: `next` gets the error. A `next` without a parameter would not see it, and isn't called:
 * the answer is 500 then, and `console.error` has the error.
 *
 * @template Request
 * @param {Checking} office
 * @param {(request: Request) => Promised<readonly [operation: string, object: string] | undefined>} need
 * @param {(request: Request) => Promised<string | undefined>} session
 * @returns {(request: Request, answer: Answer, next: (error?: unknown) => void) => Promise<void>}
 */
export function guard(office, need, session) {
  return made("guard(office, need, session)", office?.check?.bind(office), need, session);
}

/**
 * A guard for applications without sessions: `user` returns the user whom the application has authenticated, or nothing.
 *
 * @template Request
 * @param {Deciding} office
 * @param {(request: Request) => Promised<readonly [operation: string, object: string] | undefined>} need
 * @param {(request: Request) => Promised<string | undefined>} user
 * @returns {(request: Request, answer: Answer, next: (error?: unknown) => void) => Promise<void>}
 */
export function guardByUser(office, need, user) {
  return made("guardByUser(office, need, user)", office?.decideByUser?.bind(office), need, user);
}

/**
 * @template Request
 * @param {string} form how it is called
 * @param {Decides} decide
 * @param {(request: Request) => Promised<readonly [operation: string, object: string] | undefined>} need
 * @param {(request: Request) => Promised<string | undefined>} holder
 * @returns {(request: Request, answer: Answer, next: (error?: unknown) => void) => Promise<void>}
 */
function made(form, decide, need, holder) {
  if (![decide, need, holder].every((one) => typeof one === "function")) {
    throw new TypeError(`a guard is ${form}: a client and two functions`);
  }
  return async (request, answer, next) => {
    let status;
    try {
      status = await statusFor(decide, await need(request), () => holder(request));
    } catch (error) {
      if (next.length > 0) {
        next(error ?? new Error("a guard has failed"));
        return;
      }
      console.error("a guard has failed:", error);
      status = 500;
    }
    if (status === 200) {
      next();
      return;
    }
    answer.statusCode = status;
    answer.setHeader("Content-Type", "text/plain; charset=utf-8");
    answer.setHeader("Cache-Control", "no-store");
    answer.end(`${TEXTS[status]}\n`);
  };
}

/** @type {Record<number, string>} */
const TEXTS = { 401: "Unauthorized", 403: "Forbidden", 500: "Internal Server Error", 503: "Service Unavailable" };

/**
 * What decides about a session, or about a user.
 *
 * @typedef {(holder: string, operation: string, object: string) => Promised<import("./decision.js").Decision>} Decides
 */

/**
 * The status of the answer to a request, or 200 if it passes. Without a session or a user there is no decision.
 *
 * @param {Decides} decide
 * @param {readonly [operation: string, object: string] | undefined} needed
 * @param {() => Promised<string | undefined>} holder
 */
async function statusFor(decide, needed, holder) {
  if (needed === undefined) {
    return 200;
  }
  const name = await holder();
  if (!name) {
    return 401;
  }
  const decision = await decide(name, needed[0], needed[1]);
  if (decision.allowed === true) {
    return 200;
  }
  if (decision.reason === "ended_session") {
    return 401;
  }
  return decision.isDecided === true ? 403 : 503;
}
