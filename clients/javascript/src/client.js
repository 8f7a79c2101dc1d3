// The client: the functions as methods, decisions, and sessions.

import { BY_USER, ENDS, bodyOf } from "./answers.js";
import { Course, now } from "./course.js";
import { Decision, OfficeError, undecided } from "./decision.js";
import { Functions } from "./functions.js";
import { LogLines, shown } from "./log.js";
import { Session } from "./session.js";
import { Address } from "./transport.js";

/**
 * What a client is made from. One address answers for all.
 *
 * @typedef {object} Options
 * @property {string | readonly string[]} addresses one or more of `http://HOST:PORT`, `https://HOST:PORT` and `unix:PATH`
 * @property {string | (() => string)} [token] shows who asks; a text, or a function that returns the present one. The end of a line
 *   after it is ignored
 * @property {boolean} [tokenOverHttp] whether the token is sent to other machines without TLS too, over a network that encrypts by itself
 * @property {number} [timeout] how many milliseconds a call may take as a whole, with all of its attempts, and a check with the renewal of
 *   its session; 10,000 if absent
 * @property {string | Uint8Array} [ca] the certificates of the authorities that are trusted instead of those of Node
 * @property {string | Uint8Array} [certificate] the client's own certificate
 * @property {string | Uint8Array} [key] the key of that certificate
 * @property {number} [pause] how many milliseconds pass before a command is sent again, or a question at the same addresses, which is done
 *   while half of the time is left; each time twice as many; 100 if absent
 * @property {boolean} [repeats] whether a command whose answer was lost is sent again, if docs/howto/integrate.md, section 3, says that it
 *   may be; true if absent
 * @property {(line: string) => void} [log] gets lines about decisions that the office hasn't made: one for each change of the reason, and
 *   otherwise one a second, which counts the others
 */

/** A server, or several servers of one office. */
export class Client extends Functions {
  /** @type {{ addresses: Address[], timeout: number, pause: number, repeats: boolean, first: number }} */
  #settings;
  /** @type {() => string | undefined | null} */
  #token;
  /** @type {(line: string) => void} */
  #log;
  /** @type {Map<import("./decision.js").Reason, number>} */
  #counts = new Map();
  #lines = new LogLines();
  /**
   * Until then sessions are made by createSession, since the server opens none.
   *
   * @internal
   */
  createsUntil = -Infinity;

  /** @param {Options} options */
  constructor(options) {
    super();
    const { ca, certificate: cert, key, token, timeout = 10_000, pause = 100, repeats = true, tokenOverHttp = false } = options;
    const given = typeof options.addresses === "string" ? [options.addresses] : options.addresses;
    // Whom to trust isn't left to the variable NODE_TLS_REJECT_UNAUTHORIZED.
    const tls = { minVersion: "TLSv1.2", rejectUnauthorized: true, ca, cert, key };
    const addresses = given.map((text) => new Address(text, tls));
    if (addresses.length === 0) {
      throw new TypeError("there is no address");
    }
    this.#settings = { addresses, timeout, pause, repeats, first: 0 };
    const own = typeof token === "function" || token === undefined ? undefined : judged(token);
    if (own === null) {
      throw new TypeError(WRONG_TOKEN);
    }
    if (token !== undefined && !tokenOverHttp && !addresses.every((one) => one.hides)) {
      throw new TypeError(NO_TLS);
    }
    this.#token = typeof token === "function" ? () => judged(token()) : () => own;
    this.#log = options.log ?? ((line) => console.warn(line));
  }

  /** Closes the connections that are kept. A further call opens a new one. */
  close() {
    for (const address of this.#settings.addresses) {
      address.close();
    }
  }

  /** How many decisions there were, by their reasons. */
  get counts() {
    return new Map(this.#counts);
  }

  /**
   * Whether the session may do the operation on the object, and why. It is never rejected: without an answer it denies.
   *
   * @param {string} session
   * @param {string} operation
   * @param {string} object
   * @returns {Promise<Decision>}
   */
  async check(session, operation, object) {
    return this.keep(await this.decide(session, operation, object), operation, object);
  }

  /**
   * Whether to let the session do the operation on the object.
   *
   * @param {string} session
   * @param {string} operation
   * @param {string} object
   * @returns {Promise<boolean>}
   */
  async may(session, operation, object) {
    return (await this.check(session, operation, object)).allowed;
  }

  /**
   * Whether the user may do the operation on the object in some session, and why: for applications without sessions. The front decides;
   * `rbac serve` can't. It is never rejected: without an answer it denies.
   *
   * @param {string} user
   * @param {string} operation
   * @param {string} object
   * @returns {Promise<Decision>}
   */
  async decideByUser(user, operation, object) {
    return this.keep(await this.#asked(BY_USER, { user, operation, object }), operation, object);
  }

  /**
   * Makes a session of the user, under a new name that nobody can guess. The front activates as many of the roles in their order, or of
   * all that the user is assigned to, as it can, and `left` of the session has the others. `rbac serve` activates exactly these roles, or
   * refuses. With `renews` the session is made again when a decision finds that it has ended, with those of its roles that are left, and
   * never with others.
   *
   * @param {string} user
   * @param {readonly string[]} [roles]
   * @param {{ renews?: boolean }} [options]
   * @returns {Promise<Session>}
   */
  async openSession(user, roles, options) {
    const session = new Session(this, user, roles, options?.renews ?? false);
    await session.open();
    return session;
  }

  /**
   * Ends the session that has this digest, as lists and records of the front show it.
   *
   * @param {string} digest
   * @returns {Promise<void>}
   */
  async endSession(digest) {
    if (!/^[0-9a-f]{32}$/.test(digest)) {
      throw new TypeError("this is not the digest of a session"); // It may be the name of one.
    }
    await this.call(`${ENDS}${digest}`, {});
  }

  /**
   * A decision that isn't counted yet.
   *
   * @internal
   * @param {string} session
   * @param {string} operation
   * @param {string} object
   * @param {number} [limit] when it has to have been made
   */
  decide(session, operation, object, limit) {
    return this.#asked("checkAccess", { session, operation, object }, limit);
  }

  /**
   * The decision that a question has for its answer.
   *
   * @param {string} name
   * @param {Record<string, string>} keys
   * @param {number} [limit]
   */
  async #asked(name, keys, limit) {
    try {
      return new Decision((await this.call(name, keys, undefined, limit)) === true ? "allowed" : "denied");
    } catch (error) {
      return undecided(error);
    }
  }

  /**
   * When a call that begins now has to have ended.
   *
   * @internal
   */
  limit() {
    return now() + this.#settings.timeout;
  }

  /**
   * Counts a decision, and logs it if the office hasn't made it. The log has no names of sessions.
   *
   * @internal
   * @param {Decision} decision
   * @param {string} operation
   * @param {string} object
   */
  keep(decision, operation, object) {
    this.#counts.set(decision.reason, (this.#counts.get(decision.reason) ?? 0) + 1);
    const end = decision.isDecided ? undefined : this.#lines.due(decision.reason);
    if (end !== undefined) {
      this.#log(`no decision about ${shown(operation)} on ${shown(object)}: ${decision.reason}: ${decision.detail}${end}`);
    }
    return decision;
  }

  /**
   * Calls a function. `again` is the code that means that the command was done, if its answer was lost before. `limit` is when the call
   * has to have ended, if it is a part of something that takes longer.
   *
   * @internal
   * @param {string} name
   * @param {Record<string, unknown>} keys
   * @param {number} [again]
   * @param {number} [limit]
   * @returns {Promise<any>}
   */
  async call(name, keys, again, limit) {
    const body = bodyOf(name, keys);
    const course = new Course(this.#settings, name, again, limit);
    for (;;) {
      try {
        const value = await this.#attempt(course, name, body);
        course.answered();
        return value;
      } catch (error) {
        const pause = course.after(error);
        if (pause === undefined) {
          return undefined;
        }
        if (pause > 0) {
          await new Promise((resolve) => setTimeout(() => resolve(undefined), pause));
        }
      }
    }
  }

  /**
   * @param {Course} course
   * @param {string} name
   * @param {string} body
   */
  #attempt(course, name, body) {
    const token = this.#token();
    if (token === null) {
      throw new OfficeError("invalid_request", WRONG_TOKEN, false);
    }
    /** @type {Record<string, string>} */
    const headers = { "Content-Type": "application/json", "Content-Length": String(Buffer.byteLength(body)) };
    if (token !== undefined) {
      headers.Authorization = `Bearer ${token}`;
    }
    const address = /** @type {Address} */ (this.#settings.addresses[course.place]);
    const limit = course.limit();
    return course.isQuestion ? address.ask(name, body, headers, limit) : address.command(name, body, headers, limit);
  }
}

const WRONG_TOKEN = "a token is a text of visible ASCII characters without spaces";
const NO_TLS =
  "a token is sent over TLS alone, or to this machine: give an address that begins with https://, " +
  "or tokenOverHttp if the network encrypts by itself";

/**
 * A token without the end of the line that it may have, or null if it can't be sent.
 *
 * @param {unknown} token
 */
function judged(token) {
  return typeof token === "string" ? (/^([!-~]+)(?:\r?\n)?$/.exec(token)?.[1] ?? null) : null;
}
