// Sessions: opened when a user logs in, made again if that is wanted, and closed when the user logs out.

import { createHash, randomBytes } from "node:crypto";

import { OPENS } from "./answers.js";
import { now } from "./course.js";
import { OfficeError, RefusedError, undecided } from "./decision.js";
import { NAMES } from "./functions.js";

/** A new name for a session, which nobody can guess and no other session has. */
export function sessionName() {
  return randomBytes(16).toString("hex");
}

/**
 * What the front shows to others instead of the name of a session.
 *
 * @param {string} name
 */
export function sessionDigest(name) {
  return createHash("sha3-256").update(name).digest("hex").slice(0, 32);
}

/**
 * A role that wasn't activated in a session, and the refusal of docs/reference/api.md that says why, with its further key if there is one.
 *
 * @typedef {{ role: string, code: number, error: string, set?: string, kind?: string }} LeftOut
 */

/** What a server answers that opens no sessions, such as `rbac serve`, and what the front answers if no role is left. */
const NO_SUCH_PATH = 35;
const NOT_AUTHORIZED = 29;

/** For how many milliseconds such a server isn't asked to open a session again. */
const CREATES = 60_000;

/** A session of a user. */
export class Session {
  #name = "";
  /** @type {string[] | undefined} */
  #wanted;
  /** @type {Promise<void> | undefined} */
  #renewal;

  /**
   * @param {import("./client.js").Client} office
   * @param {string} user
   * @param {readonly string[] | undefined} roles
   * @param {boolean} renews
   */
  constructor(office, user, roles, renews) {
    this.office = office;
    this.user = user;
    this.renews = renews;
    /**
     * The roles that were activated when the session was made.
     *
     * @type {readonly string[]}
     */
    this.roles = [];
    /**
     * Those of the wanted roles that the front has left out.
     *
     * @type {readonly LeftOut[]}
     */
    this.left = [];
    this.#wanted = roles && [...roles];
  }

  /** The present name. Whoever knows it can ask. */
  get name() {
    return this.#name;
  }

  /**
   * Makes the session, under a new name.
   *
   * @internal
   * @param {number} [limit] when it has to have been made
   */
  async open(limit) {
    if (now() >= this.office.createsUntil) {
      try {
        const wanted = this.#wanted === undefined ? {} : { roles: this.#wanted };
        this.#became(await this.office.call(OPENS, { user: this.user, ...wanted }, undefined, limit));
        return;
      } catch (error) {
        if (!(error instanceof RefusedError) || error.code !== NO_SUCH_PATH) {
          throw error;
        }
        this.office.createsUntil = now() + CREATES;
      }
    }
    this.#became(await this.#created(limit));
  }

  /** @param {{ session: string, roles: string[], left: LeftOut[] }} opened */
  #became(opened) {
    this.roles = opened.roles;
    this.left = opened.left;
    this.#name = opened.session;
    // If it is made again it gets no role that it hasn't had.
    this.#wanted = [...opened.roles];
  }

  /**
   * Makes the session by createSession. If the answer is lost it is sent again: nobody else has that name.
   *
   * @param {number | undefined} limit
   */
  async #created(limit) {
    const session = sessionName();
    const user = this.user;
    let roles = this.#wanted ?? (await this.office.call("assignedRoles", { user }, undefined, limit));
    if (this.#name && roles.length > 0) {
      const authorized = await this.office.call("authorizedRoles", { user }, undefined, limit);
      roles = roles.filter((/** @type {string} */ role) => authorized.includes(role));
      if (roles.length === 0) {
        throw new RefusedError(NOT_AUTHORIZED, NAMES[NOT_AUTHORIZED] ?? "", {}); // Without a role there is no session to be made again.
      }
    }
    await this.office.call("createSession", { user, roles, session }, 27, limit);
    return { session, roles, left: [] };
  }

  /** Ends the session, for good. It is no error if it has ended before. */
  async close() {
    this.renews = false;
    await this.#renewal?.catch(() => undefined);
    try {
      await this.office.call("deleteSession", { user: this.user, session: this.#name }, 26);
    } catch (error) {
      // The user may be gone as well.
      if (!(error instanceof RefusedError) || (error.code !== 26 && error.code !== 2)) {
        throw error;
      }
    }
  }

  /**
   * Whether the session may do the operation on the object, and why.
   *
   * @param {string} operation
   * @param {string} object
   */
  async check(operation, object) {
    const limit = this.office.limit();
    const name = this.#name;
    let decision = await this.office.decide(name, operation, object, limit);
    if (decision.reason === "ended_session" && this.renews) {
      try {
        await this.#renew(name, limit);
        decision = await this.office.decide(this.#name, operation, object, limit);
      } catch (error) {
        // A refusal to make it again leaves it ended.
        decision = error instanceof OfficeError && error.reason === "refused" ? decision : undecided(error);
      }
    }
    return this.office.keep(decision, operation, object);
  }

  /**
   * Whether to let the session do the operation on the object.
   *
   * @param {string} operation
   * @param {string} object
   */
  async may(operation, object) {
    return (await this.check(operation, object)).allowed;
  }

  /**
   * Makes the session again, once for all who wait for it.
   *
   * @param {string} name
   * @param {number} limit
   */
  async #renew(name, limit) {
    if (this.#name !== name) {
      return;
    }
    this.#renewal ??= this.open(limit).finally(() => {
      this.#renewal = undefined;
    });
    await until(limit, this.#renewal);
  }
}

/**
 * Waits for something until a limit.
 *
 * @param {number} limit
 * @param {Promise<void>} awaited
 */
async function until(limit, awaited) {
  /** @type {{ unref(): void } | undefined} */
  let timer;
  const over = new Promise((_, reject) => {
    const late = () => reject(new OfficeError("unanswered", "the session wasn't made again in time", true));
    timer = setTimeout(late, Math.max(limit - now(), 0));
  });
  try {
    await Promise.race([awaited, over]);
  } finally {
    clearTimeout(timer);
  }
}
