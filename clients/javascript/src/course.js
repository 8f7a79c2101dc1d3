// The course of a call: which address is asked next, for how long, and after which pause.

import { againOf, kindOf } from "./answers.js";
import { OfficeError, RefusedError } from "./decision.js";

// How often a command is sent at most, and for what a question is asked at the next address.
const MOST_ATTEMPTS = 4;
const OF_ONE_ADDRESS = ["unavailable", "unreachable", "untrusted", "unanswered", "unexpected"];

// For what a question is asked again at the same addresses: a server that is restarted or too busy.
const OF_THE_MOMENT = ["unavailable", "unreachable", "unanswered"];

/** The course of one call. It ends with an answer, or with the error that `after` throws. */
export class Course {
  /**
   * @param {{ addresses: readonly unknown[], timeout: number, pause: number, repeats: boolean, first: number }} settings
   * @param {string} name
   * @param {number | undefined} again the code that means that the command was done, if the function alone doesn't say it
   * @param {number} limit when the call has to have ended, if it is a part of something that takes longer
   */
  constructor(settings, name, again, limit = Infinity) {
    this.settings = settings;
    const began = now();
    this.deadline = Math.min(limit, began + settings.timeout);
    // The latest time at which a question is asked again at the same addresses.
    this.latest = began + (this.deadline - began) / 2;
    this.isQuestion = !["done", "import", "session"].includes(kindOf(name));
    this.again = settings.repeats ? again ?? againOf(name) : undefined;
    this.left = this.isQuestion ? settings.addresses.length : this.again === undefined ? 1 : MOST_ATTEMPTS;
    // Addresses that can't be reached cost no attempt: nothing was sent.
    this.unreached = settings.addresses.length - 1;
    this.at = settings.first;
    this.sent = 0;
    this.isLost = false;
  }

  /** The number of the address that is asked now. */
  get place() {
    return this.at % this.settings.addresses.length;
  }

  /** When the attempt has to have ended: a share of the time is left for each further attempt. */
  limit() {
    const share = this.isQuestion ? this.left : Math.min(this.left, 2) + this.unreached;
    return now() + Math.max(this.deadline - now(), 0) / share;
  }

  /** The address has answered: the next call begins with it. */
  answered() {
    this.settings.first = this.place;
  }

  /**
   * What follows on an error: after how many milliseconds the next attempt, or nothing if the command was done. Throws what the call
   * has to throw if there is no further attempt.
   *
   * @param {unknown} error
   * @returns {number | undefined}
   */
  after(error) {
    if (!(error instanceof OfficeError)) {
      throw error;
    }
    const isRefused = error instanceof RefusedError && error.reason !== "unavailable";
    if (isRefused) {
      this.answered();
      if (this.isLost && this.again && error.code === this.again) {
        return undefined;
      }
    }
    error.mayBeDone = !this.isQuestion && (error.mayBeDone || this.isLost);
    if (isRefused || !OF_ONE_ADDRESS.includes(error.reason) || now() >= this.deadline) {
      throw this.last(error);
    }
    this.at += 1;
    return this.isQuestion ? this.askedAgain(error) : this.afterCommand(error);
  }

  /**
   * The next address at once. After the last one all of them again, after a pause, while half of the time is left.
   *
   * @param {OfficeError} error
   */
  askedAgain(error) {
    this.left -= 1;
    if (this.left > 0) {
      return 0;
    }
    const pause = this.pause();
    if (!OF_THE_MOMENT.includes(error.reason) || now() + pause > this.latest) {
      throw error;
    }
    this.left = this.settings.addresses.length;
    return pause;
  }

  /**
   * What the call throws at its end: a command that was sent is unanswered, though nobody could be reached after that.
   *
   * @param {OfficeError} error
   */
  last(error) {
    return this.isLost && isUnsent(error) ? new OfficeError("unanswered", `the answer was lost, and then: ${error.message}`, true) : error;
  }

  /** @param {OfficeError} error */
  afterCommand(error) {
    if (isUnsent(error)) {
      if (this.unreached > 0) {
        this.unreached -= 1;
        return 0;
      }
      if (!this.isLost) {
        throw error;
      }
      return this.pause(); // The command waits for a server.
    }
    this.left -= 1;
    if (this.left === 0 || error.reason === "unexpected") {
      throw error;
    }
    this.isLost = this.isLost || error.mayBeDone;
    return this.pause();
  }

  pause() {
    this.sent += 1;
    return Math.min(this.settings.pause * 2 ** (this.sent - 1), Math.max(this.deadline - now(), 0));
  }
}

/**
 * Whether nothing was sent before an error.
 *
 * @param {OfficeError} error
 */
function isUnsent(error) {
  return error.reason === "unreachable" || error.reason === "untrusted";
}

/** The milliseconds of a clock that nobody sets. */
export function now() {
  return performance.now();
}
