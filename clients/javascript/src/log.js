// What the log gets: one line for a failure, in printable ASCII, and not one for each of many.

import { now } from "./course.js";

// How many milliseconds pass between two lines of the same reason, and how many lines there are in as many milliseconds at most.
const INTERVAL = 1_000;
const MOST_LINES = 10;

// How many characters of a name, and of another text, a line shows.
const MOST_OF_A_NAME = 80;
const MOST_OF_A_TEXT = 200;

/** Which lines about failures are written: each change of the reason, and otherwise one a second, which counts the others. */
export class LogLines {
  /** @param {() => number} clock the milliseconds of a clock that nobody sets */
  constructor(clock = now) {
    this.clock = clock;
    this.reason = "";
    this.leftOut = 0;
    this.written = 0;
    this.last = this.start = -Infinity;
  }

  /**
   * What a line about this reason ends with, or nothing if it isn't to be written.
   *
   * @param {string} reason
   * @returns {string | undefined}
   */
  due(reason) {
    const at = this.clock();
    if (at - this.start >= INTERVAL) {
      this.start = at;
      this.written = 0;
    }
    const isDue = reason === this.reason ? at - this.last >= INTERVAL : this.written < MOST_LINES;
    if (!isDue) {
      this.leftOut += 1;
      return undefined;
    }
    const end = this.leftOut > 0 ? ` (and ${this.leftOut} more since the last line)` : "";
    this.leftOut = 0;
    this.reason = reason;
    this.last = at;
    this.written += 1;
    return end;
  }
}

/**
 * A name in quotes, as a line shows it.
 *
 * @param {unknown} name
 */
export function shown(name) {
  return JSON.stringify(typeof name === "string" ? name.slice(0, MOST_OF_A_NAME) : typeof name).replace(/[^ -~]/g, escaped);
}

/**
 * The text of an error of the system, or of a certificate, as a line shows it.
 *
 * @param {string} text
 */
export function inOneLine(text) {
  return text.slice(0, MOST_OF_A_TEXT).replace(/[^ -~]/g, escaped);
}

/** @param {string} one */
function escaped(one) {
  return `\\u${one.charCodeAt(0).toString(16).padStart(4, "0")}`;
}
