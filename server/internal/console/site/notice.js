/** The notice at the end of the window: what has come of the last action. It goes with the next one, and with the page. */

import { h } from "./text.js";

export const LOST = "The front doesn't answer. What you asked for may or may not have been done: look again when it answers.";
// A proxy can pass on what it has held up: docs/howto/integrate.md, section 3.
export const UNSAID = "The front hasn't said whether this is done.";
export const NOT_YET = `${UNSAID} It isn't so now, but may still be done: look again in two minutes, before you repeat it.`;
export const MIXED = "The policy changes while this is read, so parts of it may not fit together. Refresh the page.";
export const UNREAD = "This could not be read, since the front doesn't answer.";

const place = () => document.getElementById("notice");

// The address of the page that the notice belongs to.
let address = "";

/** Shows what has happened, on the page that is shown or on the one with an address: "done", "refused", or "unsure". */
export function say(kind, nodes, at = location.hash) {
    const before = document.activeElement;
    const dismiss = h("button", { type: "button", class: "plain", "aria-label": "Dismiss the notice", onclick: () => {
        hush();
        (before.isConnected && before !== document.body ? before : document.querySelector("main h1"))?.focus({ preventScroll: true });
    } }, "Dismiss");
    address = at;
    place().replaceChildren(h("div", { class: kind }, h("p", {}, nodes), dismiss));
}

export function hush() {
    place().replaceChildren();
}

/** Removes a notice that belongs to another page than the one that is shown. */
export function hushOthers() {
    if (address !== location.hash) {
        hush();
    }
}
