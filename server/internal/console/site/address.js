/** The address chooses the page. */

let isFresh = true;

/** Shows the page with an address from its beginning, as a link does; also the one that is shown. */
export function visit(hash) {
    isFresh = true;
    if (location.hash === hash) {
        window.dispatchEvent(new Event("hashchange")); // The browser does nothing for the address that is shown.
    } else {
        location.hash = hash;
    }
}

/** Whether a link or a form has led to the page, and not a step in the browser's history. It says so once. */
export function isVisit() {
    const was = isFresh;
    isFresh = false;
    return was;
}
