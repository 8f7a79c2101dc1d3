/** Parts that several pages have: sections, tables, forms, pictures. */

import { Lost, maySome, order, Reading, Refused, Unfit } from "./api.js";
import { visit } from "./address.js";
import { hush, LOST, NOT_YET, say, UNREAD, UNSAID } from "./notice.js";
import { areSo } from "./outcome.js";
import { done, refusal, soNow, suggestions, why } from "./words.js";
import { h, hashOf, listed, plain, some } from "./text.js";

export { Unfit };

export function section(title, ...children) {
    return h("section", {}, h("h2", {}, title), children);
}

/** Returns a table. Each row is a list of cells: a node, or { class, child }. */
export function table(caption, heads, rows, empty = "None.") {
    if (rows.length === 0) {
        return h("p", { class: "quiet" }, empty);
    }
    const cells = (row) => row.map((cell) => (cell?.child !== undefined ? h("td", { class: cell.class }, cell.child) : h("td", {}, cell)));
    const head = (text) => (text === "" ? h("td", { class: "action" }) : h("th", { scope: "col", class: text.class }, text.child ?? text));
    return h("div", { class: "scroll", tabindex: "0", role: "group", "aria-label": caption },
        h("table", {},
            h("caption", {}, caption),
            h("thead", {}, h("tr", {}, heads.map(head))),
            h("tbody", {}, rows.map((row) => h("tr", {}, cells(row))))));
}

export const number = (value) => ({ class: "number", child: value.toLocaleString("en") });
export const action = (child) => ({ class: "action", child: child ?? "" });

/** Says why something failed. */
export async function fail(error, values = {}) {
    if (error instanceof Lost) {
        say(error.isChange ? "unsure" : "refused", [error.isChange ? LOST : UNREAD]);
    } else if (error instanceof Refused) {
        say("refused", ["Refused: ", await why(values, error)]);
    } else if (error instanceof Unfit) {
        say("refused", [error.message]);
    } else {
        throw error;
    }
}

/**
 * Asks for a command, says what has come of it, and shows the page anew, or the one with the address `after` if it is done. With a
 * revision it is done only if the policy still has that one. `perform` asks for the command in another way.
 */
export async function command(fn, values, anew, { after, revision, perform = () => order(fn, values, revision) } = {}) {
    try {
        await perform();
    } catch (error) {
        return settle(fn, values, anew, after, error);
    }
    await show("done", done(fn, values), { anew, after });
}

/**
 * Says what has become of a command that was refused, or whose answer is lost. The browser may have sent it again by itself: then it was
 * done, and the refusal is that of the second one. What is so now says more.
 */
async function settle(fn, values, anew, after, error) {
    const isLost = error instanceof Lost;
    if (!isLost && !(error instanceof Refused)) {
        throw error;
    }
    const [isSo] = isLost || mayBeRepeated(error) ? await areSo([{ fn, ...values }]) : [false];
    if (isSo) {
        return show("unsure", [isLost ? `${UNSAID} ` : "", soNow(fn, values)], { anew, after });
    }
    if (isLost) {
        return isSo === null ? fail(error) : show("unsure", [NOT_YET], { anew, isKept: true });
    }
    const words = await refusal(fn, values, error).catch(() => [error.message]);
    return isOfOffice(error) ? show("refused", words, { anew, isKept: true }) : say("refused", words);
}

/** Whether what was refused may have been done before, by the same request. */
const mayBeRepeated = ({ code }) => (code >= 2 && code <= 31) || code === 67;

/** Whether a refusal says something of the office, and not of the caller or of the request. */
const isOfOffice = ({ code }) => code < 60 || code === 67;

/** Says what has happened, and shows the page as it is now, or another one. What is typed in the form is kept if it can be sent again. */
async function show(kind, nodes, { anew, after, isKept = false }) {
    say(kind, nodes, after);
    if (after === undefined) {
        await anew(isKept);
    } else {
        visit(after);
    }
}

let fields = 0;

/** Returns a field with a label. With `from`, it suggests the names of a list. */
export function field(label, key, more = {}) {
    const { from, ...attributes } = more;
    const id = `field-${(fields += 1)}`;
    const input = h("input", { id, "data-key": key, autocomplete: "off", spellcheck: "false", ...attributes });
    const parts = [h("span", {}, label), input];
    if (from && maySome("lists")) {
        const options = h("datalist", { id: `${id}-list` });
        input.setAttribute("list", options.id);
        let waiting = 0;
        const fill = async () => {
            const found = await suggestions(from, input.value).catch(() => []);
            options.replaceChildren(...found.map((one) => h("option", { value: one })));
        };
        input.addEventListener("focus", fill, { once: true });
        input.addEventListener("input", () => {
            clearTimeout(waiting);
            waiting = setTimeout(fill, 200);
        });
        parts.push(options);
    }
    return h("label", { for: id }, parts);
}

/** Returns a form whose fields become an object of texts for a function. */
export function form(label, inputs, submit, perform, more = {}) {
    const button = h("button", { type: "submit" }, submit);
    const element = h("form", { "aria-label": label, method: "post", ...more }, inputs, button);
    element.addEventListener("submit", async (event) => {
        event.preventDefault();
        if (button.disabled) {
            return;
        }
        await pressed(element.querySelector("input, select, textarea") ?? button, button, () => perform(valuesOf(element)));
    });
    return element;
}

let last = null;

/** Returns the control that was pressed last: the first field of its form, or a button. */
export const lastPressed = () => last;

/** Does what a button is for, unless it is being done. */
async function pressed(control, element, perform) {
    last = control;
    hush();
    element.disabled = true;
    try {
        await perform();
    } catch (error) {
        await fail(error);
    } finally {
        element.disabled = false;
    }
}

/** What is said if a search finds nothing. */
export const NONE_FOUND = "No name has this text in it. Capital and small letters are different here.";

/** Returns a form that shows the names of a page that have a text in them. */
export function searchForm(segment, contains) {
    return form(`Search ${segment}`, [field("Name contains", "contains", { value: contains, type: "search" })], "Search",
        (values) => visit(`${hashOf([segment])}?${new URLSearchParams(values)}`), { class: "search" });
}

/** Returns what a form's fields have. */
function valuesOf(element) {
    const values = {};
    for (const input of element.querySelectorAll("[data-key]")) {
        if (input.type === "radio" ? input.checked : true) {
            values[input.dataset.key] = input.type === "checkbox" ? input.checked : input.value;
        }
    }
    return values;
}

/** Returns a button that asks for a command, with a label that says about what. It may stand for another control. */
export function button(text, label, perform, kind = "plain", control = null) {
    const element = h("button", { type: "button", class: kind, "aria-label": plain(label) });
    element.append(text);
    element.addEventListener("click", () => pressed(control ?? element, element, perform));
    return element;
}

/** Returns a button that asks whether something is meant before it is done. */
export function deliberate(text, label, question, perform) {
    const holder = h("span", {});
    const first = button(text, label, () => {
        const yes = button("Yes", `${label}: yes`, perform, "bad", first);
        const no = button("No", `${label}: no`, () => {
            holder.replaceChildren(first);
            first.focus();
        });
        holder.replaceChildren(h("span", { class: "quiet" }, question, " "), yes, " ", no);
        no.focus();
    }, "bad");
    holder.append(first);
    return holder;
}

/** Returns the end of a sentence with the first few names, and a button that shows all of them. */
export function folded(names, show, label, most = 10) {
    if (names.length <= most + 1) {
        return [listed(names.map(show)), "."];
    }
    const all = h("span", { tabindex: "-1" }, some(names, show, "and", most), ". ");
    all.append(button("Show all", label, () => {
        all.replaceChildren(...listed(names.map(show)), ".");
        all.focus();
    }));
    return all;
}

/** Returns a picture that the front draws, or a line that says why there is none. */
export function drawn(query, about, drawing = new Reading().picture(query)) {
    const holder = h("div", { class: "picture" }, h("p", { class: "quiet" }, "The picture is being drawn."));
    const without = (text) => holder.replaceWith(h("p", { class: "quiet" }, text));
    drawing.then((blob) => {
        const image = h("img", { alt: about, src: URL.createObjectURL(blob) });
        image.addEventListener("load", () => URL.revokeObjectURL(image.src));
        holder.replaceChildren(image);
    }, (error) => {
        if (error instanceof Refused && error.status === 404) {
            without("There is no picture, since Graphviz isn't installed where the front runs.");
        } else if (error instanceof Refused && error.status === 413) {
            without("There are too many roles for a picture. The page of a role shows its neighbours.");
        } else {
            without("The picture couldn't be drawn in time.");
        }
    });
    return holder;
}

// How long the parts of a page are waited for, in milliseconds.
const PATIENCE = 300;

/** Returns a promise that may fail before somebody waits for it. */
export function early(promise) {
    promise.catch(() => {});
    return promise;
}

/** Waits a little for parts of a page: one that is shown once is there sooner than one that is shown in parts. */
export function awhile(promises) {
    return Promise.race([Promise.allSettled(promises), new Promise((done) => { setTimeout(done, PATIENCE); })]);
}

/** Returns a section whose content comes later. What fails is said in it. */
export function later(title, load) {
    const element = section(title, h("p", { class: "quiet" }, "…"));
    load().then(
        (children) => element.replaceChildren(h("h2", {}, title), ...[children].flat(Infinity).filter(Boolean)),
        async (error) => {
            const text = error instanceof Refused ? await why({}, error) : [UNREAD];
            element.replaceChildren(h("h2", {}, title), h("p", {}, text));
        },
    );
    return element;
}
