/** Tables of many rows: a part of them at a time, with how many there are. */

import { button, fail, table } from "./parts.js";
import { h } from "./text.js";

/** How many rows a part has, unless a page says it. */
export const SHOWN = 100;

// Which part is shown, and the text that chooses rows, by the address and the table: a page that is made anew, or to which somebody
// goes back, shows the same part.
const places = new Map();

function placeOf(name) {
    const key = `${location.hash} ${name}`;
    if (!places.has(key)) {
        places.set(key, { first: 0, text: "" });
    }
    return places.get(key);
}

/** Forgets which parts of a page were shown, or of all pages. */
export function forgetPlaces(hash = "") {
    [...places.keys()].filter((key) => hash === "" || key.startsWith(`${hash} `)).forEach((key) => places.delete(key));
}

/**
 * Returns a table of a part of some rows, with buttons that show the others. `cells` returns the cells of each row of a part, or a
 * promise of them. With `names`, which returns the names that a row has, a field chooses the rows with a text in one of them. `of` says
 * of what the table is, if a page has several with its caption.
 */
export async function browse(caption, heads, rows, cells, { empty, size = SHOWN, names = null, of = "" } = {}) {
    const place = placeOf(`${caption} ${of}`);
    const holder = h("div", {});
    let drawn = 0;
    const draw = async (pressed) => {
        drawn += 1;
        const mine = drawn;
        const text = place.text.toLowerCase();
        const chosen = text ? rows.filter((row) => names(row).some((name) => name.toLowerCase().includes(text))) : rows;
        place.first = Math.max(0, Math.min(place.first, Math.floor((chosen.length - 1) / size) * size));
        const part = chosen.slice(place.first, place.first + size);
        const found = await cells(part);
        if (mine !== drawn) {
            return; // Another part is wanted meanwhile.
        }
        holder.replaceChildren(table(captionOf(caption, place, part, chosen, rows), heads, found, text ? "None has this text." : empty),
            ...turns(caption, place, chosen.length, size, draw));
        if (pressed) {
            (find(holder, pressed) ?? holder.querySelector(".turns button"))?.focus({ preventScroll: true });
        }
    };
    await draw();
    return [names && (rows.length > size || place.text) ? chooser(caption, place, draw) : null, holder];
}

const find = (holder, text) => [...holder.querySelectorAll(".turns button")].find((one) => one.textContent === text);

/** "Assigned users: 101 to 200 of 1,300" */
function captionOf(caption, { first, text }, part, chosen, rows) {
    const count = (number) => number.toLocaleString("en");
    const range = part.length < chosen.length ? `${count(first + 1)} to ${count(first + part.length)} of ${count(chosen.length)}` : count(chosen.length);
    return `${caption}: ${range}${text ? `, chosen from ${count(rows.length)}` : ""}`;
}

/** Returns the buttons that show other parts, if there are any. */
function turns(caption, place, count, size, draw) {
    const last = Math.floor((count - 1) / size) * size;
    const turn = (text, first, is) => (is ? button(text, `${text}: ${caption}`, () => {
        place.first = first;
        return draw(text);
    }) : null);
    const found = [
        turn("First", 0, place.first > size), turn("Previous", place.first - size, place.first > 0),
        turn("Next", place.first + size, place.first < last), turn("Last", last, place.first < last - size),
    ].filter(Boolean);
    return found.length ? [h("div", { class: "turns" }, found)] : [];
}

/** Returns the field that chooses rows by a text. */
function chooser(caption, place, draw) {
    const input = h("input", { type: "search", autocomplete: "off", spellcheck: "false", value: place.text });
    input.addEventListener("input", () => {
        Object.assign(place, { text: input.value, first: 0 });
        draw().catch((error) => fail(error));
    });
    return h("label", { class: "choose screen" }, h("span", {}, `Find in: ${caption}`), input);
}
