/** Elements of pages. Whatever comes from an office becomes text, never markup. */

/** Returns an element with attributes and children. Functions at names with `on` are listeners; null children are left out. */
export function h(tag, attributes, ...children) {
    const element = document.createElement(tag);
    for (const [key, value] of Object.entries(attributes ?? {})) {
        if (typeof value === "function") {
            element.addEventListener(key.slice(2), value);
        } else if (value === true) {
            element.setAttribute(key, "");
        } else if (value !== false && value !== null && value !== undefined) {
            element.setAttribute(key, String(value));
        }
    }
    element.append(...children.flat(Infinity).filter((child) => child !== null && child !== undefined && child !== false));
    return element;
}

// What can't be seen, or changes how its neighbours are shown: controls, formats, line ends, spaces other than the usual one,
// variation selectors, and letters without a shape.
const HIDDEN = /[\p{Cc}\p{Cf}\p{Cn}\p{Co}\p{Cs}\p{Zl}\p{Zp}\u00a0\u1680\u2000-\u200a\u202f\u205f\u3000\u034f\u115f\u1160\u17b4\u17b5\u180b-\u180f\u2800\u3164\uffa0\ufe00-\ufe0f\u{e0100}-\u{e01ef}]/u;

function codeOf(letter) {
    return `U+${letter.codePointAt(0).toString(16).toUpperCase().padStart(4, "0")}`;
}

// Most names have nothing that can't be seen.
const USUAL = /^[!-~]+( [!-~]+)*$/;

/** Returns the parts of a name: texts, and codes in place of what can't be seen, also of spaces at its ends. */
function partsOf(text) {
    if (USUAL.test(text)) {
        return [{ text }];
    }
    const letters = [...text];
    const parts = [];
    letters.forEach((letter, i) => {
        const isEnd = i === 0 || i === letters.length - 1 || letters[i - 1] === " ";
        if (HIDDEN.test(letter) || (letter === " " && isEnd)) {
            parts.push({ code: codeOf(letter) });
        } else if (parts.length > 0 && parts.at(-1).text !== undefined) {
            parts.at(-1).text += letter;
        } else {
            parts.push({ text: letter });
        }
    });
    return parts;
}

// A word that is broken rather than making a table wider than the page.
const LONG = /\S{25}/;

/** Returns a name, isolated from the direction of the text around it. */
export function name(text) {
    return h("bdi", { class: LONG.test(text) ? "long" : null }, partsOf(text).map((part) => part.text ?? h("span", { class: "code" }, part.code)));
}

/** Returns a name for a cell or a link: as a text if it has nothing that would need isolation, since pages have many of them. */
export function brief(text) {
    return (USUAL.test(text) && !LONG.test(text)) || text === "" ? text : name(text);
}

/** Returns a name as a text, for titles and labels. */
export function plain(text) {
    return partsOf(text).map((part) => part.text ?? `[${part.code}]`).join("");
}

/** Returns a value as JSON in which each character that can't be seen is written as a code. */
export function json(value) {
    const units = (letter) => [...letter.split("")].map((unit) => `\\u${unit.charCodeAt(0).toString(16).padStart(4, "0")}`).join("");
    return JSON.stringify(value).replace(new RegExp(HIDDEN.source, "gu"), units);
}

/** Returns a link to a page by its segments. */
export function link(segments, child) {
    return h("a", { href: hashOf(segments) }, child);
}

export function hashOf(segments) {
    return `#/${segments.map(encodeURIComponent).join("/")}`;
}

export const user = (text) => link(["users", text], brief(text));
export const role = (text) => link(["roles", text], brief(text));
export const object = (text) => link(["objects", text], brief(text));
export const set = (kind, text) => link(["separation", kind, text], brief(text));

/** Returns nodes with commas between them, and `last` before the last one. */
export function listed(nodes, last = "and") {
    return nodes.flatMap((node, i) => {
        if (i === 0) {
            return [node];
        }
        return [i < nodes.length - 1 ? ", " : ` ${last} `, node];
    });
}

/** Returns `listed` of the first few names, and how many more there are. */
export function some(names, show, last = "and", most = 5) {
    const left = names.length - most;
    return left > 1 ? [names.slice(0, most).map((one) => [show(one), ", "]), `${last} ${left.toLocaleString("en")} more`] : listed(names.map(show), last);
}

/** Returns a number with a noun: "1 user", "1,000 users". */
export function counted(number, noun) {
    return `${number.toLocaleString("en")} ${noun}${number === 1 ? "" : "s"}`;
}

/** Returns how many there may be, as a word if it is one: "one", "2". */
export function few(number) {
    return number === 1 ? "one" : String(number);
}

/** Returns a time of the record or of a list, in UTC. */
export function time(text) {
    return h("time", { datetime: text }, text.replace("T", " ").replace(/\.\d+Z$/, ""));
}
