/** The console: who is logged in, and which page is shown. A page is chosen by the fragment of the address. */

import { login, logout, Lost, may, maySome, readTogether, Refused, setReason, who } from "./api.js";
import { isVisit, visit } from "./address.js";
import { forgetPlaces } from "./browse.js";
import { hush, hushOthers, MIXED, say, UNREAD } from "./notice.js";
import { button, fail, field, form, lastPressed, section } from "./parts.js";
import { h, name } from "./text.js";
import { why } from "./words.js";
import { explainAddress, explainPage } from "./explain.js";
import { objectPage, objectsPage } from "./objects.js";
import { overviewPage } from "./overview.js";
import { recordPage } from "./record.js";
import { reportPage, reportsPage } from "./reports.js";
import { rolePage, rolesPage } from "./roles.js";
import { separationPage, setPage } from "./separation.js";
import { forgetReview, isUnsaved, reviewPage } from "./review.js";
import { userPage, usersPage } from "./users.js";
import { whatIfPage } from "./whatif.js";

/** The pages: a segment, a title, what the caller needs, the page of all, and the page of one. */
const PAGES = [
    ["", "Overview", () => true, overviewPage],
    ["users", "Users", () => may("lists"), usersPage, userPage],
    ["roles", "Roles", () => may("lists"), rolesPage, rolePage],
    ["objects", "Objects", () => may("lists"), objectsPage, objectPage],
    ["separation", "Separation of duty", () => may("lists"), separationPage, setPage],
    ["explain", "Explain", () => maySome("decideByUser") || maySome("checkAccess"), explainPage, explainAddress],
    ["what-if", "What if", () => may("whatIf"), whatIfPage],
    ["review", "Review", () => may("lists") && may("review"), reviewPage],
    ["record", "Record", () => may("record"), recordPage],
    ["reports", "Reports", () => may("reports"), reportsPage, reportPage],
];

const COMMANDS = ["addUser", "deleteUser", "lockUserAccount", "unlockUserAccount", "addRole", "deleteRole", "assignUser", "deassignUser",
    "addInheritance", "deleteInheritance", "addPermObj", "deletePermObj", "addPermission", "deletePermission", "grantPermission",
    "revokePermission", "createSsdSet", "createDsdSet", "deleteSession"];

const main = () => document.getElementById("main");
const scroller = () => document.getElementById("page");
let isIn = false;
// How far each page was scrolled, by its address, and the address of the one that is shown.
const scrolled = new Map();
let address = "";
// Counts what is shown: a page that was asked for earlier isn't shown any more.
let shown = 0;
// The first page leaves the focus where the browser has it, so that the tab key begins at the top.
let isFirst = true;

/** Returns the segments of the address, and what stands behind its question mark. */
function addressOf(hash) {
    const [path, query = ""] = hash.replace(/^#\/?/, "").split(/\?(.*)/s);
    try {
        return { segments: path.split("/").map(decodeURIComponent), query: Object.fromEntries(new URLSearchParams(query)) };
    } catch {
        return { segments: ["?"], query: {} };
    }
}

function showPages() {
    const links = PAGES.filter(([, , isShown]) => isShown()).map(([segment, title]) => h("li", {}, h("a", { href: `#/${segment}` }, title)));
    document.getElementById("pages").replaceChildren(h("ul", {}, links));
}

/** Marks the link to the page that is shown. The links are made once, since new ones would have to be laid out. */
function markPage(current) {
    for (const link of document.querySelectorAll("#pages a")) {
        const isCurrent = link.getAttribute("href") === `#/${current}`;
        if (isCurrent) {
            link.setAttribute("aria-current", "page");
        } else {
            link.removeAttribute("aria-current");
        }
    }
}

function title(text) {
    document.title = `${text} – Office console`;
}

// How often in a row a page is read again since the policy has changed.
const MOST_TIMES = 5;

/**
 * Shows the page of the address. Its heading gets the focus, unless the page is only shown anew: then the control has it that was
 * pressed last, or the one in its place. What is typed in the form with that control is kept only if it `isKept`. `times` counts how often
 * the page was read.
 */
async function show(isAnew = false, isKept = true, times = 1) {
    if (!isIn) {
        return showLogin();
    }
    shown += 1;
    const mine = shown;
    const { segments, query } = addressOf(location.hash);
    const page = PAGES.find(([segment, , isShown]) => segment === segments[0] && isShown());
    scrolled.set(address, scroller().scrollTop);
    address = location.hash;
    if (!isAnew && isVisit()) {
        scrolled.delete(address);
        forgetPlaces(address);
    }
    // A link that is marked before the page is there would be drawn by itself.
    const marking = setTimeout(() => markPage(page?.[0]), 100);
    let nodes, reading;
    try {
        [nodes, reading] = await readTogether((each) => nodesOf(page, segments, query, each));
    } catch (error) {
        nodes = [h("h1", {}, page?.[1] ?? "No such page"), await troubleOf(error)];
    }
    clearTimeout(marking);
    if (mine !== shown) {
        return;
    }
    markPage(page?.[0]);
    const place = isAnew ? scroller().scrollTop : scrolled.get(address) ?? 0;
    const isSame = isAnew && main().dataset.address === address;
    const again = isSame ? controlAgain(times > 1 ? document.activeElement : lastPressed()) : () => null;
    const keepAgain = isSame ? keep(isKept ? null : lastPressed()?.closest("form")) : () => {};
    main().replaceChildren(...nodes.flat(Infinity).filter(Boolean));
    main().dataset.address = address;
    keepAgain();
    keepTogether(reading, mine, times);
    const heading = main().querySelector("h1");
    title([...heading.childNodes].filter((one) => one.className !== "mark no").map((one) => one.textContent).join("").trim());
    scroller().scrollTop = place;
    moveFocus(heading, () => mine === shown && again());
}

/** Moves the focus to the heading, and then to the control that is found again, if there is one. */
function moveFocus(heading, again) {
    heading.tabIndex = -1;
    if (isFirst) {
        scroller().focus({ preventScroll: true }); // So that the keys scroll, and the tab key begins at the top.
        isFirst = false;
        return;
    }
    heading.focus({ preventScroll: true });
    setTimeout(() => (again() || null)?.focus({ preventScroll: true })); // Parts that are known are there by then.
}

/** Has the page shown again if a part of it comes later and is of another revision of the policy; too often, and the page says so. */
function keepTogether(reading, mine, times) {
    const warn = () => main().querySelector("#mixed") ?? main().querySelector("h1").after(h("p", { id: "mixed", class: "warning" }, MIXED));
    if (reading?.isMixed) {
        warn();
    } else if (reading) {
        reading.onMixed = async () => {
            if (mine === shown && times === MOST_TIMES) {
                return warn();
            }
            if (mine === shown) {
                await show(true, true, times + 1);
            }
            return new Promise(() => {}); // What waits for the answer is replaced.
        };
    }
}

/** Returns a function that types again what is typed in the forms of the page, but for one, and opens what is open. */
function keep(except) {
    const fields = () => [...main().querySelectorAll("form[aria-label] [data-key]:not([type=file], [type=checkbox], [type=radio])")];
    const parts = () => [...main().querySelectorAll("section > details")];
    const keyOf = (one) => `${one.form.getAttribute("aria-label")}\t${one.dataset.key}`;
    const titleOf = (one) => one.parentElement.querySelector("h2").textContent;
    const isTyped = (one) => one.form !== except && one.value !== one.defaultValue;
    const typed = new Map(fields().filter(isTyped).map((one) => [keyOf(one), one.value]));
    const open = parts().filter((one) => one.open).map(titleOf);
    return () => {
        fields().filter((one) => typed.has(keyOf(one))).forEach((one) => {
            one.value = typed.get(keyOf(one));
            one.dispatchEvent(new Event("change"));
        });
        parts().filter((one) => open.includes(titleOf(one))).forEach((one) => { one.open = true; });
    };
}

/** Returns a function that finds a control on the page that is made anew: in the section with its title, one like it at its place. */
function controlAgain(control) {
    const sectionOf = (text) => [...main().querySelectorAll("section, .actions")].find((one) => titleOf(one) === text);
    const titleOf = (one) => one.querySelector("h2")?.textContent ?? one.className;
    const kindOf = (one) => [one.tagName, one.dataset.key ?? one.textContent, one.closest("form")?.getAttribute("aria-label")].join("\t");
    const section = control?.closest("section, .actions");
    if (!section || !main().contains(section)) {
        return () => null;
    }
    const all = "button, input, select, textarea, summary";
    const like = (within) => [...within.querySelectorAll(all)].filter((one) => kindOf(one) === kindOf(control));
    const [text, place] = [titleOf(section), like(section).indexOf(control)];
    return () => {
        const found = like(sectionOf(text) ?? h("p"));
        return found[Math.min(Math.max(place, 0), found.length - 1)];
    };
}

async function nodesOf(page, segments, query, reading) {
    if (!page || (segments.length > 1 && !page[4])) {
        return [h("h1", {}, "No such page"), h("p", {}, "There is no such page, or you have no right to it.")];
    }
    const context = { query, reading, anew: (isKept = false) => show(true, isKept) };
    return segments.length > 1 ? page[4](segments.slice(1), context) : page[3](context);
}

async function troubleOf(error) {
    if (error instanceof Lost) {
        return h("p", { class: "warning" }, UNREAD, " ", h("button", { type: "button", onclick: () => show() }, "Try again"));
    }
    if (error instanceof Refused) {
        return h("p", { class: "warning" }, await why({}, error));
    }
    throw error;
}

/** Shows who is logged in, and a field for the reason of changes. */
function showWho() {
    const caller = who();
    const parts = [];
    if (COMMANDS.some(maySome)) {
        const reason = h("input", { id: "reason", autocomplete: "off", maxlength: "256", placeholder: "kept in the record" });
        reason.addEventListener("input", () => reason.setAttribute("aria-invalid", String(!setReason(reason.value))));
        parts.push(h("label", { for: "reason", class: "check" }, "Reason ", reason));
    }
    parts.push(h("span", {}, caller.open ? "open to everybody" : name(caller.caller)), button("Refresh", "Refresh the page", () => show(true)));
    if (!caller.open) {
        parts.push(h("button", { type: "button", class: "plain", onclick: () => (isUnsaved() ? askToLeave() : leave()) }, "Log out"));
    }
    document.getElementById("who").replaceChildren(...parts);
}

function askToLeave() {
    say("unsure", ["The review isn't saved: its decisions and notes would be lost. ",
        h("button", { type: "button", class: "plain", onclick: leave }, "Log out all the same")]);
}

function leave() {
    logout();
    forgetReview();
    forgetPlaces();
    scrolled.clear();
    isIn = false;
    setReason("");
    hush();
    showLogin();
}

/** Shows the form for a token. Neither the field nor the form has a name, so that no browser sends or keeps it. */
function showLogin() {
    shown += 1;
    isFirst = false;
    title("Log in");
    document.getElementById("pages").replaceChildren();
    document.getElementById("who").replaceChildren();
    const token = field("Token", "token", { type: "password", required: true });
    const enter = form("Log in", [token], "Log in", async (values) => {
        try {
            await begin(values.token.trim());
        } catch (error) {
            if (error instanceof Refused && error.status === 401) {
                return say("refused", ["The front doesn't know this token."]);
            }
            return fail(error);
        }
    });
    main().replaceChildren(h("h1", { tabindex: "-1" }, "Log in"), section("Who are you?",
        h("p", {}, "Type the token that you got for the office. This page keeps it until you close or reload it, and nowhere else."), enter));
    token.querySelector("input").focus();
}

async function begin(token) {
    await login(token);
    isIn = true;
    hush();
    showWho();
    showPages();
    await show();
}

document.getElementById("skip").addEventListener("click", (event) => {
    event.preventDefault(); // The fragment chooses the page.
    main().querySelector("h1").focus();
});
window.addEventListener("hashchange", () => {
    hushOthers();
    if (isIn) {
        show();
    }
});
document.addEventListener("click", (event) => {
    const link = event.target.closest("a[href^='#/']");
    const isPlain = event.button === 0 && !event.ctrlKey && !event.metaKey && !event.shiftKey && !event.altKey;
    if (link && isPlain) {
        event.preventDefault();
        hush();
        visit(link.hash);
    }
});
document.addEventListener("keydown", (event) => {
    if (event.key === "Escape") {
        hush();
    }
});
window.addEventListener("beforeunload", (event) => {
    if (isUnsaved()) {
        event.preventDefault(); // The browser asks whether the page may be left.
    }
});

// Without a token the front may know its user by a certificate, or may be open.
begin("").catch((error) => {
    if (error instanceof Lost) {
        main().replaceChildren(h("h1", {}, "No answer"), h("p", { class: "warning" }, "The front doesn't answer. ",
            h("button", { type: "button", onclick: () => location.reload() }, "Try again")));
    } else {
        showLogin();
    }
});
