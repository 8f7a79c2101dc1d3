/** The overview: whether the office answers, its room, what was changed last, and a picture of the whole. */

import { health, may, record, room, who } from "./api.js";
import { awhile, drawn, early, later, number, section, table } from "./parts.js";
import { h } from "./text.js";
import { entriesTable } from "./record.js";

/** The kinds of what is counted, in words. */
export const KINDS = {
    user: "Users", role: "Roles", object: "Objects", permission: "Permissions", grant: "Grants", assignment: "Assignments",
    edge: "Inheritances", ssdSet: "Static sets", dsdSet: "Dynamic sets", member: "Members of the largest set", session: "Sessions",
    activeRole: "Activated roles of one session, at most",
};

// How many roles a picture of the whole has at most, and from which part on a limit is near.
const MOST_DRAWN = 150;
const NEAR = 0.9;

export async function overviewPage() {
    const mayList = may("lists");
    const recording = may("record") ? early(record({ limit: 8 })) : null;
    const [condition, rooms] = await Promise.all([health(), mayList ? room() : [], awhile([recording])]);
    const nodes = [h("h1", {}, "Overview"), conditionSection(condition)];
    const columns = [];
    if (mayList) {
        columns.push(roomSection(rooms));
    }
    if (recording) {
        columns.push(later("Last changes", async () => {
            const { entries } = await recording;
            return [entriesTable("The last commands, the newest first", entries, true), h("p", {}, h("a", { href: "#/record" }, "The whole record"))];
        }));
    }
    nodes.push(h("div", { class: "columns" }, columns));
    if (mayList && rooms.find((one) => one.kind === "role").count <= MOST_DRAWN) {
        nodes.push(section("Roles and separation of duty",
            h("p", { class: "quiet" }, "An arrow leads from a role to one that it inherits from, a dashed line from a set to a member."),
            drawn({}, "All roles with their inheritances, and all separation of duty sets with their members; the pages Roles and Separation of duty have the same as lists.")));
    }
    if (!mayList) {
        nodes.push(section("Your rights", h("p", {}, "You have no right to the lists of this office, so there is little to show here.")));
    }
    return nodes;
}

function conditionSection(condition) {
    const lines = [];
    if (condition.ready) {
        lines.push(h("p", { class: "yes" }, "The office answers."));
    } else {
        lines.push(h("p", { class: "warning" }, `The office doesn't answer: ${condition.why ?? "unknown"}.`));
    }
    if (condition.record) {
        lines.push(h("p", { class: "warning" }, `The record can't be written, so commands are refused: ${condition.record}.`));
    }
    if (who().open) {
        lines.push(h("p", { class: "warning" }, "The front is open: everybody who can connect may do everything, and the record names nobody."));
    }
    return section("Condition", lines);
}

function roomSection(rooms) {
    const rows = rooms.map(({ kind, count, limit }) => [
        KINDS[kind] ?? kind, number(count), number(limit), number(limit - count),
        h("meter", { min: 0, max: limit, high: limit * NEAR, optimum: 0, value: count, "aria-label": `${KINDS[kind]}: ${count} of ${limit}` }),
    ]);
    const right = (child) => ({ class: "number", child });
    return section("Room", table("How many there are, and how many there may be", ["Kind", right("There are"), right("At most"), right("Left"), "Used"], rows));
}
