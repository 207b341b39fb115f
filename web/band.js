// The heading that records go under, large and never out of sight, and the groups to choose from.
import { button, byId, el, gases } from "./dom.js";
import { groupNow, settle } from "./change.js";
import { table } from "./judge.js";
import { draw, now } from "./state.js";

const STRIP = 6; // more groups than these are a list

function words() {
    if (now.read.rows.length === 0) {
        return ["No book yet", ["Begin with the farm, or open a book or a text. All is kept on this device at once; "
            + "in a private window until that is closed."]];
    }
    if (now.mode === "heading") {
        return ["New group, not begun yet", [now.draft.begun === null ? "No record goes in before the heading is added."
            : "The heading was refused. Mend it, or Undo gives it up. No record goes in before that."]];
    }
    const group = groupNow();
    if (!group) {
        return ["No group yet", ["Begin a group: its number, what animals it has, and how many."]];
    }
    return [`Group ${group.number}, ${group.class}, ${group.head} head`, null];
}

// What the group has so far, in the writer's words.
function soFar() {
    const said = now.read.said.groups.findLast(({ number }) => number === now.chosen);
    if (!said) {
        return [];
    }
    const days = said.days.length === 0 ? [el("span", {}, "no days")]
        : said.days.map(({ kind, words: text }) => el("span", { class: kind === now.kind ? "now" : "" }, text));
    return [...days, ...said.gives.map((text) => el("span", { class: "gas" }, gases(text)))];
}

// The next record is one of the group's, so of a kind that it has.
export function choose(number) {
    const kind = table.places.own.includes(now.kind) ? "" : now.kind;
    Object.assign(now, { chosen: number, kind, mode: "record", correcting: null, fresh: null, look: "here" });
    settle();
    draw();
}

function begin() {
    Object.assign(now, { mode: "heading", correcting: null, form: 0 });
    draw();
    byId("field-0")?.focus();
}

function groupChoice(groups, waits) {
    if (groups.length > STRIP) {
        const options = groups.map(({ number, class: word }) => el("option", { value: number, selected: number === now.chosen },
            `${number} ${word}`));
        return [el("select", { "aria-label": "Group to enter under", disabled: waits, onchange: (event) => choose(event.target.value) }, options)];
    }
    return groups.map(({ number, class: word }) => button([number, " ", el("br"), word], () => choose(number),
        { "aria-pressed": String(number === now.chosen && now.mode !== "heading"), disabled: waits, "aria-label": `Group ${number}, ${word}` }));
}

export function drawBand() {
    const [title, lines] = words();
    const waits = now.draft.begun !== null;
    byId("band").classList.toggle("begin", lines !== null);
    byId("heading").textContent = title;
    byId("sofar").replaceChildren(...(lines ?? soFar()));
    const { groups } = now.read;
    const free = now.mine && !now.read.closed && now.read.rows.length > 0;
    byId("groups").replaceChildren(...groupChoice(groups, waits),
        ...(free ? [button(["New ", el("br"), "group"], begin, { "aria-label": "New group", "aria-pressed": String(now.mode === "heading") })] : []));
}
