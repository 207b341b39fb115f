// The records of the book by group. A part that would be drawn as it stands already is left as it is: a full book has hundreds of groups, and a
// change touches one.
import { button, byId, el, gases } from "./dom.js";
import { COLUMNS, FIGURES, hasFigures } from "./figures.js";
import { table } from "./judge.js";
import { failedRows, failedWords, isFrozen, recordRow, togetherRow, unusualNow } from "./rows.js";
import { draw, now } from "./state.js";

const ALL = 400; // so many records are all drawn; of a larger book a part of each group
const SOME = 60;

const unfolded = new Map(); // groups that were opened or shut by hand
const windowFrom = new Map(); // of a large group, the first record that is drawn
let drawn = new Map(); // each part of the list by its key: its body, the words that it was drawn of, and its rows by theirs

// Of a large group the part is drawn in which the last change stands, or its end, or what was asked for.
function windowed(rows, key, large) {
    if (!large || rows.length <= SOME) {
        return { first: 0, rows };
    }
    const mark = rows.findIndex((row) => row.record === now.fresh || row.record === now.correcting?.record);
    const wanted = windowFrom.get(key) ?? (mark < 0 ? rows.length - SOME : mark - SOME / 2);
    const first = Math.max(0, Math.min(wanted, rows.length - SOME));
    return { first, rows: rows.slice(first, first + SOME), earlier: rows[Math.max(0, first - SOME)], later: rows[first + SOME] };
}

const moreRow = (words, key, first) => el("tr", { class: "row" }, el("td"), el("td"),
    el("td", {}, button(words, () => { windowFrom.set(key, first); draw(); })), el("td"));

// What a row is drawn of: two rows of the same words look the same.
function wordsOfRow(row) {
    const mark = `${now.fresh === row.record}${now.correcting?.record === row.record}${isFrozen(row)}`;
    return `${row.line} ${mark} ${unusualNow().get(row.record)?.join() ?? ""}`;
}

// The part with this key: left as it is where it was drawn of the same words; else its rows that were drawn of the same words stay, others are made.
function part(parts, key, words, children) {
    const before = drawn.get(key);
    if (before?.words === words) {
        parts.set(key, before);
        return;
    }
    const rows = new Map();
    const once = (said, make) => {
        rows.set(said, before?.rows.get(said) ?? marked(make()));
        return rows.get(said);
    };
    const body = before?.body ?? el("tbody", { role: "rowgroup" });
    arranged(body, children(once));
    parts.set(key, { body, words, rows });
}

function numbersOf(rows) {
    return rows.length === 1 ? `record ${rows[0].record}` : `records ${rows[0].record} to ${rows.at(-1).record}`;
}

const rowOnce = (once) => (row) => once(wordsOfRow(row), () => recordRow(row));

function headRow(key, title, here, open, note) {
    const toggle = () => { unfolded.set(key, !open); draw(); };
    return el("tr", { class: `group${here ? " here" : ""}` }, el("th", { colspan: "4", scope: "rowgroup" },
        button([el("span", {}, title), el("small", {}, here ? "you enter here" : note)], toggle, { "aria-expanded": String(open) })));
}

// The rows between a group's head and its sum, with buttons for those of a large group that are not drawn.
function bodyRows(once, key, shown) {
    const rows = shown.rows.map(rowOnce(once));
    const more = (words, first) => once(`${words} ${first}`, () => moreRow(words, key, first));
    return [...(shown.first > 0 ? [more(`Show earlier ones, from record ${shown.earlier.record}`, shown.first - SOME)] : []), ...rows,
        ...(shown.later ? [more(`Show later ones, from record ${shown.later.record}`, shown.first + SOME)] : [])];
}

function section(parts, key, title, rows, large) {
    const here = key === now.chosen && now.mode !== "heading" && !now.read.closed;
    const open = unfolded.get(key) ?? (here || key === "" || (now.fresh !== null && rows.some((row) => row.record === now.fresh)));
    const shown = open || !large ? windowed(rows, key, large) : { first: 0, rows: [] };
    const sum = open ? now.read.together.get(key) : undefined;
    const head = [title, here, open, numbersOf(rows)].join("\n");
    part(parts, `group ${key}`, [head, shown.first, sum?.line, ...shown.rows.map(wordsOfRow)].join("\n"), (once) => {
        const body = bodyRows(once, key, shown);
        for (const row of body) {
            row.hidden = !open;
        }
        return [once(head, () => headRow(key, title, here, open, numbersOf(rows))), ...body,
            ...(sum && hasFigures(sum) ? [once(sum.line, () => togetherRow(sum))] : [])];
    });
}

function columnHeads() {
    const names = FIGURES.filter(([name]) => name !== "co2e").map(([name], at) => el("span", { class: `f${at}` }, gases(COLUMNS[name])));
    return el("thead", { role: "rowgroup" }, marked(el("tr", { class: "row cols" }, el("td"), el("td", {}, "record"),
        el("td", {}, "values; figures in kg"), el("td", { class: "f" }, names))));
}

// The parts of the list in their order: lines that are not in, the farm record, the groups, the farm's own records, the close.
function partsNow() {
    const { rows, groups, loose } = now.read;
    const large = rows.length > ALL;
    const parts = new Map();
    const plain = (key, some) => part(parts, key, some.map(wordsOfRow).join("\n"), (once) => some.map(rowOnce(once)));
    part(parts, "failed", failedWords(), (once) => failedRows().map((row, at) => once(at, () => row)));
    plain("begin", loose.filter((row) => row.name === table.places.begin));
    for (const { number, class: word, head, rows: own } of groups) {
        section(parts, number, `Group ${number}, ${word}, ${head} head`, own, large);
    }
    const own = loose.filter((row) => table.places.own.includes(row.name));
    if (own.length > 0) {
        section(parts, "", "The farm as a whole", own, large);
    }
    plain("close", loose.filter((row) => row.name === table.places.close));
    return parts;
}

// Puts the elements in their order; one that stands in its place is not moved.
function arranged(list, elements) {
    const wanted = new Set(elements);
    for (const child of [...list.children]) {
        if (!wanted.has(child)) {
            child.remove();
        }
    }
    elements.forEach((element, at) => {
        if (list.children[at] !== element) {
            list.insertBefore(element, list.children[at] ?? null);
        }
    });
}

export function drawList() {
    const list = byId("records");
    const large = now.read.rows.length > ALL;
    drawn = partsNow();
    arranged(list, [list.tHead ?? columnHeads(), ...[...drawn.values()].map(({ body }) => body)]);
    large ? list.setAttribute("aria-rowcount", now.read.count) : list.removeAttribute("aria-rowcount");
}

// What was changed or chosen comes into sight: after all is drawn, so that it is laid out once.
export function lookAt() {
    const wanted = { failed: ".group.bad", here: "[aria-current], .fresh, .here" }[now.look] ?? "[aria-current], .fresh";
    byId("records").querySelector(wanted)?.scrollIntoView({ block: now.look === "failed" ? "center" : "nearest" });
    now.look = "";
}

// Rows are laid out as a grid: what is a row and a cell is said again for a screen reader.
function marked(row) {
    row.setAttribute("role", "row");
    for (const cell of row.cells) {
        cell.setAttribute("role", cell.tagName === "TH" ? "rowheader" : "cell");
    }
    return row;
}
