// The form of the Book view: what may be entered now, judged at each key, and entered.
import { button, byId, el, gases, icon } from "./dom.js";
import { added, corrected, fits, groupNow, heldBack, kindsNow, placeNow, removed, tried, undo } from "./change.js";
import { effectOf } from "./effect.js";
import { evaluate, refusedShort, rowOf } from "./evaluate.js";
import { fieldRow, hintOf, sayAt, valueAt } from "./fields.js";
import { figuresOf, printFigures } from "./figures.js";
import { undoes } from "./draft.js";
import { table } from "./judge.js";
import { aidsFor } from "./offers.js";
import { draw, fieldsNow, now } from "./state.js";
import { reworded, wordsOf } from "./typed.js";

const DENSE = 5; // more fields than these stand three in a row

const modes = {
    farm: () => ({ title: "A new book", form: table.kinds.get(table.places.begin).forms[now.form], todo: () => "Begin the book" }),
    heading: () => ({ title: "The heading of a new group", form: table.kinds.get(table.places.heading).forms[0],
        todo: (values) => `Begin group ${values[0] ?? ""}`.trim() }),
    record: () => ({ title: "", form: table.kinds.get(now.kind).forms[0],
        todo: () => `Add ${now.kind} to ${table.places.own.includes(now.kind) ? "the farm" : `group ${now.chosen}`}` }),
    correct: () => ({ title: `Correct record ${now.correcting.record}, ${now.correcting.kind}`, form: now.correcting.form,
        todo: () => `Correct record ${now.correcting.record}` }),
};

const current = () => modes[now.mode]();

// The place of what is entered, and how many lines it takes the place of.
function placed(line) {
    return now.mode === "correct" ? { at: now.correcting.at, count: 1 } : { at: placeNow(line), count: 0 };
}

let judgedLast = { read: null }; // Enter asks what the last key has asked already

function judgeNow() {
    const { form } = current();
    const values = form.fields.map((field, at) => valueAt(at));
    fieldsNow().splice(0, Infinity, ...values);
    const probe = [form.name, ...values].join(" ");
    const asked = [now.mode, now.correcting?.at, now.chosen, form.row, ...values].join("\n");
    if (judgedLast.read !== now.read || judgedLast.asked !== asked) {
        judgedLast = { read: now.read, asked, judged: judgedOf(form, values, placed(probe)) };
    }
    return judgedLast.judged;
}

function judgedOf(form, values, { at, count }) {
    const trial = (line) => tried(at, count, count ? reworded(now.draft.lines[at], line) : line);
    if (values.every((value) => !value)) {
        return { form, values, at, count, trial, complete: false, accepted: false, remarks: new Map(), onLine: [], others: [], line: form.name };
    }
    const judged = evaluate({ form, values, trial, at, fits: (after) => fits(after, count) });
    return { form, values, at, count, trial, ...judged, row: judged.accepted ? rowOf(judged.result, trial(judged.line), at) : null };
}

export const lastOf = (kind) => now.read.rows.findLast((row) => row.name === kind && (table.places.own.includes(kind) || row.group === now.chosen));

function kindButtons() {
    return el("div", { class: "kinds", role: "group", "aria-label": "Kind of the next record" }, kindsNow().map((kind) =>
        button(kind, () => { now.kind = kind; now.mode = "record"; draw(); focusFirst(); },
            { "aria-pressed": String(kind === now.kind), class: table.places.own.includes(kind) ? "own" : "" })));
}

export function drawForm() {
    const { title, form, todo } = current();
    const values = fieldsNow();
    const dense = form.fields.length > DENSE;
    const last = now.mode === "record" ? lastOf(now.kind) : null;
    const lastWords = last ? wordsOf(last.typed).slice(1) : [];
    const rows = form.fields.map((field, at) => fieldRow(field, at, { value: values[at] ?? "", dense,
        hint: hintOf(field, groupNow()?.class, lastWords[at]) }));
    const undoing = undoes(now.draft);
    byId("form").replaceChildren(
        el("div", { class: "scroll" }, title ? el("h2", {}, title) : kindButtons(), el("div", { class: dense ? "three" : "" }, rows),
            el("div", { id: "effect" }), el("div", { class: "aid" }, aidsFor(form, last, { removed, refill }))),
        el("div", { class: "gives" }, el("div", { id: "remarks", "aria-live": "polite" }),
            el("div", { class: "buttons" },
                el("button", { type: "button", id: "undo", onclick: undo, disabled: undoing === null },
                    icon("undo"), " Undo", el("small", {}, undoing ?? "nothing yet")),
                el("button", { class: "main", id: "todo" }, todo(values))),
            el("div", { class: "keys" }, "Tab: next field. Enter: add. Esc: leave a correction. Ctrl+Z: undo.")));
    drawJudged();
}

// Fields filled by a table or by a record before; all of them can be changed.
export function refill(words) {
    fieldsNow().splice(0, Infinity, ...words);
    draw();
}

export function focusFirst() {
    byId("field-0")?.focus();
}

function remarkLine(words, wrong) {
    return el("p", { class: wrong ? "bad" : "unusual" }, icon(wrong ? "no" : "odd"), " ", gases(words));
}

export function showJudged() {
    const judged = drawJudged();
    printFigures();
    return judged;
}

function drawJudged() {
    const judged = judgeNow();
    judged.form.fields.forEach((field, at) => sayAt(at, judged.remarks.get(at)));
    const all = [...judged.remarks.values()];
    const held = now.mode === "heading" && now.draft.begun !== null && !judged.complete ? heldWords() : [];
    const bad = [...all.filter((remark) => remark.wrong).map((remark) => remark.words), ...judged.onLine, ...othersFor(judged), ...held];
    const lines = [...bad.map((words) => remarkLine(words, true)), ...all.filter((remark) => !remark.wrong)
        .map((remark) => remarkLine(remark.words, false))];
    byId("remarks").replaceChildren(...lines, ...(bad.length === 0 ? [givesLine(judged)] : []));
    byId("todo").textContent = current().todo(judged.values);
    byId("effect").replaceChildren(...(now.mode === "correct" && judged.accepted ? effectOf(judged.result.book) : []));
    return judged;
}

// Other lines that would fail for this record. Of a text that has failed lines already, which of them are new is not said.
function othersFor({ accepted, complete, onLine, remarks, others }) {
    if (accepted || !complete || onLine.length > 0 || [...remarks.values()].some((remark) => remark.wrong)) {
        return [];
    }
    return now.read.failed === 0 && others.length > 0 ? others : ["other lines of the text would fail"];
}

// Of a heading that was typed as a line and refused, the form may not hold every word: the writer's words on that line stand.
function heldWords() {
    const line = now.draft.begun;
    const at = placeNow(line);
    return [refusedShort({ trial: (each) => tried(at, 0, each), at, line })].filter(Boolean);
}

// What the record gives, as records reads it in a book that nobody keeps.
function givesLine(judged) {
    if (!judged.accepted) {
        return el("p", { class: "soft" }, now.mode === "heading" ? "Groups stand in the order of their numbers."
            : "What the record gives is shown here.");
    }
    const figures = figuresOf(judged.row);
    return figures.length === 0 ? el("p", { class: "soft" }, "All values are right.")
        : el("p", { class: "given" }, el("span", {}, "It gives"), el("b", {},
            figures.map(({ label, kg }) => el("span", {}, gases(`${label} `), kg, " kg "))));
}

// Enter: the record goes in where the writer takes it; else its words stand beside the field, and nothing is entered. A heading that is refused
// waits in the draft.
export async function submit() {
    const judged = showJudged();
    if (!judged.accepted) {
        if (now.mode === "heading" && judged.values.some(Boolean)) {
            const kept = judged.values;
            await heldBack(judged.line);
            refill(kept);
        }
        if (!judged.complete) {
            byId("remarks").replaceChildren(remarkLine(refusedShort(judged), true));
        }
        (byId("form").querySelector(".wrong input") ?? byId(`field-${Math.max(0, judged.values.findIndex((value) => !value))}`)).focus();
        return;
    }
    fieldsNow().splice(0, Infinity);
    await entered(judged, judged.row?.record ?? null);
    focusFirst();
}

function entered(judged, record) {
    const { at, line } = judged;
    if (now.mode === "correct") {
        return corrected(at, reworded(now.draft.lines[at], line), `record ${now.correcting.record} corrected`, { mode: "record", fresh: record });
    }
    const chosen = now.mode === "heading" ? { chosen: judged.row?.group ?? null, kind: "" } : {};
    return added(at, line, `record ${record} added`, { mode: "record", fresh: record, ...chosen });
}
