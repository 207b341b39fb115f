// A row of the list: one record as the proved program records reads it back, a line of the text that is not in the book, what a group has together.
import { button, byId, el, icon } from "./dom.js";
import { figureCells, formOf, valuesOf } from "./figures.js";
import { table } from "./judge.js";
import { draw, now } from "./state.js";
import { wordsOf } from "./typed.js";

// A record is corrected where it stands: its line is found, its values are put into the form.
export function correct(row) {
    const at = now.read.lineOf(Number(row.record));
    const words = wordsOf(row.typed).slice(1);
    now.mode = "correct";
    now.correcting = { record: row.record, at, kind: row.name, form: formOf(row.name, words) };
    if (row.group !== "" && row.group !== now.chosen) {
        now.chosen = row.group;
    }
    now.typed.set(`correct ${at}`, words);
    draw();
    byId("field-0")?.focus();
}

let noted = { read: null, words: new Map() };

// The unusual values of each record, by its number: asked for once a reading.
export function unusualNow() {
    if (noted.read !== now.read) {
        noted = { read: now.read, words: new Map() };
        for (const { from, words } of now.read.said.unusual) {
            const record = now.read.recordAt(from);
            noted.words.set(record, [...(noted.words.get(record) ?? []), words]);
        }
    }
    return noted.words;
}

export const isFrozen = (row) => row.name === table.places.close || now.read.closed || !now.mine;

export function recordRow(row) {
    const here = now.correcting?.record === row.record;
    const frozen = isFrozen(row);
    const number = frozen ? row.record : button(row.record, (event) => { event.stopPropagation(); correct(row); },
        { "aria-label": `Record ${row.record}, ${row.name}` });
    const odd = (unusualNow().get(row.record) ?? []).map((words) => el("small", { class: "odd-note" }, icon("odd"), ` ${words}`));
    return el("tr", {
        class: `row ${row.name}${now.fresh === row.record ? " fresh" : ""}${frozen ? "" : " free"}`, "data-record": row.record,
        "data-typed": row.typed, "aria-current": here ? "true" : null, onclick: frozen ? null : () => correct(row),
    }, el("td", {}, number), el("td", {}, row.name), el("td", {}, valuesOf(row.typed), odd), el("td", { class: "f" }, figureCells(row)));
}

export function togetherRow(row) {
    return el("tr", { class: "row sub", "data-group": row.group }, el("td"), el("td"), el("td", {}, "together"),
        el("td", { class: "f" }, figureCells(row)));
}

function failedRow({ line, from, to, words }) {
    const mend = () => { now.mode = "line"; now.correcting = { at: from, line }; draw(); byId("line")?.focus(); };
    return el("tr", { class: "row failed" }, el("td"), el("td", {}, icon("no"), " not in"),
        el("td", {}, el("b", {}, now.draft.lines[from].trim(), to > from ? ` and the lines after it` : ""), el("small", {}, words)),
        el("td", {}, button(`Mend line ${line}`, mend, { disabled: !now.mine })));
}

// What the rows of lines that are not in the book are drawn of.
export function failedWords() {
    const { messages, more, verdict } = now.read.said;
    const lines = messages.map(({ line, from, to, words }) => `${line} ${to} ${now.draft.lines[from]} ${words}`);
    return [now.mine, verdict.lost, ...more, ...lines].join("\n");
}

// The lines of the text that are not in the book, each with the writer's words.
export function failedRows() {
    const { messages, more, verdict } = now.read.said;
    if (messages.length === 0) {
        return [];
    }
    const rest = more.filter((words) => /^and \d+ more$/.test(words)).map((words) => el("tr", { class: "row failed" }, el("td"), el("td"),
        el("td", {}, words), el("td")));
    return [el("tr", { class: "group bad" }, el("th", { colspan: "4" }, `Not in the book: ${verdict.lost}`)), ...messages.map(failedRow), ...rest];
}
