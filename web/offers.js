// What helps beside the fields of a form: a record before it, Holos' values, the way out.
import { button, el } from "./dom.js";
import { linesOfGroup } from "./draft.js";
import { dietsOf, dietValues, filled, needsSeason, pigChoices, pigValues } from "./holos.js";
import { table } from "./judge.js";
import { draw, fieldsNow, now } from "./state.js";
import { wordsOf } from "./typed.js";

let tables = null;

const chosen = {};

function tablesNow() {
    tables ??= Object.fromEntries([...document.querySelectorAll("script[id^=table-]")]
        .map((each) => [each.id.slice(6), JSON.parse(each.textContent)]));
    return tables;
}

function pigOffers(form, refill) {
    const all = pigChoices(tablesNow());
    for (const [name, words] of Object.entries(all)) {
        chosen[name] ??= words[0];
    }
    const shown = Object.entries(all).filter(([name]) => name !== "season" || needsSeason(chosen.handling, tablesNow()));
    const { values, from, notes } = pigValues(tablesNow(), chosen);
    const choose = (name) => (event) => { event.stopPropagation(); chosen[name] = event.target.value; chosen.open = true; draw(); };
    return el("details", { class: "offer", open: chosen.open, ontoggle: (event) => { chosen.open = event.target.open; } },
        el("summary", {}, "Holos' values for pigs"),
        el("div", { class: "pairs" }, shown.map(([name, words]) => el("label", {}, name, el("select", { onchange: choose(name), oninput: stop },
            words.map((word) => el("option", { value: word, selected: chosen[name] === word }, word)))))),
        el("p", { class: "soft" }, `Source document 002, tables ${from.join(", ")}${notes.map((note) => `; ${note}`).join("")}. All can be changed.`),
        button(`Fill in from ${from[0]} to ${from.at(-1)}`, () => refill(filled(form, fieldsNow(), values))));
}

const stop = (event) => event.stopPropagation();

// A button for each diet, where the form has a field that the table has.
function dietOffers(form, refill) {
    return dietsOf(tablesNow()).map((diet) => {
        const values = dietValues(tablesNow(), diet);
        const here = form.fields.filter((field) => field.label in values).map((field) => `${field.label} ${values[field.label]}`);
        return button(`${diet}: ${here.join(", ")} (A4-14)`, () => refill(filled(form, fieldsNow(), values)));
    });
}

function removal({ removed }) {
    const { record, kind, at } = now.correcting;
    if (kind === table.places.begin) {
        return null;
    }
    if (kind !== table.places.heading) {
        return button(`Remove record ${record}`, () => removed(at, 1, [], `record ${record} removed`));
    }
    const number = wordsOf(now.draft.lines[at])[1];
    return button(`Remove group ${number} with its records`, () => {
        const { from, to, stay } = linesOfGroup(now.draft.lines, at, table.kinds, table.places);
        removed(from, to - from, stay, `group ${number} removed`);
    });
}

const leave = () => { now.correcting = null; now.mode = now.read.rows.length === 0 ? "farm" : "record"; draw(); };

export const leaveForm = leave;

// The buttons under the fields.
export function aidsFor(form, last, more) {
    const out = [];
    if (now.mode === "correct") {
        return [removal(more), button("Leave it as it is", leave)];
    }
    if (now.mode === "farm") {
        const other = now.form === 0 ? "Other factors for CH4 and N2O" : "A warming set";
        return [button(other, () => { const words = fieldsNow().slice(0, 2); now.form = 1 - now.form; more.refill(words); })];
    }
    if (now.mode === "heading") {
        return now.draft.begun !== null || now.read.rows.length === 0 ? []
            : [button(now.chosen === null ? "Back" : `Back to group ${now.chosen}`, leave)];
    }
    if (last) {
        out.push(button(`Fill in as record ${last.record}`, () => more.refill(wordsOf(last.typed).slice(1))));
    }
    if (form.fields.some((field) => field.label === "VS excretion")) {
        out.push(pigOffers(form, more.refill));
    } else if (form.fields.some((field) => field.label in dietValues(tablesNow(), dietsOf(tablesNow())[0]))) {
        out.push(...dietOffers(form, more.refill));
    }
    out.push(button("Empty the fields", () => more.refill([])));
    out.push(button("Type a line", () => { now.mode = "line"; now.correcting = null; draw(); }));
    return out;
}
