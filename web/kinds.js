// The kinds of records and their fields, as the proved program kinds prints them, and which may stand where, as the writer judges it. Nothing about a
// kind is listed here.
import { rowsOf } from "./typed.js";

// By name: each has its number and its forms, of which the farm record has two.
export function kindsOf(csv) {
    const kinds = new Map();
    for (const row of rowsOf(csv)) {
        const kind = kinds.get(row.name) ?? { name: row.name, number: row.kind, forms: [] };
        kinds.set(row.name, kind);
        let form = kind.forms.find((each) => each.row === row.row);
        if (!form) {
            form = { row: row.row, name: row.name, fields: [] };
            kind.forms.push(form);
        }
        const { label, unit, lowest, highest, usual, help } = row;
        form.fields.push({ label, unit, lowest, highest, usual, help, choices: row.choices ? row.choices.split("|") : [] });
    }
    return kinds;
}

// The least value of a field, as a word for the writer where nothing is typed yet.
export const leastOf = (field) => field.choices[0] ?? field.lowest;

export const lineOf = (name, words) => [name, ...words].join(" ");

const leastLine = (kind) => lineOf(kind.name, kind.forms[0].fields.map(leastOf));

// Which kinds the writer takes at a place: those that it does not refuse by 6 after the lines given.
function takenAfter(kinds, before, write) {
    return [...kinds.values()].filter((kind) => {
        const said = write([...before, leastLine(kind)].join("\n"));
        return !said.split("\n").some((message) => message.startsWith(`line ${before.length + 1}: refused 6`));
    }).map((kind) => kind.name);
}

// What a book is made of, asked of the writer: the kind that begins it, the kind that begins a group, the farm's own kinds, and the kinds of each
// class.
export function placesOf(kinds, write) {
    const begin = takenAfter(kinds, [], write)[0];
    const farm = leastLine(kinds.get(begin));
    const free = takenAfter(kinds, [farm], write);
    const heading = free.find((name) => kinds.get(name).forms[0].fields.some((field) => field.label === "class"));
    const close = free.find((name) => /^closed: /m.test(write(`${farm}\n${name}`)));
    const own = free.filter((name) => ![begin, heading, close].includes(name));
    const form = kinds.get(heading).forms[0];
    const at = form.fields.findIndex((field) => field.label === "class");
    const classes = new Map(form.fields[at].choices.map((word) => {
        const words = form.fields.map((field, each) => (each === at ? word : leastOf(field)));
        const taken = takenAfter(kinds, [farm, lineOf(heading, words)], write);
        return [word, taken.filter((name) => !free.includes(name) && name !== begin)];
    }));
    return { begin, heading, close, own, classes };
}
