// What the page has now, in one place, and who draws it anew.
import { emptyDraft } from "./draft.js";

export const now = {
    draft: emptyDraft(), // the text, its steps, a heading that was refused
    read: null, // what the proved programs read in it
    store: null, mine: false, saved: false, trouble: "", changes: 0, busy: false, // busy: while a change is being kept
    mode: "farm", // what the form is for: farm, heading, record, line, correct, close
    chosen: null, // the number of the group that records go under
    kind: "", form: 0, // of the next record
    correcting: null, // {record, at, kind, form}, or {at} of a line that failed
    fresh: null, // the record that was added last
    look: "", // what is to be brought into sight beside a change: here, the chosen group; failed, the lines that are not in
    typed: new Map(), // what stands in the fields of each form, by group and kind
    books: [], // opened for the office: {name, bytes, ..}
    checked: null,
};

const drawers = [];

export const onDraw = (drawer) => drawers.push(drawer);

export function draw() {
    for (const drawer of drawers) {
        drawer();
    }
}

// The fields that are typed now: they stay with the group and the kind that they were typed for.
export function fieldsNow() {
    const { mode, chosen, kind, form, correcting } = now;
    const key = mode === "correct" ? `correct ${correcting.at}` : mode === "record" ? `${chosen} ${kind}` : `${mode} ${form}`;
    if (!now.typed.has(key)) {
        now.typed.set(key, []);
    }
    return now.typed.get(key);
}
