// Changes of the draft: judged as a whole by the proved programs, kept, and only then shown.
import { begun, changed, draftOf, emptyDraft, headingsOf, placeOf, undone } from "./draft.js";
import { betterBy, readText, table } from "./judge.js";
import { keep, OtherWindow } from "./kept.js";
import { draw, now } from "./state.js";
import { wordsOf } from "./typed.js";

const NO_ROOM = "This device has no room: the last change is not kept. Save the text now; nothing is lost while this page is open.";
const NOT_KEPT = "The last change could not be kept on this device. Save the text now; nothing is lost while this page is open.";
const OTHERS = "Another window has changed this book. Here it can only be read: open this page anew to go on.";
export const PRIVATE = "This browser keeps nothing on this device (a private window, perhaps). Save the text before you leave.";

async function kept(draft) {
    if (!now.store.database) {
        return [false, PRIVATE];
    }
    try {
        await keep(now.store, draft);
        return [true, ""];
    } catch (error) {
        if (error instanceof OtherWindow) {
            now.mine = false;
            return [false, OTHERS];
        }
        return [false, error?.name === "QuotaExceededError" ? NO_ROOM : NOT_KEPT];
    }
}

// The draft as it will be: read, kept, then shown. Where another window has changed it, nothing is. One change at a time: what is asked for while
// one is being kept is not done.
export async function apply(draft, then = {}) {
    if (!now.mine || now.busy) {
        return false;
    }
    const start = performance.now();
    const read = readText(draft.lines);
    const judged = performance.now();
    now.busy = true;
    const [saved, trouble] = await kept(draft);
    now.busy = false;
    const held = performance.now();
    Object.assign(now, { saved, trouble });
    if (now.mine) {
        Object.assign(now, { draft, read, fresh: null, correcting: null }, then);
        settle();
    }
    draw();
    measured({ start, judged, held, end: performance.now() });
    return now.mine;
}

// What the change took, in milliseconds: all of it, and of that the programs and the keeping; and how many changes there were, for whoever waits for
// the next one.
function measured({ start, judged, held, end }) {
    now.changes += 1;
    Object.assign(document.getElementById("state").dataset, { ms: (end - start).toFixed(1), judging: (judged - start).toFixed(1),
        keeping: (held - judged).toFixed(1), change: now.changes });
}

// What the form is for follows from the draft, where nothing else was asked for.
export function settle() {
    const { read, draft } = now;
    const { groups } = read;
    if (!groups.some(({ number }) => number === now.chosen)) {
        now.chosen = groups.at(-1)?.number ?? null;
    }
    if (draft.begun !== null) {
        now.mode = "heading";
        now.typed.set("heading 0", wordsOf(draft.begun).slice(1));
    } else if (read.rows.length === 0 && draft.lines.length === 0) {
        now.mode = "farm";
    } else if (now.mode === "farm" || now.mode === "correct" || now.mode === "close") {
        now.mode = "record";
    }
    if (!kindsNow().includes(now.kind)) {
        now.kind = kindsNow()[0];
    }
}

export const groupNow = () => now.read.groups.find(({ number }) => number === now.chosen) ?? null;

// The kinds that may go in now: those of the chosen group's class, then the farm's own.
export const kindsNow = () => [...(table.places.classes.get(groupNow()?.class) ?? []), ...table.places.own];

// The line of the chosen group's heading, as the writer wrote it: one that failed is not it.
export function headingAt(number = now.chosen) {
    const failed = now.read.said.messages;
    const found = headingsOf(now.draft.lines, table.kinds, table.places)
        .find(({ at, number: each }) => Number(each) === Number(number) && !failed.some(({ from, to }) => from <= at && at <= to));
    return found ? found.at : null;
}

export const placeNow = (line) => placeOf(now.draft.lines, line, headingAt(), table.kinds, table.places);

// The lines with a candidate in them, which nothing is kept of.
export function tried(at, count, line) {
    const lines = [...now.draft.lines];
    lines.splice(at, count, line);
    return lines;
}

export const fits = (after, count) => betterBy(now.read, after, count === 0 ? 1 : now.correcting?.record === undefined ? 1 : 0);

export function added(at, line, label, then) {
    return apply(changed(now.draft, at, 0, [line], label), then);
}

export function corrected(at, line, label, then) {
    return apply(changed(now.draft, at, 1, [line], label), then);
}

export function removed(at, count, stay, label) {
    return apply(changed(now.draft, at, count, stay, label), { mode: "record" });
}

export const heldBack = (line) => apply(begun(now.draft, line), { mode: "heading" });

export const undo = () => apply(undone(now.draft), { mode: now.draft.begun !== null ? "record" : now.mode });

// Another draft in place of this one, as one that begins; nothing of the one before is kept.
export function replaced(lines) {
    now.typed.clear();
    return apply({ ...emptyDraft(), lines }, { mode: lines.length === 0 ? "farm" : "record", chosen: null, kind: "", form: 0, look: "failed" });
}

export function taken(keptDraft) {
    now.draft = draftOf(keptDraft) ?? emptyDraft();
    now.read = readText(now.draft.lines);
    now.mode = "record";
    settle();
}
