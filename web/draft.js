// The draft: a typed text, its steps for Undo, and a heading that was begun and refused. Nothing here changes a draft: each change gives a new one.
import { hasWords, kindOf, wordsOf } from "./typed.js";

export const emptyDraft = () => ({ lines: [], steps: [], begun: null });

const STEPS_KEPT = 500;

// The place after the last line with a word before `end`, but not before `from`.
function afterWords(lines, from, end) {
    let at = end;
    while (at > from && !hasWords(lines[at - 1])) {
        at -= 1;
    }
    return at;
}

// Where a record goes that stands after all others: before the close, where the text ends in one.
export function endOf(lines, kinds, places) {
    const last = afterWords(lines, 0, lines.length);
    const closes = last > 0 && kindOf(lines[last - 1], kinds) === places.close;
    return closes ? afterWords(lines, 0, last - 1) : last;
}

// Each heading with its number and its place, in the text's order, whether it was written or not.
export function headingsOf(lines, kinds, places) {
    return lines.map((line, at) => ({ at, line })).filter(({ line }) => kindOf(line, kinds) === places.heading)
        .map(({ at, line }) => ({ at, number: wordsOf(line)[1] ?? "" }));
}

// A detail goes in as the last one under its heading.
export function placeUnder(lines, heading, kinds, places) {
    const next = headingsOf(lines, kinds, places).find(({ at }) => at > heading);
    return next ? afterWords(lines, heading + 1, next.at) : endOf(lines, kinds, places);
}

// A heading goes in at its place by number; as the last one, before the farm's own records that end the text.
export function placeOfHeading(lines, number, kinds, places) {
    const after = headingsOf(lines, kinds, places).find((heading) => Number(heading.number) > Number(number));
    if (after) {
        return after.at;
    }
    let at = endOf(lines, kinds, places);
    while (at > 0 && (!hasWords(lines[at - 1]) || places.own.includes(kindOf(lines[at - 1], kinds)))) {
        at -= 1;
    }
    return at;
}

// Where a typed line goes: by its kind, and under the heading at `chosen` where it is a group's. null where no heading is chosen for it.
export function placeOf(lines, line, chosen, kinds, places) {
    const kind = kindOf(line, kinds);
    if (kind === places.heading) {
        return placeOfHeading(lines, wordsOf(line)[1] ?? "", kinds, places);
    }
    if (kind === places.close) {
        return lines.length;
    }
    if (kind === places.begin || places.own.includes(kind)) {
        return endOf(lines, kinds, places);
    }
    return chosen === null ? null : placeUnder(lines, chosen, kinds, places);
}

// The lines of a group: its heading and the details under it; farm's own records that stand between stay.
export function linesOfGroup(lines, heading, kinds, places) {
    const next = headingsOf(lines, kinds, places).find(({ at }) => at > heading)?.at ?? lines.length;
    const stays = (line) => [...places.own, places.close].includes(kindOf(line, kinds));
    return { from: heading, to: next, stay: lines.slice(heading + 1, next).filter(stays) };
}

// The draft with some lines in place of others. The step has what stood there before, so that it can be undone.
export function changed(draft, at, count, added, label) {
    const lines = [...draft.lines];
    const removed = lines.splice(at, count, ...added);
    const step = { at, added: added.length, removed, label };
    return { lines, steps: [...draft.steps, step].slice(-STEPS_KEPT), begun: null };
}

// A heading that was begun and refused: it waits in the draft, and no detail goes in before it is mended or given up.
export const begun = (draft, line) => ({ ...draft, begun: line });

export function undoes(draft) {
    if (draft.begun !== null) {
        return "the refused heading";
    }
    return draft.steps.at(-1)?.label ?? null;
}

export function undone(draft) {
    const step = draft.steps.at(-1);
    if (draft.begun !== null) {
        return { ...draft, begun: null };
    }
    if (!step) {
        return draft;
    }
    const lines = [...draft.lines];
    lines.splice(step.at, step.added, ...step.removed);
    return { lines, steps: draft.steps.slice(0, -1), begun: null };
}

// The text that is saved: a heading that was begun and refused stands at its place, so that nothing typed is lost.
export function savedLines(draft, kinds, places) {
    if (draft.begun === null) {
        return draft.lines;
    }
    const lines = [...draft.lines];
    lines.splice(placeOf(lines, draft.begun, null, kinds, places), 0, draft.begun);
    return lines;
}

// What is kept may have been written by another version of this page: anything else than a draft is none.
export function draftOf(kept) {
    const strings = (list) => Array.isArray(list) && list.every((each) => typeof each === "string");
    const step = (each) => each && Number.isInteger(each.at) && Number.isInteger(each.added) && strings(each.removed)
        && typeof each.label === "string";
    if (!kept || !strings(kept.lines)) {
        return null;
    }
    const steps = Array.isArray(kept.steps) && kept.steps.every(step) ? kept.steps : [];
    return { lines: kept.lines, steps, begun: typeof kept.begun === "string" ? kept.begun : null };
}
