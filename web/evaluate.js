// What the writer says of the record in the form, at each key: of the whole text with that record in it. Nothing of it is kept.
import { recordOf, written } from "./judge.js";
import { leastOf, lineOf } from "./kinds.js";
import { besideOf, fieldOf, isSum } from "./said.js";
import { hasWords, wordOf } from "./typed.js";

// form: the fields; values: what stands in them; trial(line): the lines with the record in them; at: its place there.
// Gives for each field its remark, the remarks on the line, and where all is right the writer's result.
export function evaluate({ form, values, trial, at, fits }) {
    const words = form.fields.map((field, each) => wordOf(values[each] ?? ""));
    const complete = words.every(Boolean);
    const asked = words.map((word, each) => word || leastOf(form.fields[each]));
    const remarks = new Map();
    const onLine = [];
    let result;
    // Each wrong field is set right for the next look, so that every one is found; at most one look a field and one more.
    for (let look = 0; look <= words.length; look += 1) {
        result = written(trial(lineOf(form.name, asked)));
        const own = result.said.messages.find(({ from, to }) => from <= at && at <= to);
        if (!own) {
            break;
        }
        const field = fieldOf(own.words, form);
        if (remarks.has(field) || (isSum(own.words) && !complete)) {
            break;
        }
        if (field < 0 || !words[field]) {
            onLine.push(own.words);
            break;
        }
        remarks.set(field, { wrong: true, words: own.words, beside: besideOf(own.words) });
        asked[field] = leastOf(form.fields[field]);
    }
    for (const { from, words: said } of result.said.unusual) {
        const field = from === at ? fieldOf(said, form) : -1;
        if (field >= 0 && words[field] && !remarks.has(field)) {
            remarks.set(field, { wrong: false, words: said, beside: besideOf(said) });
        }
    }
    const wrong = [...remarks.values()].some((remark) => remark.wrong);
    const accepted = complete && !wrong && onLine.length === 0 && fits(result);
    const line = lineOf(form.name, words.filter(Boolean));
    return { complete, accepted, remarks, onLine: complete ? onLine : [], line, result,
        others: complete && !wrong ? othersOf(result, at, trial(line)) : [] };
}

// Lines that the record makes fail, each by its own words instead of a line's number, which nobody sees.
function othersOf(result, at, lines) {
    return result.said.messages.filter(({ from }) => from !== at && from < lines.length).map(({ from, words }) => `${lines[from].trim()}: ${words}`);
}

// The line that is not all typed, as the writer refuses it.
export function refusedShort({ trial, at, line }) {
    const { said } = written(trial(line));
    return said.messages.find(({ from, to }) => from <= at && at <= to)?.words ?? "";
}

// What the record gives: its row, as records reads it in the tried book.
export function rowOf(result, lines, at) {
    const all = result.said.messages.length === 0;
    return recordOf(result.book, all ? lines.slice(0, at).filter(hasWords).length : written(lines.slice(0, at)).written);
}
