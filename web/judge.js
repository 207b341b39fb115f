// A text or a book through the proved programs: what is in it, what was refused, what a close would give. A trial close is never kept.
import { encoded, decoded, proved } from "./proved.js";
import { kindsOf, placesOf } from "./kinds.js";
import { saidOf } from "./said.js";
import { hasWords, kindOf, rowsOf, rowWith, textOfLines, wordsOf } from "./typed.js";

// The table of kinds and the places of each, for the whole page; filled once.
export const table = { kinds: new Map(), places: null };

export function fillTable() {
    table.kinds = kindsOf(decoded(proved("kinds", new Uint8Array()).output));
    table.places = placesOf(table.kinds, (text) => proved("writer", encoded(text)).remarks);
}

export function written(lines) {
    const { output, remarks } = proved("writer", encoded(textOfLines(lines)));
    const said = saidOf(remarks);
    return { book: output, said, written: said.verdict.written, failed: said.verdict.failed };
}

// A book's accepted records in order, its subtotals, and the last word.
export function recordsOf(book) {
    const { output, remarks } = proved("records", book);
    const rows = rowsOf(decoded(output));
    return { rows: rows.filter((row) => row.record !== ""), subtotals: rows.filter((row) => row.record === ""), word: remarks.trim() };
}

export const recordOf = (book, number) => rowWith(decoded(proved("records", book).output), number);

export const retyped = (book) => decoded(proved("retype", book).output);

// The records of a book with a close after them, whatever it is now: for what its groups have so far.
export function triedClosed(book, { close } = table.places) {
    const lines = retyped(book).split("\n").filter((line) => hasWords(line) && wordsOf(line)[0] !== close);
    return lines.length === 0 ? book : written([...lines, close]).book;
}

// The records by group, in the book's order; each group begins with its heading. What belongs to no group stands under "".
function grouped(rows) {
    const by = new Map();
    for (const row of rows) {
        by.get(row.group)?.push(row) ?? by.set(row.group, [row]);
    }
    const groups = [...by].filter(([number]) => number !== "").map(([, own]) => ({ ...headingWords(own[0].typed), rows: own }));
    return { groups, loose: by.get("") ?? [] };
}

const bySubtotal = (subtotals) => new Map(subtotals.map((row) => [row.group, row]));

// All that the page shows of a text. Where it is open and right, one run with a close after it gives the records and what the groups have so far; the
// book itself is what stands there before the close, and the close's number is how many records it has. Else the text is written as it stands.
export function readText(lines) {
    const { kinds, places } = table;
    const ends = kindOf(lines.findLast(hasWords) ?? "", kinds) === places.close;
    const tried = ends ? null : written([...lines, places.close]);
    if (tried?.said.verdict.closed) {
        const { rows, subtotals } = recordsOf(tried.book);
        const close = rows.pop();
        return { lines, book: tried.book.slice(0, Number(close.first)), said: tried.said, written: rows.length, failed: 0, count: close.record,
            rows, ...grouped(rows), closed: false, trial: tried.book, together: bySubtotal(subtotals), ...finders(lines, rows.length) };
    }
    const { book, said, ...counts } = written(lines);
    const { rows, subtotals } = recordsOf(book);
    const closed = said.verdict.closed;
    const trial = closed || counts.failed === 0 ? book : triedClosed(book); // of a text without a failed line the close itself did not go in
    return { lines, book, said, ...counts, count: said.verdict.count, rows, ...grouped(rows), closed, trial,
        together: bySubtotal(trial === book ? subtotals : recordsOf(trial).subtotals), ...finders(lines, counts.written) };
}

// The line of a text that became a record, and the record of a line that is in the book, as a word. Where each line with a word is in the book they
// go by their order; else the writer is asked.
function finders(lines, count) {
    let worded = null;
    const inOrder = () => {
        worded ??= lines.map((line, at) => at).filter((at) => hasWords(lines[at]));
        return worded.length === count;
    };
    return { lineOf: (record) => (inOrder() ? worded[record] : askedLine(lines, record)),
        recordAt: (at) => String(inOrder() ? worded.indexOf(at) : written(lines.slice(0, at)).written) };
}

// The first part of the text that writes so many records ends with the line.
function askedLine(lines, record) {
    let [low, high] = [0, lines.length];
    while (low < high) {
        const middle = (low + high) >> 1;
        const enough = written(lines.slice(0, middle)).written > record;
        [low, high] = enough ? [low, middle] : [middle + 1, high];
    }
    return low - 1;
}

// Whether a change may go in: the records that it is for were written, and no other line fails for it.
export function betterBy(before, after, records) {
    return after.written >= before.written + records && after.failed <= before.failed;
}

// The words of a heading's record: number, class, head.
export function headingWords(typed) {
    const [, number, word, head] = wordsOf(typed);
    return { number, class: word, head };
}

// `Farm 7, 2010` of the records of a book, "" where there is no farm record.
export function titleOf(rows) {
    const [, number, year] = rows.length > 0 ? wordsOf(rows[0].typed) : [];
    return number === undefined ? "" : `Farm ${number}, ${year}`;
}

export const fileName = (rows, ending) => `${titleOf(rows).toLowerCase().replace(", ", "-").replace(" ", "-") || "farm-book"}.${ending}`;
