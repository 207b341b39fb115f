// Files that a person opens or drops. What each is, the proved programs say; nothing that is no book and no text replaces anything.
import { recordsOf, titleOf, written } from "./judge.js";
import { encoded, proved } from "./proved.js";
import { linesOf, textOfLines } from "./typed.js";

const MOST = 4 * 1024 * 1024; // a book has about 100 KB at most, a text with long comments some hundred
const BREATH = 50; // milliseconds after which the browser may draw, where many files are read
const TOO_LARGE = "The file is too large for a book: one has less than 4 MB. It was not read.";

const strict = new TextDecoder("utf-8", { fatal: true });
const western = new TextDecoder("windows-1252");

// Texts of old spreadsheets are not UTF-8: their comments are kept as they were meant.
export function textIn(bytes) {
    try {
        return strict.decode(bytes);
    } catch {
        return western.decode(bytes);
    }
}

// What `why` says of bytes: the machine's line, people's line, and its hint.
export function whyOf(bytes) {
    const { output, remarks } = proved("why", bytes);
    const [machine = "", people = ""] = textIn(output).split("\n");
    return { machine, people, hint: remarks.trim() };
}

function ofBook(name, bytes, why) {
    const { rows } = recordsOf(bytes);
    const state = why.machine === "accepted" ? "closed" : why.machine.startsWith("unfinished") ? "unfinished" : "refused";
    return { name, bytes, rows, state, why, title: titleOf(rows), lines: null };
}

function ofText(name, bytes) {
    const lines = linesOf(textIn(bytes));
    const { book, said, written: count } = written(lines);
    if (count === 0) {
        return null;
    }
    const { rows } = recordsOf(book);
    return { name, bytes: book, rows, state: said.verdict.closed ? "closed" : "unfinished", why: whyOf(book), title: titleOf(rows), lines, said };
}

const none = (name, words) => ({ name, bytes: null, rows: [], state: "none", words, title: "", lines: null });

// One file's bytes: a book (closed, unfinished or refused), a text, or none with the reason.
export function itemOf(name, bytes) {
    if (bytes.length === 0) {
        return none(name, "The file is empty.");
    }
    const why = whyOf(bytes);
    if (!why.machine.startsWith("refused")) {
        const item = ofBook(name, bytes, why);
        return item.rows.length > 0 ? item : none(name, "This is no book: it ends before its first record.");
    }
    const book = ofBook(name, bytes, why);
    if (book.rows.length > 0) {
        return book;
    }
    if (why.hint.includes("sheet")) {
        return none(name, "This is a sheet: it has figures and no records. Open the book that it was made of.");
    }
    const text = ofText(name, bytes);
    if (text) {
        return text;
    }
    return savedOf(bytes).book ? book : none(name, "This is no book and no text of a book.");
}

// What can be saved of a damaged book, and salvage's words on what can't.
export function savedOf(bytes) {
    const { output, remarks, status } = proved("salvage", bytes);
    const lines = remarks.split("\n").filter(Boolean);
    return { book: output.length > 0 ? output : null, lines, status };
}

const together = (first, second) => {
    const whole = new Uint8Array(first.length + second.length);
    whole.set(first);
    whole.set(second, first.length);
    return whole;
};

// Parts of one book, in the order of their names: a part that ends inside a book goes on with the next file, where that is no book by itself and
// `why` does not refuse the two together.
async function itemsOf(files) {
    const items = [];
    let since = performance.now();
    for (const { name, bytes } of files) {
        if (performance.now() - since > BREATH) {
            await new Promise((resolve) => setTimeout(resolve, 0));
            since = performance.now();
        }
        const before = items.at(-1);
        const own = itemOf(name, bytes);
        if (before && before.state === "unfinished" && before.lines === null && own.rows.length === 0 && bytes.length > 0) {
            const both = together(before.bytes, bytes);
            if (!whyOf(both).machine.startsWith("refused")) {
                items[items.length - 1] = itemOf(`${before.name} + ${name}`, both);
                continue;
            }
        }
        items.push(own);
    }
    return items;
}

// The bytes of files that were chosen or dropped; one that is too large is not read at all.
export async function readFiles(list) {
    const files = [...list].sort((a, b) => a.name.localeCompare(b.name, "en", { numeric: true }));
    const small = files.filter((file) => file.size <= MOST);
    const large = files.filter((file) => file.size > MOST).map((file) => none(file.name, TOO_LARGE));
    const read = [];
    for (const file of small) {
        try {
            read.push({ name: file.name, bytes: new Uint8Array(await file.arrayBuffer()) });
        } catch {
            large.push(none(file.name, "The file could not be read."));
        }
    }
    return [...await itemsOf(read), ...large];
}

// The lines of an item for the draft: a text as it was typed, a book as retype types it.
export function linesFrom(item) {
    return item.lines ?? linesOf(textIn(proved("retype", item.bytes).output));
}

export const encodedLines = (lines) => encoded(textOfLines(lines));

// Asks for files by the browser's own dialogue.
export function chosenFiles(many = true) {
    document.getElementById("files")?.remove();
    return new Promise((resolve) => {
        const input = document.createElement("input");
        Object.assign(input, { type: "file", id: "files", multiple: many, hidden: true, ariaLabel: "Files to open" });
        input.addEventListener("change", () => resolve(input.files));
        document.body.append(input);
        input.click();
    });
}
