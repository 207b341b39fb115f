// A typed text and its lines, as people and the writer read them: words with blanks or tabs between, a comment from # on.

export function linesOf(text) {
    const lines = text.split(/\r?\n/);
    if (lines.at(-1) === "") {
        lines.pop();
    }
    return lines;
}

export const textOfLines = (lines) => lines.map((line) => `${line}\n`).join("");

export function wordsOf(line) {
    return line.replace(/#.*/s, "").split(/[ \t\r\ufeff]+/).filter(Boolean);
}

const FIRST = /^[ \t\r\ufeff]*([^ \t\r\ufeff#]+)/;

export const hasWords = (line) => FIRST.test(line);

// The first word of a line as the name of a kind: names may be in capitals, and a kind may stand by its number. Of other words: none.
export function kindOf(line, kinds) {
    const word = FIRST.exec(line)?.[1].toLowerCase() ?? "";
    return kinds.has(word) ? word : [...kinds.values()].find((kind) => kind.number === word)?.name ?? "";
}

// What stands in a field as one word of a line. A comma between digits counts as the point; blanks inside and # would end the word, so they are shown
// to the writer as _, which no value has.
export function wordOf(field) {
    const word = field.trim();
    return /^\d+,\d+$/.test(word) ? word.replace(",", ".") : word.replace(/[\s#]/g, "_");
}

// A line with other words, and with the comment that it had.
export function reworded(line, words) {
    const comment = line.indexOf("#");
    return comment < 0 ? words : `${words} ${line.slice(comment)}`;
}

// Rows of comma-separated text without quotes, each with the names of the first row. A cell is looked for when it is asked for.
export function rowsOf(text) {
    const [names, ...rows] = linesOf(text);
    const Row = shapeOf(names);
    return rows.map((row) => new Row(row));
}

const shapes = new Map();

function shapeOf(names) {
    if (!shapes.has(names)) {
        const Row = class {
            constructor(line) {
                this.line = line;
            }
        };
        for (const [at, name] of names.split(",").entries()) {
            Object.defineProperty(Row.prototype, name, { get() { return cellOf(this.line, at); } });
        }
        shapes.set(names, Row);
    }
    return shapes.get(names);
}

function cellOf(line, at) {
    let from = 0;
    for (let before = 0; before < at; before += 1) {
        const comma = line.indexOf(",", from);
        if (comma < 0) {
            return "";
        }
        from = comma + 1;
    }
    const end = line.indexOf(",", from);
    return line.slice(from, end < 0 ? line.length : end);
}

// The one row that begins with a number, without reading the others.
export function rowWith(text, number) {
    const from = text.indexOf(`\n${number},`) + 1;
    const end = text.indexOf("\n", from);
    return from === 0 ? null : rowsOf(text.slice(0, text.indexOf("\n") + 1) + text.slice(from, end < 0 ? undefined : end + 1))[0];
}
