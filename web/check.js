// The Check view: why a book is refused or not closed, in people's words, and what can be saved of it.
import { button, byId, el, give, icon, saving } from "./dom.js";
import { draftItem, replaceDraft } from "./opening.js";
import { chosenFiles, linesFrom, readFiles, savedOf } from "./files.js";
import { valuesOf } from "./figures.js";
import { written } from "./judge.js";
import { encoded } from "./proved.js";
import { now, onDraw } from "./state.js";

const NEAR = 3; // records before the wrong one that are shown

function verdictOf(item) {
    if (item.state === "closed") {
        return ["ok", "Right and closed"];
    }
    if (item.state === "unfinished") {
        return ["open", "Not closed"];
    }
    return ["no", item.state === "none" ? "No book" : `Refused at record ${/record (\d+)/.exec(item.why.machine)[1]}`];
}

function nearRows(item) {
    const rows = item.rows.slice(-NEAR).map((row) => el("tr", { class: "row" }, el("td", {}, row.record), el("td", {}, row.name),
        el("td", {}, valuesOf(row.typed)),
        el("td", { class: "f" }, "right")));
    if (item.state === "refused") {
        const record = /record (\d+)/.exec(item.why.machine)[1];
        rows.push(el("tr", { class: "row hit" }, el("td", {}, record), el("td"), el("td", {}, item.why.people.replace(/^record \d+ ?/, "")),
            el("td", { class: "f" }, icon("no"), " wrong")));
    }
    return el("table", { class: "near" }, el("tbody", {}, rows));
}

// A text's own lines that failed, with the writer's words.
function failedLines(item) {
    const messages = item.said?.messages ?? [];
    return messages.length === 0 ? null : el("table", {}, el("thead", {},
        el("tr", {}, ["Line", "What was typed", "Why it is not in the book"].map((word) => el("th", {}, word)))),
        el("tbody", {}, messages.map(({ line, from, words }) => el("tr", {}, el("td", {}, line), el("td", {}, item.lines[from].trim()),
            el("td", {}, words)))));
}

function todo(item) {
    if (item.state === "closed") {
        return "Nothing has to be done.";
    }
    if (item.state === "unfinished") {
        return item.said?.messages.length > 0 ? "Mend the lines below in Book, the first one first, and close the book."
            : `${item.draft ? "Go on in Book" : "Open it in Book"}, enter what is missing, and close it.`;
    }
    return item.state !== "refused" ? item.words : "It is the first wrong one; others may come after it. "
        + "Open what is right in Book and enter the rest again, or save what can be saved.";
}

function left(item) {
    const [sign, words] = verdictOf(item);
    return el("article", {},
        el("h3", { class: `verdict${sign === "no" ? " bad" : ""}` }, icon(sign), ` ${words}`),
        item.why ? el("p", { class: "big" }, el("b", {}, item.why.people)) : "",
        item.rows.length > 0 && item.state !== "closed" ? nearRows(item) : "",
        el("p", {}, el("b", {}, "What to do. "), todo(item)), failedLines(item),
        item.bytes && item.rows.length > 0 && !item.draft ? el("p", {}, button("Open it in Book", () => replaceDraft(linesFrom(item), item.name),
            { class: "main" })) : "",
        item.why ? el("p", { class: "mono" }, item.why.machine) : "");
}

// What the saved book lacks of the year, in the writer's words.
function lacks(book) {
    const { said } = written(linesFrom({ lines: null, bytes: book }));
    const short = said.groups.filter((group) => group.days.length === 0 || group.days.some((part) => part.short));
    return short.length === 0 ? "" : el("p", { class: "note odd" }, icon("odd"), el("b", {}, " The saved book lacks days. "),
        short.map((group) => `Group ${group.number}: ${group.days.map((part) => part.words).join(", ") || "no days"}. `),
        "Its total is too small until they are entered again.");
}

function right(item) {
    const saved = savedOf(item.bytes);
    const save = saving("Save it as a file", { class: "button" });
    const list = saving("Save the list", { class: "button" });
    const stem = item.name.replace(/\.[^.]*$/, "");
    give(save, `${stem}-clean.book`, saved.book, "application/octet-stream");
    give(list, `${stem}-dropped.txt`, encoded(saved.lines.map((line) => `${line}\n`).join("")), "text/plain");
    const counts = saved.lines.at(-1) ?? "";
    return el("article", {}, el("h3", {}, "Or save what can be saved"), el("p", { class: "big" }, el("b", {}, counts)),
        el("ul", { class: "dropped" }, saved.lines.slice(0, -1).map((line) => el("li", {}, line))),
        saved.book ? lacks(saved.book) : "",
        el("p", { class: "aid" }, saved.book ? button("Open the saved book in Book",
            () => replaceDraft(linesFrom({ lines: null, bytes: saved.book }), item.name)) : "", save, list));
}

export function check(item) {
    now.checked = item;
    drawCheck();
}

export function drawCheck() {
    const item = now.checked ?? (now.read.rows.length > 0 ? draftItem() : null);
    byId("check-name").textContent = item ? item.name : "No book";
    byId("check-parts").replaceChildren(...(item ? [left(item), ...(item.state === "refused" ? [right(item)] : [])] : []));
}

export function checkView() {
    onDraw(() => { if (location.hash === "#check") { drawCheck(); } });
    return el("section", { class: "view pad scroll", id: "view-check", "aria-label": "Check" },
        el("p", { class: "lead" }, "Is a book right? If not: which record is wrong, why, and what can be saved."),
        el("div", { class: "tools" }, el("h2", { id: "check-name" }),
            button("Check another book", async () => { const [item] = await readFiles(await chosenFiles(false)); if (item) { check(item); } })),
        el("div", { class: "halves", id: "check-parts" }));
}
