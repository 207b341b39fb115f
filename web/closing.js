// The close: first what each group lacks of the year, in the writer's words; then the closed book.
import { button, byId, el, gases, icon, saving, give } from "./dom.js";
import { added, removed, undo } from "./change.js";
import { undoes } from "./draft.js";
import { COLUMNS, figuresOf } from "./figures.js";
import { fileName, table } from "./judge.js";
import { prepared, proved } from "./proved.js";
import { draw, now } from "./state.js";
import { kindOf } from "./typed.js";

// The kinds of a class that have days: those that the writer counts, of all groups of the book.
function counted() {
    const groups = now.read.said.groups;
    return [...table.places.classes.values()].flat().filter((kind, at, all) => all.indexOf(kind) === at)
        .filter((kind) => table.kinds.get(kind).forms[0].fields[0].label === "days"
            && groups.some(({ class: word }) => table.places.classes.get(word).includes(kind)));
}

function cell(group, kind) {
    if (!table.places.classes.get(group.class).includes(kind)) {
        return el("td");
    }
    const part = group.days.find((each) => each.kind === kind);
    const short = !part || part.short;
    return el("td", { class: short ? "short" : "" }, icon(short ? "odd" : "ok"), ` ${part ? part.words.replace(`${kind} `, "") : "no days"}`);
}

export function drawClose() {
    const { groups, messages } = now.read.said;
    const kinds = counted();
    const rows = groups.map((group) => el("tr", {}, el("th", { scope: "row" }, `Group ${group.number}, ${group.class}`),
        kinds.map((kind) => cell(group, kind))));
    const waits = messages.length > 0 || now.draft.begun !== null;
    const heads = ["", ...kinds].map((word) => el("th", { scope: "col" }, word));
    byId("form").replaceChildren(
        el("div", { class: "scroll" }, el("h2", {}, "Close the book?"),
            groups.length > 0 ? el("table", { class: "eff days" }, el("thead", {}, el("tr", {}, heads)), el("tbody", {}, rows))
                : el("p", {}, "The book has no group."),
            el("div", { id: "lacks" }),
            waits ? el("p", { class: "note wrong" }, icon("no"),
                ` Lines are not in the book: ${now.read.said.verdict.lost}. A book with a failed line is not closed: mend them first.`) : "",
            el("p", { class: "soft" }, "A closed book takes no more records, and has a member's page. “Open again” takes the close away.")),
        el("div", { class: "gives" }, el("div", { id: "remarks", "aria-live": "polite" }), el("div", { class: "buttons" },
            button("Go on entering", () => { now.mode = "record"; draw(); }),
            button("Close the book", closeNow, { class: "main", id: "todo", disabled: waits }))));
    const short = byId("form").querySelectorAll(".short").length > 0;
    byId("lacks").replaceChildren(el("p", { class: short ? "note odd" : "note" }, icon(short ? "odd" : "ok"),
        short ? [el("b", {}, " Unusual: some groups are short of the year."), " The book may be closed so, if the animals were not there."]
            : " Every group has its year."));
}

const closeNow = () => added(now.draft.lines.length, table.places.close, "the close", { mode: "record", fresh: null });

// The closed book: its total, as the proved programs print it, and what to do with it.
export function drawClosed() {
    const { rows, book } = now.read;
    const total = figuresOf(rows.find((row) => row.name === table.places.close));
    const links = [saving("Save the page"), saving("Save the sheet")];
    byId("form").replaceChildren(
        el("div", { class: "scroll" }, el("h2", {}, "The book is closed"),
            el("table", { class: "eff total" }, el("tbody", {}, total.map(({ name, kg }) => el("tr", {},
                el("th", { scope: "row" }, gases(COLUMNS[name])), el("td", {}, kg, " kg"))))),
            el("p", {}, "Save the book for the office. The member's page is ready: see Page."),
            el("div", { class: "aid" }, links, el("a", { class: "button", href: "#page" }, "See the page"))),
        el("div", { class: "gives" }, el("div", { id: "remarks", "aria-live": "polite" }), el("div", { class: "buttons" },
            el("button", { type: "button", id: "undo", onclick: undo, disabled: undoes(now.draft) === null || !now.mine },
                icon("undo"), " Undo", el("small", {}, undoes(now.draft) ?? "nothing yet")),
            button("Open again", openAgain, { class: "main", disabled: !now.mine }))));
    prepared("page", "sheet").then(() => {
        give(links[0], fileName(rows, "html"), proved("page", book).output, "text/html");
        give(links[1], fileName(rows, "csv"), proved("sheet", book).output, "text/csv");
    });
}

function openAgain() {
    const at = now.draft.lines.findLastIndex((line) => kindOf(line, table.kinds) === table.places.close);
    return removed(at, 1, [], "opened again");
}
