// A line as it is typed: for who knows the lines by heart, and for a line of an opened text that is not in the book.
import { button, byId, el, icon } from "./dom.js";
import { added, corrected, fits, heldBack, placeNow, removed, tried, undo } from "./change.js";
import { undoes } from "./draft.js";
import { rowOf } from "./evaluate.js";
import { table, written } from "./judge.js";
import { draw, now } from "./state.js";
import { hasWords, kindOf } from "./typed.js";

const mending = () => now.correcting?.at !== undefined;

function judgeLine(line) {
    if (!hasWords(line)) {
        return { line, accepted: false, wrong: [], unusual: [] };
    }
    const at = mending() ? now.correcting.at : placeNow(line) ?? now.draft.lines.length;
    const count = mending() ? 1 : 0;
    const result = written(tried(at, count, line));
    const words = result.said.messages.filter(({ from, to }) => from <= at && at <= to).map((message) => message.words);
    const lost = !mending() && placeNow(line) === null ? ["without heading: begin a group first"] : [];
    const accepted = words.length + lost.length === 0 && fits(result, count);
    const unusual = result.said.unusual.filter(({ from }) => from === at).map((message) => message.words);
    return { at, count, line, result, accepted, wrong: [...words, ...lost], unusual };
}

function show() {
    const judged = judgeLine(byId("line").value);
    const said = [...judged.wrong.map((words) => [words, "no", "bad"]), ...judged.unusual.map((words) => [words, "odd", "unusual"])];
    byId("remarks").replaceChildren(...said.map(([words, sign, look]) => el("p", { class: look }, icon(sign), ` ${words}`)),
        ...(said.length === 0 ? [el("p", { class: "soft" }, judged.accepted ? "The line is right." : "The writer's words are shown here.")] : []));
    byId("line").setAttribute("aria-invalid", String(judged.wrong.length > 0));
    return judged;
}

export const showLine = show;

export function drawLine() {
    const line = mending() ? now.draft.lines[now.correcting.at] : "";
    const leave = () => { now.mode = "record"; now.correcting = null; draw(); };
    byId("form").replaceChildren(
        el("div", { class: "scroll" }, el("h2", {}, mending() ? `Mend line ${now.correcting.line} of the text` : "Type a line"),
            el("div", { class: "field whole" }, el("label", { for: "line" }, "line"),
                el("span", { class: "box" }, el("input", { id: "line", value: line, autocomplete: "off", autocapitalize: "off",
                    spellcheck: "false" }))),
            el("p", { class: "soft" }, "The kind, then its values with blanks between, as in: enteric 31 300 6.5. A comma is no point here."),
            el("div", { class: "aid" }, mending() ? button("Remove this line", () => removed(now.correcting.at, 1, [], "a line removed")) : "",
                button(mending() ? "Leave it as it is" : "Back to the fields", leave))),
        el("div", { class: "gives" }, el("div", { id: "remarks", "aria-live": "polite" }), el("div", { class: "buttons" },
            el("button", { type: "button", id: "undo", onclick: undo, disabled: undoes(now.draft) === null },
                icon("undo"), " Undo", el("small", {}, undoes(now.draft) ?? "nothing yet")),
            el("button", { class: "main", id: "todo" }, mending() ? `Correct line ${now.correcting.line}` : "Add the line"))));
    show();
}

export async function submitLine() {
    const judged = show();
    if (!judged.accepted) {
        if (!mending() && kindOf(judged.line, table.kinds) === table.places.heading) {
            await heldBack(judged.line);
        }
        byId("line")?.focus();
        return;
    }
    const record = rowOf(judged.result, tried(judged.at, judged.count, judged.line), judged.at)?.record ?? null;
    if (judged.count) {
        await corrected(judged.at, judged.line, "a line mended", { mode: "record", fresh: record });
    } else {
        await added(judged.at, judged.line, `record ${record} added`, { mode: "line", fresh: record });
    }
    byId("line")?.focus();
}
