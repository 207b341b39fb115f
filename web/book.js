// The Book view: the heading, the records, the form.
import { byId, el } from "./dom.js";
import { drawBand } from "./band.js";
import { drawClose, drawClosed } from "./closing.js";
import { undo } from "./change.js";
import { drawForm, showJudged, submit } from "./form.js";
import { drawLine, showLine, submitLine } from "./lineform.js";
import { drawList } from "./list.js";
import { leaveForm } from "./offers.js";
import { now, onDraw } from "./state.js";

const inFields = () => ["farm", "heading", "record", "correct"].includes(now.mode) && !now.read.closed;

function drawEntry() {
    const form = byId("form");
    form.inert = !now.mine && !now.read.closed;
    if (now.read.closed) {
        drawClosed();
    } else if (now.mode === "close") {
        drawClose();
    } else if (now.mode === "line") {
        drawLine();
    } else {
        drawForm();
    }
}

// What is typed stays in its fields while a change before it is being kept.
function once(action) {
    if (!now.busy && now.mine) {
        action();
    }
}

function submitted(event) {
    event.preventDefault();
    if (inFields()) {
        once(submit);
    } else if (now.mode === "line") {
        once(submitLine);
    }
}

function typedNow() {
    if (inFields()) {
        showJudged();
    } else if (now.mode === "line") {
        showLine();
    }
}

function keyed(event) {
    if (event.key === "Escape" && (now.mode === "correct" || now.mode === "line")) {
        leaveForm();
    } else if (event.key === "z" && (event.ctrlKey || event.metaKey) && !/INPUT|SELECT/.test(event.target.tagName)
        && location.hash.slice(1, 5) !== "what") {
        once(undo);
    }
}

export function bookView() {
    addEventListener("keydown", keyed);
    // The form first: where its field has the focus the browser lays the page out at once, and the list is still as it was.
    onDraw(() => { drawEntry(); drawBand(); drawList(); });
    return el("section", { class: "view", id: "view-book", "aria-label": "Book" },
        el("div", { class: "band", id: "band" }, el("div", {}, el("h2", { id: "heading" }), el("p", { id: "sofar" })),
            el("div", { class: "groups", id: "groups", role: "group", "aria-label": "Group to enter under" })),
        el("div", { class: "body" },
            el("div", { class: "list scroll", tabindex: "-1" },
                el("p", { class: "lead" }, "The book as it is read back, figures in kg. Touch a record to correct it."),
                el("table", { id: "records", role: "table", "aria-label": "Records of the book" })),
            el("form", { class: "form", id: "form", novalidate: true, autocomplete: "off", onsubmit: submitted, oninput: typedNow })));
}
