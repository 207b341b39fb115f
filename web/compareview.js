// The Compare view: two books, and what the proved program compare prints of them.
import { button, byId, el, give, icon, saving } from "./dom.js";
import { comparedOf } from "./comparison.js";
import { rowsOfParts } from "./effect.js";
import { readFiles } from "./files.js";
import { table } from "./judge.js";
import { draftItem } from "./opening.js";
import { decoded, prepared, proved } from "./proved.js";
import { now } from "./state.js";

const sides = { old: null, new: null };

function told(item) {
    if (!item.bytes) {
        return `${item.name}: ${item.words}`;
    }
    return `${item.name}: ${item.why.people}${item.state === "refused" ? "; compared up to there" : ""}`;
}

async function pick(side, list) {
    await prepared("why", "salvage", "retype", "compare");
    const [item] = await readFiles(list);
    if (item) {
        set(side, item);
    }
}

function set(side, item) {
    sides[side] = item;
    byId(`${side}-told`).textContent = told(item);
    drawCompared();
}

function drawCompared() {
    const { old, new: after } = sides;
    if (!old?.bytes || !after?.bytes) {
        byId("compared").replaceChildren(el("p", { class: "soft" },
            "Choose two books. What differs is shown here; what is not shown is the same in both, to the gram."));
        return;
    }
    const { output, remarks } = proved("compare", old.bytes, after.bytes);
    const text = decoded(output);
    const { heads, parts, words } = comparedOf(text, table.kinds);
    const link = saving("Save this comparison");
    give(link, "comparison.txt", output, "text/plain");
    const columns = ["What differs", "", "Old", "New", "Difference"].map((word) => el("th", { scope: "col" }, word));
    // "all else is the same" is said after what differs; where nothing does, the verdict is all there is.
    const verdict = el("p", { class: "big" }, el("b", {}, words.at(-1) ?? ""));
    const differs = parts.length > 0 || words.length > 1;
    byId("compared").replaceChildren(
        ...(differs ? [] : [verdict]),
        ...heads.filter((line) => !line.endsWith(": accepted")).map((line) => el("p", { class: "note" }, icon("open"), ` ${line}`)),
        ...words.slice(0, -1).map((line) => el("p", { class: "said" }, line)),
        ...(parts.length > 0 ? [el("table", { class: "diff" }, el("thead", {}, el("tr", {}, columns)), el("tbody", {}, rowsOfParts(parts)))] : []),
        ...(differs ? [verdict] : []),
        el("p", { class: "soft" }, remarks), el("p", { class: "aid" }, link),
        el("details", {}, el("summary", {}, "As the program prints it"), el("pre", { class: "mono" }, text)));
}

function side(name, label) {
    return el("div", { class: "side" }, el("label", { for: `${name}-file` }, label),
        el("input", { type: "file", id: `${name}-file`, "aria-describedby": `${name}-told`, onchange: (event) => pick(name, event.target.files) }),
        button("Take the draft", () => { if (now.read.rows.length > 0) { set(name, draftItem()); } },
            { "aria-label": `Take the draft as the ${name} one` }),
        el("small", { id: `${name}-told` }, "no book chosen"));
}

export function dropOnCompare(list) {
    return pick(sides.old ? "new" : "old", list);
}

export function compareView() {
    return el("section", { class: "view pad scroll", id: "view-compare", "aria-label": "Compare" },
        el("p", { class: "lead" }, "What did a correction touch? Choose the old book and the new one."),
        el("div", { class: "pick" }, side("old", "Old"), side("new", "New")),
        el("div", { id: "compared", "aria-live": "polite" }, el("p", { class: "soft" },
            "What differs is shown here; what is not shown is the same in both, to the gram.")));
}
