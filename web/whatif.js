// The What if view: an estimate of enteric CH4 for a changed ration, as the proved program whatif prints it. It enters no book.
import { button, byId, el, gases, icon } from "./dom.js";
import { groupNow } from "./change.js";
import { lastOf } from "./form.js";
import { encoded, decoded, proved } from "./proved.js";
import { now } from "./state.js";
import { wordOf, wordsOf } from "./typed.js";

// whatif's names, the ends of its sliders and where they stand first. The ends are for the finger alone: the program judges what is typed.
const FIELDS = [["GE", "MJ a head and day", 1, 650, 0.5, "340"], ["Ym", "per cent", 0.5, 20, 0.1, "6.5"], ["head", "animals", 1, 300, 1, "40"],
    ["days", "in the year", 1, 366, 1, "365"]];
const CHANGES = { feed: ["times X", "times", 0.5, 2, 0.01, "0.95"], ym: ["becomes X", "per cent", 0.5, 20, 0.1, "6"],
    head: ["times X", "times", 0.5, 2, 0.01, "0.9"] };

let change = "feed";
const keptSlips = [];

const slipId = (name) => `whatif-${name}`;

function slide(name, help, low, high, step, value) {
    const box = el("input", { id: slipId(name), inputmode: "decimal", value, autocomplete: "off", "aria-describedby": `${slipId(name)}-help` });
    const range = el("input", { type: "range", min: low, max: high, step, value, "aria-label": `${name}, slider` });
    box.addEventListener("input", () => { range.value = wordOf(box.value); estimate(); });
    range.addEventListener("input", () => { box.value = range.value; estimate(); });
    return el("div", { class: "slide" }, el("span", {}, el("label", { for: slipId(name) }, name), el("small", { id: `${slipId(name)}-help` }, help)),
        range, box);
}

function fill(name, value) {
    const box = byId(slipId(name));
    box.value = value;
    box.dispatchEvent(new Event("input"));
}

// The ration of the chosen group, as its heading and its last enteric record have it.
function fromGroup() {
    const group = groupNow();
    const words = wordsOf(lastOf("enteric")?.typed ?? "");
    if (group && words.length > 0) {
        fill("head", group.head);
        ["days", "GE", "Ym"].forEach((name, at) => fill(name, words[at + 1]));
    }
}

export function estimate() {
    const line = [...FIELDS.map(([name]) => name), "X"].map((name) => wordOf(byId(slipId(name)).value) || "_");
    const { output, remarks } = proved("whatif", encoded([...line.slice(0, 4), change, line[4]].join(" ")));
    const [answer, ge, ym, head, days, after, before, difference] = decoded(output).trim().split(" ");
    const [, ...said] = remarks.split("\n").filter(Boolean);
    byId("slip").dataset.printed = decoded(output).trim();
    if (answer !== "0") {
        byId("slip").replaceChildren(...said.slice(0, -1).map((words) => el("p", { class: "bad" }, icon("no"),
            ` ${words.replace(/^line 1: /, "")}`)));
        return;
    }
    const most = difference.startsWith("-") ? before : after; // the end of both bars
    const bar = (name, value) => [el("span", {}, name), el("meter", { min: "0", max: most, value, "aria-label": name }), el("b", {}, value)];
    byId("slip").replaceChildren(el("p", { class: "diffbig" }, difference),
        el("p", { class: "soft" }, "is the difference: after less before"),
        el("div", { class: "vs" }, bar("before", before), bar("after", after)),
        el("p", { class: "soft" }, `After: GE ${ge} MJ, Ym ${ym} %, ${head} head, ${days} days.`),
        el("p", {}, button("Keep this line", () => { keptSlips.push([`${change} ${line[4]}`, after, difference]); drawKept(); })));
}

function drawKept() {
    byId("slips").replaceChildren(el("thead", {}, el("tr", {}, ["Kept to compare", "kg CH4", "difference"]
        .map((word) => el("th", { scope: "col" }, gases(word))))),
        el("tbody", {}, keptSlips.map((slip) => el("tr", {}, slip.map((words) => el("td", {}, words))))));
}

function chooseChange(next) {
    change = next;
    const [, help, low, high, step, value] = CHANGES[next];
    byId("whatif-change").replaceChildren(slide("X", help, low, high, step, value));
    for (const each of byId("whatif-seg").children) {
        each.setAttribute("aria-pressed", String(each.dataset.change === next));
    }
    estimate();
}

export function startWhatif() {
    if (!byId("whatif-change").firstChild) {
        chooseChange("feed");
    }
    byId("whatif-from").textContent = now.chosen === null ? "Take it from the book" : `Take it from group ${now.chosen}`;
    byId("whatif-from").disabled = !groupNow() || !lastOf("enteric");
}

export function whatifView() {
    return el("section", { class: "view pad scroll", id: "view-whatif", "aria-label": "What if" },
        el("p", { class: "note est" }, el("b", {}, "What would a changed ration do? "), "An estimate only. It enters no book and no member's page."),
        el("div", { class: "halves" },
            el("form", { class: "slips", onsubmit: (event) => event.preventDefault() },
                el("div", { class: "tools" }, el("h3", {}, "The ration"), button("Take it from the book", fromGroup, { id: "whatif-from" })),
                FIELDS.map((field) => slide(...field)), el("h3", {}, "The change"),
                el("div", { class: "seg", id: "whatif-seg", role: "group", "aria-label": "What changes" },
                    Object.entries(CHANGES).map(([name, [words]]) => button([el("b", {}, name), " ", el("small", {}, words)],
                        () => chooseChange(name), { "data-change": name }))),
                el("div", { id: "whatif-change" })),
            el("article", {}, el("h3", {}, gases("Enteric methane, kg CH4")), el("div", { id: "slip", "aria-live": "polite" }),
                el("table", { class: "eff kept", id: "slips" }))));
}
