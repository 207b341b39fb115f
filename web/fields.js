// A field of a form: its label, its box or its choices, its range and its remark.
import { el, icon } from "./dom.js";
import { unitOf } from "./figures.js";

const FEW = 4; // so many choices are buttons, more a list

// `100 to 650` for the class that is chosen, where kinds prints usual values.
function usualFor(field, classWord) {
    const parts = field.usual.split("|").map((part) => part.split(" "));
    const found = parts.find((part) => part.length === 3 && part[0] === classWord) ?? parts.find((part) => part.length === 2);
    if (!found) {
        return "";
    }
    const [low, high] = found.slice(-2);
    return low === high ? `usual ${low}` : `usual ${low} to ${high}`;
}

function choices(field, id, value) {
    if (field.choices.length <= FEW) {
        return el("span", { class: "few", role: "radiogroup", "aria-labelledby": `${id}-label`, id: `${id}-few` },
            field.choices.map((word, at) => el("label", {}, el("input", {
                type: "radio", name: id, id: at === 0 ? id : `${id}-${at}`, value: word, checked: value === word || value === String(at + 1),
            }), el("span", {}, word))));
    }
    const options = field.choices.map((word, at) => el("option", { value: word, selected: value === word || value === String(at + 1) }, word));
    return el("select", { id, "aria-describedby": `${id}-say` }, el("option", { value: "" }, "choose"), options);
}

function box(field, id, value) {
    const unit = unitOf(field);
    const short = unit.length > 0 && unit.length <= 5;
    const input = el("input", {
        id, value, class: short ? null : "bare", inputmode: "decimal", enterkeyhint: "next", autocomplete: "off",
        "aria-describedby": `${id}-say${short ? ` ${id}-unit` : ""}`,
    });
    return [input, short ? el("i", { id: `${id}-unit` }, unit) : null];
}

// The words beside a field where nothing is wrong with it. The farm number has no end that helps anybody.
export function hintOf(field, classWord, last) {
    const range = field.choices.length > 0 ? "" : `${field.lowest} to ${field.highest}`;
    const unit = unitOf(field).length > 5 ? field.unit : "";
    return [`${range} ${unit}`.trim(), last ? `last ${last}` : usualFor(field, classWord)].filter(Boolean);
}

// dense: many fields, three in a row, the remark below; else the remark beside.
export function fieldRow(field, at, { value, dense, hint }) {
    const id = `field-${at}`;
    const label = el("label", { for: id, id: `${id}-label`, title: field.help }, field.label);
    const [range, ...more] = hint;
    const say = el("div", { class: "say", id: `${id}-say` });
    say.dataset.hint = dense ? more.join(" · ") : hint.join("\n");
    return el("div", { class: field.choices.length > 0 ? "field choice" : "field", id: `${id}-row` },
        el("div", { class: "named" }, label, dense ? el("small", {}, range ?? "") : el("small", {}, field.help)),
        el("span", { class: "box" }, field.choices.length > 0 ? choices(field, id, value) : box(field, id, value)),
        say);
}

// A remark beside its field, or its hint. wrong: a crossed box and a whole edge; unusual: a triangle and a dashed edge.
export function sayAt(at, remark) {
    const row = document.getElementById(`field-${at}-row`);
    const say = document.getElementById(`field-${at}-say`);
    row.classList.toggle("wrong", Boolean(remark?.wrong));
    row.classList.toggle("odd", Boolean(remark) && !remark.wrong);
    document.getElementById(`field-${at}`).setAttribute("aria-invalid", String(Boolean(remark?.wrong)));
    say.replaceChildren(...(remark ? [icon(remark.wrong ? "no" : "odd"), " ", remark.beside]
        : say.dataset.hint.split("\n").flatMap((line, each) => (each === 0 ? [line] : [el("br"), el("i", {}, "· "), line]))));
}

export function valueAt(at) {
    const element = document.getElementById(`field-${at}`);
    if (element.type === "radio") {
        return document.querySelector(`input[name="field-${at}"]:checked`)?.value ?? "";
    }
    return element.value;
}
