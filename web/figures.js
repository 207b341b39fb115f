// Figures of a row that records printed, and the values of a typed line, as people read them. No number is computed or worded here: kilograms are
// what the proved program kilograms prints of a row's grams.
import { el, gases } from "./dom.js";
import { table } from "./judge.js";
import { decoded, encoded, proved } from "./proved.js";
import { linesOf, textOfLines, wordsOf } from "./typed.js";

export const FIGURES = [["ch4", "CH4"], ["n2o", "N2O"], ["co2", "CO2"], ["excreted", "N"], ["land", "land N"], ["grazing", "grazing CO2e"],
    ["co2e", "CO2e"]];

export const COLUMNS = { ch4: "CH4", n2o: "N2O", co2: "CO2", excreted: "excreted N", land: "N for land", grazing: "grazing CO2e", co2e: "CO2e" };

const figuresDrawn = []; // those that wait for their words

// The place of a figure in the page; its words come with the next printFigures.
function kilograms(grams) {
    const place = document.createTextNode("");
    figuresDrawn.push({ grams, place });
    return place;
}

// One run of the program for all figures that were drawn since the last one.
export function printFigures() {
    if (figuresDrawn.length === 0) {
        return;
    }
    const waiting = figuresDrawn.splice(0);
    const printed = linesOf(decoded(proved("kilograms", encoded(textOfLines(waiting.map(({ grams }) => grams)))).output));
    waiting.forEach(({ place }, at) => { place.data = printed[at]; });
}

const isThere = (row, name) => Boolean(row && row[name] && row[name] !== "0");

export const hasFigures = (row) => FIGURES.some(([name]) => isThere(row, name));

// Each figure of a row that is not 0: its name, and its kilograms for one place.
export function figuresOf(row) {
    return FIGURES.filter(([name]) => isThere(row, name)).map(([name, label]) => ({ name, label, kg: kilograms(row[name]) }));
}

export function figureCells(row) {
    const figures = new Map(figuresOf(row).map((figure) => [figure.name, figure]));
    return FIGURES.map(([name], at) => {
        const found = figures.get(name);
        return el("span", { class: `f${at}` }, found ? [el("small", {}, gases(`${found.label} `)), found.kg] : "");
    });
}

export const unitOf = (field) => (field.unit === "per cent" ? "%" : field.unit);

// The form of a typed line: the farm record has two, by how many values it has.
export function formOf(name, words) {
    const forms = table.kinds.get(name)?.forms ?? [];
    return forms.find((form) => form.fields.length === words.length) ?? forms[0];
}

// `31 days · GE 342.00 MJ · Ym 6.50 %`: the label where it is not the unit itself.
export function valuesOf(typed) {
    const [name, ...words] = wordsOf(typed);
    const fields = formOf(name, words)?.fields ?? [];
    return words.map((word, at) => {
        const field = fields[at];
        if (!field || field.choices.length > 0) {
            return word;
        }
        const said = ["days", "head"].includes(field.label) ? `${word} ${field.label}` : `${field.label} ${word} ${unitOf(field)}`.trim();
        return said.replaceAll(" ", "\u00a0");
    }).join(" · ");
}
