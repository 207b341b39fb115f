// What a correction changes, as the proved program compare prints it of the two books, each closed for the trial; and the same as a table.
import { el, gases } from "./dom.js";
import { comparedOf } from "./comparison.js";
import { table, triedClosed } from "./judge.js";
import { decoded, isPrepared, proved } from "./proved.js";
import { now } from "./state.js";

export function rowsOfParts(parts) {
    return parts.flatMap(({ section, title, side, rows }) => rows.map((row, at) => el("tr", { class: at === 0 ? "top1" : "" },
        el("th", { scope: "row" }, at === 0 ? [el("b", {}, title), el("small", {}, ` ${section}${side ? `, only in the ${side} book` : ""}`)] : ""),
        el("td", {}, gases(row.unit ? `${row.name}, ${row.unit}` : row.name)),
        el("td", {}, row.old), el("td", {}, row.now), el("td", {}, row.difference))));
}

export function effectOf(book) {
    if (!isPrepared("compare")) {
        return [];
    }
    const { output } = proved("compare", now.read.trial, triedClosed(book));
    const { parts, words } = comparedOf(decoded(output), table.kinds);
    if (parts.length === 0) {
        return words.at(-1)?.includes("differs") ? [el("p", { class: "soft" }, "Nothing is changed yet.")] : [];
    }
    const head = ["What", "", "was", "will be", "difference"].map((word) => el("th", { scope: "col" }, word));
    return [el("h3", {}, "What the correction changes"), el("table", { class: "eff" }, el("thead", {}, el("tr", {}, head)),
        el("tbody", {}, rowsOfParts(parts)))];
}
