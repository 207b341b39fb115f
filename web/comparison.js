// What the proved program compare prints, taken apart into rows for a table. A line that is not known here stands as it is.

const SECTION = /^(before the groups|group \d+)(?:, (removed|added))?:$/;
const RECORD = /^(?:(old|new) )?record (\d+)(?:, now (\d+))?, (\w+): (.*)$/;
const SUM = /^(subtotal|total)(?:, only in (old|new))?:$/;
const FIGURE = /^ {2}(.+?) (-?[\d.]+) kg(?:, now (-?[\d.]+), ([+-][\d.]+))?$/;

// `GE 300.00 MJ, now 300.01`: the label as kinds has it, the values, the unit.
function valueOf(words, fields) {
    const [left, after = ""] = words.split(", now ");
    const field = fields.filter(({ label }) => left.startsWith(`${label} `)).sort((a, b) => b.label.length - a.label.length)[0];
    if (!field) {
        return { name: words, unit: "", old: "", now: "", difference: "" };
    }
    const value = left.slice(field.label.length + 1);
    const before = field.unit && value.endsWith(` ${field.unit}`) ? value.slice(0, -field.unit.length - 1) : value;
    return { name: field.label, unit: field.unit, old: before, now: after, difference: "" };
}

// A record, subtotal or total only one book has stands in that book's column.
function sided(row, side) {
    return side === "new" ? { ...row, old: "", now: row.old } : row;
}

// heads: the two books' own lines; parts: {section, title, side, rows}; words: all other lines, the last of which is the verdict.
export function comparedOf(text, kinds) {
    const compared = { heads: [], parts: [], words: [] };
    let section = "";
    for (const line of text.split("\n").filter(Boolean)) {
        const sum = SUM.exec(line);
        const record = RECORD.exec(line);
        const figure = FIGURE.exec(line);
        const part = compared.parts.at(-1);
        if (/^(old|new): /.test(line)) {
            compared.heads.push(line);
        } else if (SECTION.test(line)) {
            section = line.slice(0, -1);
        } else if (sum) {
            compared.parts.push({ section: sum[1] === "total" ? "the farm" : section, title: sum[1], side: sum[2] ?? "", rows: [] });
        } else if (record) {
            const [, side = "", old, after, kind, values] = record;
            const fields = (kinds.get(kind)?.forms ?? []).flatMap((form) => form.fields);
            const title = after ? `record ${old}, now ${after}, ${kind}` : `record ${old}, ${kind}`;
            compared.parts.push({ section, title, side, rows: values.split("; ").map((each) => sided(valueOf(each, fields), side)) });
        } else if (figure && part) {
            const [, name, old, after = "", difference = ""] = figure;
            part.rows.push(sided({ name, unit: "kg", old, now: after, difference }, part.side));
        } else {
            compared.words.push({ section, line });
        }
    }
    // The verdict stands last, and belongs to no section.
    compared.words = compared.words.map((each, at, all) => (each.section && at < all.length - 1 ? `${each.section}: ${each.line}` : each.line));
    return compared;
}
