// Holos' values (source document 002, tables A4-14 and A4-19 to A4-24) for the fields of a record. The tables are data (tables/) in the units of the
// fields; a value that a table has is moved into its field, and its table's number goes with it.
const isLiquid = (handling, tables) => handling in tables["a4-23"].handlings;

export const needsSeason = isLiquid;

// The choices of a pig record, with the first of each as it stands.
export function pigChoices(tables) {
    return {
        "pig class": Object.keys(tables["a4-19"].classes),
        province: tables["a4-19"].provinces,
        diet: Object.keys(tables["a4-20"].diets),
        handling: Object.keys(tables["a4-22"].handlings),
        season: tables["a4-23"].seasons,
    };
}

const byProvince = (table, chosen) => table.classes[chosen["pig class"]][table.provinces.indexOf(chosen.province)];

function slurryMcf(table, chosen) {
    const [, row] = Object.entries(table.handlings[chosen.handling]).find(([provinces]) => provinces.split(" ").includes(chosen.province));
    return row[table.seasons.indexOf(chosen.season)];
}

// {values: by the field's label, from: by table, notes}: an empty value where the table has none.
export function pigValues(tables, chosen) {
    const notes = [];
    const handling = tables["a4-22"].handlings[chosen.handling];
    const liquid = isLiquid(chosen.handling, tables);
    const found = liquid ? slurryMcf(tables["a4-23"], chosen) : handling.MCF;
    const other = tables["a4-22"].typed[found];
    if (found === "") {
        notes.push(tables["a4-23"].lacks);
    }
    if (other) {
        notes.push(other.why);
    }
    const values = {
        feed: byProvince(tables["a4-21"], chosen), "VS excretion": byProvince(tables["a4-19"], chosen), ...tables["a4-20"].diets[chosen.diet],
        ...handling, MCF: other ? other.as : found, protein: byProvince(tables["a4-24"], chosen),
    };
    const from = ["A4-19", "A4-20", "A4-21", "A4-22", ...(liquid ? ["A4-23"] : []), "A4-24"];
    return { values, from, notes };
}

// Ym and protein of cattle, by diet.
export const dietValues = (tables, diet) => tables["a4-14"].diets[diet];

export const dietsOf = (tables) => Object.keys(tables["a4-14"].diets);

// The fields' words with the values that the tables have; the others stay.
export function filled(form, words, values) {
    return form.fields.map((field, at) => values[field.label] ?? words[at] ?? "");
}
