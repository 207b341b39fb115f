// Tests of the modules that need no browser: node web/test/pure.mjs [FOLDER], where FOLDER is web/ or a copy with one place changed.
import assert from "node:assert/strict";
import { readFileSync } from "node:fs";
import { dirname, join, resolve } from "node:path";
import { fileURLToPath, pathToFileURL } from "node:url";

const here = dirname(fileURLToPath(import.meta.url));
const web = resolve(process.argv[2] ?? join(here, ".."));
const load = (name) => import(pathToFileURL(join(web, name)));
const typed = await load("typed.js");
const { kindsOf } = await load("kinds.js");
const draft = await load("draft.js");
const { saidOf, fieldOf, besideOf } = await load("said.js");
const { comparedOf } = await load("comparison.js");
const holos = await load("holos.js");

const kinds = kindsOf(readFileSync(join(here, "../../crates/kinds_main/stdout"), "utf8"));
const cattle = ["enteric", "cattle", "grazing"];
const places = { begin: "farm", heading: "heading", close: "close", own: ["energy", "soil", "tillage"],
    classes: new Map([["milking", cattle], ["dry", cattle], ["heifer", cattle], ["pig", ["pig"]]]) };

// A part as per cent, as the tables have it whose fields are in per cent: 0.175 is 17.5.
const perCent = (part) => {
    const [, digits] = part.split(".");
    return `${Number(digits.slice(0, 2).padEnd(2, "0"))}${digits.length > 2 ? `.${digits.slice(2)}` : ""}`;
};

const put = (lines, line, chosen) => {
    const out = [...lines];
    out.splice(draft.placeOf(lines, line, chosen, kinds, places), 0, line);
    return out;
};

const tests = {
    "a comma between digits is a point, in one field alone"() {
        assert.equal(typed.wordOf(" 6,5 "), "6.5");
        assert.equal(typed.wordOf("1,234,5"), "1,234,5");
        assert.equal(typed.wordOf("48,200.5"), "48,200.5");
        assert.equal(typed.wordOf("hay"), "hay");
    },
    "a field is one word"() {
        assert.equal(typed.wordOf("3 4"), "3_4");
        assert.equal(typed.wordOf("3#4"), "3_4");
    },
    "a kind by name, in capitals, by number"() {
        assert.equal(typed.kindOf("Enteric 31 300 6.5", kinds), "enteric");
        assert.equal(typed.kindOf("\ufefffarm 7 2010 1", kinds), "farm");
        assert.equal(typed.kindOf("10 ontario cows 650 30", kinds), "grazing");
        assert.equal(typed.kindOf("headng 2 dry 14", kinds), "");
        assert.equal(typed.kindOf("# heading 2", kinds), "");
    },
    "one row of a table"() {
        const text = "record,first,typed,co2e\r\n0,0,farm 7 2010 1,\r\n,,,5\r\n1,11,close 1,7\r\n";
        const cells = ({ record, first, typed: line, co2e }) => [record, first, line, co2e];
        assert.deepEqual(cells(typed.rowWith(text, 0)), ["0", "0", "farm 7 2010 1", ""]);
        assert.deepEqual(cells(typed.rowWith(text, 1)), ["1", "11", "close 1", "7"]);
        assert.deepEqual(typed.rowsOf(text).map(cells), [["0", "0", "farm 7 2010 1", ""], ["", "", "", "5"], ["1", "11", "close 1", "7"]]);
        assert.equal(typed.rowWith(text, 2), null);
    },
    "a detail goes in as the last one under its heading"() {
        const lines = ["farm 7 2010 1", "heading 12 milking 40", "enteric 31 300 6.5", "", "heading 20 dry 9", "energy 1 12.5 70000"];
        assert.deepEqual(put(lines, "enteric 28 300 6.5", 1)[3], "enteric 28 300 6.5");
        assert.deepEqual(put(lines, "enteric 28 200 6.5", 4)[6], "enteric 28 200 6.5");
        assert.equal(draft.placeOf(lines, "enteric 28 200 6.5", null, kinds, places), null);
    },
    "a heading that was not written ends the group before it"() {
        const lines = ["farm 7 2010 1", "heading 12 milking 40", "heading 12 dry 9", "enteric 31 300 6.5"];
        assert.equal(draft.placeOf(lines, "enteric 28 300 6.5", 1, kinds, places), 2);
    },
    "a heading goes in at its place by number, before the farm's own records"() {
        const lines = ["farm 7 2010 1", "heading 12 milking 40", "enteric 31 300 6.5", "heading 30 dry 9", "energy 1 12.5 70000", "soil 3"];
        assert.equal(draft.placeOf(lines, "heading 20 dry 9", null, kinds, places), 3);
        assert.equal(draft.placeOf(lines, "heading 5 dry 9", null, kinds, places), 1);
        assert.equal(draft.placeOf(lines, "heading 31 dry 9", null, kinds, places), 4);
        assert.equal(draft.placeOf(lines, "heading 9 dry 9", null, kinds, places), 1);
    },
    "the farm's own records go in after all groups, before a close"() {
        const lines = ["farm 7 2010 1", "heading 12 milking 40", "enteric 31 300 6.5", "# the end", "close"];
        assert.equal(draft.placeOf(lines, "energy 1 12.5 70000", 1, kinds, places), 3);
        assert.equal(draft.placeOf(lines.slice(0, 3), "energy 1 12.5 70000", 1, kinds, places), 3);
    },
    "undo gives each change back, and a refused heading first"() {
        const first = draft.changed(draft.emptyDraft(), 0, 0, ["farm 7 2010 1"], "record 0 added");
        const second = draft.changed(first, 1, 0, ["heading 12 milking 40"], "record 1 added");
        const third = draft.changed(second, 1, 1, ["heading 12 dry 40"], "record 1 corrected");
        const held = draft.begun(third, "heading 12 pig 3");
        assert.equal(draft.undoes(held), "the refused heading");
        assert.deepEqual(draft.savedLines(held, kinds, places), ["farm 7 2010 1", "heading 12 dry 40", "heading 12 pig 3"]);
        assert.deepEqual(draft.undone(held).lines, third.lines);
        assert.deepEqual(draft.undone(third).lines, second.lines);
        assert.deepEqual(draft.undone(draft.undone(third)).lines, first.lines);
        assert.deepEqual(draft.undone(draft.undone(draft.undone(third))).lines, []);
        assert.deepEqual(draft.draftOf(JSON.parse(JSON.stringify(held))), held);
        assert.equal(draft.draftOf({ lines: [1] }), null);
    },
    "a group goes with its details; the farm's own records stay"() {
        const lines = ["farm 7 2010 1", "heading 12 milking 40", "enteric 31 300 6.5", "energy 1 12.5 70000", "heading 20 dry 9"];
        assert.deepEqual(draft.linesOfGroup(lines, 1, kinds, places), { from: 1, to: 4, stay: ["energy 1 12.5 70000"] });
    },
    "the writer's words: where they belong"() {
        const said = saidOf(readFileSync(join(here, "../../samples/mistakes.said"), "utf8"));
        assert.equal(said.messages.length, 20);
        assert.deepEqual(said.messages.find(({ to }) => to === 20), { line: "19", from: 18, to: 20,
            words: "without heading: line 18, which may have been a heading, was not read" });
        assert.equal(said.unusual.length, 1);
        assert.deepEqual(said.groups.map(({ number, days }) => [number, days.map((part) => part.short)]),
            [["1", [true, false]], ["2", [false]], ["4", []]]);
        assert.deepEqual(said.verdict, { closed: false, count: "10", written: 10, failed: 20, unusual: 1,
            lost: "10 refused, 6 not read, 4 without heading" });
        const form = (name) => kinds.get(name).forms[0];
        assert.equal(fieldOf('refused 7 field 2: GE: "34000" is out of its range', form("enteric")), 1);
        assert.equal(fieldOf('not read: cattle, milk protein: "x" is no number', form("cattle")), 4);
        assert.equal(fieldOf("unusual: cattle, milk 90.00 kg: usual for milking is 3.00 to 70.00", form("cattle")), 3);
        assert.equal(fieldOf("unusual: cattle, milk protein 9.00 per cent: usual is 2.00 to 5.00", form("cattle")), 4);
        assert.equal(fieldOf("refused 9: days: 59 and 350 make 409, and 366 are the most", form("enteric")), 0);
        assert.equal(fieldOf("refused 10: the three shares must make 100.00 per cent: together 90.00", form("cattle")), 8);
        assert.equal(fieldOf("refused 8: the group number must be above that of the heading before", form("heading")), 0);
        assert.equal(fieldOf("refused 11: more nitrogen in milk and gain than in the feed", form("cattle")), -1);
        assert.equal(besideOf('refused 7 field 2: GE: "34000" is out of its range'), '"34000" is out of its range');
    },
    "what compare prints"() {
        const text = "old: accepted\nnew: accepted\ngroup 12:\nrecord 2, enteric: GE 300.00 MJ, now 300.01\n"
            + "  CH4 434.501 kg, now 434.516, +0.015\nsubtotal:\n"
            + "  CH4 826.954 kg, now 826.969, +0.015\ntotal:\n  CO2e 18241.034 kg, now 18241.349, +0.315\nall else is the same\n";
        const { parts, words } = comparedOf(text, kinds);
        assert.deepEqual(words, ["all else is the same"]);
        assert.deepEqual(parts.map(({ section, title }) => [section, title]),
            [["group 12", "record 2, enteric"], ["group 12", "subtotal"], ["the farm", "total"]]);
        assert.deepEqual(parts[0].rows, [{ name: "GE", unit: "MJ", old: "300.00", now: "300.01", difference: "" },
            { name: "CH4", unit: "kg", old: "434.501", now: "434.516", difference: "+0.015" }]);
        const added = comparedOf("old: accepted\nnew: accepted\ngroup 9, added:\nnew record 3, heading: group 9; class dry; head 4\n"
            + "subtotal, only in new:\n  CH4 1.000 kg\n", kinds);
        assert.deepEqual(added.parts[0].rows[2], { name: "head", unit: "", old: "", now: "4", difference: "" });
        assert.deepEqual(added.parts[1].rows[0], { name: "CH4", unit: "kg", old: "", now: "1.000", difference: "" });
    },
    "the tables have what the document's rows have"() {
        const rows = readFileSync(join(here, "tables.tsv"), "utf8").split("\n").filter((row) => row && !row.startsWith("#"))
            .map((row) => row.split("\t"));
        const tables = Object.fromEntries(["14", "19", "20", "21", "22", "23", "24"]
            .map((number) => [`a4-${number}`, JSON.parse(readFileSync(join(web, `tables/a4-${number}.json`), "utf8"))]));
        let numbers = 0;
        for (const [table, row, ...values] of rows) {
            const { classes, diets, handlings } = tables[table];
            const [handling, provinces] = row.split(" / ");
            const found = classes?.[row] ?? (provinces ? handlings[handling][provinces] : Object.values((diets ?? handlings)[row]));
            assert.deepEqual(found, tables[table].unit === "per cent" ? values.map(perCent) : values, `${table} ${row}`);
            numbers += values.length;
        }
        assert.equal(numbers, 150 + 4 + 6 + 30 + 70);
        const chosen = { "pig class": "Finisher", province: "ON", diet: "Reduced protein diet", handling: "Liquid/slurry, with natural crust cover",
            season: "fall" };
        assert.deepEqual(holos.pigValues(tables, chosen).values, { feed: "2.80", "VS excretion": "0.1034", "VS factor": "0.99", "N factor": "0.70",
            MCF: "0.210",
            protein: "13.5", "direct EF": "0.005", "volatilised part": "0.48", "volatilised EF": "0.01", "leached part": "0",
                "leached EF": "0.0075" });
        const pit = holos.pigValues(tables, { ...chosen, handling: "Deep pit under barn" });
        assert.deepEqual([pit.values.MCF, pit.notes.length, pit.from.includes("A4-23")], ["0.351", 1, false]);
        const none = holos.pigValues(tables, { ...chosen, province: "NB", handling: "Liquid/slurry, without natural crust cover",
            season: "spring & fall" });
        assert.deepEqual([none.values.MCF, none.notes.length], ["", 1]);
        assert.deepEqual(holos.dietValues(tables, "Dairy dry diet"), { protein: "12", Ym: "6.5" });
    },
};

let failed = 0;
for (const [name, test] of Object.entries(tests)) {
    try {
        test();
    } catch (error) {
        failed += 1;
        process.stdout.write(`failed: ${name}: ${error.message.split("\n").slice(0, 12).join(" | ")}\n`);
    }
}
process.stdout.write(`pure: ${Object.keys(tests).length - failed} passed, ${failed} failed\n`);
process.exitCode = failed === 0 ? 0 : 1;
