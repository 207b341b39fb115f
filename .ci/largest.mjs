// .ci/largest.mjs FOLDER: the longest inputs that the programs take, and longer ones: books of 4,096 records with the most bytes and with the most
// lines, and one of each kind with long rows, damaged ones at the limit of 131,072 bytes read, a sheet with the most rows. .ci/ports makes texts and
// lines of them by the second program, .ci/sheets sends the books of each kind through a sheet and back.
import { writeFileSync } from "node:fs";

const MOST_RECORDS = 4096, MOST_DAMAGED = 131072, MOST_SHEET = 262144, MOST_DAYS = 366;
const folder = process.argv[2];

const number = (width, value) => Array.from({ length: width }, (_, i) => Math.floor(value / 256 ** (width - 1 - i)) % 256);

function record(kind, ...fields) {
    const body = [1, kind, ...fields.flatMap(([width, value]) => number(width, value))];
    return [...number(2, body.length), ...body];
}

const farm = record(1, [4, 7], [2, 2010], [1, 1]);
const heading = (group, sort = 4) => record(2, [2, group], [1, sort], [2, 20000]);
const close = (records) => record(8, [2, records]);

// Pigs have the longest record. The values change with i, so that hardly two lines are the same.
function pig(i) {
    const highest = [1000, 5000, 2000, 1000, 4000, 2000, 10000, 500, 10000, 500, 10000];
    return record(5, [2, 1], ...highest.map((most, field) => [2, (i * (field + 7)) % (most + 1)]));
}

// A closed book of 4,096 records: pigs from a number on, with a heading where the days under one are used up.
function pigs(from) {
    const records = [farm];
    while (records.length < MOST_RECORDS - 1) {
        const i = records.length - 1;
        records.push(i % (MOST_DAYS + 1) === 0 ? heading(1 + i) : pig(from + i));
    }
    return [...records.flat(), ...close(MOST_RECORDS - 1)];
}

// Each heading gives a subtotal: no book has more lines.
const headings = [...farm, ...Array.from({ length: MOST_RECORDS - 2 }, (_, i) => heading(i + 1)).flat(), ...close(MOST_RECORDS - 1)];

// The details by kind, near their highest values: the class of their group, where they have one, and the fields of the ith.
const details = {
    3: [1, (i) => [[2, MOST_DAYS], [4, 100000 - i], [2, 2000]]],
    4: [1, (i) => [[2, MOST_DAYS], [2, 5000 - (i % 100)], [2, 4000], [2, 0], [2, 0], [2, 0], [2, 9000], [2, 500], [2, 500]]],
    5: [4, (i) => [MOST_DAYS, 1000 - (i % 10), 5000, 2000, 1000, 4000, 2000, 10000, 0, 10000, 500, 10000].map((value) => [2, value])],
    6: [0, (i) => [[1, 1 + (i % 8)], [4, 10000000 - i], [4, 10000000]]],
    7: [0, (i) => [[4, 10000000 - i]]],
    9: [0, (i) => [[1, 1 + (i % 9)], [1, 1 + (i % 3)], [1, 1 + (i % 6)], [2, 1 + (i % 100)], [4, 10000000 - i]]],
    10: [1, (i) => [[1, 1 + (i % 7)], [1, 1 + (i % 3)], [2, 2000 - (i % 100)], [2, 10000]]],
};

// A closed book of 4,096 records of a kind; a kind of a group has a heading before each, with a long number.
function full(kind) {
    const [sort, fields] = details[kind], records = [farm];
    while (records.length < MOST_RECORDS - 1) {
        const i = records.length - 1;
        records.push(sort && i % 2 === 0 ? heading(61000 + i, sort) : record(kind, ...fields(i)));
    }
    return [...records.flat(), ...close(MOST_RECORDS - 1)];
}

// As many records as a damaged book can have: all but the farm record are dropped.
const none = record(99, [2, 0]);
const dropped = [...farm, ...Array.from({ length: Math.floor((MOST_DAMAGED - farm.length) / none.length) }, () => none).flat()];
const filled = (bytes, length) => [...bytes, ...Array.from({ length: length - bytes.length }, (_, i) => none[i % none.length])];

// Slips of each change, some refused, and some lines that are not read.
function slip(i) {
    if (i % 50 === 49) {
        return ["# a comment", "", "x".repeat(2000), "300 6.5 40 365 feed"][Math.floor(i / 50) % 4];
    }
    return `${1 + (i % 1000)} ${i % 11 === 10 ? "6,5" : "6.5"} ${i % 200} 365 ${["feed", "ym", "head"][i % 3]} 1.1`;
}

const row = "3,0,0,0,0,0,0,0,\r\n", head = "kind,group,ch4,n2o,co2,excreted,land,grazing,co2e\r\n";
const files = {
    "longest.book": pigs(0),
    "other.book": pigs(1),
    "headings.book": headings,
    "after.book": [...pigs(0), ...Array(120000).fill(7)],
    "open.book": pigs(0).slice(0, -1),
    "dropped.book": dropped,
    "filled.book": filled(pigs(0).slice(0, -6), MOST_DAMAGED),
    "too-long.book": filled(dropped, MOST_DAMAGED + none.length),
    "rows.csv": Buffer.from(head + row.repeat(Math.floor((MOST_SHEET - head.length) / row.length))),
    "slips.txt": Buffer.from(Array.from({ length: 5000 }, (_, i) => `${slip(i)}\n`).join("")),
};
for (const kind of Object.keys(details)) {
    files[`kind-${kind}.book`] = full(Number(kind));
}
for (const [name, bytes] of Object.entries(files)) {
    writeFileSync(`${folder}/${name}`, Uint8Array.from(bytes));
}
