// .ci/replay.mjs RECORDS NAME...: every run that .ci/recorder kept, once more by the program in WebAssembly. Output, remarks and status are to be the
// same, byte for byte. A program of which no run was kept is a failure too: nothing passes by being left out. Stops at the first difference.
import { existsSync, readdirSync, readFileSync } from "node:fs";
import { run } from "../ports/programs.mjs";

const [records, ...names] = process.argv.slice(2);

function fail(words) {
    console.error(`.ci/replay.mjs: ${words}`);
    process.exit(1);
}

function moduleOf(name) {
    return new WebAssembly.Module(readFileSync(new URL(`../target/wasm32/${name}.wasm`, import.meta.url)));
}

// The number of the first byte that differs, or -1.
function firstDifference(wanted, got) {
    const longest = Math.max(wanted.length, got.length);
    for (let i = 0; i < longest; i++) {
        if (wanted[i] !== got[i]) {
            return i;
        }
    }
    return -1;
}

function compare(what, folder, wanted, got) {
    const at = firstDifference(wanted, got);
    if (at >= 0) {
        const near = (bytes) => JSON.stringify(Buffer.from(bytes).subarray(Math.max(0, at - 40), at + 40).toString("latin1"));
        fail(`${folder}: ${what} differs from byte ${at} on: ${near(wanted)} natively, ${near(got)} in WebAssembly`);
    }
}

function replay(name, module, folder) {
    const file = (part) => readFileSync(`${records}/${folder}/${part}`);
    const more = existsSync(`${records}/${folder}/more`) ? file("more") : undefined;
    let got;
    try {
        got = run(module, file("input"), more);
    } catch (error) {
        fail(`${folder}: ${error.name}: ${error.message}`);
    }
    compare("output", folder, file("output"), got.output);
    compare("what is said", folder, file("remarks"), got.remarks);
    compare("the status", folder, file("status"), Buffer.from(`${got.status}\n`));
}

const folders = readdirSync(records);
const counts = names.map((name) => {
    const module = moduleOf(name);
    const runs = folders.filter((folder) => folder.startsWith(`${name}.`));
    if (runs.length === 0) {
        fail(`no run of ${name} was kept`);
    }
    runs.forEach((folder) => replay(name, module, folder));
    return `${name} ${runs.length}`;
});
console.log(`ports: runs of the comparisons again in WebAssembly, no differences: ${counts.join(", ")}`);
