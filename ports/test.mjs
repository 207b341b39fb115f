// ports/test.mjs FOLDER: ports/programs.mjs with the C programs of ports/test, each of which does what it is called by.
import assert from "node:assert/strict";
import { readFileSync } from "node:fs";
import { run } from "./programs.mjs";

const folder = process.argv[2];
const none = new Uint8Array(0);
const bytes = (text) => new TextEncoder().encode(text);
const moduleOf = (name) => new WebAssembly.Module(readFileSync(`${folder}/${name}.wasm`));
const ran = (name, ...inputs) => run(moduleOf(name), ...inputs);
let cases = 0;

function gives(name, inputs, output, remarks, status) {
    cases += 1;
    assert.deepEqual(ran(name, ...inputs), { output: bytes(output), remarks: bytes(remarks), status }, name);
}

function throws(name, inputs, error, words) {
    cases += 1;
    const isWanted = (thrown) => thrown.name === error && thrown.message.includes(words);
    assert.throws(() => ran(name, ...inputs), isWanted, `${name} throws ${error}: ${words}`);
}

gives("echo", [none], "", "", 0);
gives("echo", [bytes("x".repeat(2_500_000))], "x".repeat(2_500_000), "", 0);
gives("both", [bytes("old"), bytes("new")], "new", "old", 1);
gives("silent", [none], "x", "", null);
const counts = moduleOf("counts");
for (let i = 0; i < 2; i++) {
    cases += 1;
    assert.deepEqual(run(counts, none).output, bytes("1"), "each run has an instance of its own");
}
gives("status_2", [none], "", "", 1);
for (const name of ["no_status", "status_3", "two_bytes"]) {
    throws(name, [none], "NoStatus", "without its status");
}
throws("trap", [none], "ProgramTrapped", "unreachable");
throws("zero", [none], "ProgramTrapped", "zero");
gives("opened", [none, bytes("new")], "new", "", 0);
throws("opened", [none], "NotProvided", "the file /dev/fd/5");
throws("file", [none, none], "NotProvided", "the file /dev/fd/51");
gives("words", [none], "statusprogram", "", 0);
gives("no_word", [none], "statu", "", 0);
gives("errno", [none], "4", "", 0);
throws("message", [none], "NotProvided", "__xpg_strerror_r");
cases += 1;
assert.deepEqual(ran("yes", none).output, Uint8Array.of(255, 255), "whatever is asked of the processor is there");
throws("both", [none], "NotProvided", "descriptor 5");
throws("sixth", [none], "NotProvided", "descriptor 6");
throws("fourth", [none], "NotProvided", "descriptor 4");
for (const name of ["array", "into", "calls", "engine"]) {
    throws(name, [bytes("abcdef")], "StackExhausted", "ran out of stack");
}
throws("echo", ["text"], "TypeError", "Uint8Array");
throws("echo", [undefined], "TypeError", "Uint8Array");
console.log(`ports/test: ${cases} cases of ports/programs.mjs as they should be`);
