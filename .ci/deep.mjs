// .ci/deep.mjs STACK NAME INPUT [MORE]: a program in WebAssembly, as ports/run has it, over a painted stack. How deep it went is printed last, on
// descriptor 3: `NAME BYTES`. The stack is the memory's first STACK bytes and is used from its end down.
import { readFileSync, writeSync } from "node:fs";
import { prepare, statusOf } from "../ports/programs.mjs";

const PAINT = 0xa5;
const [stack, name, ...files] = process.argv.slice(2);
const module = new WebAssembly.Module(readFileSync(new URL(`../target/wasm32/${name}.wasm`, import.meta.url)));
const { instance, written } = prepare(module, ...files.map((file) => readFileSync(file)));
new Uint8Array(instance.exports.memory.buffer, 0, Number(stack)).fill(PAINT);
instance.exports.main();
const used = new Uint8Array(instance.exports.memory.buffer, 0, Number(stack)).findIndex((byte) => byte !== PAINT);
process.exitCode = statusOf(written(3));
process.stdout.write(written(1));
process.stderr.write(written(2));
writeSync(3, `${name} ${Number(stack) - used}\n`);
