// bench/ports.mjs BOOK ROUNDS: the nanoseconds of the best of so many calls of herd_desk in WebAssembly on a book, with a line buffer of 256 KB.
import { readFileSync } from "node:fs";

const LARGE = 1 << 18, PAGE = 65536;
const [file, rounds] = process.argv.slice(2);
const book = readFileSync(file);
const module = new WebAssembly.Module(readFileSync(new URL("../target/wasm32/desk.wasm", import.meta.url)));
const { memory, herd_desk } = new WebAssembly.Instance(module, {}).exports;
const at = memory.buffer.byteLength;
memory.grow((2 * LARGE) / PAGE);
new Uint8Array(memory.buffer).set(book, at);
let best = Infinity;
for (let i = 0; i < Number(rounds); i++) {
    const before = process.hrtime.bigint();
    const number = herd_desk(at, BigInt(book.length), at + LARGE, BigInt(LARGE));
    best = Math.min(best, Number(process.hrtime.bigint() - before));
    if (number >> 32n !== 0n) {
        throw new Error("the book is not closed");
    }
}
console.log(best);
