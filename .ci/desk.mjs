// .ci/desk.mjs BOOKS: the herd desk in WebAssembly on the second program's books (`second desk`): each whole by herd_desk, between guard bytes as
// host/host.c has it, then in parts of 1 to 97 bytes by herd_call on an image. Numbers, lines and untouched bytes are to be those of the books' file.
import { readFileSync } from "node:fs";
import { open } from "../ports/desk.mjs";

const FILL = 0xa5, GUARD = 64, FULL = 16, MORE = 17;
const module = new WebAssembly.Module(readFileSync(new URL("../target/wasm32/desk.wasm", import.meta.url)));
const { memory, herd_desk } = new WebAssembly.Instance(module, {}).exports;
const base = memory.buffer.byteLength;
memory.grow(32);

function fail(line, words) {
    console.error(`.ci/desk.mjs: line ${line}: ${words}`);
    process.exit(1);
}

const bytesOf = (hex) => (hex === "-" ? Buffer.alloc(0) : Buffer.from(hex, "hex"));

// All that stands in the memory after the call is fixed: the guards, the book, the lines and the bytes past them.
function whole(line, book, room, number, lines) {
    const all = new Uint8Array(memory.buffer, base, book.length + room + 3 * GUARD).fill(FILL);
    all.set(book, GUARD);
    const wanted = all.slice();
    const linesAt = book.length + 2 * GUARD;
    wanted.set(lines, linesAt);
    if (herd_desk(base + GUARD, BigInt(book.length), base + linesAt, BigInt(room)) !== number) {
        fail(line, "herd_desk gives another number");
    }
    if (Buffer.compare(all, wanted) !== 0) {
        fail(line, "herd_desk gives other lines, or touches other bytes");
    }
}

// Parts go on until an answer is neither Full nor More, with room enough: then the lines are those of the whole book.
function dealt(line, desk, book, size, number, lines) {
    let image = desk.start(), at = 0, code = MORE;
    const got = [];
    while (at < book.length && (code === MORE || code === FULL)) {
        const answer = desk.call(image, book.subarray(at, at + size), 4096);
        ({ code, image } = answer);
        at += answer.taken;
        got.push(answer.lines);
    }
    const left = code === 0 && at < book.length ? 18 : code;
    if (left !== Number(number >> 32n) || Buffer.compare(Buffer.concat(got), lines) !== 0) {
        fail(line, `in parts of ${size} bytes herd_call gives another code or other lines`);
    }
}

const desk = open(module);
let calls = 0, inParts = 0;
for (const text of readFileSync(process.argv[2], "latin1").trimEnd().split("\n")) {
    const [book, room, number, lines] = text.split(" ");
    const wanted = BigInt(`0x${number}`);
    calls += 1;
    whole(calls, bytesOf(book), parseInt(room, 16), wanted, bytesOf(lines));
    if (Number(wanted >> 32n) !== FULL) {
        dealt(calls, desk, bytesOf(book), 1 + (calls % 97), wanted, bytesOf(lines));
        inParts += 1;
    }
}
console.log(`ports: the herd desk in WebAssembly: ${calls} books whole and ${inParts} in parts, no differences`);
