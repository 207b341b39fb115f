// The proved programs. Each stands in the page deflated and as base64, is compiled once and run on whole inputs; nothing is decided here.
import { run } from "../ports/programs.mjs";

const compiled = new Map();
const encoder = new TextEncoder();
const decoder = new TextDecoder();

export const encoded = (text) => encoder.encode(text);
export const decoded = (bytes) => decoder.decode(bytes);

async function compile(name) {
    const base64 = document.getElementById(`program-${name}`).textContent;
    const small = new Blob([Uint8Array.from(atob(base64), (each) => each.charCodeAt(0))]);
    const bytes = await new Response(small.stream().pipeThrough(new DecompressionStream("deflate-raw"))).arrayBuffer();
    compiled.set(name, await WebAssembly.compile(bytes));
}

const waiting = new Map();

export function prepared(...names) {
    return Promise.all(names.map((name) => {
        if (!waiting.has(name)) {
            waiting.set(name, compile(name));
        }
        return waiting.get(name);
    }));
}

export const isPrepared = (name) => compiled.has(name);

// A program's output as bytes, its words as text, its status. Its module has to be prepared.
export function proved(name, input, more) {
    const { output, remarks, status } = run(compiled.get(name), input, more);
    return { output, remarks: decoded(remarks), status };
}
