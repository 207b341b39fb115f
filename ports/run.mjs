// Called by ports/run: NAME FILE|-, or compare OLD NEW. A wrong argument is status 2, a program that did not come to its end 1.
import { readFileSync } from "node:fs";
import { run } from "./programs.mjs";

function stop(status, words) {
    process.stderr.write(`ports/run: ${words}\n`);
    process.exit(status);
}

function bytesOf(file) {
    try {
        return readFileSync(file === "-" ? 0 : file);
    } catch (error) {
        return stop(file === "-" ? 1 : 2, `${file === "-" ? "standard input" : file} can't be read: ${error.message}`);
    }
}

function moduleOf(name) {
    const file = new URL(`../target/wasm32/${name}.wasm`, import.meta.url);
    try {
        return new WebAssembly.Module(readFileSync(file));
    } catch (error) {
        return stop(1, `${name} is not there: ports/make wasm32 ${name} makes it (${error.message})`);
    }
}

function ran(name, files) {
    const module = moduleOf(name);
    const inputs = files.map(bytesOf);
    try {
        return run(module, ...inputs);
    } catch (error) {
        return stop(1, `${name} did not come to its end: ${error.name}: ${error.message}`);
    }
}

const [name, ...files] = process.argv.slice(2);
if (name === undefined || files.length !== (name === "compare" ? 2 : 1)) {
    stop(2, "usage: ports/run NAME FILE|-, or ports/run compare OLD NEW");
}
const { output, remarks, status } = ran(name, files);
process.exitCode = status ?? 0;
process.stdout.on("error", (error) => stop(1, `standard output: ${error.message}`));
process.stdout.write(output);
process.stderr.write(remarks);
