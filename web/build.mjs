// Writes the one page: node web/build.mjs FILE WASM PROGRAMS [MUTANT]. Every byte of it follows from the files that are read: the same files, the
// same page. Modules are joined in the order of their imports; their import and export words are taken away, so each name has to stand in one module.
import { createHash } from "node:crypto";
import { readFileSync, readdirSync, renameSync, writeFileSync } from "node:fs";
import { dirname, join, relative } from "node:path";
import { fileURLToPath } from "node:url";
import { inflateRawSync } from "node:zlib";
import { deflated } from "./deflate.mjs";

const here = dirname(fileURLToPath(import.meta.url));
const [file, wasm, programsModule, mutant] = process.argv.slice(2);
const IMPORT = /^import \{([^}]*)\} from "(\.[^"]*)";$/gm;
const DECLARED = /^(?:export )?(?:async )?(?:function\*?|const|let|class) (\{[^}]*\}|[A-Za-z0-9_$]+)/gm;

function fail(message) {
    process.stderr.write(`web/build: ${message}\n`);
    process.exit(1);
}

// A mutant changes one place of one file: its first line names the file, then `- ` what stands there and `+ ` what takes its place.
function mutate(name, text) {
    if (!mutant) {
        return text;
    }
    const lines = readFileSync(mutant, "utf8").split("\n");
    if (lines[0] !== name) {
        return text;
    }
    const part = (mark) => lines.filter((line) => line.startsWith(mark)).map((line) => line.slice(2)).join("\n");
    if (text.split(part("- ")).length !== 2) {
        fail(`${mutant}: what it changes stands not once in ${name}`);
    }
    return text.replace(part("- "), () => part("+ "));
}

const read = (name) => mutate(name, readFileSync(join(here, name), "utf8"));

// The modules from app.js on, each after those that it imports.
function modules() {
    const order = [];
    const seen = new Map();
    const visit = (path, from) => {
        if (seen.get(path) === "open") {
            fail(`${from} and ${path} import each other`);
        }
        if (seen.has(path)) {
            return;
        }
        seen.set(path, "open");
        const text = path === "../ports/programs.mjs" ? readFileSync(programsModule, "utf8") : read(path);
        for (const [, , target] of text.matchAll(IMPORT)) {
            visit(relative(here, join(here, dirname(path), target)), path);
        }
        seen.set(path, "done");
        order.push({ path, text });
    };
    visit("app.js", "");
    return order;
}

function namesOf(text) {
    const names = [...text.matchAll(DECLARED)].flatMap(([, name]) => (name.startsWith("{") ? name.slice(1, -1).split(",") : [name]));
    return names.map((name) => name.trim());
}

// One script: a name that two modules declare, or an import that no module exports, ends the build.
function script(order) {
    const owner = new Map();
    for (const { path, text } of order) {
        for (const name of namesOf(text)) {
            if (owner.has(name)) {
                fail(`${name} stands in ${owner.get(name)} and in ${path}`);
            }
            owner.set(name, path);
        }
    }
    for (const { path, text } of order) {
        for (const [, names, target] of text.matchAll(IMPORT)) {
            const from = relative(here, join(here, dirname(path), target));
            for (const name of names.split(",").map((each) => each.trim()).filter(Boolean)) {
                if (owner.get(name) !== from) {
                    fail(`${path} imports ${name}, which ${from} does not have`);
                }
            }
        }
    }
    const bare = order.map(({ path, text }) => `// ${path}\n${text.replace(IMPORT, "").replace(/^export /gm, "")}`);
    const joined = `"use strict";\n${bare.join("\n").replace(/\n{3,}/g, "\n\n")}`;
    if (/^(import|export)\b/m.test(joined) || joined.includes("</script")) {
        fail("a module has an import or export that web/build does not know, or the end of a script");
    }
    return joined;
}

const hash = (text) => `'sha256-${createHash("sha256").update(text).digest("base64")}'`;

// A program as it stands in the page.
function programOf(name) {
    const bytes = readFileSync(join(wasm, `${name}.wasm`));
    const small = Buffer.from(deflated(bytes));
    if (!inflateRawSync(small).equals(bytes)) {
        fail(`${name}.wasm does not come back as it was`);
    }
    return `<script type="text/plain" id="program-${name}">${small.toString("base64")}</script>`;
}

// All programs; of a page that was built before they are taken as they stand there.
function programsOf() {
    if (wasm.endsWith(".html")) {
        return readFileSync(wasm, "utf8").split("\n").filter((line) => line.startsWith('<script type="text/plain" id="program-'));
    }
    return readFileSync(join(here, "programs.txt"), "utf8").replace(/#.*/g, "").split("\n").map((line) => line.trim()).filter(Boolean).map(programOf);
}

function main() {
    const programs = programsOf();
    const tables = readdirSync(join(here, "tables")).sort().map((name) => {
        const text = JSON.stringify(JSON.parse(read(join("tables", name)))).replace(/</g, "\\u003c");
        return `<script type="application/json" id="table-${name.replace(/\.json$/, "")}">${text}</script>`;
    });
    const code = script(modules());
    const policy = `default-src 'none'; script-src ${hash(code)} 'wasm-unsafe-eval'; style-src 'unsafe-inline'; base-uri 'none'; form-action 'none'`;
    const style = readdirSync(here).filter((name) => name.endsWith(".css")).sort().map(read).join("\n");
    const parts = { policy, style, programs: programs.join("\n"), tables: tables.join("\n"), code };
    const page = read("page.html").replace(/\{\{(\w+)\}\}/g, (_, name) => parts[name] ?? fail(`page.html asks for ${name}`));
    writeFileSync(`${file}.${process.pid}`, page); // whole or not there: a desk may be serving it
    renameSync(`${file}.${process.pid}`, file);
    process.stdout.write(`${file}: ${Buffer.byteLength(page)} bytes\n`);
}

main();
