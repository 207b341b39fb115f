// Tests of web/delivery.js, which Send is made of: node desk/tests/send.mjs [WEB], where WEB is web/ or a copy with one place changed. A desk in a few
// lines stands in for the real one; answers are lost, it is killed, the book grows and is corrected in between.
import assert from "node:assert/strict";
import { dirname, join, resolve } from "node:path";
import { fileURLToPath, pathToFileURL } from "node:url";

const here = dirname(fileURLToPath(import.meta.url));
const web = resolve(process.argv[2] ?? join(here, "../../web"));
const send = await import(pathToFileURL(join(web, "delivery.js")));

// Numbers that look like chance and are the same in each run.
function chances(seed) {
    let state = seed;
    return (below) => {
        state = (state * 1103515245 + 12345) % 2147483648;
        return Math.floor((state / 2147483648) * below);
    };
}

const bytesOf = (count, seed = 1) => { const next = chances(seed); return Uint8Array.from({ length: count }, () => next(256)); };
const answer = (status, headers = {}, words = "") => ({ status, header: (name) => headers[name] ?? null, words });

// A desk as tus asks for it, by what section 8 says; `fate` says of each request whether it, or its answer, is lost.
class Desk {
    constructor(fate = () => "right") {
        Object.assign(this, { books: new Map(), fate, asked: [], paths: new Set(), taken: 0, state: "closed" });
    }

    async request(method, path, headers, body) {
        const fate = this.fate(this.asked.push(method), method);
        this.paths.add(path);
        if (fate === "lost") {
            throw new TypeError("the network is gone");
        }
        const given = typeof fate === "object" ? fate : this.answer(method, path, headers, body);
        if (fate === "unheard") {
            throw new TypeError("the answer is gone");
        }
        return given;
    }

    answer(method, path, headers, body) {
        if (method === "POST") {
            const url = `/books/${String(this.books.size).padStart(32, "0")}`;
            this.books.set(url, []);
            return answer(201, { Location: url, "Upload-Offset": "0" });
        }
        const book = this.books.get(path.replace(/\/why$/, ""));
        if (!book) {
            return answer(404, {}, "there is no such book");
        }
        return method === "PATCH" ? this.part(book, Number(headers["Upload-Offset"]), body)
            : method === "HEAD" ? answer(200, { "Upload-Offset": String(book.length) })
                : answer(200, {}, path.endsWith("/why") ? "refused 7\nwhy" : JSON.stringify({ state: this.state }));
    }

    part(book, offset, body) {
        if (offset !== book.length) {
            return answer(409, { "Upload-Offset": String(book.length) }, "the next byte is another");
        }
        book.push(...body);
        this.taken += body.length;
        return answer(204, { "Upload-Offset": String(book.length) });
    }
}

// A device: what it kept is there after a reload.
function deviceAt(desk, kept = null) {
    const device = { kept, said: [] };
    return Object.assign(device, { sent: () => device.kept, keep: async (sent) => { device.kept = sent && structuredClone(sent); },
        say: (words) => device.said.push(words), request: (...words) => desk.request(...words) });
}

// As often as it is worth it: what Halted says ends it.
async function untilThere(book, device, limit = 400) {
    for (let turn = 0; turn < limit; turn += 1) {
        try {
            return await send.deliver(book, device);
        } catch (error) {
            if (error instanceof send.Halted) {
                throw error;
            }
        }
    }
    throw new Error("it never came to its end");
}

const lastBook = (desk) => Uint8Array.from([...desk.books.values()].at(-1));

const halted = async (promise, state) => {
    await assert.rejects(promise, (error) => error instanceof send.Halted && error.state === state);
};

const tests = {
    async "a book arrives whole, in parts, and is said"() {
        const [desk, book] = [new Desk(), bytesOf(10240)];
        const device = deviceAt(desk);
        assert.equal(await send.deliver(book, device), "closed");
        assert.deepEqual(lastBook(desk), book);
        assert.deepEqual(device.said, ["sent 0 of 10,240 bytes", "sent 4,096 of 10,240 bytes", "sent 8,192 of 10,240 bytes", "sent 10,240 of 10,240 bytes"]);
        assert.deepEqual(desk.asked, ["POST", "PATCH", "PATCH", "PATCH", "GET"]);
    },
    async "what is there is not sent again"() {
        const [desk, book] = [new Desk(), bytesOf(5000)];
        const device = deviceAt(desk);
        await send.deliver(book, device);
        await send.deliver(book, deviceAt(desk, device.kept));
        assert.equal(desk.taken, 5000);
        assert.equal(desk.books.size, 1);
    },
    async "what was lost on the way is mended by asking, and nothing arrives twice"() {
        for (let seed = 1; seed <= 100; seed += 1) {
            const next = chances(seed);
            const desk = new Desk((_, method) => (method === "POST" ? "right" : ["lost", "unheard", answer(503), "right", "right"][next(5)]));
            const book = bytesOf(1 + next(30000), seed);
            await untilThere(book, deviceAt(desk));
            assert.deepEqual(lastBook(desk), book, `seed ${seed}`);
            assert.equal(desk.taken, book.length, `seed ${seed}`);
        }
    },
    async "a book that grew sends only what is new"() {
        const [desk, book] = [new Desk(), bytesOf(9000)];
        const device = deviceAt(desk);
        await send.deliver(book.slice(0, 5000), device);
        await send.deliver(book, device);
        assert.deepEqual([desk.taken, desk.books.size], [9000, 1]);
        assert.deepEqual(lastBook(desk), book);
    },
    async "a book with another beginning is a new delivery"() {
        const [desk, book] = [new Desk(), bytesOf(9000)];
        const device = deviceAt(desk);
        await send.deliver(book, device);
        const other = Uint8Array.from(book);
        other[8999] ^= 1;
        await send.deliver(other, device);
        await send.deliver(other.slice(0, 8000), device);
        assert.deepEqual([...desk.books.values()].map((each) => each.length), [9000, 9000, 8000]);
        assert.deepEqual(lastBook(desk), other.slice(0, 8000));
    },
    async "corrected while an answer was lost: no delivery is of two books"() {
        for (let seed = 1; seed <= 100; seed += 1) {
            const next = chances(seed);
            const desk = new Desk(() => ["lost", "unheard", "right", "right"][next(4)]);
            let device = deviceAt(desk);
            const books = [bytesOf(1 + next(20000), seed)];
            for (let turn = 0; turn < 6; turn += 1) {
                await untilThere(books.at(-1), device, 1 + next(4)).catch(() => {});
                const book = Uint8Array.from([...books.at(-1), ...bytesOf(next(5000), seed + turn)]);
                book[next(book.length)] ^= next(2);
                books.push(book);
                device = deviceAt(desk, device.kept); // a reload
            }
            await untilThere(books.at(-1), device);
            assert.deepEqual(lastBook(desk), books.at(-1), `seed ${seed}`);
            for (const each of desk.books.values()) {
                assert.ok(books.some((book) => send.isBeginning(each, book)), `seed ${seed}: a delivery is no book's beginning`);
            }
        }
    },
    async "a desk that has it no more gets it anew"() {
        const [desk, book] = [new Desk(), bytesOf(6000)];
        const device = deviceAt(desk);
        await send.deliver(book, device);
        const empty = new Desk();
        await untilThere(book, deviceAt(empty, device.kept));
        assert.deepEqual(lastBook(empty), book);
        const gone = new Desk((count) => { if (count === 3) { gone.books.clear(); } return "right"; });
        await untilThere(book, deviceAt(gone));
        assert.deepEqual(lastBook(gone), book);
    },
    async "a delivery with more than was sent from here is not gone on with"() {
        const [desk, book] = [new Desk(), bytesOf(6000)];
        const device = deviceAt(desk);
        await send.deliver(book, device);
        [...desk.books.values()][0].push(1);
        await untilThere(book, device);
        assert.deepEqual([...desk.books.values()].map((each) => each.length), [6001, 6000]);
    },
    async "a refusal ends it with why's lines, also one whose answer was lost"() {
        const book = bytesOf(100);
        const device = deviceAt(new Desk((count) => (count === 2 ? answer(422, { "Upload-Offset": "40" }, "refused 7\nwhy") : "right")));
        await assert.rejects(send.deliver(book, device), { state: "refused", message: "refused 7\nwhy" });
        const desk = new Desk((count) => (count === 2 ? "unheard" : "right"));
        desk.state = "refused 7";
        await assert.rejects(untilThere(book, deviceAt(desk)), { state: "refused", message: "refused 7\nwhy" });
    },
    async "a token is asked for, other words end it, a network's own page does not"() {
        const book = bytesOf(100);
        const at = (given) => untilThere(book, deviceAt(new Desk((count) => (count === 1 ? given : "right"))));
        await halted(at(answer(401, {}, "a token is needed")), "token");
        await halted(at(answer(403, {}, "your token does not let you send books")), "token");
        await halted(at(answer(412, {}, "another version")), "stopped");
        assert.equal(await at(answer(200, {}, "<html>Welcome to our network")), "closed");
        const elsewhere = new Desk((count) => (count === 1 ? answer(201, { Location: "//elsewhere.example/books/0" }) : "right"));
        assert.equal(await untilThere(book, deviceAt(elsewhere)), "closed");
        assert.ok([...elsewhere.paths].every((path) => path.startsWith("/books")), "an answer sends it elsewhere");
        assert.equal(await at(answer(500)), "closed");
    },
    async "a desk that takes no more says so and is not asked without end"() {
        const desk = new Desk((count) => (count === 2 ? answer(409, { "Upload-Offset": "0" }, "the book is closed") : "right"));
        await halted(untilThere(bytesOf(100), deviceAt(desk)), "stopped");
    },
    async "pauses grow up to a minute"() {
        assert.deepEqual([1, 2, 3, 6, 7, 50].map(send.pauseAfter), [1000, 2000, 4000, 32000, 60000, 60000]);
    },
    async "what is said of the book that is shown"() {
        const book = bytesOf(100);
        const sent = { url: "", bytes: book, title: "Farm 7, 2010", words: "all is there" };
        assert.equal(send.standingWords(sent, book, "Farm 7, 2010"), "all is there");
        assert.match(send.standingWords(sent, bytesOf(101), "Farm 7, 2010"), /^changed since/);
        assert.match(send.standingWords(sent, book.slice(0, 50), "Farm 7, 2010"), /^changed since/);
        assert.equal(send.standingWords(sent, book, "Farm 8, 2010"), "");
        assert.equal(send.standingWords(null, book, "Farm 7, 2010"), "");
        assert.equal(send.thereWords("unfinished"), "all is there so far: the book is not closed");
    },
    async "only a page from the desk sends"() {
        for (const [url, wanted] of [["http://127.0.0.1:8080/app", true], ["https://desk.example/app#book", true], ["file:///app", false],
            ["https://desk.example/farmbook.html", false]]) {
            assert.equal(send.isFromDesk(new URL(url)), wanted, url);
        }
    },
};

let failed = 0;
for (const [name, test] of Object.entries(tests)) {
    try {
        await test();
    } catch (error) {
        failed += 1;
        process.stdout.write(`failed: ${name}: ${error.message.split("\n").slice(0, 6).join(" | ")}\n`);
    }
}
process.stdout.write(`send: ${Object.keys(tests).length - failed} passed, ${failed} failed\n`);
process.exitCode = failed === 0 ? 0 : 1;
