// A book goes to the desk part by part (tus 1.0.0). The desk owns the offset: a lost answer is mended by asking, and nothing arrives twice. What may
// be there is kept before it is sent. Nothing here needs a browser, and no figure is decided.

const PART_BYTES = 4096;
const PAUSES = { first: 1000, longest: 60000 };
const DELIVERY = /^\/books\/[0-9a-f]{32}$/;
const OFFSET = /^(?:0|[1-9][0-9]{0,14})$/;
const AGAIN = [408, 425, 429]; // and all from 500 on: the desk is there later

// An end that no later try changes: a token is wanted, the book is refused, or the desk says why it takes nothing.
export class Halted extends Error {
    constructor(state, words) {
        super(words);
        this.state = state;
    }
}

export const isFromDesk = ({ protocol, pathname }) => /^https?:$/.test(protocol) && pathname === "/app";

export const isBeginning = (bytes, book) => bytes.length <= book.length && bytes.every((byte, at) => byte === book[at]);

export const pauseAfter = (failures) => Math.min(PAUSES.first * 2 ** (failures - 1), PAUSES.longest);

export const sentWords = (at, whole) => `sent ${at.toLocaleString("en")} of ${whole.toLocaleString("en")} bytes`;

export const thereWords = (state) => (state === "closed" ? "all is there" : "all is there so far: the book is not closed");

// What is said of the book that is shown: the last words on its delivery, where nothing was changed since.
export function standingWords(sent, book, title) {
    if (sent === null || sent.title !== title || !sent.words) {
        return "";
    }
    return sent.bytes.length === book.length && isBeginning(sent.bytes, book) ? sent.words : "changed since it was sent: Send sends what is new";
}

const offsetOf = (answer) => (OFFSET.test(answer.header("Upload-Offset") ?? "") ? Number(answer.header("Upload-Offset")) : null);

// Something else than the desk may answer, as a network's own page: that is tried again.
const unexpected = (answer) => (answer.status >= 400 ? new Halted("stopped", answer.words) : new Error("this is not the desk"));

async function answerTo(line, method, path, headers = {}, body = undefined) {
    const answer = await line.request(method, path, { "Tus-Resumable": "1.0.0", ...headers }, body);
    if (answer.status === 401 || answer.status === 403) {
        throw new Halted("token", answer.words);
    }
    if (answer.status >= 500 || AGAIN.includes(answer.status)) {
        throw new Error("the desk does not take it now");
    }
    return answer;
}

async function newDelivery(line) {
    const answer = await answerTo(line, "POST", "/books", { "Upload-Defer-Length": "1" });
    const url = answer.header("Location") ?? "";
    if (answer.status !== 201 || !DELIVERY.test(url)) {
        throw unexpected(answer);
    }
    return { url, bytes: new Uint8Array() };
}

// How much of a delivery is there; null where it is there no more, or has more than was sent from here.
async function offsetAsked(line, sent) {
    const answer = await answerTo(line, "HEAD", sent.url);
    const offset = offsetOf(answer);
    if (answer.status === 404 || (answer.status === 200 && offset > sent.bytes.length)) {
        return null;
    }
    if (answer.status !== 200 || offset === null) {
        throw unexpected(answer);
    }
    return offset;
}

// One part; gives the offset after it, as the desk says it.
async function partSent(line, sent, at, to) {
    const headers = { "Content-Type": "application/offset+octet-stream", "Upload-Offset": String(at) };
    const answer = await answerTo(line, "PATCH", sent.url, headers, sent.bytes.slice(at, to));
    const offset = offsetOf(answer);
    if (answer.status === 422) {
        throw new Halted("refused", answer.words);
    }
    if (answer.status === 404 || (answer.status === 409 && offset > sent.bytes.length)) {
        await line.keep(null);
        throw new Error("the delivery is not there any more");
    }
    if (![204, 409].includes(answer.status) || offset === null || offset === at || offset > sent.bytes.length) {
        throw unexpected(answer);
    }
    return offset;
}

// The state of a delivery that is all there, as the desk's proved programs read it.
async function stateAsked(line, url) {
    const answer = await answerTo(line, "GET", url);
    if (answer.status !== 200) {
        throw unexpected(answer);
    }
    const { state } = JSON.parse(answer.words);
    if (state.startsWith("refused")) {
        throw new Halted("refused", (await answerTo(line, "GET", `${url}/why`)).words);
    }
    return state;
}

// The whole of a book over a line: {sent, keep, request, say}. It goes on with the delivery that has its beginning, else it begins one. Bytes are
// kept as sent before they are: so what the desk has is always a beginning of what is kept, whatever answer was lost.
export async function deliver(book, line) {
    let sent = line.sent();
    let at = sent !== null && isBeginning(sent.bytes, book) ? await offsetAsked(line, sent) : null;
    if (at === null) {
        sent = await newDelivery(line);
        at = 0;
    }
    while (at < book.length) {
        const to = Math.min(at + PART_BYTES, book.length);
        line.say(sentWords(at, book.length));
        sent = { ...sent, bytes: book.slice(0, to) };
        await line.keep(sent);
        at = await partSent(line, sent, at, to);
    }
    line.say(sentWords(at, book.length));
    return stateAsked(line, sent.url);
}
