// Send: where the page came from the desk, the book goes there. What was sent and where is kept beside the draft, so that a reload goes on; the
// network or the desk may be gone for any time.
import { button, byId, el } from "./dom.js";
import { deliver, Halted, isFromDesk, pauseAfter, standingWords, thereWords } from "./delivery.js";
import { titleOf } from "./judge.js";
import { now, onDraw } from "./state.js";

const ANSWER_WITHIN = 60000;
const TOKEN = /^[\x21-\x7e]+$/;

// What was sent ({url, bytes, title, words}), the token, and how the sending stands.
const way = { sent: null, token: "", busy: false, failures: 0, said: "", wake: () => {} };

const titleNow = () => titleOf(now.read.rows);

const sayWay = (words) => byId("sent").replaceChildren(...words.split("\n").flatMap((each, at) => (at === 0 ? [each] : [el("br"), each])));

// A key beside the draft, read or written; where the browser keeps nothing, it lasts until the page is left.
function beside(key, value) {
    return new Promise((resolve) => {
        if (!now.store.database) {
            resolve(null);
            return;
        }
        const transaction = now.store.database.transaction("draft", value === undefined ? "readonly" : "readwrite", { durability: "strict" });
        const done = value === undefined ? transaction.objectStore("draft").get(key) : transaction.objectStore("draft").put(value, key);
        transaction.oncomplete = () => resolve(done.result ?? null);
        transaction.onabort = () => resolve(null);
    });
}

// The token goes as Bearer: the browser's own dialogue for a password never comes up.
async function request(method, path, headers, body) {
    const token = way.token ? { Authorization: `Bearer ${way.token}` } : {};
    const answer = await fetch(location.origin + path, { method, body, headers: { ...headers, ...token }, credentials: "omit", cache: "no-store", redirect: "error",
        signal: AbortSignal.timeout(ANSWER_WITHIN) });
    return { status: answer.status, header: (name) => answer.headers.get(name), words: (await answer.text()).trim() };
}

const toDesk = {
    request,
    sent: () => way.sent,
    keep: (sent) => beside("sent", way.sent = sent && { ...sent, title: titleNow(), words: "" }),
    say(words) {
        way.failures = words === way.said ? way.failures : 0;
        way.said = words;
        sayWay(words);
    },
};

// Asked once, kept for this device; false where it was left.
async function askToken(reason) {
    const words = way.token ? `${reason}. Type another token:` : "Type the token that the office gave you. It is kept on this device.";
    const field = el("input", { id: "token", type: "password", autocomplete: "off", "aria-label": "Token" });
    const typed = await new Promise((resolve) => {
        const dialog = el("dialog", { onclose: () => { resolve(dialog.returnValue === "yes" ? field.value.trim() : ""); dialog.remove(); } },
            el("p", { class: "big" }, words), el("form", { method: "dialog" }, field, el("div", { class: "answers" },
                el("button", { value: "yes", class: "main" }, "Send with this token"), el("button", { value: "" }, "Do not send"))));
        document.body.append(dialog);
        dialog.showModal();
    });
    way.token = TOKEN.test(typed) ? typed : "";
    await beside("token", way.token);
    return way.token !== "";
}

const paused = () => new Promise((resolve) => { way.wake = resolve; setTimeout(resolve, pauseAfter(way.failures)); });

// One try; gives the words that end the sending, or null where there is to be another one.
async function tryOnce() {
    try {
        return thereWords(await deliver(now.read.book, toDesk));
    } catch (error) {
        if (error instanceof Halted && error.state !== "token") {
            return error.state === "refused" ? error.message : `not sent: ${error.message}`;
        }
        if (error instanceof Halted) {
            return await askToken(error.message) ? null : "not sent: a token is needed";
        }
        way.failures += 1;
        sayWay(`${way.said || "nothing is sent yet"}; the desk does not answer and is asked again`);
        await paused();
        return null;
    }
}

// Until all is there, or another book is opened in its place.
async function sendOn() {
    if (way.busy || !now.mine) {
        return;
    }
    const title = titleNow();
    Object.assign(way, { busy: true, failures: 0, said: "" });
    await beside("wanted", title);
    let words = null;
    while (words === null) {
        words = title === titleNow() ? await tryOnce() : "not sent: another book is open now";
    }
    await beside("sent", way.sent = way.sent && { ...way.sent, words });
    await beside("wanted", "");
    way.busy = false;
    sayWay(words);
}

// The button, and what is said of the book's delivery. A sending that a reload or a crash ended goes on.
export async function offerSend() {
    if (!isFromDesk(location)) {
        return;
    }
    const press = button("Send", () => { way.wake(); sendOn(); });
    byId("acts").append(press);
    byId("state").after(el("p", { id: "sent", role: "status" }));
    [way.sent, way.token] = [await beside("sent"), await beside("token") ?? ""];
    let wanted = await beside("wanted");
    const drawSend = () => {
        press.disabled = !now.mine || now.read.rows.length === 0;
        if (!way.busy) {
            sayWay(standingWords(way.sent, now.read.book, titleNow()));
        }
        if (wanted && now.mine) {
            const same = wanted === titleNow();
            wanted = "";
            same && sendOn();
        }
    };
    onDraw(drawSend);
    drawSend();
    addEventListener("online", () => way.wake());
    navigator.serviceWorker?.register(`${location.origin}/app/worker.js`, { scope: "/app" }).catch(() => {});
}
