// The page: the views, what is always there (open, save, the state), and the start.
import { button, byId, el, give, icon, saving } from "./dom.js";
import { bookView } from "./book.js";
import { settle, taken, PRIVATE } from "./change.js";
import { check, checkView, drawCheck } from "./check.js";
import { compareView, dropOnCompare } from "./compareview.js";
import { savedLines } from "./draft.js";
import { chosenFiles, encodedLines, linesFrom, readFiles } from "./files.js";
import { printFigures } from "./figures.js";
import { fillTable, fileName, table, titleOf } from "./judge.js";
import { claim, fetchKept, openStore } from "./kept.js";
import { lookAt } from "./list.js";
import { replaceDraft } from "./opening.js";
import { addBooks, drawPage, pageView } from "./pageview.js";
import { prepared } from "./proved.js";
import { offerSend } from "./send.js";
import { draw, now, onDraw } from "./state.js";
import { estimate, startWhatif, whatifView } from "./whatif.js";

const VIEWS = ["book", "page", "check", "compare", "whatif"];
const NEEDS = { book: [], page: ["why", "retype", "sheet", "page"], check: ["why", "salvage", "retype"], compare: ["why", "retype", "compare"],
    whatif: ["whatif"] };
const SECOND = "This book is open in another window. Here it can only be read; it can be changed here when that window is closed.";
const links = { book: saving("Save the book"), text: saving("Save the text") };

// One book or text goes to the draft after a question; what is refused to Check; many to Page. What is none of these is said, and changes nothing.
async function openFiles(list) {
    if (list.length === 0) {
        return;
    }
    await prepared("why", "salvage", "retype", "page", "sheet");
    if (list.length > 1 || location.hash === "#page") {
        location.hash = "#page";
        await addBooks(list);
        return;
    }
    const [item] = await readFiles(list);
    if (item.state === "refused" || item.state === "none" || location.hash === "#check") {
        location.hash = "#check";
        check(item);
    } else {
        const cut = item.why.machine.endsWith("bytes missing") ? `${item.why.people}: that record is left out. ` : "";
        await replaceDraft(linesFrom(item), item.name, cut);
    }
}

function dropped(event) {
    event.preventDefault();
    const list = event.dataTransfer?.files ?? [];
    if (location.hash === "#compare" && list.length > 0) {
        dropOnCompare(list);
    } else {
        openFiles(list);
    }
}

function stateWords() {
    const { count, closed } = now.read;
    return `${count} records, ${closed ? "closed" : "not closed"}, ${now.saved ? "saved on this device" : "not saved"}`;
}

let offered = null; // the draft whose book and text the links save

// The files that the links save: made when the change is shown, or when a link is pressed before that.
function offerFiles() {
    const { draft, read: { rows, book } } = now;
    if (offered === draft) {
        return;
    }
    offered = draft;
    give(links.book, fileName(rows, "book"), rows.length > 0 ? book : null, "application/octet-stream");
    give(links.text, fileName(rows, "txt"), draft.lines.length > 0 || draft.begun !== null
        ? encodedLines(savedLines(draft, table.kinds, table.places)) : null, "text/plain");
}

function drawAlways() {
    const { rows, closed } = now.read;
    byId("name").textContent = titleOf(rows) || "Farm book";
    document.title = titleOf(rows) || "Farm book";
    byId("state").replaceChildren(icon(now.saved ? "ok" : "odd"), el("span", {}, stateWords()));
    byId("trouble").hidden = now.trouble === "" && now.mine;
    byId("trouble").textContent = now.trouble || (now.mine ? "" : SECOND);
    const some = rows.length > 0;
    setTimeout(offerFiles, 0);
    const close = button("Close the book", () => { now.mode = "close"; now.correcting = null; location.hash = "#book"; draw(); });
    byId("ends").replaceChildren(button("New book", () => replaceDraft([], ""), { disabled: !now.mine }),
        ...(some && !closed && now.mode !== "close" && now.mine ? [close] : []));
}

async function showView() {
    const view = VIEWS.includes(location.hash.slice(1)) ? location.hash.slice(1) : "book";
    await prepared(...NEEDS[view]);
    for (const each of VIEWS) {
        byId(`view-${each}`).hidden = each !== view;
    }
    for (const link of document.querySelectorAll("nav a")) {
        link.hash === `#${view}` ? link.setAttribute("aria-current", "page") : link.removeAttribute("aria-current");
    }
    const drawers = { page: drawPage, check: drawCheck, whatif: () => { startWhatif(); estimate(); } };
    drawers[view]?.();
}

function frame() {
    for (const link of Object.values(links)) {
        link.addEventListener("click", offerFiles, { capture: true });
    }
    byId("acts").append(button("Open", async () => openFiles(await chosenFiles())), links.book, links.text);
    offerSend();
    byId("main").replaceChildren(el("p", { id: "trouble", role: "alert", class: "trouble", hidden: true }),
        el("div", { class: "views" }, bookView(), pageView(), checkView(), compareView(), whatifView()));
    onDraw(drawAlways);
    onDraw(printFigures);
    onDraw(lookAt);
    addEventListener("hashchange", showView);
    addEventListener("dragover", (event) => event.preventDefault());
    addEventListener("drop", dropped);
    addEventListener("beforeunload", (event) => { if (!now.saved && now.mine && now.draft.lines.length > 0) { event.preventDefault(); } });
}

// The window that has the draft reads it anew: another one may have changed it before.
async function mine() {
    try {
        taken(await fetchKept(now.store));
    } catch {
        now.store.database = null;
    }
    now.mine = true;
    const lasts = now.store.database !== null;
    Object.assign(now, { saved: lasts, trouble: lasts ? "" : PRIVATE });
    settle();
    draw();
}

async function start() {
    const store = openStore();
    await prepared("kinds", "writer", "records", "retype", "kilograms");
    fillTable();
    now.store = await store;
    taken(await fetchKept(now.store).catch(() => null));
    frame();
    await new Promise((resolve) => claim(() => mine().then(resolve), () => { Object.assign(now, { mine: false, saved: true }); draw(); resolve(); }));
    await showView();
    byId("state").dataset.opened = performance.now().toFixed(1);
    await prepared(...Object.values(NEEDS).flat());
}

start();
