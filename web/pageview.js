// The Page view: books of the office, which are ready, and the member's page of one. The page is what the proved program page writes.
import { button, byId, el, give, icon, saving } from "./dom.js";
import { chosenFiles, readFiles, linesFrom, encodedLines } from "./files.js";
import { fileName } from "./judge.js";
import { draftItem } from "./opening.js";
import { prepared, proved } from "./proved.js";
import { now, onDraw } from "./state.js";

let shown = 0;

export const itemsNow = () => [...(now.read.rows.length > 0 ? [draftItem()] : []), ...now.books];

// What a book's state means here, with its sign.
function stateOf(item) {
    if (item.state === "closed") {
        return ["ok", "closed: the page is ready"];
    }
    if (item.state === "unfinished") {
        return ["open", "not closed: not for members"];
    }
    return ["no", item.state === "refused" ? `refused at ${/record \d+/.exec(item.why.machine)[0]}: see Check` : item.words];
}

function bookEntry(item, at) {
    const [sign, words] = stateOf(item);
    return el("li", {}, button([el("b", {}, item.title || "no page"), el("span", {}, item.name), el("span", {}, icon(sign), ` ${words}`)],
        () => { shown = at; drawPage(); }, { class: sign === "no" ? "bad" : "", "aria-current": at === shown ? "true" : null }));
}

export async function addBooks(list) {
    byId("page-busy").textContent = "Reading the files.";
    await prepared("why", "salvage", "retype", "sheet", "page");
    const items = await readFiles(list);
    byId("page-busy").textContent = "";
    shown = itemsNow().length;
    now.books.push(...items);
    drawPage();
}

// A download for each page that is ready: browsers ask once whether a page may save several files.
async function saveReady() {
    const names = new Map(); // two books of one farm and year have two names
    const links = itemsNow().filter((item) => item.state === "closed").map((item) => {
        const link = saving("", { hidden: true });
        const name = fileName(item.rows, "html");
        names.set(name, (names.get(name) ?? 0) + 1);
        give(link, names.get(name) === 1 ? name : name.replace(".html", `-${names.get(name)}.html`), proved("page", item.bytes).output, "text/html");
        return link;
    });
    byId("page-all").disabled = true;
    for (const [at, link] of links.entries()) {
        byId("page-busy").textContent = `Saving page ${at + 1} of ${links.length}.`;
        document.body.append(link);
        link.click();
        link.remove();
        await new Promise((resolve) => setTimeout(resolve, 300));
    }
    byId("page-busy").textContent = links.length === 1 ? "1 page was given to the browser." : `${links.length} pages were given to the browser.`;
    byId("page-all").disabled = false;
}

function shownBook(item) {
    const closed = item.state === "closed";
    const links = { page: saving("Save the page"), sheet: saving("Save the sheet"), text: saving("Save its text") };
    const frame = el("iframe", { id: "frame", title: "The member's page", sandbox: "allow-same-origin allow-modals" });
    if (item.bytes) {
        const page = proved("page", item.bytes).output;
        frame.srcdoc = new TextDecoder().decode(page);
        give(links.page, fileName(item.rows, "html"), closed ? page : null, "text/html");
        give(links.sheet, fileName(item.rows, "csv"), closed ? proved("sheet", item.bytes).output : null, "text/csv");
        give(links.text, fileName(item.rows, "txt"), encodedLines(linesFrom(item)), "text/plain");
    }
    const print = button("Print", () => frame.contentWindow.print(), { disabled: !closed });
    return [el("div", { class: "tools" }, el("h2", {}, item.title || item.name), print, links.page, links.sheet, links.text),
        item.bytes ? frame : el("p", { class: "big" }, icon("no"), ` ${item.words}`)];
}

export function drawPage() {
    const items = itemsNow();
    shown = Math.max(0, Math.min(shown, items.length - 1));
    byId("page-books").replaceChildren(...items.map(bookEntry));
    byId("page-all").disabled = !items.some((item) => item.state === "closed");
    byId("page-shown").replaceChildren(...(items.length > 0 ? shownBook(items[shown])
        : [el("p", { class: "big" }, "No book is open. Open one, or several at once.")]));
}

export function pageView() {
    onDraw(() => { if (location.hash === "#page") { drawPage(); } });
    return el("section", { class: "view cols2", id: "view-page", "aria-label": "Page" },
        el("aside", { class: "scroll" }, el("p", { class: "lead" },
            "The member's page of each book. Open or drop many books at once; parts of one book are put together."),
            button("Open books", async () => addBooks(await chosenFiles()), { class: "wide" }),
            el("p", { id: "page-busy", role: "status", class: "soft" }), el("ul", { class: "books", id: "page-books" }),
            button("Save all ready pages", saveReady, { class: "main wide", id: "page-all" })),
        el("div", { class: "paper", id: "page-shown" }));
}
