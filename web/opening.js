// A book or a text in place of the draft, after a question; and the draft as one of the books.
import { ask } from "./dom.js";
import { replaced } from "./change.js";
import { whyOf } from "./files.js";
import { titleOf } from "./judge.js";
import { draw, now } from "./state.js";

// Gives whether the draft was replaced.
export async function replaceDraft(lines, name, note = "") {
    if (!now.mine) {
        return false;
    }
    if (now.draft.lines.length > 0 || note) {
        const words = name ? `${note}Open ${name} in place of the draft? What is not saved as a file is gone.`
            : "Begin a new book in place of the draft? What is not saved as a file is gone.";
        const answer = await ask(words, [["", "Keep the draft", false], ["yes", name ? "Open it in place of the draft" : "Begin anew", true]]);
        if (answer !== "yes") {
            return false;
        }
    }
    const done = await replaced(lines);
    location.hash = "#book";
    draw();
    return done;
}

export function draftItem() {
    const { book, rows, closed, said } = now.read;
    return { name: "the draft in Book", draft: true, bytes: book, rows, state: closed ? "closed" : "unfinished", title: titleOf(rows),
        lines: now.draft.lines,
        said, why: whyOf(book) };
}
