// Elements. What a person typed or a program printed goes in as text alone, never as HTML.

export const byId = (id) => document.getElementById(id);

function put(element, name, value) {
    if (name.startsWith("on")) {
        element.addEventListener(name.slice(2), value);
    } else if (value === true) {
        element.setAttribute(name, "");
    } else if (value !== false && value !== null && value !== undefined) {
        element.setAttribute(name, value);
    }
}

export function el(name, attributes = {}, ...children) {
    const element = document.createElement(name);
    for (const [each, value] of Object.entries(attributes)) {
        put(element, each, value);
    }
    element.append(...children.flat(Infinity).filter((child) => child !== null && child !== undefined && child !== false));
    return element;
}

const SHAPES = {
    ok: "M4 10.5l4 4 8-9",
    no: "M2.5 2.5h15v15h-15zM7 7l6 6M13 7l-6 6",
    odd: "M10 2.5L18 17.5H2zM10 8v4.5M10 15v.1",
    open: "M10 17.5a7.5 7.5 0 1 1 7.5-7.5",
    undo: "M7 4L3 8l4 4M3 8h9a4.5 4.5 0 0 1 0 9H8",
};

// A sign beside a word, so that no colour stands alone.
export function icon(name) {
    const svg = document.createElementNS("http://www.w3.org/2000/svg", "svg");
    const path = document.createElementNS("http://www.w3.org/2000/svg", "path");
    svg.setAttribute("class", "i");
    svg.setAttribute("viewBox", "0 0 20 20");
    svg.setAttribute("aria-hidden", "true");
    path.setAttribute("d", SHAPES[name]);
    svg.append(path);
    return svg;
}

// Words with the figures of CH4, N2O and CO2 set low.
export function gases(text) {
    return text.split(/(?<=CH)(4)|(?<=N)(2)(?=O)|(?<=CO)(2)/).filter((part) => part !== undefined)
        .map((part, at, parts) => (at > 0 && /^[24]$/.test(part) && /(CH|N|CO)$/.test(parts[at - 1]) ? el("sub", {}, part) : part));
}

export const button = (words, press, attributes = {}) => el("button", { type: "button", onclick: press, ...attributes }, words);

// Saving is a link with `download`; the bytes are made when they are known, and the ones before are let go.
export function saving(words, attributes = {}) {
    return el("a", { class: "button", role: "button", "aria-disabled": "true", ...attributes }, words);
}

export function give(link, name, bytes, type) {
    const before = link.href;
    if (before) {
        setTimeout(() => URL.revokeObjectURL(before), 0);
    }
    if (bytes === null) {
        link.removeAttribute("href");
        link.setAttribute("aria-disabled", "true");
        return;
    }
    link.href = URL.createObjectURL(new Blob([bytes], { type }));
    link.download = name;
    link.removeAttribute("aria-disabled");
}

// A question with its answers; gives the word of the one that was chosen, "" where it was left.
export function ask(words, answers) {
    return new Promise((resolve) => {
        const dialog = el("dialog", { "aria-labelledby": "question", onclose: () => { resolve(dialog.returnValue); dialog.remove(); } },
            el("p", { id: "question", class: "big" }, words),
            el("form", { method: "dialog", class: "answers" }, answers.map(([word, text, main]) => el("button",
                { value: word, class: main ? "main" : "" }, text))));
        document.body.append(dialog);
        dialog.showModal();
    });
}
