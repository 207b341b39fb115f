// What the writer says of a text, taken apart line by line. Its words stay as they are; only the places that they name are read.

const MESSAGE = /^lines? (\d+)(?: to (\d+))?: (.*)$/s;
const GROUP = /^group (\d+) (\S+), (\d+) head: (.*)$/;
const VERDICT = /^(closed|not closed): (\d+) written, (\d+) refused, (\d+) not read, (\d+) without heading, (\d+) unusual$/;

// messages: lines that failed; unusual: values that went in; groups; more: what was not printed; verdict: the last line, with `count` how many were
// written and `lost` how many were not, both as it is printed; numbers are for comparing alone.
export function saidOf(remarks) {
    const said = { messages: [], unusual: [], groups: [], more: [], verdict: null };
    for (const text of remarks.split("\n").filter(Boolean)) {
        const message = MESSAGE.exec(text);
        const group = GROUP.exec(text);
        const verdict = VERDICT.exec(text);
        if (message) {
            const [, from, to, words] = message;
            const place = { line: from, from: Number(from) - 1, to: Number(to ?? from) - 1, words };
            (words.startsWith("unusual: ") ? said.unusual : said.messages).push(place);
        } else if (group) {
            said.groups.push(groupOf(group, text));
        } else if (verdict) {
            const [written, refused, notRead, without, unusual] = verdict.slice(2).map(Number);
            said.verdict = { closed: verdict[1] === "closed", count: verdict[2], written, failed: refused + notRead + without, unusual,
                lost: text.slice(text.indexOf("written, ") + 9, text.lastIndexOf(", ")) };
        } else {
            said.more.push(text);
        }
    }
    return said;
}

// `enteric 59 days of 365, cattle 365 days; CH4 ..`: the days of each kind, and what the group gives.
function groupOf([, number, word, head, words], text) {
    const [days, ...gives] = words.split("; ");
    const parts = days === "no days" ? [] : days.split(", ").map((part) => ({ kind: part.split(" ")[0], words: part, short: part.includes(" of ") }));
    return { number, class: word, head, days: parts, gives, text };
}

// Messages on several fields stand beside the last of them.
const SUMMED = [[/^refused 8: /, "group"], [/^refused 10: the three shares /, "pasture share"],
    [/^refused 10: the volatilised and the leached /, "leached part"]];

// Whether a message is on several fields: it holds where all of them are typed.
export const isSum = (words) => /^refused 10: the /.test(words);

// The field of a form that a message is about, by its number or its label; -1 where it is about the line.
export function fieldOf(words, form) {
    const numbered = /^refused \d+ field (\d+): /.exec(words);
    if (numbered) {
        return Number(numbered[1]) - 1;
    }
    const summed = SUMMED.find(([message]) => message.test(words));
    if (summed) {
        return form.fields.findIndex(({ label }) => label === summed[1]);
    }
    const named = /^(?:not read: \w+, |refused \d+: )([^:]+): /.exec(words)?.[1] ?? /^unusual: \w+, ([^:]+): /.exec(words)?.[1] ?? "";
    const fields = form.fields.map((field, at) => ({ at, label: field.label }));
    const found = fields.filter(({ label }) => named === label || named.startsWith(`${label} `)).sort((a, b) => b.label.length - a.label.length)[0];
    return found ? found.at : -1;
}

// The words of a message that stand beside its field: without what the field's place says already.
export function besideOf(words) {
    return words.replace(/^refused \d+ field \d+: [^:]+: /, "").replace(/^not read: \w+, [^:]+: /,
        "").replace(/^refused \d+: (?:(?:days|fraction): )?/, "")
        .replace(/^unusual: \w+, [^:]+: /, "unusual: ");
}
