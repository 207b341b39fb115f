// What can be measured of how the page looks: gives a sentence for each thing that is wrong.
const said = [];
const words = (each) => (each.getAttribute("aria-label") ?? each.innerText ?? "").trim().slice(0, 24);
const name = (each) => `${each.tagName.toLowerCase()}${each.id ? `#${each.id}` : ""} "${words(each)}"`;
const parsed = (colour) => colour.match(/[\d.]+/g).map(Number);
const light = ([r, g, b]) => [r, g, b].map((part) => part / 255).map((part) => (part <= 0.03928 ? part / 12.92 : ((part + 0.055) / 1.055) ** 2.4))
    .reduce((sum, part, at) => sum + part * [0.2126, 0.7152, 0.0722][at], 0);
const ground = (each) => {
    for (let at = each; at; at = at.parentElement) {
        const colour = parsed(getComputedStyle(at).backgroundColor);
        if (colour.length < 4 || colour[3] > 0) {
            return colour;
        }
    }
    return [255, 255, 255];
};
const seen = (each) => {
    const box = each.getBoundingClientRect();
    return each.checkVisibility({ visibilityProperty: true, opacityProperty: true }) && box.width > 0 && box.height > 0 && box.right > 0
        && box.left < innerWidth;
};
for (const each of document.querySelectorAll("body *")) {
    const own = [...each.childNodes].some((node) => node.nodeType === 3 && node.textContent.trim());
    if (own && seen(each) && !["SCRIPT", "STYLE", "OPTION", "TITLE"].includes(each.tagName)) {
        const [one, other] = [light(parsed(getComputedStyle(each).color)), light(ground(each))].sort((a, b) => b - a);
        if ((one + 0.05) / (other + 0.05) < 4.5) {
            said.push(`contrast ${((one + 0.05) / (other + 0.05)).toFixed(1)} of ${name(each)}`);
        }
    }
}
for (const each of document.querySelectorAll("button, .button, select, input:not([type=radio]):not([hidden]), nav a, summary, .few label")) {
    const box = each.getBoundingClientRect();
    if (seen(each) && (box.height < 43.5 || box.width < 43.5)) {
        said.push(`a target of ${box.width.toFixed(0)} x ${box.height.toFixed(0)}: ${name(each)}`);
    }
}
for (const each of document.querySelectorAll("input, select, iframe, meter")) {
    const labelled = each.labels?.length > 0 || each.getAttribute("aria-label") || each.getAttribute("aria-labelledby") || each.title || each.hidden;
    if (seen(each) && !labelled) {
        said.push(`no label: ${name(each)}`);
    }
}
if (document.documentElement.scrollWidth > innerWidth + 1) {
    said.push(`the page is ${document.documentElement.scrollWidth} wide on a screen of ${innerWidth}`);
}
return said;
