// What is wrong with the page that is shown, by rules of WCAG 2.2 AA that a script can judge: names and labels,
// headings, tables, references, contrast, sizes of targets. desk_checks.py runs it in the page; it gives a list of
// sentences.

const faults = [];
const all = (selector, within = document) => [...within.querySelectorAll(selector)];
const isShown = (it) => it.getClientRects().length > 0 && getComputedStyle(it).visibility === "visible";
const called = (it) => `${it.tagName.toLowerCase()} ${it.id} '${it.textContent.trim().slice(0, 40)}'`;
const wrong = (what, it) => faults.push(`${what}: ${called(it)}`);

function nameOf(it) {
    const by = it.getAttribute("aria-labelledby");
    if (by) {
        return by.split(" ").map((id) => document.getElementById(id)?.textContent ?? "").join(" ").trim();
    }
    const labels = [...(it.labels ?? [])].map((label) => label.textContent).join(" ");
    return (it.getAttribute("aria-label") ?? (labels || (it.matches("input,select") ? "" : it.textContent))).trim();
}

function checkDocument() {
    if (!document.documentElement.lang || !document.title) {
        faults.push("no language or no title");
    }
    for (const [selector, count] of [["main", 1], ["main h1", 1], ["h1", 1], ["header", 1], ["nav", 1]]) {
        if (all(selector).length !== count) {
            faults.push(`${all(selector).length} of ${selector}`);
        }
    }
    let level = 0;
    for (const it of all("h1,h2,h3,h4").filter(isShown)) {
        const its = Number(it.tagName[1]);
        if (its > level + 1) {
            wrong("a heading's level is left out", it);
        }
        level = its;
    }
}

function checkReferences() {
    const ids = all("[id]").map((it) => it.id);
    ids.filter((it, at) => ids.indexOf(it) !== at).forEach((it) => faults.push(`the id ${it} stands twice`));
    for (const name of ["aria-labelledby", "aria-describedby", "aria-controls", "for"]) {
        for (const it of all(`[${name}]`)) {
            it.getAttribute(name).split(" ").filter((id) => !ids.includes(id)).forEach((id) =>
                wrong(`${name} names ${id}, which is not there`, it));
        }
    }
}

function checkNames() {
    for (const it of all("input,select,button,a[href],[role=region],[role=img],section,nav,aside,[tabindex]")) {
        if (isShown(it) && !nameOf(it) && it.tagName !== "MAIN") {
            wrong("no name", it);
        }
        const label = it.getAttribute("aria-label");
        if (label && it.matches("a,button") && !label.includes(it.innerText.trim())) {
            wrong("the name lacks what is seen", it);
        }
        if (it.tabIndex > 0) {
            wrong("an order of its own", it);
        }
    }
    all("img:not([alt])").forEach((it) => wrong("a picture without words", it));
    all("svg").filter((it) => !it.querySelector("title")).forEach((it) => wrong("a drawing without a title", it));
}

function checkTables() {
    for (const it of all("table")) {
        if (!it.caption?.textContent.trim()) {
            wrong("a table without a caption", it);
        }
        all("th", it).filter((head) => !head.scope).forEach((head) => wrong("a head without a scope", head));
        all("tbody tr", it).filter((row) => !row.querySelector("th[scope=row]")).forEach((row) =>
            wrong("a row without a head", row));
    }
    all("ul > :not(li), dl > :not(div), dl > div > :not(dt):not(dd)").forEach((it) => wrong("no part of a list", it));
}

const channels = (color) => color.match(/[\d.]+/g).map(Number);

/** The ground that an element stands on: of it or of the first ancestor that has one. */
function groundOf(it) {
    for (let at = it; at; at = at.parentElement) {
        const color = channels(getComputedStyle(at).backgroundColor);
        if (color.length < 4 || color[3] === 1) {
            return color;
        }
    }
    return [255, 255, 255];
}

function luminance(color) {
    const [red, green, blue] = color.slice(0, 3).map((it) =>
        (it / 255 <= 0.04045 ? it / 255 / 12.92 : ((it / 255 + 0.055) / 1.055) ** 2.4));
    return 0.2126 * red + 0.7152 * green + 0.0722 * blue;
}

function contrast(one, other) {
    const [dark, light] = [luminance(one), luminance(other)].sort((a, b) => a - b);
    return (light + 0.05) / (dark + 0.05);
}

function checkContrast() {
    const walker = document.createTreeWalker(document.body, NodeFilter.SHOW_TEXT);
    while (walker.nextNode()) {
        const it = walker.currentNode.parentElement;
        if (!walker.currentNode.data.trim() || !isShown(it) || it.matches("option,title,desc,noscript")) {
            continue;
        }
        const style = getComputedStyle(it), size = parseFloat(style.fontSize);
        const isLarge = size >= 24 || (size >= 18.66 && Number(style.fontWeight) >= 700);
        const ratio = contrast(channels(it instanceof SVGElement ? style.fill : style.color), groundOf(it));
        if (ratio < (isLarge ? 3 : 4.5)) {
            wrong(`contrast ${ratio.toFixed(2)}`, it);
        }
    }
    for (const it of all("input,select,button:not(.sort)").filter((its) => isShown(its) && !its.disabled)) {
        const ground = groundOf(it.parentElement);
        const edge = contrast(channels(getComputedStyle(it).borderTopColor), ground);
        if (Math.max(edge, contrast(groundOf(it), ground)) < 3) {
            wrong(`an edge of contrast ${edge.toFixed(2)}`, it);
        }
    }
    for (const it of all("svg rect").filter((its) => its.getBoundingClientRect().height > 0)) {
        if (contrast(channels(getComputedStyle(it).fill), groundOf(it.closest("div"))) < 3) {
            wrong("a bar of little contrast", it);
        }
    }
}

/** Targets of 24 by 24 pixels, but links within a sentence. */
function checkTargets() {
    for (const it of all("a[href],button,input,select").filter(isShown)) {
        const { width, height } = it.getBoundingClientRect();
        const isInSentence = it.matches("p a, dd a, div a, .refusal a, .good a")
            && getComputedStyle(it).display === "inline";
        if (!isInSentence && !it.matches(".skip") && (width < 24 || height < 24)) {
            wrong(`a target of ${Math.round(width)} by ${Math.round(height)}`, it);
        }
    }
}

/** Nothing but the boxes of tables and drawings is wider than the window, and amounts end in one line. */
function checkWidth() {
    if (document.documentElement.scrollWidth > innerWidth) {
        faults.push(`the page is ${document.documentElement.scrollWidth} wide in a window of ${innerWidth}`);
    }
    for (const it of all("main *, header *").filter((its) => isShown(its) && !its.closest(".box"))) {
        if (it.getBoundingClientRect().right > innerWidth + 1) {
            wrong("out of the window", it);
        }
    }
    for (const row of all("tbody tr")) {
        for (const it of all("td.figures .amount", row)) {
            const inner = it.getBoundingClientRect().right, outer = it.parentElement.getBoundingClientRect().right;
            if (outer - inner > 14 * parseFloat(getComputedStyle(document.documentElement).fontSize) / 16) {
                wrong("an amount that does not end where its column ends", it);
            }
        }
    }
}

checkDocument();
checkReferences();
checkNames();
checkTables();
checkContrast();
checkTargets();
checkWidth();
return faults;
