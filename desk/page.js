// Elements of the page.

import { shown } from "./money.js";

/** An element with attributes (functions become listeners) and children; what is null or false is left out. */
export function el(name, attributes = {}, ...children) {
    return fill(document.createElement(name), attributes, children);
}

/** The same for a drawing. */
export function drawn(name, attributes = {}, ...children) {
    return fill(document.createElementNS("http://www.w3.org/2000/svg", name), attributes, children);
}

function fill(it, attributes, children) {
    for (const [name, value] of Object.entries(attributes)) {
        if (typeof value === "function") {
            it.addEventListener(name.slice(2), value);
        } else if (value !== false && value !== null && value !== undefined) {
            it.setAttribute(name, value === true ? "" : value);
        }
    }
    it.append(...children.flat(Infinity).filter((child) => child !== null && child !== false && child !== undefined));
    return it;
}

export const heading = (text) => el("h1", { tabindex: "-1" }, text);

export const link = (to, ...children) => el("a", { href: `#${to}` }, ...children);

export const loanLink = (loan) => link(`/loans/${loan}`, String(loan));

export const commandLink = (number) => link(`/commands/${number}`, String(number));

/** A part of the page with its heading. */
export function section(id, title, ...children) {
    return el("section", { "aria-labelledby": id }, el("h2", { id }, title), ...children);
}

/** An amount: in figures of one width, at the right where it stands in a table. */
export const amount = (value) => el("span", { class: value < 0n ? "amount below" : "amount" }, shown(value));

/** Pairs of a name and what it is, as a list; pairs that are null are left out. */
export function facts(...pairs) {
    return el("dl", { class: "facts" }, pairs.filter((it) => it).map(([name, value]) =>
        el("div", {}, el("dt", {}, name), el("dd", {}, value))));
}

function cell(column, record, at) {
    const value = column.show ? column.show(record) : record[column.name];
    const name = at === 0 ? "th" : "td";
    const figures = typeof value === "bigint" || typeof value === "number";
    return el(name, { class: figures || column.figures ? "figures" : null, scope: at === 0 ? "row" : null },
        typeof value === "bigint" ? amount(value) : value === null ? "–" : typeof value === "number"
            ? String(value) : value);
}

/** A box for what may be wider than the window: it scrolls by itself, and then by the keyboard too. */
export function box(label, child) {
    const it = el("div", { class: "box", role: "region", "aria-label": label }, child);
    scrolling.observe(it);
    return it;
}

const scrolling = new ResizeObserver((entries) => entries.forEach(({ target }) => {
    if (target.scrollWidth > target.clientWidth) {
        target.tabIndex = 0;
    } else {
        target.removeAttribute("tabindex");
    }
}));

/** A table in such a box. A column has a name, a label, and how it is shown; `sorting` makes the
 * heads of its columns buttons, `foot` is rows of cells at its end. */
export function table(caption, columns, records, { sorting = null, foot = [], kind = null } = {}) {
    const heads = columns.map((it) => el("th", {
        scope: "col", class: it.figures ? "figures" : null,
        "aria-sort": sorting?.by === it.name ? (sorting.isDown ? "descending" : "ascending") : null,
    }, sorting && it.label ? sorting.button(it) : it.label));
    return box(caption, el("table", { class: kind }, el("caption", {}, caption),
        el("thead", {}, el("tr", {}, heads)),
        el("tbody", {}, records.map((record) =>
            el("tr", {}, columns.map((column, at) => cell(column, record, at))))),
        foot.length ? el("tfoot", {}, foot.map((record) =>
            el("tr", {}, columns.map((column, at) => footCell(record[column.name], at))))) : null));
}

function footCell(value, at) {
    const figures = typeof value === "bigint";
    return el(at === 0 ? "th" : "td", { scope: at === 0 ? "row" : null, class: figures ? "figures" : null },
        figures ? amount(value) : value ?? "");
}

/** Hands a file to the browser. */
export function save(name, text) {
    const url = URL.createObjectURL(new Blob([text], { type: "text/csv" }));
    el("a", { href: url, download: name }).click();
    setTimeout(() => URL.revokeObjectURL(url), 10_000);
}

/** Whether a field of the present address has a value. */
export function isInAddress(name, value) {
    return new URLSearchParams(location.hash.split("?")[1] ?? "").get(name) === value;
}

/** Puts fields into the address, in place of the present one. */
export function keepInAddress(path, fields) {
    const query = new URLSearchParams(Object.entries(fields).filter(([, value]) => value !== "" && value !== null));
    const text = query.toString();
    history.replaceState(null, "", `#${path}${text ? `?${text}` : ""}`);
}
