// Drawings, as SVG in the page. What is drawn stands in a table or in the drawing's own words too.

import { AGES } from "./late.js";
import { box, drawn, el } from "./page.js";
import { shown } from "./money.js";

const HEIGHT = 200, BOTTOM = 240, LEFT = 20, STEP = 120, WIDTH = 56;

/** A bar's height in whole pixels: a share of the greatest, in whole numbers. */
const heightOf = (value, most) => (most > 0n ? Number((BigInt(HEIGHT) * value) / most) : 0);

/** Bars side by side. Each has a label below, the words above, and its height. */
function bars(id, title, words, its) {
    const wide = LEFT * 2 + STEP * Math.max(its.length, 1);
    const drawing = drawn("svg", { viewBox: `0 0 ${wide} ${BOTTOM + 30}`, role: "img",
        "aria-labelledby": `${id}-title ${id}-words`, width: wide, height: BOTTOM + 30, class: "bars" },
    drawn("title", { id: `${id}-title` }, title), drawn("desc", { id: `${id}-words` }, words),
    drawn("line", { x1: LEFT, x2: wide - LEFT, y1: BOTTOM, y2: BOTTOM, class: "axis" }),
    its.map(({ label, says, parts }, at) => {
        const middle = LEFT + STEP * at + STEP / 2, width = WIDTH / parts.length;
        const top = Math.max(...parts.map((it) => it.height));
        return [parts.map(({ height, kind }, part) => drawn("rect", { x: middle - WIDTH / 2 + part * width,
            y: BOTTOM - height, width, height, class: kind })),
        drawn("text", { x: middle, y: BOTTOM - top - 6, class: "value" }, says),
        drawn("text", { x: middle, y: BOTTOM + 20, class: "label" }, label)];
    }));
    return box(title, drawing);
}

/** The balances at the end of the closed months. */
export function balancesDrawing(trials) {
    if (trials.length === 0) {
        return el("p", {}, "There is nothing to draw before a month is closed.");
    }
    const most = trials.reduce((it, { total }) => [it, total.upb, total.balance].reduce((a, b) => (a > b ? a : b)), 0n);
    const its = trials.map(({ month, total }) => ({ label: month, says: shown(total.upb), parts: [
        { height: heightOf(total.upb, most), kind: "upb" },
        { height: heightOf(total.balance, most), kind: "balance" }] }));
    return [bars("balances", "Balance of the portfolio at the end of each closed month",
        trials.map(({ month, total }) => `${month}: ${shown(total.upb)}`).join("; "), its),
    el("p", {}, el("span", { class: "swatch upb" }), " borrowers' balance (written above) ",
        el("span", { class: "swatch balance" }), " investors' balance; the table of closed months has the figures")];
}

/** The late loans of the business day. */
export function agesDrawing(total, day) {
    const its = AGES.filter((it) => it.from);
    const most = BigInt(Math.max(...its.map(({ name }) => total[name])));
    if (most === 0n) {
        return el("p", {}, `No loan is late on ${day}.`);
    }
    return bars("late", `Late loans on ${day}`, its.map(({ name, label }) => `${label}: ${total[name]}`).join("; "),
        its.map(({ name, label }) => ({ label, says: String(total[name]),
            parts: [{ height: heightOf(BigInt(total[name]), most), kind: name }] })));
}
