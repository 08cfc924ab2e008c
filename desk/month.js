// The month: what is closed and remitted, what comes next, and drawings of the portfolio.

import { booked } from "./command.js";
import { agesDrawing, balancesDrawing } from "./drawing.js";
import { agesTable } from "./late.js";
import { el, facts, heading, link, section, table } from "./page.js";
import { monthBefore } from "./money.js";
import { ask, askUnless } from "./routes.js";
import * as texts from "./texts.js";

const MOST_MONTHS = 12;

export async function view({ query }) {
    const [first, second] = await Promise.all(["status", "aging"].map(ask));
    const status = texts.status(first), aging = texts.aging(second);
    const trials = await trialsBefore(status.closed, Number(query.get("months")) || MOST_MONTHS);
    return {
        title: "The month",
        content: [heading("The month"),
            query.get("booked") ? await booked(query.get("booked")) : null,
            el("div", { class: "columns" },
                section("status", "Where the books stand", statusFacts(status), next(status)),
                section("balance", "Balance of the portfolio", balancesDrawing(trials))),
            section("closed", "Closed months", closedMonths(trials, status.remitted)),
            section("ages", "Late loans", el("p", {}, "The program counts late loans on the business day alone, so "
                + `this drawing is of ${aging.day}, and not of the closed months.`),
            el("div", { class: "columns" }, agesTable(aging.total), agesDrawing(aging.total, aging.day)))]
            .filter((it) => it),
    };
}

/** The balances of the last closed months, the newest last. */
async function trialsBefore(last, most) {
    const trials = [];
    for (let month = last; month !== null && trials.length < most; month = monthBefore(month)) {
        const text = await askUnless(23, `months/${month}/trial`);
        if (text === null) {
            break;
        }
        trials.unshift(texts.trial(text));
    }
    return trials;
}

function statusFacts(it) {
    return facts(["Business day", it.day], ["Loans", String(it.loans)], ["Commands", String(it.commands)],
        ["Closed last", it.closed ?? "none"], ["Remitted last", it.remitted ?? "none"],
        ["Close next", it.close], ["Remit next", it.remit ?? "none is closed"],
        ["Adjustments that wait for the next report", String(it.pending)],
        ["Adjustments recorded in all", String(it.adjustments)]);
}

function next({ close, remit, closed }) {
    const canRemit = remit !== null && remit <= closed;
    return el("ul", { class: "forms" },
        el("li", {}, link("/close", `Close ${close}`)),
        canRemit ? el("li", {}, link("/remit", `Remit ${remit}`)) : null,
        el("li", {}, link("/day", "Set the business day")));
}

function closedMonths(trials, remitted) {
    if (trials.length === 0) {
        return el("p", {}, "No month is closed yet.");
    }
    return table("Closed months, the newest first", [{ name: "month", label: "Month" },
        { name: "loans", label: "Loans", show: (it) => it.count, figures: true },
        { name: "upb", label: "Balance", show: (it) => it.total.upb, figures: true },
        { name: "balance", label: "Investors' balance", show: (it) => it.total.balance, figures: true },
        { name: "sent", label: "Remitted", show: (it) => (it.month <= (remitted ?? "") ? "yes" : "not yet") },
        { name: "report", label: "Report", show: (it) => link(`/months/${it.month}/report`, `report of ${it.month}`) },
        { name: "trial", label: "Trial", show: (it) => link(`/months/${it.month}/trial`, `trial of ${it.month}`) },
    ], [...trials].reverse());
}
