// What stands beside a form: the figures that a cashier looks at before booking.

import { WORDS } from "./history.js";
import { amount, el, facts, link, section, table } from "./page.js";
import { ask, askUnless } from "./routes.js";
import * as texts from "./texts.js";

export async function aside(booking) {
    const { word, loan, status } = booking;
    const parts = loan !== null ? await ofLoan(booking) : word === "remit" ? await ofRemit(status)
        : word === "close" ? ofClose(status) : [];
    return el("aside", { "aria-label": "Figures" }, parts);
}

async function ofLoan(booking) {
    const { loan, word } = booking;
    const [books, terms] = await Promise.all([`loans/${loan}/books`, `loans/${loan}`].map(ask));
    return [section("now", "The loan now", booksFacts(texts.books(books))),
        word === "payoff" ? quoteOf(booking) : null,
        word === "analyse" ? await analysis(loan) : null,
        ["disburse", "line", "drop"].includes(word) ? escrowLines(texts.loan(terms).lines) : null,
        word === "reverse" ? await entryOf(booking) : null];
}

/** The books of a day, as a list. */
export function booksFacts(books) {
    return facts(
        ["Day", books.day], ["Balance", amount(books.upb)],
        ["Open installment", books.next === null ? "none: the loan is satisfied" : books.next],
        ["Its whole amount", amount(books.pay)], ["Suspense", amount(books.suspense)],
        ["Escrow", amount(books.escrow)], ["Late charges owed", amount(books.late)]);
}

export function escrowLines(lines) {
    if (lines.length === 0) {
        return el("p", {}, "The loan has no escrow lines.");
    }
    return table("Escrow lines", [
        { name: "line", label: "Line", figures: true }, { name: "kind", label: "Kind" },
        { name: "month", label: "Month", figures: true },
        { name: "every", label: "Every", show: (it) => `${it.every} months`, figures: true },
        { name: "amount", label: "Bill", figures: true },
    ], lines);
}

/** What pays the loan off on the form's day; asked again when the day is changed. */
function quoteOf(booking) {
    const box = el("div", { role: "status" });
    const show = async () => {
        const { day } = booking.given;
        const text = day && await askUnless(10, `loans/${booking.loan}/quote/${day}`).catch(() => null);
        if (day === booking.given.day) {
            box.replaceChildren(text ? quoteFacts(texts.quote(text)) : "Not known for that day.");
        }
    };
    booking.whenChanged = (name) => name === "day" && show();
    show();
    return section("quoted", "Payoff due", box);
}

export const quoteFacts = (quote) => facts(["On", quote.day], ["Amount", amount(quote.amount)],
    ["Interest of a day", amount(quote.perday)]);

/** What an analysis on the business day would find. */
export async function analysis(loan) {
    const it = texts.escrow(await ask(`loans/${loan}/escrow`));
    return section("analysis", `Analysis from ${it.from} on`,
        facts(["Base payment", amount(it.base)], ["Cushion", amount(it.cushion)], ["Opening", amount(it.opening)],
            ["Balance", amount(it.balance)], ["Surplus", amount(it.surplus)], ["Shortage", amount(it.short)],
            ["Deficiency", amount(it.deficient)]),
        table("Its twelve months", [{ name: "month", label: "Month" },
            { name: "paid", label: "Paid out", figures: true }, { name: "trial", label: "Trial", figures: true },
            { name: "target", label: "Target", figures: true }], it.months));
}

/** The entry that a form would take back. */
async function entryOf({ loan, given: { number } }) {
    const entry = texts.history(await ask(`loans/${loan}/history`)).events.find((it) => String(it.number) === number);
    return entry ? section("entry", `Entry ${number}`, facts(["Day", entry.day],
        ["What", WORDS[entry.word] ?? entry.word], ["Amount", amount(entry.amount)],
        ["Command", link(`/commands/${number}`, number)])) : null;
}

function ofClose(status) {
    return [section("now", "Before it is closed", facts(
        ["Business day", status.day], ["Month to be closed next", status.close], ["Loans", String(status.loans)],
        ["Adjustments that wait for it", String(status.pending)]))];
}

async function ofRemit({ remit }) {
    if (remit === null) {
        return [el("p", {}, "No month is closed yet.")];
    }
    const text = await askUnless(23, `months/${remit}/report`);
    if (text === null) {
        return [el("p", {}, `The month ${remit} is not closed yet.`)];
    }
    const { total, count } = texts.report(text);
    return [section("now", `Report of ${remit}`, facts(["Lines", String(count)],
        ["Interest", amount(total.interest)], ["Principal", amount(total.principal)],
        ["Report", link(`/months/${remit}/report`, "look at it")]))];
}
