// One loan: its books, what brings it current, a payoff quote, what can be booked, its history, its terms.

import { analysis, booksFacts, escrowLines, quoteFacts } from "./aside.js";
import { booked } from "./command.js";
import { FORMS } from "./forms.js";
import { historyOf } from "./history.js";
import { amount, el, facts, heading, link, section, table } from "./page.js";
import { percent, points } from "./money.js";
import { refusedQuestion } from "./refusals.js";
import { ask, Refused } from "./routes.js";
import * as texts from "./texts.js";

const MONEY = ["pay", "curtail", "payoff", "deposit", "disburse", "refund", "waive"];
const OTHERS = ["analyse", "line", "drop", "retype"];

export async function view({ parts: [loan], query }) {
    const paths = ["", "/books", "/arrears", "/history"].map((it) => `loans/${loan}${it}`);
    const [terms, books, arrears, history] = await Promise.all(paths.map(ask));
    const its = { terms: texts.loan(terms), books: texts.books(books), arrears: texts.arrears(arrears) };
    return {
        title: `Loan ${loan}`,
        content: [
            heading(`Loan ${loan}`),
            query.get("booked") ? await booked(query.get("booked")) : null,
            el("div", { class: "columns" },
                section("now", "Books", booksFacts(its.books)),
                section("arrears", "Arrears", arrearsFacts(its.arrears)),
                section("quote", "Payoff quote", await quoteForm(loan, query.get("quote"), its.books.day))),
            section("book", "Book", forms(loan, MONEY), el("p", {}, "An entry is taken back from the history."),
                el("h3", {}, "Escrow and remittance"), forms(loan, OTHERS)),
            section("history", "History", historyOf(texts.history(history), its.books)),
            section("terms", "Terms", termsFacts(its.terms), types(its.terms.types)),
            section("escrow", "Escrow", escrowLines(its.terms.lines),
                query.get("analysis") ? await analysis(loan)
                    : el("p", {}, link(`/loans/${loan}?analysis=1`, "What an analysis would find"))),
        ].filter((it) => it),
    };
}

function forms(loan, words) {
    return el("ul", { class: "forms" }, words.map((it) =>
        el("li", {}, link(`/loans/${loan}/${it}`, FORMS[it].title))));
}

function arrearsFacts({ installments, due, suspense, pay, late }) {
    return facts(["Installments due", String(installments)], ["Due", amount(due)], ["Suspense", amount(suspense)],
        ["Brings it current", amount(pay)], ["Late charges, not in it", amount(late)]);
}

/** The form of a quote, and the quote of the address's day. */
async function quoteForm(loan, day, today) {
    const form = el("form", { class: "short", onsubmit: (event) => {
        event.preventDefault();
        location.hash = `#/loans/${loan}?quote=${form.elements.day.value}`;
    } }, el("label", { for: "quote-day" }, "On the day"),
    el("input", { id: "quote-day", name: "day", required: true, value: day ?? today, autocomplete: "off",
        pattern: "\\d{4}-\\d{2}-\\d{2}", title: "Year, month and day, as in 2024-02-01" }), " ",
    el("button", {}, "Quote"));
    return [form, day ? await quoteOn(loan, day) : el("p", {}, "What pays the loan off on a day, as if nothing else "
        + "were booked before it.")];
}

async function quoteOn(loan, day) {
    try {
        return quoteFacts(texts.quote(await ask(`loans/${loan}/quote/${day}`)));
    } catch (error) {
        if (error instanceof Refused) {
            return refusedQuestion(error.refusal);
        }
        throw error;
    }
}

const TYPES = { AA: "actual/actual", SA: "scheduled/actual", SS: "scheduled/scheduled" };
const typeShown = (type) => `${type}, ${TYPES[type]}`;

function termsFacts(it) {
    return facts(["Boarded", it.boarded], ["Principal", amount(it.principal)], ["Rate", percent(it.rate)],
        ["Servicing fee", percent(it.fee)], ["Level payment", amount(it.pi)], ["Installments", String(it.term)],
        ["First due month", it.first], ["Grace", `${it.grace} days`], ["Late charge", points(it.late)],
        ["Cushion", `${it.cushion} months`], ["Escrow payment at boarding", amount(it.escrow)],
        ["Remittance at boarding", typeShown(it.type)]);
}

function types(changes) {
    return changes.length ? table("Changes of remittance type", [{ name: "month", label: "From" },
        { name: "type", label: "Type", show: (it) => typeShown(it.type) }], changes) : null;
}
