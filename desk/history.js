// A loan's history as a table, with its sums beside the books. The sums are the page's own, in whole cents: that they
// are the books' figures is what the reader sees.

import { commandLink, el, table } from "./page.js";
import { sum } from "./money.js";

const SUMMED = ["interest", "principal", "escrow", "late", "charges", "suspense"];
/** What the words of a history say. */
export const WORDS = {
    pay: "payment", "pay-principal": "payment, rest to principal", "pay-escrow": "payment, rest to escrow",
    curtail: "curtailment", payoff: "payoff", deposit: "escrow deposit", disburse: "bill", refund: "refund",
    waive: "waiver", analyse: "escrow analysis", month: "month begins", "late-charge": "late charge",
};

export function historyOf({ loan, events, reversed }, books) {
    const figures = (name, label) => ({ name, label, figures: true });
    const columns = [{ name: "day", label: "Day" },
        { name: "number", label: "Entry", show: (it) => (it.number === null ? "" : commandLink(it.number)) },
        { name: "word", label: "What", show: (it) => WORDS[it.word] ?? it.word },
        figures("amount", "Amount"), figures("interest", "Interest"), figures("principal", "Principal"),
        figures("escrow", "Escrow"), figures("late", "Late owed"), figures("charges", "Late collected"),
        figures("suspense", "Suspense"), figures("upb", "Balance"), { name: "next", label: "Next" },
        { name: "back", label: "Correct", show: (it) => backLink(loan, it) }];
    const sums = Object.fromEntries(SUMMED.map((it) => [it, sum(events.map((event) => event[it]))]));
    const agrees = SUMMED.every((it) => sums[it] === books[it]);
    const foot = [{ day: "Sums", ...sums },
        { day: "Books", ...Object.fromEntries([...SUMMED, "upb", "next"].map((it) => [it, books[it] ?? "–"])) }];
    return [table(`History of loan ${loan}`, columns, events, { foot, kind: "wide" }),
        el("p", { class: agrees ? "good" : "refusal", id: "agrees" }, agrees ? "Each sum is the figure of the books."
            : "The sums are not the figures of the books: load the page again."),
        reversed.length ? table("Entries that were taken back", [
            { name: "number", label: "Entry", show: (it) => commandLink(it.number) },
            { name: "by", label: "Taken back by", show: (it) => commandLink(it.by) }], reversed) : null];
}

function backLink(loan, { number, word }) {
    return number === null || word === "analyse" ? ""
        : el("a", { href: `#/loans/${loan}/reverse?number=${number}`, "aria-label": `Take back entry ${number}` },
            "Take back");
}
