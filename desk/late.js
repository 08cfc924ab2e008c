// Late loans, by how late they are.

import { el, heading, loanLink, section, table } from "./page.js";
import { ask } from "./routes.js";
import * as texts from "./texts.js";

/** The counts of a text of aging: the name of each, its words, and the days from which on it counts. */
export const AGES = [
    { name: "current", label: "Current" }, { name: "late1", label: "1 to 29 days", from: 1 },
    { name: "late30", label: "30 to 59 days", from: 30 }, { name: "late60", label: "60 to 89 days", from: 60 },
    { name: "late90", label: "90 days and more", from: 90 }, { name: "satisfied", label: "Satisfied" },
];

export function agesTable(total) {
    return table("Loans by lateness on the business day", [
        { name: "label", label: "Late by" }, { name: "count", label: "Loans", figures: true },
    ], AGES.map(({ name, label }) => ({ label, count: total[name] })));
}

const COLUMNS = [
    { name: "loan", label: "Loan", show: (it) => loanLink(it.loan) },
    { name: "days", label: "Days late", figures: true }, { name: "next", label: "Open installment" },
    { name: "installments", label: "Installments due", figures: true },
    { name: "due", label: "Due", figures: true }, { name: "suspense", label: "Suspense", figures: true },
    { name: "pay", label: "Brings it current", figures: true },
    { name: "late", label: "Late charges owed", figures: true },
];

export async function view() {
    const { day, late, total } = texts.aging(await ask("aging"));
    const buckets = AGES.filter((it) => it.from).map((age, at, all) => {
        const before = all[at + 1]?.from ?? Infinity;
        const its = late.filter((it) => it.days >= age.from && it.days < before);
        return section(age.name, `${age.label}: ${total[age.name]}`,
            its.length ? table(`Late ${age.label}`, COLUMNS, its) : el("p", {}, "None."));
    });
    return {
        title: "Late loans",
        content: [heading(`Late loans on ${day}`),
            el("p", {}, `${total.current} loans are current, ${total.satisfied} are satisfied. `
                + "Late charges are not in what brings a loan current."),
            ...buckets.reverse()],
    };
}
