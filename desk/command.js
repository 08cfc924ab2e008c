// A command: its line, its reply and its custodial rows; and the note that one was booked.

import { ask } from "./routes.js";
import { amount, el, facts, heading, link, loanLink, section, table } from "./page.js";
import * as texts from "./texts.js";

/** The note on a view that a command was booked just now, from the program's own record of it. */
export async function booked(number) {
    const { line, reply } = texts.command(await ask(`commands/${number}`));
    return el("div", { class: "good", role: "status", id: "booked" },
        el("p", {}, "Booked as command ", link(`/commands/${number}`, String(number)), ": ", el("code", {}, line)),
        el("p", {}, "Reply: ", el("code", {}, reply)));
}

/** The custodial rows of a command. */
export function rowsTable({ number, rows }) {
    return rows.length === 0 ? el("p", {}, "It moved no money in the custodial accounts.")
        : table(`Custodial rows of command ${number}`, [
            { name: "loan", label: "Loan", show: (it) => loanLink(it.loan) }, { name: "part", label: "Part" },
            { name: "from", label: "From" }, { name: "to", label: "To" },
            { name: "amount", label: "Amount", figures: true, show: (it) => amount(it.amount) },
        ], rows);
}

export async function view({ parts: [by, name] }) {
    const { number, line, reply } = texts.command(await ask(`${by}/${name}`));
    const rows = texts.rows(await ask(`rows/${number}`));
    const [key, word, loan] = line.split(" ");
    const isOfLoan = !["day", "close", "remit"].includes(word);
    return {
        title: `Command ${number}`,
        content: [heading(`Command ${number}`),
            facts(["Key", el("code", {}, key)], ["Line", el("code", {}, line)], ["Reply", el("code", {}, reply)],
                isOfLoan ? ["Loan", loanLink(loan)] : null),
            section("rows", "Custody", rowsTable(rows))],
    };
}
