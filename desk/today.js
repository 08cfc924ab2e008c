// The first view: where the books stand, who is late, and what is next.

import { agesTable } from "./late.js";
import { el, facts, heading, link, section } from "./page.js";
import { ask } from "./routes.js";
import * as texts from "./texts.js";

export async function view() {
    const [status, aging] = await Promise.all(["status", "aging"].map(ask));
    const { loans, commands, closed, remitted, day } = texts.status(status);
    return {
        title: "Today",
        content: [
            heading(`The desk on ${day}`),
            el("p", {}, "Type a loan's number above, or take one of the lists."),
            section("books", "The books", facts(["Loans", String(loans)], ["Commands", String(commands)],
                ["Closed last", closed ?? "none"], ["Remitted last", remitted ?? "none"]),
            el("p", {}, link("/month", "Close, remit and reports"), " · ", link("/custody", "Custodial accounts"))),
            section("ages", "How late the loans are", agesTable(texts.aging(aging).total),
                el("p", {}, link("/late", "The late loans, each with what brings it current"))),
        ],
    };
}
