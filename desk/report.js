// The report and the trial of a closed month: tables that are sorted by any column, and CSV files.

import { commandLink, el, heading, keepInAddress, link, loanLink, save, section, table } from "./page.js";
import { plain } from "./money.js";
import { ask } from "./routes.js";
import * as texts from "./texts.js";

const figures = (name, label) => ({ name, label, figures: true });
const LOAN = { name: "loan", label: "Loan", show: (it) => loanLink(it.loan) };
const COLUMNS = {
    report: [LOAN, figures("interest", "Interest due"), figures("principal", "Principal due"),
        figures("moreInterest", "Interest adjusted"), figures("morePrincipal", "Principal adjusted"),
        figures("upb", "Balance"), figures("balance", "Investor's balance")],
    trial: [LOAN, figures("upb", "Balance"), figures("balance", "Investor's balance")],
};
const ADJUSTMENTS = [{ name: "command", label: "Command", show: (it) => commandLink(it.command) }, LOAN,
    { name: "month", label: "Of the month" }, figures("interest", "Interest"), figures("principal", "Principal")];

export async function view({ parts: [month, word], path, query }) {
    const it = texts[word](await ask(`months/${month}/${word}`));
    const other = word === "report" ? "trial" : "report";
    const box = el("div", { class: "sorted" });
    const sorted = new Sorted(box, path, word, it, query);
    sorted.show();
    return {
        title: `${word === "report" ? "Report" : "Trial"} of ${month}`,
        content: [heading(`${word === "report" ? "Report" : "Trial"} of ${month}`),
            el("p", { class: "buttons" }, el("button", { id: "csv", onclick: () =>
                save(`${word}-${month}.csv`, csv(COLUMNS[word], sorted.lines())) }, "Save as CSV"), " ",
            link(`/months/${month}/${other}`, `The ${other} of ${month}`), " · ", link("/month", "The month")),
            box, word === "report" ? adjustments(it, month) : null].filter((part) => part),
    };
}

/** A table whose order stands in the address. */
class Sorted {
    constructor(box, path, word, text, query) {
        Object.assign(this, { box, path, word, text, by: query.get("sort") ?? "loan", isDown: query.has("down") });
    }

    lines() {
        const { by, isDown } = this;
        const order = (a, b) => (a[by] < b[by] ? -1 : a[by] > b[by] ? 1 : 0);
        return this.text.lines.toSorted((a, b) => (isDown ? order(b, a) : order(a, b)));
    }

    /** The button in the head of a column: it sorts by it, and a second time the other way. */
    button({ name, label }) {
        return el("button", { class: "sort", "data-by": name, onclick: () => {
            this.isDown = this.by === name && !this.isDown;
            this.by = name;
            keepInAddress(this.path, { sort: name, down: this.isDown ? "1" : "" });
            this.show();
            this.box.querySelector(`[data-by="${name}"]`).focus();
        } }, label);
    }

    show() {
        const columns = COLUMNS[this.word], { total, month } = this.text;
        this.box.replaceChildren(table(`${this.word === "report" ? "Lines of the report" : "Balances"} of ${month}`,
            columns, this.lines(), {
                sorting: { by: this.by, isDown: this.isDown, button: (it) => this.button(it) },
                foot: [{ loan: this.word === "report" ? "Total, adjustments in it" : "Total", ...total }],
            }));
    }
}

function adjustments({ adjustments: its }, month) {
    return section("adjustments", "Adjustments of earlier months", its.length === 0 ? el("p", {}, "None.")
        : [table(`Adjustments in the report of ${month}`, ADJUSTMENTS, its),
            el("p", {}, el("button", { id: "csv-adjustments", onclick: () =>
                save(`adjustments-${month}.csv`, csv(ADJUSTMENTS, its)) }, "Save the adjustments as CSV"))]);
}

/** A CSV file of records: amounts as the program writes them. */
export function csv(columns, records) {
    const written = (value) => (typeof value === "bigint" ? plain(value) : String(value));
    const lines = [columns.map((it) => it.label), ...records.map((it) => columns.map(({ name }) => written(it[name])))];
    return lines.map((it) => `${it.join(",")}\r\n`).join("");
}
