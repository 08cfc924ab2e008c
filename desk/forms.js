// The commands as forms: their fields in the order of the line (docs/FORMATS.md), and how each is read.

import { cents, shown, typed } from "./money.js";

const MOST = 4294967295;

/** A day that there is, as the program spells it. */
function day(text) {
    const parts = /^(\d{4})-(\d{2})-(\d{2})$/.exec(text.trim());
    const date = parts && new Date(Date.UTC(parts[1], parts[2] - 1, parts[3]));
    return date?.toISOString().slice(0, 10) === text.trim() ? text.trim() : null;
}

/** How a field of a kind is read: what is typed becomes the program's spelling, or null where it does not fit. */
const READERS = {
    number: (text) => (/^(0|[1-9][0-9]{0,9})$/.test(text.trim()) && Number(text) <= MOST ? text.trim() : null),
    amount: typed,
    day,
    month: (text) => (/^\d{4}-(0[1-9]|1[0-2])$/.test(text.trim()) ? text.trim() : null),
    choice: (text) => text,
    part: (text) => (/^(-|leave|within30|spread:([1-9][0-9]{0,2}))$/.test(text.trim()) ? text.trim() : null),
};

const HINTS = {
    amount: "As in 1,199.10.",
    day: "As in 2024-02-01.",
    month: "As in 2024-02.",
    part: "A dash for nothing, leave, within30, or spread: and a number of months, as in spread:12.",
};

const DAY = { name: "day", label: "Day it took effect", kind: "day", from: "today" };
const AMOUNT = { name: "amount", label: "Amount", kind: "amount" };
const LOAN = { name: "loan", label: "Loan number", kind: "number" };
const PERIOD = { name: "period", label: "Month", kind: "month" };
const LINE = { name: "line", label: "Number of the escrow line", kind: "number" };

const entry = (title, verb, fields, says, more = {}) =>
    ({ title, verb, fields: [LOAN, ...fields], says, hasItem: true, ...more });
const on = (it) => `loan ${it.loan}, dated ${it.day}`;
const money = (text) => shown(cents(text));

/** Each command: its title, the words of its button, its fields, what it says in plain words. */
export const FORMS = {
    pay: entry("Payment", "Book the payment", [DAY, AMOUNT, {
        name: "designation", label: "What is over goes to", kind: "choice", optional: true,
        options: [["", "the next installment (it waits)"], ["principal", "principal"], ["escrow", "escrow"]],
    }], (it) => `A payment of ${money(it.amount)} on ${on(it)}${
        it.designation ? `; what is over goes to ${it.designation}` : ""}.`),
    curtail: entry("Curtailment", "Book the curtailment", [DAY, AMOUNT],
        (it) => `A curtailment of ${money(it.amount)} on ${on(it)}: it pays principal alone.`),
    payoff: entry("Payoff", "Book the payoff", [DAY, AMOUNT],
        (it) => `A payoff of ${money(it.amount)} on ${on(it)}.`, { quotes: true }),
    deposit: entry("Escrow deposit", "Book the deposit", [DAY, AMOUNT],
        (it) => `A deposit of ${money(it.amount)} into the escrow of ${on(it)}.`),
    disburse: entry("Bill", "Book the bill", [DAY, AMOUNT, LINE],
        (it) => `A bill of ${money(it.amount)} is paid from escrow line ${it.line} of ${on(it)}.`),
    refund: entry("Refund", "Book the refund", [AMOUNT],
        (it) => `${money(it.amount)} is paid out to the borrower of loan ${it.loan}, on the business day.`),
    waive: entry("Waiver", "Book the waiver", [AMOUNT],
        (it) => `Late charges of ${money(it.amount)} on loan ${it.loan} are given up, on the business day.`),
    reverse: entry("Take an entry back", "Take it back", [
        { name: "number", label: "Number of the entry", kind: "number" },
    ], (it) => `Entry ${it.number} of loan ${it.loan} is taken back, as if it had never come.`),
    line: entry("Escrow line", "Set the line", [LINE, {
        name: "kind", label: "Kind", kind: "choice",
        options: [["tax", "tax"], ["hazard", "hazard"], ["flood", "flood"], ["other", "other"]],
    }, { name: "month", label: "Month of the year of a bill", kind: "number", hint: "1 to 12." },
    { name: "every", label: "Months from bill to bill", kind: "number", hint: "1, 2, 3, 4, 6 or 12." }, AMOUNT],
    (it) => `Escrow line ${it.line} of loan ${it.loan}: ${it.kind}, ${money(it.amount)} every ${it.every} months, `
        + `as in month ${it.month}.`, { hasItem: false }),
    drop: entry("End an escrow line", "Take the line away", [LINE],
        (it) => `Escrow line ${it.line} of loan ${it.loan} is taken away.`, { hasItem: false }),
    analyse: entry("Escrow analysis", "Analyse and settle", [{
        name: "surplus", label: "Surplus", kind: "choice",
        options: [["-", "nothing chosen: refunded"], ["refund", "refund"], ["credit", "credit"], ["retain", "retain"]],
    }, { name: "short", label: "Shortage", kind: "part", first: "-" },
    { name: "deficient", label: "Deficiency", kind: "part", first: "-" }],
    (it) => `The escrow of loan ${it.loan} is analysed and settled: surplus ${it.surplus}, shortage ${it.short}, `
        + `deficiency ${it.deficient}. It cannot be taken back.`, { isTwice: true, hasItem: false }),
    retype: entry("Remittance type", "Change the type", [{ ...PERIOD, label: "From this month on" }, {
        name: "type", label: "Type", kind: "choice",
        options: [["AA", "AA: actual/actual"], ["SA", "SA: scheduled/actual"], ["SS", "SS: scheduled/scheduled"]],
    }], (it) => `Loan ${it.loan} is remitted as ${it.type} from ${it.period} on.`, { hasItem: false }),
    board: {
        title: "Board a loan", verb: "Board the loan",
        fields: [LOAN, { ...DAY, label: "Day of boarding" },
            { name: "principal", label: "Principal", kind: "amount" },
            { name: "rate", label: "Rate", kind: "number", hint: "Thousandths of a percent: 6000 is 6 %." },
            { name: "fee", label: "Servicing fee", kind: "number", hint: "Thousandths of a percent, in the rate." },
            { name: "pi", label: "Level payment", kind: "amount" },
            { name: "term", label: "Installments", kind: "number" },
            { name: "first", label: "First due month", kind: "month" },
            { name: "grace", label: "Days of grace", kind: "number", first: "15" },
            { name: "late", label: "Late charge", kind: "number", first: "500",
                hint: "Basis points of the level payment: 500 is 5 %." },
            { name: "cushion", label: "Cushion", kind: "number", first: "2", hint: "0, 1 or 2 months." },
            { name: "escrow", label: "Monthly escrow payment", kind: "amount", first: "0.00" },
            { name: "type", label: "Remittance type", kind: "choice",
                options: [["AA", "AA: actual/actual"], ["SA", "SA: scheduled/actual"],
                    ["SS", "SS: scheduled/scheduled"]] }],
        says: (it) => `Loan ${it.loan} is boarded on ${it.day} with a principal of ${money(it.principal)}.`,
    },
    day: {
        title: "Business day", verb: "Set the business day", isTwice: true,
        fields: [{ name: "day", label: "Business day", kind: "day" }],
        says: (it) => `The business day becomes ${it.day}. It cannot be set back.`,
    },
    close: {
        title: "Close a month", verb: "Close the month", isTwice: true, fields: [PERIOD],
        says: (it) => `The month ${it.period} is closed. It cannot be opened again.`,
    },
    remit: {
        title: "Remit a month", verb: "Remit the month", isTwice: true, fields: [PERIOD],
        says: (it) => `The month ${it.period} is remitted to the investor. It cannot be taken back.`,
    },
};

export const hintOf = (field) => field.hint ?? HINTS[field.kind] ?? null;

/** The values of a form as the program spells them, and what is wrong with those that do not fit. */
export function readForm(form, given) {
    const values = {}, faults = {};
    for (const field of form.fields) {
        const text = given[field.name] ?? "";
        const value = text === "" && !field.optional ? null : READERS[field.kind](text);
        if (value === null) {
            faults[field.name] = text === "" ? `${field.label} is missing.`
                : `${field.label} does not fit. ${hintOf(field) ?? "It is a whole number."}`;
        }
        values[field.name] = value;
    }
    return { values, faults };
}

/** The line that the journal keeps. */
export function lineOf(key, word, form, values) {
    return [key, word, ...form.fields.map((it) => values[it.name]).filter((it) => it !== "")].join(" ");
}

/** The members of the JSON body. */
export function bodyOf(key, word, form, values) {
    const members = { key, do: word };
    for (const { name, kind } of form.fields) {
        if (values[name] !== "") {
            members[name] = kind === "number" ? Number(values[name]) : values[name];
        }
    }
    return members;
}

export const ITEM = /^[A-Za-z0-9._:-]{1,30}$/;

/** The key of an item that has a number of its own: a check's, a bank reference. */
export const keyOfItem = (item) => `c-${item}`;

/** A key for an item that has none: its word, the day, the loan and a random part. */
export function newKey(word, day, loan) {
    const random = crypto.getRandomValues(new Uint32Array(1))[0].toString(36).padStart(7, "0");
    return `${word.slice(0, 2)}-${day.slice(2).replaceAll("-", "")}-${loan === null ? "" : `${loan}-`}${random}`;
}
