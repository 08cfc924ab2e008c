// Refusals in plain words, with their values (docs/REFUSALS.md).

import { commandLink, el } from "./page.js";
import { cents, shown } from "./money.js";

const money = (value) => shown(cents(value));

const FULL = {
    Commands: "1,000,000 commands are accepted: this journal takes no more.",
    Loans: "12,000 loans are there: board the loan in another journal.",
    Entries: "The loan has 4,096 entries: no more can be added.",
    Lines: "The loan has 16 escrow lines: take away one that has ended, or use its number.",
    Months: "600 months are closed: this journal takes no more.",
    Types: "The loan's remittance type was changed 64 times: it stays as it is.",
};
const TERMS = {
    "1 Principal": "The principal must be from 0.01 to 100,000,000.00.",
    "2 RateRange": "The rate must be from 1 to 25000 thousandths of a percent.",
    "3 FeeRange": "The servicing fee can be at most the rate.",
    "4 Payment": "The level payment must be above the first month's interest, and at most 100,000,000.00.",
    "5 Term": "The term must be from 1 to 480 installments.",
    "6 FirstDue": "The first due month must be one or two months after the boarded month.",
    "7 Grace": "The grace period can be at most 28 days.",
    "8 Late": "The late charge can be at most 1000 basis points.",
    "9 Cushion": "The cushion must be 0, 1 or 2 months.",
    "10 EscrowPay": "The monthly escrow payment can be at most 100,000,000.00.",
};
const LINES = {
    "1 Amount": "The bill's amount must be from 0.01 to 100,000,000.00.",
    "2 MonthRange": "The month must be from 1 to 12.",
    "3 Every": "A bill comes every 1, 2, 3, 4, 6 or 12 months.",
};
const PLANS = {
    "1": () => "The borrower is current: the surplus must be refunded, or may be credited below 50.00.",
    "2": () => "The shortage is a month's escrow payment or more: spread it over 12 months or more, or leave it.",
    "3": () => "The deficiency is a month's escrow payment or more: spread it over 2 months or more, or leave it.",
    "4": (months) => `${months} months are too few: a shortage takes 12 or more, a deficiency 2 or more.`,
    "5": (months) => `${months} months are too many: 60 are the most.`,
    "6": (part) => `There is no ${{ Surplus: "surplus", Short: "shortage", Deficient: "deficiency" }[part]} to plan: `
        + "choose nothing for it.",
};

function plan(value) {
    const words = value.split(" ");
    return PLANS[words[0]](words.at(-1));
}

/** What each code says of its value. */
const WORDS = {
    1: (value) => ["The key is that of command ", commandLink(value), ", which says something else. If you meant "
        + "that command, it is booked already; if this is another item, give it a key of its own."],
    2: (value) => FULL[value],
    3: (value) => `The business day is ${value}: only a later day can be set.`,
    4: () => "A loan with that number is there already.",
    5: () => "No loan has that number.",
    6: (value) => TERMS[value],
    7: (value) => `The last closed month is ${value}: date the boarding in a later month.`,
    8: () => "The amount must be from 0.01 to 100,000,000.00.",
    9: (value) => `The business day is ${value}: date it on that day or before.`,
    10: (value) => `The loan was boarded on ${value}: date it on that day or later.`,
    11: (value) => `The balance on that day is ${money(value)}: pay at most that, or book a payoff.`,
    12: (value) => `The payoff due on that day is ${money(value)}. Book at least that, or book the money as a payment.`,
    13: () => "The number is no entry of this loan, or no command has it.",
    14: (value) => ["The entry was taken back already, by command ", commandLink(value), "."],
    15: () => "An escrow analysis cannot be taken back: make a new one, which replaces the plan.",
    16: () => "The loan has no escrow line of that number.",
    17: (value) => LINES[value],
    18: plan,
    19: (value) => `${money(value)} is there to be refunded.`,
    20: (value) => `The late charges owed are ${money(value)}: waive at most that.`,
    21: (value) => `The month to be closed next is ${value}.`,
    22: (value) => `The month ends on ${value}: set a later business day first.`,
    23: (value) => (value === "-" ? "The month has no report: no month is closed yet."
        : `The month has no report: the last closed month is ${value}.`),
    24: (value) => `The month to be remitted next is ${value}.`,
    25: (value) => `${value} adjustments of closed months are held, and no more fit: date the entry later.`,
    26: (value) => `The journal has ${value} bytes and takes no more.`,
    27: (value) => `The last closed month is ${value}: begin in a later month.`,
    28: () => "No accepted command has that number or that key: it was not booked.",
};

/** A refusal as the page shows it: what it says, and its code, name and value as the program wrote them. */
export function refusalShown({ code, name, value }) {
    const says = WORDS[code]?.(value) ?? "The program refuses.";
    return el("div", { class: "refusal" },
        el("p", {}, "Refused: nothing was booked. ", says),
        el("p", { class: "code" }, `Code ${code} ${name}${value ? ` ${value}` : ""}`));
}

/** The same for a question. */
export function refusedQuestion({ code, name, value }) {
    return el("div", { class: "refusal" }, el("p", {}, WORDS[code]?.(value) ?? "The program refuses."),
        el("p", { class: "code" }, `Code ${code} ${name}${value ? ` ${value}` : ""}`));
}
