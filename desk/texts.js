// The program's texts (docs/FORMATS.md) as records: one reader each. Amounts become BigInt cents, numbers
// numbers; days, months and words stay strings, and `-` becomes null.

import { cents } from "./money.js";

const number = (word) => {
    if (!/^(0|[1-9][0-9]*)$/.test(word)) {
        throw new Error(`'${word}' is no number.`);
    }
    return Number(word);
};
const word = (it) => it;
const orNone = (read) => (it) => (it === "-" ? null : read(it));

/** Reads words by a form: a string stands for itself, a pair names a value and says how it is read. */
function fit(words, form) {
    const record = {};
    if (words.length !== form.length) {
        throw new Error(`'${words.join(" ")}' has another form than this page knows.`);
    }
    form.forEach((part, at) => {
        if (Array.isArray(part)) {
            record[part[0]] = part[1](words[at]);
        } else if (part !== words[at]) {
            throw new Error(`'${words.join(" ")}' lacks '${part}'.`);
        }
    });
    return record;
}

/** A form from text: `loan=n upb upb=a` is a number, the word `upb`, an amount. */
function form(text) {
    const kinds = { n: number, a: cents, w: word, "-n": orNone(number), "-w": orNone(word) };
    return text.split(" ").map((it) => {
        const [name, kind] = it.split("=");
        return kind ? [name, kinds[kind]] : name;
    });
}

/** `upb interest` stands for each name followed by its amount. */
const amounts = (names) => names.split(" ").map((it) => `${it} ${camel(it)}=a`).join(" ");
const counts = (names) => names.split(" ").map((it) => `${it} ${it}=n`).join(" ");
const camel = (name) => name.replace(/-(.)/, (_, letter) => letter.toUpperCase());

const linesOf = (text) => text.split("\n").map((it) => it.split(" "));

/** Reads a text of many lines: its first by one form, each other by that of its first word, to `end`. */
function many(text, first, forms) {
    const [head, ...lines] = linesOf(text);
    if (lines.pop()?.join(" ") !== "end") {
        throw new Error("The text stops early.");
    }
    const record = fit(head, first);
    for (const [kind, its] of Object.entries(forms)) {
        record[its.as] = lines.filter((it) => it[0] === kind).map((it) => fit(it, its.form));
    }
    const other = lines.find((it) => !(it[0] in forms));
    if (other) {
        throw new Error(`'${other.join(" ")}' is no line that this page knows.`);
    }
    return record;
}

const BOOKS = form("books loan=n day=w upb upb=a next next=-w "
    + amounts("escrow suspense late interest fee principal charges pay"));
export const books = (text) => fit(text.split(" "), BOOKS);

const QUOTE = form("quote loan=n day=w amount=a perday perday=a");
export const quote = (text) => fit(text.split(" "), QUOTE);

const ARREARS = form("arrears loan=n day=w installments installments=n " + amounts("due suspense pay late"));
export const arrears = (text) => fit(text.split(" "), ARREARS);

const STATUS = form("status day=w loans loans=n commands commands=n closed closed=-w remitted remitted=-w "
    + "close close=w remit remit=-w pending pending=n adjustments adjustments=n");
export const status = (text) => fit(text.split(" "), STATUS);

const CUSTODIAL = form("custodial " + amounts("T P suspense escrow escrow-advance held pi-advance"));
export const custodial = (text) => fit(text.split(" "), CUSTODIAL);

const LOAN = form("loan loan=n boarded boarded=w principal principal=a rate rate=n fee fee=n pi pi=a term term=n "
    + "first first=w grace grace=n late late=n cushion cushion=n escrow escrow=a type type=w");
export const loan = (text) => many(text, LOAN, {
    line: { as: "lines", form: form("line line=n kind=w month=n every=n amount=a") },
    type: { as: "types", form: form("type month=w type=w") },
});

const EVENT = form("event day=w number=-n word=w amount=a "
    + amounts("interest principal escrow late charges suspense upb") + " next next=-w");
export const history = (text) => many(text, form("history loan=n day=w events count=n"), {
    event: { as: "events", form: EVENT },
    reversed: { as: "reversed", form: form("reversed number=n by=n") },
});

const LATE = form("late loan=n next next=w days days=n installments installments=n "
    + amounts("due suspense pay late"));
const AGES = form("total " + counts("current late1 late30 late60 late90 satisfied"));
export const aging = (text) => onlyTotal(many(text, form("aging day=w loans count=n"), {
    late: { as: "late", form: LATE },
    total: { as: "total", form: AGES },
}));

/** The record with its one `total` in the place of a list of them. */
function onlyTotal(record) {
    if (record.total.length !== 1) {
        throw new Error("The text has not one total.");
    }
    return { ...record, total: record.total[0] };
}

export const report = (text) => onlyTotal(many(text, form("report month=w lines count=n"), {
    line: {
        as: "lines",
        form: form("line loan=n due interest=a principal=a adjusted moreInterest=a morePrincipal=a upb upb=a "
            + "balance balance=a"),
    },
    adjust: { as: "adjustments", form: form("adjust command=n loan=n month=w interest=a principal=a") },
    total: { as: "total", form: form("total " + amounts("interest principal")) },
}));

export const trial = (text) => onlyTotal(many(text, form("trial month=w loans count=n"), {
    loan: { as: "lines", form: form("loan loan=n " + amounts("upb balance")) },
    total: { as: "total", form: form("total " + amounts("upb balance")) },
}));

export const rows = (text) => many(text, form("rows number=n count count=n"), {
    row: { as: "rows", form: form("row loan=n part=w from=w to=w amount=a") },
});

const ESCROW = form("escrow loan=n from from=w "
    + amounts("base cushion opening balance surplus short deficient pay"));
export const escrow = (text) => many(text, ESCROW, {
    month: { as: "months", form: form("month month=w " + amounts("paid trial target")) },
});

/** A command's number, the words of its line, and its reply. */
export function command(text) {
    const [head, line, reply, end] = text.split("\n");
    if (!line?.startsWith("line ") || !reply?.startsWith("reply ") || end !== "end") {
        throw new Error("The text is of no command.");
    }
    return { ...fit(head.split(" "), form("command number=n")), line: line.slice(5), reply: reply.slice(6) };
}

/** What a refusal's text says: its code, its name and its value, which may be empty. */
export function refusal(text) {
    const [, code, name, ...value] = text.split(" ");
    return { code: number(code), name, value: value.join(" ") };
}
