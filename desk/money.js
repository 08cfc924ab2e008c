// Amounts are BigInt cents; days and months are the strings that the program writes.

const WRITTEN = /^-?(0|[1-9][0-9]*)\.[0-9]{2}$/;
const TYPED = /^(0|[1-9][0-9]*|[1-9][0-9]{0,2}(,[0-9]{3})+)(\.[0-9]{2})?$/;

/** The cents of an amount as the program writes it. */
export function cents(text) {
    if (!WRITTEN.test(text)) {
        throw new Error(`'${text}' is no amount.`);
    }
    return BigInt(text.replace(".", ""));
}

/** An amount as the program writes it. */
export function plain(value) {
    const digits = String(value < 0n ? -value : value).padStart(3, "0");
    return `${value < 0n ? "-" : ""}${digits.slice(0, -2)}.${digits.slice(-2)}`;
}

/** An amount as it is shown: with commas. */
export function shown(value) {
    return plain(value).replace(/\B(?=(\d{3})+(?=\.))/g, ",");
}

/** What someone typed as the program spells it, or null where it is in doubt. */
export function typed(text) {
    const trimmed = text.trim();
    if (!TYPED.test(trimmed)) {
        return null;
    }
    const whole = trimmed.replaceAll(",", "");
    const amount = whole.includes(".") ? whole : `${whole}.00`;
    return amount.length <= 14 ? amount : null;
}

export function sum(values) {
    return values.reduce((total, it) => total + it, 0n);
}

/** A rate in thousandths of a percent, as percent: by its digits, without arithmetic. */
export function percent(thousandths) {
    const digits = String(thousandths).padStart(4, "0");
    return `${digits.slice(0, -3)}.${digits.slice(-3)} %`;
}

/** A number of basis points, as percent. */
export function points(count) {
    const digits = String(count).padStart(3, "0");
    return `${digits.slice(0, -2)}.${digits.slice(-2)} %`;
}

/** The month before one: `2024-01` gives `2023-12`. */
export function monthBefore(month) {
    const [year, number] = month.split("-").map(Number);
    return number > 1 ? `${year}-${String(number - 1).padStart(2, "0")}` : `${year - 1}-12`;
}
