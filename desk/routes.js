// What the page asks of the program and sends to it (docs/HTTP.md), on the origin that it came from.

import { refusal } from "./texts.js";

/** The program refused: `refusal` has the code, the name and the value. */
export class Refused extends Error {
    constructor(text) {
        super(text);
        this.refusal = refusal(text);
    }
}

/** No answer of the program came. `isSure` says that nothing was booked. */
export class NoAnswer extends Error {
    constructor(says, isSure) {
        super(says);
        this.isSure = isSure;
    }
}

const SURELY_NOT = {
    400: "The program could not read what was sent. Mend the fields.",
    401: "You are not signed in. Load the page again, and give your name and word.",
    403: "The server does not take requests from this page: its origin has no row in the site's file.",
    404: "The program does not know this question. Is it of this page's version?",
    405: "The program does not know this question. Is it of this page's version?",
    413: "What was sent is too long.",
    415: "The server did not take what was sent for JSON.",
};
const IN_DOUBT = {
    500: "The disk failed while the program worked.",
    502: "The program is away.",
    503: "The server is busy: too many requests wait, or memory is short.",
    504: "The program did not come back in time.",
};

/** Sends a request and gives the text of the answer. */
async function answer(path, how) {
    let got, said;
    try {
        got = await fetch(new URL(`/v1/${path}`, location.origin), {
            cache: "no-store", credentials: "same-origin", signal: AbortSignal.timeout(120_000), ...how,
        });
        said = got.status === 200 || got.status === 409 ? await got.json() : null;
    } catch {
        throw new NoAnswer("The connection broke before an answer came.", false);
    }
    if (said === null) {
        const sure = SURELY_NOT[got.status];
        throw new NoAnswer(`${sure ?? IN_DOUBT[got.status] ?? "The answer is none that this page knows."} `
            + `(HTTP ${got.status})`, sure !== undefined);
    }
    if (said.code !== 0) {
        throw new Refused(said.text);
    }
    return said;
}

/** The text that answers a query. */
export async function ask(path) {
    return (await answer(path, { method: "GET" })).text;
}

/** The number of a command that was accepted. */
export async function send(members) {
    const said = await answer("commands", {
        method: "POST", headers: { "Content-Type": "application/json" }, body: JSON.stringify(members),
    });
    return said.number;
}

/** The same as `ask`, and null where the program refuses with this code. */
export async function askUnless(code, path) {
    try {
        return await ask(path);
    } catch (error) {
        if (error instanceof Refused && error.refusal.code === code) {
            return null;
        }
        throw error;
    }
}
