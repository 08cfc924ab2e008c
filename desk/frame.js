// What stands around each view: the business day in the head, and what is shown where a view fails.

import { el, heading } from "./page.js";
import { refusedQuestion } from "./refusals.js";
import { ask, Refused } from "./routes.js";
import { status } from "./texts.js";

/** Writes the business day into the head. */
export async function header() {
    const day = document.getElementById("day");
    try {
        day.replaceChildren("Business day ", el("strong", {}, status(await ask("status")).day));
    } catch {
        day.replaceChildren("Business day not known");
    }
}

/** What stands in the place of a view that failed. */
export function failure(error) {
    if (error instanceof Refused) {
        return { title: "Refused", content: [heading("There is no answer"), refusedQuestion(error.refusal)] };
    }
    return {
        title: "No answer",
        content: [heading("There is no answer"), el("p", { class: "refusal" }, error.message),
            el("p", {}, el("button", { onclick: () => location.reload() }, "Ask again"))],
    };
}
