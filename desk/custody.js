// The custodial accounts, and the way to the rows of a command.

import { amount, el, heading, section, table } from "./page.js";
import { ask } from "./routes.js";
import * as texts from "./texts.js";

export async function view() {
    const it = texts.custodial(await ask("custodial"));
    const parts = [
        ["T", "Taxes, insurance and money not yet applied", it.T], ["", "Suspense", it.suspense],
        ["", "Escrow", it.escrow], ["", "Escrow advanced by the servicer", it.escrowAdvance],
        ["P", "Principal and interest", it.P], ["", "Held for investors", it.held],
        ["", "Principal and interest advanced by the servicer", it.piAdvance],
    ].map(([account, what, cents]) => ({ what: account ? el("strong", {}, `${account}: ${what}`) : what, cents }));
    return {
        title: "Custody",
        content: [heading("Custodial accounts"),
            table("What the accounts hold, and what that is made of", [{ name: "what", label: "Part" },
                { name: "cents", label: "Amount", figures: true }], parts),
            section("commands", "A command and its rows",
                search("command", "Number of the command", "numeric", "0|[1-9][0-9]{0,9}", "commands"),
                search("key", "Key of the command", "text", "[A-Za-z0-9._:\\-]{1,32}", "keys"))],
    };
}

function search(name, label, inputmode, pattern, to) {
    const form = el("form", { class: "short", onsubmit: (event) => {
        event.preventDefault();
        location.hash = `#/${to}/${form.elements[name].value}`;
    } }, el("label", { for: `find-${name}` }, label),
    el("input", { id: `find-${name}`, name, inputmode, pattern, required: true, autocomplete: "off" }), " ",
    el("button", {}, "Show"));
    return form;
}
