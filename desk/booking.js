// The view of a form: its fields, its key, what will be sent, and what came of it. Everything that it knows stands in
// the address, the key too: when the page is loaded again it is the same item.

import { aside } from "./aside.js";
import { bodyOf, FORMS, hintOf, ITEM, keyOfItem, lineOf, newKey, readForm } from "./forms.js";
import { el, heading, isInAddress, keepInAddress, link } from "./page.js";
import { refusalShown } from "./refusals.js";
import { ask, askUnless, Refused, send } from "./routes.js";
import * as texts from "./texts.js";

export async function view({ parts: [loan, word], path, query }) {
    const form = FORMS[word];
    if (!form || (form.fields[0].name === "loan" && word !== "board") !== (loan !== "")) {
        throw new Error("There is no such form.");
    }
    const status = texts.status(await ask("status"));
    const booking = new Booking({ form, word, path, loan: loan || null, status }, query);
    const beside = await aside(booking);
    const content = [heading(form.title + (loan ? `, loan ${loan}` : "")), booking.shown(beside)];
    if (query.get("sent")) {
        await booking.lookUp();
    }
    return { title: `${form.title}${loan ? `, loan ${loan}` : ""}`, content };
}

/** An item that is booked through a form. */
class Booking {
    constructor(what, query) {
        Object.assign(this, what);
        this.given = {};
        for (const it of this.form.fields) {
            this.given[it.name] = query.get(it.name) ?? this.first(it);
        }
        if (this.loan !== null) {
            this.given.loan = this.loan;
        }
        this.item = query.get("item") ?? "";
        this.made = query.get("key") || newKey(this.word, this.status.day, this.loan);
        this.state = query.get("sent") ? "doubt" : "open";
        this.whenChanged = () => {};
        this.keep();
    }

    /** What a field begins with. */
    first(field) {
        const { status } = this;
        const offered = { close: status.close, remit: status.remit ?? "" };
        return field.name === "period" && this.word in offered ? offered[this.word]
            : field.from === "today" ? status.day : field.first ?? field.options?.[0][0] ?? "";
    }

    get key() {
        return this.item === "" ? this.made : keyOfItem(this.item);
    }

    /** Writes all that is known into the address. */
    keep() {
        const { loan, ...rest } = this.given;
        const fields = this.loan === null ? this.given : rest;
        const sent = this.state === "open" ? "" : "1";
        keepInAddress(this.path, { ...fields, item: this.item, key: this.made, sent });
    }

    shown(beside) {
        this.fields = el("div", { class: "fields" }, this.form.fields.filter((it) =>
            this.loan === null || it.name !== "loan").map((it) => this.field(it)),
        this.form.hasItem ? this.itemField() : null);
        this.keyShown = el("output", { id: "key" });
        this.preview = el("section", { class: "preview", "aria-labelledby": "sent" });
        this.said = el("div", { class: "said", role: "alert" });
        this.buttons = el("p", { class: "buttons" });
        this.element = el("form", { novalidate: true, class: "booking", autocomplete: "off",
            onsubmit: (event) => this.submit(event), oninput: (event) => this.change(event),
            // Not at each letter: a browser drops changes of the address, and ways to other views, that are too many.
            onchange: () => this.keep() },
        this.fields, el("p", { class: "key" }, "Key of this form: ", this.keyShown), this.preview, this.said,
        this.buttons);
        this.refresh();
        return el("div", { class: "columns" }, this.element, beside);
    }

    field(field) {
        const id = `field-${field.name}`, value = this.given[field.name];
        const hint = hintOf(field);
        const common = { id, name: field.name, "aria-describedby": `${hint ? `${id}-hint ` : ""}${id}-fault` };
        const input = field.kind === "choice"
            ? el("select", common, field.options.map(([its, label]) =>
                el("option", { value: its, selected: its === value }, label)))
            : el("input", { ...common, value, required: !field.optional,
                inputmode: { amount: "decimal", number: "numeric" }[field.kind],
                class: field.kind === "amount" ? "figures" : null });
        return el("div", { class: "field" }, el("label", { for: id }, field.label), input,
            hint ? el("p", { class: "hint", id: `${id}-hint` }, hint) : null,
            el("p", { class: "fault", id: `${id}-fault` }));
    }

    itemField() {
        return el("div", { class: "field item" },
            el("label", { for: "field-item" }, "The item's own number (if it has one)"),
            el("input", { id: "field-item", name: "item", value: this.item,
                "aria-describedby": "field-item-hint field-item-fault", maxlength: "30" }),
            el("p", { class: "hint", id: "field-item-hint" },
                "A check's number or the bank's reference: it makes the key, so that the same item is booked once."),
            el("p", { class: "fault", id: "field-item-fault" }));
    }

    change(event) {
        const { name, value } = event.target;
        if (name === "item") {
            this.item = value.trim();
        } else {
            this.given[name] = value;
        }
        this.said.replaceChildren();
        this.state = "open";
        this.refresh();
        this.whenChanged(name);
    }

    /** What is read from the fields, and what is wrong with them. */
    read() {
        const { values, faults } = readForm(this.form, this.given);
        if (this.item !== "" && !ITEM.test(this.item)) {
            faults.item = "The item's number does not fit. 1 to 30 letters, digits and . _ : - can stand in it.";
        }
        return { values, faults, fits: Object.keys(faults).length === 0 };
    }

    /** Shows the key, what will be sent and the buttons of the present state. */
    refresh() {
        const { values, fits } = this.read();
        this.keyShown.value = this.key;
        const is = fits ? [el("p", {}, this.form.says(values)),
            el("p", {}, "Line: ", el("code", { id: "line" }, lineOf(this.key, this.word, this.form, values))),
            el("p", {}, "Body: ", el("code", { id: "body" },
                JSON.stringify(bodyOf(this.key, this.word, this.form, values))))]
            : [el("p", {}, "Some fields are still empty or do not fit.")];
        this.preview.replaceChildren(el("h2", { id: "sent" }, "What will be sent"), ...is);
        this.element.querySelectorAll(".field input, .field select").forEach((it) => {
            it.disabled = this.state === "sending" || this.state === "doubt";
        });
        this.buttons.replaceChildren(...this.buttonsNow());
    }

    buttonsNow() {
        const send = (text, more = {}) => el("button", { id: "send", class: "main", ...more }, text);
        const back = link(this.loan ? `/loans/${this.loan}` : "/month", "Back, without booking");
        switch (this.state) {
        case "sending": return [send("Sending …", { "aria-disabled": "true" })];
        case "doubt": return [send("Send it again"), " ",
            el("button", { type: "button", id: "look-up", onclick: () => this.lookUp() }, "Ask whether it was booked")];
        case "look": return [send(`Yes: ${this.form.verb.toLowerCase()}`), " ",
            el("button", { type: "button", onclick: () => this.become("open") }, "No, go back")];
        default: return [send(this.form.isTwice ? "Look once more" : this.form.verb), " ", back];
        }
    }

    become(state) {
        this.state = state;
        if (state !== "look") {
            this.keep();
        }
        this.refresh();
        if (state !== "sending") {
            this.element.querySelector("#send").focus();
        }
    }

    showFaults(faults) {
        this.element.querySelectorAll(".fault").forEach((it) => {
            const name = it.id.slice(6, -6), input = this.element.querySelector(`#field-${name}`);
            it.replaceChildren(faults[name] ?? "");
            input.toggleAttribute("aria-invalid", name in faults);
        });
        const first = this.element.querySelector("[aria-invalid]");
        first?.focus();
        return first === null;
    }

    submit(event) {
        event.preventDefault();
        const { faults } = this.read();
        if (this.state === "sending" || !this.showFaults(faults)) {
            return;
        }
        if (this.state === "open" && this.form.isTwice) {
            this.said.replaceChildren(el("p", { class: "look" },
                "Look once more. This cannot be taken back."));
            this.become("look");
            return;
        }
        this.sendIt();
    }

    async sendIt() {
        const { values } = this.read();
        this.said.replaceChildren();
        this.become("sending");
        try {
            this.done(await send(bodyOf(this.key, this.word, this.form, values)));
        } catch (error) {
            this.failed(error);
        }
    }

    /** Shows a refusal, or that no answer came: then the key stays and the fields stay as they were sent. */
    failed(error) {
        if (error instanceof Refused) {
            this.said.replaceChildren(refusalShown(error.refusal),
                error.refusal.code === 1 ? this.otherKey() : "");
        } else {
            this.said.replaceChildren(el("div", { class: "refusal" }, el("p", {}, error.message,
                error.isSure ? " Nothing was booked." : " It may be booked or not. Send it again: under its key it is "
                    + "booked once.")));
        }
        this.become(error instanceof Refused || error.isSure ? "open" : "doubt");
    }

    otherKey() {
        return el("p", {}, el("button", { type: "button", onclick: () => {
            this.item = "";
            this.element.querySelectorAll("#field-item").forEach((it) => { it.value = ""; });
            this.made = newKey(this.word, this.status.day, this.loan);
            this.said.replaceChildren();
            this.become("open");
        } }, "This is another item: give it a key of its own"));
    }

    /** Asks the program whether a command of this key was accepted. */
    async lookUp() {
        try {
            const text = await askUnless(28, `keys/${this.key}`);
            if (text === null) {
                this.said.replaceChildren(el("p", { class: "look" },
                    "It was not booked. Send it again, or change it."));
                this.become("open");
            } else {
                this.found(texts.command(text));
            }
        } catch (error) {
            this.failed(error);
        }
    }

    found(command) {
        const { values } = this.read();
        if (command.line === lineOf(this.key, this.word, this.form, values)) {
            this.done(command.number);
        } else {
            this.failed(new Refused(`no 1 KeyReused ${command.number}`));
        }
    }

    /** Goes on to where what was booked is seen, unless the reader went elsewhere meanwhile. */
    done(number) {
        const { loan } = this.given;
        if (!isInAddress("key", this.made)) {
            return;
        }
        location.replace(`#${loan ? `/loans/${loan}` : "/month"}?booked=${number}`);
        // A browser drops changes of the address that are too many, for some seconds.
        if (isInAddress("key", this.made)) {
            setTimeout(() => this.done(number), 1000);
        }
    }
}
