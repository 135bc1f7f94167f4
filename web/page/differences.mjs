// What a change of a lock means: the lock that is open beside another one.

import { element, fill, find, options, pair, pairs } from "./dom.mjs";
import { filesOf, optionsOf } from "./choices.mjs";
import { Grid } from "./grid.mjs";
import { intake } from "./intake.mjs";
import { Refusal } from "./library.mjs";
import { refusedNote } from "./refused.mjs";
import { brief, counted } from "./text.mjs";
import { CHANGES } from "./words.mjs";

export class Differences {
    // stateOf() gives the state of the page
    constructor(place, stateOf) {
        this.stateOf = stateOf;
        this.other = null;
        this.answer = element("p", { role: "status", class: "answer-small" });
        this.note = element("div");
        this.whole = element("div", { class: "whole" });
        this.order = this.select("order", "The other lock is", [["old", "the old one"], ["new", "the new one"]]);
        this.about = this.select("about", "Compare", [["locks", "the locks"], ["plans", "their plans with these choices"]]);
        const open = (change, byKey) => this.open(change, byKey);
        this.grid = new Grid({ label: "Differences", kind: "changes", columns: COLUMNS, open });
        this.grid.element.hidden = true;
        place.append(
            intake({
                label: "the other lock", name: "pasted text", accept: ".toml,text/plain", told: "Or drop it here.",
                take: (name, bytes) => this.take(name, bytes),
            }),
            element("div", { class: "row" }, this.order.place, this.about.place),
            this.answer, this.note, this.grid.element, this.whole);
    }

    select(name, label, values) {
        const select = element("select", { id: `differences-${name}`, change: () => this.draw() }, options(values));
        return { select, place: element("label", {}, `${label} `, select) };
    }

    take(name, bytes) {
        this.other = { name, bytes };
        this.draw();
    }

    draw() {
        fill(this.note);
        fill(this.whole);
        const state = this.stateOf();
        if (!this.other || !state.lock) return;
        try {
            this.show(this.changes(state));
        } catch (error) {
            this.grid.element.hidden = true;
            fill(this.answer, "The locks can't be compared.");
            if (!(error instanceof Refusal)) throw error;
            fill(this.note, refusedNote(error, `${error.file === OTHER ? this.other.name : state.lock.name} is refused`));
        }
    }

    changes(state) {
        const files = { [OTHER]: this.other.bytes, [OPEN]: state.lock.bytes, ...state.environmentFiles };
        const order = this.order.select.value === "old" ? [OTHER, OPEN] : [OPEN, OTHER];
        const words = this.about.select.value === "locks" ? [] : optionsOf(state.choices, state.lock.head);
        if (this.about.select.value === "plans") words.push(...filesOf(state.choices).flatMap((file) => ["--in", file]));
        return state.library.document(["diff", ...order, ...words], files).changes;
    }

    show(changes) {
        const what = this.about.select.value === "locks" ? "the same lock" : "the same plan";
        const beside = brief(this.other.name, 80);
        fill(this.answer, changes.length === 0 ? `${beside} gives ${what}.` : `${counted(changes.length, "change")} beside ${beside}.`);
        this.grid.element.hidden = changes.length === 0;
        this.grid.show(changes);
    }

    open(change, byKey) {
        fill(this.whole,
            element("h3", { tabindex: "-1" }, `${change.change}: `, brief(change.name ?? "-", 300)),
            element("p", {}, `${CHANGES[change.change] ?? ""}`),
            pairs(pair("from", change.from ?? "absent"), pair("to", change.to ?? "absent")));
        if (byKey) this.whole.querySelector("h3").focus();
    }
}

const OTHER = "other.toml";
const OPEN = "pylock.toml";

const COLUMNS = [
    { title: "Change", class: "verdict", cell: (change) => element("span", { class: `chip ${change.change}` }, change.change) },
    { title: "Name", class: "name", cell: (change) => brief(change.name ?? "-", 120) },
    { title: "From", class: "from", cell: (change) => brief(change.from ?? "") },
    { title: "To", class: "to", cell: (change) => brief(change.to ?? "") },
];

export const takeOther = (differences) => (name, bytes) => {
    differences.take(name, bytes);
    find("#tab-differences").click();
};
