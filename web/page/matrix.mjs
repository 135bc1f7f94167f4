// Pythons by platforms: one session, edited from target to target.

import { afterDrawing, button, element, fill } from "./dom.mjs";
import { PLATFORMS, PYTHONS } from "./choices.mjs";
import { BUILT, Selection } from "./selection.mjs";
import { brief, counted, number } from "./text.mjs";

export class Matrix {
    // choose(python, platform) shows the plan of a target
    constructor(place, stateOf, choose) {
        this.stateOf = stateOf;
        this.choose = choose;
        this.run = 0;
        this.isCurrent = false;
        this.status = element("p", { role: "status", class: "hint" });
        this.table = element("table", { class: "matrix" });
        const region = { class: "sideways", role: "region", tabindex: "0", "aria-label": "Matrix of Pythons and platforms" };
        place.append(this.status, element("div", region, this.table));
    }

    // The choices have changed: what is shown no longer holds.
    outdate() {
        this.isCurrent = false;
        this.run++;
        this.selection?.close();
        this.selection = null;
    }

    draw() {
        const state = this.stateOf();
        if (this.isCurrent || !state.lock) return;
        this.outdate();
        this.isCurrent = true;
        const cells = this.makeTable();
        this.selection = new Selection(state.library, state.lock, state.environment);
        this.fillCells(state, cells, 0, this.run);
    }

    makeTable() {
        const titles = PLATFORMS.map(([platform, title]) =>
            element("th", { scope: "col" }, title, element("span", { class: "platform" }, breakable(platform))));
        const targets = PYTHONS.map((python) => PLATFORMS.map(([platform]) => ({ python, platform, cell: element("td", {}, "…") })));
        const rows = targets.map((row) =>
            element("tr", {}, element("th", { scope: "row" }, `Python ${row[0].python}`), row.map(({ cell }) => cell)));
        fill(this.table,
            element("caption", { class: "unseen" }, "What the lock gives on each Python and platform"),
            element("thead", {}, element("tr", {}, element("td"), titles)),
            element("tbody", {}, rows));
        return targets.flat();
    }

    // One cell after the other, so that the page answers in between.
    fillCells(state, cells, at, run) {
        if (run !== this.run) return;
        if (at === cells.length) return this.end();
        const { cell, python, platform } = cells[at];
        this.selection.choose({ ...state.choices, environment: null }, state.library.target(python, platform));
        fill(cell, this.button(this.selection.answer(state.lock.entries), python, platform));
        fill(this.status, `${number(at + 1)} of ${counted(cells.length, "target")}`);
        afterDrawing(() => this.fillCells(state, cells, at + 1, run));
    }

    end() {
        fill(this.status, "With the extras, groups, policies and variables that are chosen. Open a cell to see its plan.");
        this.selection.close();
        this.selection = null;
    }

    button({ fault, counts, entries }, python, platform) {
        const lines = fault ? faultLines(fault) : planLines(counts);
        const label = `Python ${python}, ${platform}: ${lines.join(", ")}`;
        const kind = fault ? "fault" : counts.built > 0 ? "builds" : "plan";
        const told = lines.map((line, at) => element(at === 0 ? "strong" : "span", {}, line));
        const properties = { class: `cell ${kind}`, "aria-label": label, title: builtNames(entries) };
        return button(told, () => this.choose(python, platform), properties);
    }
}

// The first names of what would be built.
function builtNames(entries) {
    const names = entries.filter((entry) => BUILT.has(entry.verdict)).map((entry) => brief(entry.name, 60));
    if (names.length === 0) return null;
    return `built: ${names.slice(0, 10).join(", ")}${names.length > 10 ? ", .." : ""}`;
}

// A name that may be broken behind each _.
const breakable = (name) => name.split(/(?<=_)/).flatMap((piece) => [piece, element("wbr")]);

const planLines = (counts) => [`plan ${number(counts.installed)}`, counts.built > 0 ? `${number(counts.built)} built` : "wheels alone"];

const faultLines = (fault) => [fault.code, fault.id === 0 ? "head" : `${fault.id} ${brief(fault.name ?? "", 40)}`];
