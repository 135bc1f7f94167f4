// The entries of the lock: what becomes of each, and why.

import { find, element, fill } from "./dom.mjs";
import { Grid } from "./grid.mjs";
import { brief, counted, number } from "./text.mjs";
import { classOf } from "./words.mjs";

const SHOWN = {
    all: () => true,
    installed: (entry) => classOf(entry.verdict) === "installed",
    skipped: (entry) => classOf(entry.verdict) === "skipped",
    fault: (entry) => classOf(entry.verdict) === "fault",
    findings: (entry, findings) => findings.has(entry.id),
};

export class Entries {
    // open(entry, byKey) shows the details of an entry
    constructor(place, open) {
        this.explained = null;
        this.findings = new Map();
        this.grid = new Grid({ label: "Entries of the lock", kind: "entries", columns: this.columns(), open });
        place.append(this.grid.element);
        this.search = find("#search");
        this.filter = find("#filter");
        this.search.addEventListener("input", () => this.draw());
        this.filter.addEventListener("change", () => this.draw());
    }

    columns() {
        return [
            { title: "No.", class: "id", cell: (entry) => number(entry.id) },
            { title: "Name", class: "name", cell: (entry) => nameCell(entry) },
            { title: "Version", class: "version", cell: (entry) => brief(entry.version ?? "", 60) },
            { title: "Verdict", class: "verdict", cell: (entry) => [verdictChip(entry.verdict), this.findingsMark(entry)] },
            { title: "Why", class: "why", cell: (entry) => brief(whyOf(entry)) },
        ];
    }

    findingsMark(entry) {
        const count = this.findings.get(entry.id)?.length ?? 0;
        if (count === 0) return null;
        const unit = element("span", { class: "unseen" }, count === 1 ? " finding" : " findings");
        return element("span", { class: "chip finding", title: counted(count, "finding") }, `! ${count}`, unit);
    }

    show(explained, findings) {
        this.explained = explained;
        this.findings = findings;
        this.draw();
    }

    draw() {
        if (!this.explained) return;
        const wanted = this.search.value.trim().toLowerCase();
        const isShown = SHOWN[this.filter.value];
        const rows = this.explained.entries.filter((entry) => isShown(entry, this.findings) && (wanted === "" || hasText(entry, wanted)));
        this.grid.show(rows, (entry) => entry.id);
        const all = counted(this.explained.entries.length, "entry", "entries");
        fill(find("#shown"), rows.length === this.explained.entries.length ? all : `${number(rows.length)} of ${all}`);
    }
}

const hasText = (entry, wanted) =>
    entry.name.includes(wanted) || entry.verdict.includes(wanted) || (entry.detail?.toLowerCase().includes(wanted) ?? false);

const nameCell = (entry) => brief(entry.name, 120);

export const verdictChip = (verdict) => element("span", { class: `chip ${classOf(verdict)}` }, verdict);

// The reason in a few words: a marker, a set, a file; nothing where it isn't asked for yet.
function whyOf(entry) {
    if (entry.detail === undefined) return "";
    if (entry.verdict === "ambiguous") return `like entry ${entry.detail}`;
    if (entry.verdict === "wheel") return entry.detail.split(" ").at(-1);
    return entry.detail;
}
