// The findings of the audit, in order.

import { find, element, fill } from "./dom.mjs";
import { Grid } from "./grid.mjs";
import { brief, counted } from "./text.mjs";
import { FINDINGS } from "./words.mjs";

const entryOf = (finding) => (finding.id === 0 ? "the head" : `${finding.id} ${brief(finding.name, 120)}`);

export class Findings {
    // open(id, byKey) shows the entry that a finding is of
    constructor(place, open) {
        this.note = element("p", { class: "hint", "aria-live": "polite" });
        this.grid = new Grid({
            label: "Findings of the audit", kind: "findings", open: (finding, byKey) => open(finding.id, byKey),
            columns: [
                { title: "Entry", class: "name", cell: entryOf },
                { title: "Finding", class: "verdict", cell: (finding) => element("span", { class: "chip finding" }, finding.finding) },
                { title: "Meaning", class: "meaning", cell: (finding) => FINDINGS[finding.finding] ?? "" },
                { title: "Detail", class: "why", cell: (finding) => brief(finding.detail ?? "") },
            ],
        });
        place.append(this.note, this.grid.element);
    }

    show(findings) {
        fill(this.note, findings.length === 0
            ? "The audit finds nothing: hashes, names, versions and places are as a careful reader expects."
            : `${counted(findings.length, "finding")}. A lock with findings is valid all the same. Open one to see its entry.`);
        this.grid.element.hidden = findings.length === 0;
        this.grid.show(findings);
        fill(find("#findings-count"), findings.length === 0 ? "" : String(findings.length));
    }
}
