// A table of any number of rows, of which only those in view are drawn. It has the keys of a grid: arrows, page keys, Home, End,
// and Enter, which opens the row.

import { element, fill } from "./dom.mjs";

const AROUND = 6; // rows drawn above and below the view
let grids = 0;

export class Grid {
    // columns: [{title, class, cell(row) -> children}]; open(row) is called for the row that is chosen
    constructor({ label, columns, open, kind }) {
        this.columns = columns;
        this.open = open;
        this.rows = [];
        this.active = -1;
        this.opened = -1;
        this.name = `grid${++grids}`;
        this.probe = element("div", { class: "grid-probe", "aria-hidden": "true" });
        this.body = element("tbody", { role: "rowgroup" });
        this.table = element("table", this.tableProperties(label), this.headRow(), this.body);
        this.view = element("div", { class: `grid ${kind}`, role: "presentation", scroll: () => this.draw() }, this.probe, this.table);
        this.element = this.view;
        // not at once: what is drawn may change the size that is observed
        new ResizeObserver(() => requestAnimationFrame(() => this.draw())).observe(this.view);
    }

    tableProperties(label) {
        return {
            role: "grid", tabindex: "0", "aria-label": label, "aria-colcount": this.columns.length,
            keydown: (event) => this.press(event), click: (event) => this.click(event), focus: () => this.focus(),
        };
    }

    headRow() {
        const properties = (column) => ({ role: "columnheader", scope: "col", class: column.class });
        const cells = this.columns.map((column) => element("th", properties(column), column.title));
        return element("thead", { role: "rowgroup" }, element("tr", { role: "row", "aria-rowindex": 1 }, cells));
    }

    // Shows other rows; the row that was active stays so where its number is the same.
    show(rows, keyOf = (row) => row) {
        const key = this.active >= 0 && this.active < this.rows.length ? keyOf(this.rows[this.active]) : null;
        const openedKey = this.opened >= 0 && this.opened < this.rows.length ? keyOf(this.rows[this.opened]) : null;
        this.rows = rows;
        this.active = key === null ? -1 : rows.findIndex((row) => keyOf(row) === key);
        this.opened = openedKey === null ? -1 : rows.findIndex((row) => keyOf(row) === openedKey);
        this.table.setAttribute("aria-rowcount", rows.length + 1);
        this.draw();
    }

    draw() {
        const height = this.probe.offsetHeight || 40;
        const headHeight = this.table.tHead.offsetHeight;
        this.body.style.height = `${height * this.rows.length}px`;
        const top = Math.max(0, this.view.scrollTop - headHeight);
        const first = Math.max(0, Math.floor(top / height) - AROUND);
        const last = Math.min(this.rows.length, Math.ceil((top + this.view.clientHeight) / height) + AROUND);
        const drawn = [];
        if (this.active >= 0 && this.active < first) drawn.push(this.row(this.active, height));
        for (let at = first; at < last; at++) drawn.push(this.row(at, height));
        if (this.active >= last && this.active < this.rows.length) drawn.push(this.row(this.active, height));
        fill(this.body, drawn);
        this.markActive();
    }

    row(at, height) {
        const cells = this.columns.map((column) => element("td", { role: "gridcell", class: column.class }, column.cell(this.rows[at])));
        const row = element("tr", {
            role: "row", id: `${this.name}-${at}`, "aria-rowindex": at + 2, "aria-selected": String(at === this.opened),
            class: at === this.active ? "active" : null, "data-at": at,
        }, cells);
        row.style.top = `${at * height}px`;
        return row;
    }

    markActive() {
        if (this.active < 0) this.table.removeAttribute("aria-activedescendant");
        else this.table.setAttribute("aria-activedescendant", `${this.name}-${this.active}`);
    }

    focus() {
        if (this.active < 0 && this.rows.length > 0) this.move(0);
    }

    press(event) {
        if (event.altKey || event.ctrlKey || event.metaKey || event.target !== this.table) return;
        const page = Math.max(1, Math.floor(this.view.clientHeight / (this.probe.offsetHeight || 40)) - 2);
        const steps = { ArrowDown: 1, ArrowUp: -1, PageDown: page, PageUp: -page, Home: -Infinity, End: Infinity };
        if (event.key in steps) this.move(this.active + steps[event.key]);
        else if (event.key === "Enter" || event.key === " ") this.openRow(this.active, true);
        else return;
        event.preventDefault();
    }

    click(event) {
        const row = event.target.closest("tr[data-at]");
        if (!row) return;
        this.active = Number(row.dataset.at);
        this.openRow(this.active, false);
    }

    move(wanted) {
        if (this.rows.length === 0) return;
        this.active = Math.min(this.rows.length - 1, Math.max(0, wanted));
        this.bringIntoView();
        this.draw();
    }

    bringIntoView() {
        const height = this.probe.offsetHeight || 40;
        const headHeight = this.table.tHead.offsetHeight;
        const [top, bottom] = [this.active * height, (this.active + 1) * height + headHeight];
        if (top < this.view.scrollTop) this.view.scrollTop = top;
        else if (bottom > this.view.scrollTop + this.view.clientHeight) this.view.scrollTop = bottom - this.view.clientHeight;
    }

    openRow(at, byKey) {
        if (at < 0 || at >= this.rows.length) return;
        this.opened = at;
        this.draw();
        this.open?.(this.rows[at], byKey);
    }
}
