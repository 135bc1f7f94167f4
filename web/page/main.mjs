// The page: what is open, what is chosen, and what is drawn again when either changes.

import { load } from "../pylock.mjs";
import { choicesOf, dropUnknown, extrasOf, firstChoices, groupsOf } from "./choices.mjs";
import { Detail, findingList } from "./detail.mjs";
import { Differences, takeOther } from "./differences.mjs";
import { afterDrawing, button, element, fill, find, hint } from "./dom.mjs";
import { Entries, verdictChip } from "./entries.mjs";
import { EXAMPLE } from "./example.mjs";
import { Findings } from "./findings.mjs";
import { acceptDrops, acceptPastes, intake } from "./intake.mjs";
import { Library, Refusal } from "./library.mjs";
import { Lock } from "./lock.mjs";
import { Matrix } from "./matrix.mjs";
import { Panel } from "./panel.mjs";
import { refusedNote } from "./refused.mjs";
import { Selection } from "./selection.mjs";
import { Tabs } from "./tabs.mjs";
import { Take } from "./take.mjs";
import { brief, bytesOfBase64, counted, number, size } from "./text.mjs";
import { sentenceOf } from "./words.mjs";

const MANY = 1000; // entries, from which on the reasons are asked for after the answer is drawn
const REASONS_AFTER = 150; // milliseconds without another change

const NARROW = matchMedia("(max-width: 60rem)");

class Page {
    constructor(library) {
        // what the views are drawn from
        this.state = {
            library, lock: null, choices: firstChoices(), environment: null, environmentFiles: {}, explained: null,
            findings: new Map(), worths: new Map(),
        };
        this.selection = null;
        this.makeViews();
        this.takeFragment();
        addEventListener("hashchange", () => this.takeFragment());
    }

    makeViews() {
        const stateOf = () => this.state;
        const openLock = (name, bytes) => this.openLock(name, bytes);
        this.detail = new Detail(find("#detail"), (make) => this.change(make));
        this.entries = new Entries(find("#entries"), (entry, byKey) => this.openEntry(entry, byKey));
        this.findings = new Findings(find("#panel-findings"), (id, byKey) => this.openById(id, byKey));
        this.differences = new Differences(find("#panel-differences"), stateOf);
        this.matrix = new Matrix(find("#panel-matrix"), stateOf, (python, platform) => this.chooseTarget(python, platform));
        this.take = new Take(find("#panel-take"), stateOf);
        this.panel = new Panel(find("#panel"), {
            change: (make) => this.change(make),
            takeEnvironment: (name, bytes) => this.takeEnvironment(name, bytes),
        });
        this.tabs = new Tabs(find("[role=tablist]"), () => this.drawTab());
        const example = button("Try an example", () => openLock("example.toml", new TextEncoder().encode(EXAMPLE)));
        find("#open-place").append(intake({
            label: "a pylock.toml", name: "pasted.toml", accept: ".toml,text/plain", take: openLock, more: example,
            told: "Or drop one anywhere on this page. A second lock dropped with it is compared.",
        }));
        acceptDrops(document.body, openLock, takeOther(this.differences));
        acceptPastes(openLock);
        find("#open-another").addEventListener("click", () => this.openAnother());
        this.foldChoices();
        NARROW.addEventListener("change", () => this.foldChoices());
    }

    // Where there is room beside the entries the choices stand open.
    foldChoices() {
        find("#choices").open = !NARROW.matches;
        find("#choices > summary").tabIndex = NARROW.matches ? 0 : -1;
    }

    openAnother() {
        const place = find("#open");
        place.hidden = !place.hidden;
        if (!place.hidden) place.querySelector("button").focus();
    }

    // ---- what comes in

    openLock(name, bytes) {
        this.closeLock();
        try {
            const lock = new Lock(this.state.library, name, bytes);
            this.selection = new Selection(this.state.library, lock, this.state.environment);
            this.state.lock = lock;
            lock.keepEntries(this.selection.explain().entries);
        } catch (error) {
            return this.refuseLock(name, error);
        }
        const dropped = dropUnknown(this.state.choices, this.state.lock.head, this.state.lock.idsByName);
        find("#open").hidden = true;
        find("#work").hidden = find("#lock-bar").hidden = false;
        this.drawLock(dropped);
        this.render();
        afterDrawing(() => this.audit(this.state.lock));
    }

    closeLock() {
        this.selection?.close();
        this.selection = null;
        clearTimeout(this.reasons);
        Object.assign(this.state, { lock: null, explained: null, findings: new Map(), worths: new Map() });
        this.detail.close();
        this.matrix.outdate();
        fill(find("#refused"));
        find("#trouble").hidden = true;
        find("#work").hidden = find("#lock-bar").hidden = true;
    }

    refuseLock(name, error) {
        find("#open").hidden = false;
        this.state.lock = null;
        if (!(error instanceof Refusal)) throw error;
        fill(find("#refused"), refusedNote(error, `${brief(name, 100)} is refused`));
    }

    audit(lock) {
        if (lock !== this.state.lock || lock === null) return;
        this.state.findings = lock.findingsByEntry;
        this.findings.show(lock.findings);
        this.entries.show(this.state.explained, this.state.findings);
        this.detail.draw(this.state, false);
        fill(find("#head-findings"), this.state.findings.has(0) ? findingList(this.state.findings.get(0)) : null);
    }

    takeEnvironment(name, bytes) {
        try {
            const environment = this.state.library.environmentFile(bytes);
            this.environmentFile = { name, bytes, environment };
        } catch (error) {
            if (!(error instanceof Refusal)) throw error;
            return this.panel.refuse(error);
        }
        this.change((choices) => { choices.environment = { name }; });
    }

    // A fragment without choices, as of a link within the page, changes none.
    takeFragment() {
        if (this.state.environment !== null && !location.hash.includes("=")) return;
        this.change((choices) => Object.assign(choices, choicesOf(location.hash)));
    }

    // ---- what is chosen

    // Makes a change of the choices, and draws what it changes; an environment that is refused leaves all as it was.
    change(make) {
        const choices = structuredClone(this.state.choices);
        make(choices);
        try {
            this.state.environment = this.environmentOf(choices);
        } catch (error) {
            if (!(error instanceof Refusal)) throw error;
            this.state.environment ??= this.environmentOf(firstChoices());
            return this.panel.refuse(error);
        }
        this.state.choices = choices;
        this.state.environmentFiles = choices.environment ? { "environment.json": this.environmentFile.bytes } : {};
        this.panel.refuse(null);
        if (this.state.lock) dropUnknown(choices, this.state.lock.head, this.state.lock.idsByName);
        this.render();
    }

    environmentOf(choices) {
        return choices.environment ? this.environmentFile.environment : this.state.library.target(choices.python, choices.platform);
    }

    chooseTarget(python, platform) {
        this.change((choices) => Object.assign(choices, { python, platform, environment: null }));
        this.tabs.chooseByName("entries");
        find("#answer").focus();
    }

    // ---- what is drawn

    render() {
        const { state } = this;
        this.panel.draw(state);
        fill(find("#choices-told"), toldOf(state));
        if (!state.lock) return;
        this.selection.choose(state.choices, state.environment);
        state.worths = new Map();
        clearTimeout(this.reasons);
        if (state.lock.entries.length < MANY || state.explained === null) this.show(this.selection.explain());
        else {
            this.show(this.selection.answer(state.explained.entries));
            this.reasons = setTimeout(() => this.show(this.selection.explain()), REASONS_AFTER);
        }
        this.matrix.outdate();
        if (this.tabs.current !== "entries") this.drawTabLater();
    }

    show(explained) {
        this.state.explained = explained;
        this.drawAnswer(explained);
        this.entries.show(explained, this.state.findings);
        if (explained.isWhole) this.detail.draw(this.state, false);
    }

    // A view that asks a command afresh is drawn after the answer.
    drawTabLater() {
        this.isDue ||= (afterDrawing(() => {
            this.isDue = false;
            this.drawTab();
        }), true);
    }

    drawTab() {
        const name = this.tabs.current;
        if (!this.state.lock) return;
        if (name === "entries" || name === "findings") this[name].grid.draw();
        else if (name === "differences") this.differences.draw();
        else if (name === "matrix") this.matrix.draw();
        else this.take.draw();
    }

    drawLock(dropped) {
        const { lock } = this.state;
        const { python, environments } = lock.head;
        const entries = counted(lock.entries.length, "entry", "entries");
        const left = dropped.slice(0, 5).map((name) => brief(name, 60)).join(", ");
        fill(find("#lock-told"),
            element("p", {}, element("strong", {}, brief(lock.name, 120)), ` ${size(lock.bytes.length)}, ${entries}`),
            python === null ? null : hint("requires-python ", element("code", {}, brief(python, 300))),
            environments === null ? null : hint("environments ", element("code", {}, brief(environments, 300))),
            left === "" ? null : element("p", { class: "note" }, `The lock has no ${left}: left out of the choices.`),
            element("div", { id: "head-findings" }));
    }

    drawAnswer(explained) {
        const { fault, counts } = explained;
        const line = element("p", { class: fault ? "answer fault" : "answer plan" },
            element("strong", {}, fault ? `fault ${number(fault.id)}` : `plan ${number(counts.installed)}`), " ",
            fault ? faultText(explained) : planText(explained));
        // what is the same isn't said again
        if (line.textContent !== find("#answer-line").textContent) fill(find("#answer-line"), line);
        document.title = `${fault ? `fault ${fault.id}` : `plan ${counts.installed}`}, ${brief(this.state.lock.name, 60)}: pylock`;
    }

    // The details need the reasons.
    openEntry(entry, byKey) {
        if (!this.state.explained.isWhole) this.show(this.selection.explain());
        this.detail.open(this.state, entry, byKey);
        if (!byKey && matchMedia("(max-width: 80rem)").matches) find("#detail").scrollIntoView({ block: "nearest" });
    }

    openById(id, byKey) {
        if (id === 0) return;
        this.tabs.chooseByName("entries");
        this.openEntry(this.state.explained.entries[id - 1], true);
        if (!byKey) find("#detail").scrollIntoView({ block: "nearest" });
    }
}

function planText({ entries, counts }) {
    const built = counts.built === 0 ? "" : `, ${number(counts.built)} of them built on the machine`;
    const all = counted(entries.length, "entry", "entries");
    return `${number(counts.installed)} of ${all} are installed${built}; ${number(counts.skipped)} skipped.`;
}

function faultText({ head, entries, fault, counts, isWhole }) {
    const entry = fault.id === 0 ? head : entries[fault.id - 1];
    const found = entry.verdict === fault.code ? entry : {};
    const others = isWhole && counts.faults > 1 ? ` ${counted(counts.faults, "entry", "entries")} are at fault; this one decides.` : "";
    return [verdictChip(fault.code), ` ${fault.id === 0 ? "The head" : brief(fault.name ?? "", 120)}: ${sentenceOf(fault.code)} `,
        found.detail ? element("code", {}, brief(found.detail, 300)) : "", others,
        fault.code === "marker-unset" && found.detail ? giveButton(found.detail) : null];
}

// Leads to the field of the variable that a marker lacks.
function giveButton(detail) {
    const [variable] = detail.split(" ");
    const field = document.getElementById(`set-${variable}`);
    if (!field) return null;
    const give = () => {
        find("#choices").open = field.closest("details").open = true;
        field.focus();
    };
    return [" ", button(`Give ${variable} a value`, give, { class: "small" })];
}

// The choices in a line, for where they are folded.
function toldOf({ choices, lock }) {
    const told = choices.environment ? [brief(choices.environment.name, 60)] : [`Python ${choices.python}`, choices.platform];
    if (lock) {
        told.push(...extrasOf(choices, lock.head).slice(0, 3).map((name) => brief(name, 40)));
        told.push(...groupsOf(choices, lock.head).slice(0, 3).map((name) => brief(name, 40)));
    }
    return told.join(", ");
}

// ---- the beginning

function showTrouble(error) {
    const place = find("#trouble");
    place.hidden = false;
    const told = brief(String(error?.message ?? error), 600);
    fill(place, element("div", { class: "note fault" }, element("strong", {}, "This went wrong: "), told, ". Reload the page to begin anew."));
}

// The module stands in the page itself, or beside it where the page isn't in one file.
async function loadModule() {
    const data = document.getElementById("module");
    return data ? load(bytesOfBase64(data.textContent.trim())) : load();
}

async function start() {
    addEventListener("error", (event) => showTrouble(event.error ?? event.message));
    addEventListener("unhandledrejection", (event) => showTrouble(event.reason));
    const library = new Library(await loadModule());
    fill(find("#version"), library.run(["--version"]).output.split("\n")[0]);
    new Page(library);
    document.documentElement.dataset.ready = "true";
}

start().catch(showTrouble);
