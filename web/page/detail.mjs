// The details of an entry: its verdict and why, its marker part by part, its findings, its files.

import { afterDrawing, button, element, fill, find, hint, longText, options, pair, pairs } from "./dom.mjs";
import { extrasOf, groupsOf, variablesOf } from "./choices.mjs";
import { environmentText } from "./library.mjs";
import { nodesOf, partsOf, readsOf } from "./marker.mjs";
import { behindSlash, textsOf, withoutSecrets, worthsOf } from "./small_locks.mjs";
import { brief, counted, number, size } from "./text.mjs";
import { FINDINGS, classOf, sentenceOf } from "./words.mjs";
import { verdictChip } from "./entries.mjs";

const MOST_PARTS = 200;
const MOST_FILES = 200; // files of an entry that are listed at once

export class Detail {
    // change(make) changes the choices
    constructor(place, change) {
        this.place = place;
        this.change = change;
        this.id = null;
        place.addEventListener("keydown", (event) => this.press(event));
    }

    press(event) {
        if (event.key !== "Escape") return;
        this.close();
        find("#entries table").focus();
    }

    close() {
        this.id = null;
        this.place.hidden = true;
        fill(this.place);
    }

    open(state, entry, isFocused) {
        this.id = entry.id;
        this.place.hidden = false;
        this.draw(state, isFocused);
        if (isFocused) find("#detail-title").focus();
    }

    // Draws the entry again, as it is now.
    draw(state, isFresh = true) {
        if (this.id === null) return;
        const entry = state.explained.entries[this.id - 1];
        if (!entry) return this.close();
        const isSlow = isFresh && !state.lock.keptFacts;
        const facts = element("div", { class: "facts", "aria-busy": "true" }, isSlow ? hint("Reading the files …") : null);
        const parts = [this.title(entry), this.why(entry), this.reason(state, entry), this.policy(state, entry), this.findings(state, entry)];
        fill(this.place, parts, facts);
        if (state.lock.keptFacts) this.addFacts(state, entry, facts);
        else afterDrawing(() => this.addFacts(state, entry, facts));
    }

    title(entry) {
        const version = element("span", { class: "version" }, brief(entry.version ?? "", 100));
        return element("header", {},
            element("h3", { id: "detail-title", tabindex: "-1" }, brief(entry.name, 300), " ", version),
            button("×", () => this.close(), { class: "close", "aria-label": "Close the details" }),
            entry.name.length > 300 ? longText(entry.name, "p", { class: "mono" }) : null);
    }

    why(entry) {
        return element("p", {}, verdictChip(entry.verdict), ` Entry ${number(entry.id)}. ${sentenceOf(entry.verdict)}`);
    }

    // What the verdict names besides a marker; a marker has its parts.
    reason(state, entry) {
        const marker = markerOf(entry);
        if (marker !== null) return markerBlock(state, marker, "Its marker");
        if (entry.verdict === "ambiguous") return element("p", {}, `It is like entry ${entry.detail}.`);
        if (!entry.detail) return null;
        const at = entry.verdict === "wheel" ? entry.detail.lastIndexOf(" ") : entry.detail.length;
        return pairs(
            pair(DETAIL_NAMES[entry.verdict] ?? "Detail", entry.detail.slice(0, at)),
            at < entry.detail.length ? pair("Its best tag", entry.detail.slice(at + 1)) : null);
    }

    policy(state, entry) {
        const chosen = state.choices.policies.get(entry.name) ?? "";
        const set = () => this.change((choices) => {
            if (select.value === "") choices.policies.delete(entry.name);
            else choices.policies.set(entry.name, select.value);
        });
        const select = element("select", { id: "policy-of-entry", change: set },
            options([["", "as for all"], ["wheel", "wheels alone"], ["source", "no wheels"]]));
        select.value = chosen;
        return element("p", { class: "policy" }, element("label", { for: "policy-of-entry" }, "Files of this name: "), select);
    }

    findings(state, entry) {
        const found = state.findings.get(entry.id) ?? [];
        if (found.length === 0) return null;
        return element("section", { class: "note finding" }, element("h4", {}, counted(found.length, "finding")), findingList(found));
    }

    // The files, and what only a comparison tells: sizes, and the marker of an entry that is installed.
    addFacts(state, entry, place) {
        if (this.id !== entry.id) return;
        const { sources, facts } = state.lock;
        const files = sources.get(entry.id) ?? [];
        const fact = facts.get(entry.name);
        const at = state.lock.idsByName.get(entry.name).indexOf(entry.id);
        const marker = fact?.markers?.[at] ?? null;
        fill(place,
            markerOf(entry) === null && marker !== null ? markerBlock(state, marker, "Its marker") : null,
            conditionOf(fact?.pythons?.[at] ?? null),
            filesOf(state.library, entry, files, sizesOf(state.lock, entry, fact)),
            looseSizes(entry, fact),
            keysOf(fact, state.lock.idsByName.get(entry.name).length));
        place.removeAttribute("aria-busy");
    }
}

const DETAIL_NAMES = {
    wheel: "File", sdist: "File", vcs: "Place", directory: "Place", editable: "Place", archive: "Place",
    "python-not-met": "requires-python", "python-unknown": "requires-python", sources: "Kinds", "no-file": "What it has",
};

export const findingList = (found) => element("ul", { class: "finding-list" }, found.map((one) => element("li", {},
    element("strong", {}, one.finding), ` ${FINDINGS[one.finding] ?? ""} `,
    one.detail ? longText(one.detail, "code") : null)));

// The marker that a verdict names, or null.
function markerOf(entry) {
    if (entry.verdict === "marker-unset") return entry.detail.slice(entry.detail.indexOf(" ") + 1);
    return entry.verdict === "skipped" || entry.verdict.startsWith("marker-") ? entry.detail : null;
}

const conditionOf = (python) => (python === null ? null : pairs(pair("requires-python", python)));

// ---- markers

function markerBlock(state, marker, title) {
    const worths = worthsByText(state, marker);
    const block = element("section", { class: "marker" }, element("h4", {}, title));
    if (worths === null) block.append(longText(marker, "p", { class: "mono" }), hint(whyNoWorths(marker)));
    else block.append(element("ul", { class: "tree" }, branch(state, worths.tree, worths.byText)));
    return block;
}

const whyNoWorths = (marker) =>
    marker.includes("***") ? "A part of it is hidden, so its parts aren't judged." : "Its parts can't be judged one by one.";

// A tree of the marker with the verdict of each part, or null.
function worthsByText(state, marker) {
    const tree = marker.includes("***") || marker.length > 100000 ? null : partsOf(marker);
    if (tree === null) return null;
    const texts = [...new Set(nodesOf(tree).map((one) => one.text))];
    if (texts.length > MOST_PARTS) return null;
    const key = JSON.stringify(texts);
    if (!state.worths.has(key)) state.worths.set(key, judged(state, texts));
    const byText = state.worths.get(key);
    return byText && { tree, byText };
}

function judged(state, texts) {
    const asked = {
        extras: extrasOf(state.choices, state.lock.head),
        groups: groupsOf(state.choices, state.lock.head),
        environment: environmentText(variablesOf(state.choices, state.environment), []),
    };
    try {
        return new Map(worthsOf(state.library, texts, asked).map((entry, at) => [texts[at], entry.verdict]));
    } catch {
        return null; // the parts are shown without what they are worth
    }
}

const WORTHS = { skipped: ["false", "✗ false"], directory: ["true", "✓ true"] };

function branch(state, node, worths) {
    const [kind, word] = WORTHS[worths.get(node.text)] ?? ["fault", `⚠ ${worths.get(node.text)}`];
    const line = element("div", { class: "branch" }, element("span", { class: `worth ${kind}` }, word), " ",
        node.parts ? element("span", { class: "joined" }, node.kind === "and" ? "all of" : "any of") : longText(node.text, "code"),
        node.parts ? null : readings(state, node.text));
    return element("li", {}, line, node.parts ? element("ul", {}, node.parts.map((part) => branch(state, part, worths))) : null);
}

// What the variables of a part are here.
function readings(state, text) {
    const told = readsOf(text).map((name) => `${name} ${valueOf(state, name)}`);
    return told.length === 0 ? null : element("span", { class: "reading" }, ` ${told.join("; ")}`);
}

function valueOf(state, name) {
    if (name === "extras") return askedFor(extrasOf(state.choices, state.lock.head));
    if (name === "dependency_groups") return askedFor(groupsOf(state.choices, state.lock.head));
    const value = variablesOf(state.choices, state.environment).get(name);
    return value === undefined ? "has no value here" : `is ${brief(value, 80)}`;
}

const askedFor = (names) => `asked for: ${names.slice(0, 20).map((one) => brief(one, 60)).join(", ") || "none"}`;

// ---- files

// The size of each source of an entry: those of a name stand one after the other, over all its entries.
function sizesOf(lock, entry, fact) {
    if (!fact?.sizes) return null;
    let before = 0;
    for (const id of lock.idsByName.get(entry.name)) {
        if (id === entry.id) break;
        before += lock.sources.get(id)?.length ?? 0;
    }
    return fact.sizes.slice(before);
}

function looseSizes(entry, fact) {
    if (!fact?.loose) return null;
    const told = `Not each file of ${brief(entry.name, 60)} has a size. The sizes, in order: ${fact.loose.join(", ")}`;
    return longText(told, "p", { class: "hint" });
}

function filesOf(library, entry, files, sizes) {
    if (files.length === 0) return hint("It has no source.");
    const listed = files.slice(0, MOST_FILES);
    const shown = withoutSecrets(library, listed.flatMap(textsOf));
    const chosen = chosenOf(entry, listed, shown);
    const rows = listed.map((file, at) => fileRow(file, sizes?.[at] ?? file.size ?? null, at === chosen, shown));
    return element("section", { class: "files" },
        element("h4", { id: "files-title" }, counted(files.length, "source")),
        element("ul", { class: "file-list", "aria-labelledby": "files-title" }, rows),
        files.length > MOST_FILES ? hint(`The first ${number(MOST_FILES)} of them are listed.`) : null);
}

// Which of the files is installed: the first of the verdict's kind and, of a wheel, of its name.
function chosenOf(entry, files, shown) {
    if (classOf(entry.verdict) !== "installed") return -1;
    const name = entry.verdict === "wheel" ? entry.detail.slice(0, entry.detail.lastIndexOf(" ")) : null;
    return files.findIndex((file) => file.kind === entry.verdict && (name === null || shownName(file, shown) === name));
}

const shownName = (file, shown) => (file.file === undefined ? null : shown(behindSlash(file.file)).slice(1));

function fileRow(file, bytes, isChosen, shown) {
    const name = shownName(file, shown) ?? (file.path !== undefined ? shown(file.path) : shown(file.url ?? ""));
    return element("li", { class: isChosen ? "chosen" : null },
        element("div", { class: "file-head" },
            element("span", { class: "kind" }, file.kind), " ", longText(name, "span", { class: "mono" }), " ",
            bytes === null ? null : element("span", { class: "size", title: `${number(bytes)} bytes` }, size(bytes)),
            isChosen ? element("span", { class: "chip installed" }, "chosen") : null),
        pairs(pairsOf(file, bytes, shown)));
}

function pairsOf(file, bytes, shown) {
    const found = [];
    const add = (name, text) => found.push(pair(brief(name, 60), text));
    if (file.path !== undefined) add("path", shown(file.path));
    if (file.url !== undefined) add("URL", shown(file.url));
    if (file.revision) add("commit", `${shown(file.revision.type)} ${shown(file.revision.commit)}`);
    if (file.subdirectory !== undefined) add("subdirectory", shown(file.subdirectory));
    if (bytes !== null) add("size", `${number(bytes)} bytes`);
    for (const [algorithm, value] of Object.entries(file.hashes ?? {})) {
        const hash = shown(`${algorithm}=${value}`);
        const at = hash.indexOf("=");
        add(at < 0 ? "hash" : hash.slice(0, at), hash.slice(at + 1));
    }
    return found;
}

// Other keys of the entries of a name, as inline TOML.
function keysOf(fact, count) {
    if (!fact || fact.keys.length === 0) return null;
    return element("details", { class: "keys" },
        element("summary", {}, count === 1 ? "Other keys" : `Other keys of the ${number(count)} entries of this name`),
        element("ul", {}, fact.keys.map((text) => longText(text, "li", { class: "mono" }))));
}
