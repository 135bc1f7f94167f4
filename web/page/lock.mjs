// A lock that is open: its bytes, and what the library's commands tell of it, each asked for once.

import { factsOf } from "./facts.mjs";
import { LOCK_FILE as FILE } from "./library.mjs";
import { nothing } from "./small_locks.mjs";

export class Lock {
    constructor(library, name, bytes) {
        this.library = library;
        this.name = name;
        this.bytes = bytes;
        this.head = headOf(library, bytes);
        this.entries = [];
        this.idsByName = new Map();
    }

    // Takes the entries, as `explain` lists them.
    keepEntries(entries) {
        this.entries = entries;
        for (const { id, name } of entries) {
            const ids = this.idsByName.get(name);
            if (ids) ids.push(id);
            else this.idsByName.set(name, [id]);
        }
    }

    document(command) {
        return this.library.document([command, FILE], { [FILE]: this.bytes });
    }

    // The findings of the audit, and those of each entry by its number; those of the head have the number 0.
    get findings() {
        this.keptFindings ??= this.document("audit").findings;
        return this.keptFindings;
    }

    get findingsByEntry() {
        this.keptFindingsByEntry ??= Map.groupBy(this.findings, (finding) => finding.id);
        return this.keptFindingsByEntry;
    }

    // The sources of each entry by its number.
    get sources() {
        this.keptSources ??= Map.groupBy(this.document("files").files, (source) => source.id);
        return this.keptSources;
    }

    // Of each name the sizes of its sources, its markers and other keys.
    get facts() {
        this.keptFacts ??= factsOf(this);
        return this.keptFacts;
    }
}

// What the head of a lock holds: how it differs from the head of an empty lock.
function headOf(library, bytes) {
    const files = { "nothing.toml": nothing(), [FILE]: bytes };
    const { changes } = library.document(["diff", "nothing.toml", FILE], files);
    const texts = new Map(changes.filter((one) => one.change === "head").map((one) => [one.name, one.to ?? ""]));
    const names = (key) => namesOf(library, texts.get(key));
    const defaults = names("default-groups");
    return {
        extras: names("extras"),
        groups: [...new Set([...names("dependency-groups"), ...defaults])],
        defaults: new Set(defaults),
        python: texts.get("requires-python") ?? null,
        environments: texts.get("environments") ?? null,
    };
}

// Names that are joined by a comma, which no name has: each in its normal form, once.
function namesOf(library, joined) {
    if (joined === undefined || joined === "" || joined === "[]") return [];
    return [...new Set(joined.split(",").map((name) => normalName(library, name)))];
}

function normalName(library, name) {
    return /^[a-z0-9]+(-[a-z0-9]+)*$/.test(name) ? name : library.document(["name", "--", name]).name;
}
