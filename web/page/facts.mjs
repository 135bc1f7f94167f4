// Keys of entries that no document has: sizes, markers, requires-python. The difference of the lock and a copy of it that
// lacks these keys tells them, name by name.

import { LOCK_FILE as FILE } from "./library.mjs";
import { lockOf, tomlText } from "./small_locks.mjs";

const MARK = "x-copy = 1\n"; // an entry with this key is like none of the lock, so all of them are compared

// Of each name: the sizes of its sources, and of its entries the markers and the sets of Pythons, in order; null where the
// texts can't be told apart. Where not each source has a size, it isn't told which have: then the sizes are `loose`.
export function factsOf(lock) {
    const files = { "copy.toml": copyOf(lock.sources, lock.entries), [FILE]: lock.bytes };
    const { changes } = lock.library.document(["diff", "copy.toml", FILE], files);
    const facts = new Map();
    for (const change of changes) addFact(facts, lock, change);
    return facts;
}

function addFact(facts, lock, change) {
    if (change.change !== "condition" && change.change !== "key") return;
    if (!facts.has(change.name)) facts.set(change.name, { sizes: null, loose: null, markers: null, pythons: null, keys: [] });
    const fact = facts.get(change.name);
    const text = change.to ?? "";
    if (change.change === "condition") addConditions(fact, text, lock.idsByName.get(change.name)?.length ?? 0);
    else if (text.startsWith("size ")) addSizes(fact, text.slice(5).split(" | "), countOfFiles(lock, change.name));
    else if (!text.startsWith("x-copy ")) fact.keys.push(text);
}

// Markers and then sets, joined by a bar. A marker may have a bar in it: then there are more parts than entries say.
function addConditions(fact, text, count) {
    const parts = text.split(" | ");
    if (parts.length === 2 * count) {
        fact.markers = parts.slice(0, count).map(present);
        fact.pythons = parts.slice(count).map(present);
    } else if (count === 1) {
        const at = text.lastIndexOf(" | ");
        fact.markers = [present(text.slice(0, at))];
        fact.pythons = [present(text.slice(at + 3))];
    }
}

const present = (text) => (text === "-" ? null : text);

function addSizes(fact, parts, count) {
    if (parts.length === count) fact.sizes = parts.map((part) => (/^\d+$/.test(part) ? Number(part) : null));
    else fact.loose = parts;
}

const countOfFiles = (lock, name) => (lock.idsByName.get(name) ?? []).reduce((sum, id) => sum + (lock.sources.get(id)?.length ?? 0), 0);

// A lock with the entries of `files`, which has all but markers and other keys.
function copyOf(sources, entries) {
    return lockOf(entries.map((entry) => entryOf(entry, sources.get(entry.id) ?? [])));
}

function entryOf(entry, sources) {
    const wheels = sources.filter((source) => source.kind === "wheel").map(fileOf);
    const lines = [`name = ${tomlText(entry.name)}\n${MARK}`];
    const version = sources[0]?.version ?? entry.version;
    if (version !== undefined) lines.push(`version = ${tomlText(version)}\n`);
    for (const source of sources.filter((one) => one.kind !== "wheel")) lines.push(sourceOf(source));
    if (wheels.length > 0) lines.push(`wheels = [${wheels.join(", ")}]\n`);
    return lines.join("");
}

function sourceOf(source) {
    if (source.kind === "sdist" || source.kind === "archive") return `${source.kind} = ${fileOf(source)}\n`;
    if (source.kind === "vcs") {
        const { type, commit } = source.revision;
        return `vcs = ${tableOf({ ...places(source), type, "commit-id": commit })}\n`;
    }
    const table = tableOf(places(source));
    return `directory = ${source.kind === "editable" ? `${table.slice(0, -1)}, editable = true}` : table}\n`;
}

const places = (source) => ({ url: source.url, path: source.path, subdirectory: source.subdirectory });

function fileOf(source) {
    const hashes = Object.entries(source.hashes ?? {}).map(([algorithm, value]) => `${tomlText(algorithm)} = ${tomlText(value)}`);
    const table = tableOf({ ...places(source), name: source.kind === "archive" ? undefined : source.file });
    return hashes.length === 0 ? table : `${table.slice(0, -1)}, hashes = {${hashes.join(", ")}}}`;
}

function tableOf(members) {
    const present = Object.entries(members).filter(([, value]) => value !== undefined);
    return `{${present.map(([key, value]) => `${key} = ${tomlText(value)}`).join(", ")}}`;
}
