// A session on a lock, kept in step with the choices: each change of them becomes the edit lines that make it.

import { extrasOf, groupsOf, variablesOf } from "./choices.mjs";
import { VARIABLES, environmentText } from "./library.mjs";

const LONGEST_LINE = 1048576; // bytes of an edit line

// Verdicts of an entry that is installed, and of those what is built on the machine.
const INSTALLED = new Set(["wheel", "sdist", "vcs", "directory", "editable", "archive"]);
export const BUILT = new Set(["sdist", "vcs", "directory", "editable", "archive"]);

export class Selection {
    constructor(library, lock, environment) {
        this.library = library;
        this.lock = lock;
        this.start(environment.variables, environment.tags);
    }

    start(variables, tags) {
        this.session?.close();
        this.session = null;
        this.session = this.library.pylock.session(this.lock.bytes, environmentText(variables, tags));
        this.variables = new Map(variables);
        this.tags = tags.join(" ");
        this.extras = new Set();
        this.groups = new Set(this.lock.head.defaults);
        this.policies = new Map();
    }

    // Makes the choices, in an environment.
    choose(choices, environment) {
        const variables = variablesOf(choices, environment);
        const lines = [...this.variableLines(variables), ...this.tagLines(environment.tags)];
        if (lines.every(isLine)) this.edit(lines);
        else this.start(variables, environment.tags);
        this.variables = variables;
        this.tags = environment.tags.join(" ");
        this.edit([...this.nameLines(choices), ...this.policyLines(choices)]);
    }

    edit(lines) {
        for (const line of lines) this.session.edit(line);
    }

    variableLines(variables) {
        const changed = VARIABLES.filter((name) => variables.get(name) !== this.variables.get(name));
        return changed.map((name) => (variables.has(name) ? `set ${name} ${variables.get(name)}` : `unset ${name}`));
    }

    tagLines(tags) {
        const line = tags.join(" ");
        return line === this.tags ? [] : [`tags ${line}`];
    }

    nameLines(choices) {
        const extras = new Set(extrasOf(choices, this.lock.head));
        const groups = new Set(groupsOf(choices, this.lock.head));
        const lines = [...changes("extra", this.extras, extras), ...changes("group", this.groups, groups)];
        this.extras = extras;
        this.groups = groups;
        return lines;
    }

    policyLines(choices) {
        if (choices.policy === "any" && choices.policies.size === 0 && this.policies.size === 0) return [];
        const lines = [];
        for (const name of this.lock.idsByName?.keys() ?? []) {
            const policy = choices.policies.get(name) ?? choices.policy;
            if (policy !== (this.policies.get(name) ?? "any")) lines.push(`policy ${name} ${policy}`);
            if (policy === "any") this.policies.delete(name);
            else this.policies.set(name, policy);
        }
        return lines;
    }

    // What becomes of each entry, and the answer: where no verdict is a fault, the plan has each entry that is installed.
    explain() {
        const { head, entries } = this.session.explain();
        const counts = countsOf(entries);
        const isPlan = head.verdict === "ok" && counts.faults === 0;
        return { head, entries, counts, fault: isPlan ? null : this.session.plan().fault, isWhole: true };
    }

    // The same by the answer alone, which takes a fraction of the time: in a plan an entry without a line is skipped. The reasons
    // of entries whose verdict is as before are kept, others are left out; of a fault, all entries are as before.
    answer(before) {
        const lines = this.session.planText().split("\n");
        if (!lines[0].startsWith("plan ")) return this.faultOf(lines[0], before);
        const kinds = kindsOf(lines);
        const entries = before.map((entry) => {
            const verdict = kinds.get(entry.id) ?? "skipped";
            return entry.verdict === verdict ? entry : { id: entry.id, name: entry.name, version: entry.version, verdict };
        });
        return { head: { verdict: "ok" }, entries, counts: countsOf(entries), fault: null, isWhole: false };
    }

    faultOf(line, before) {
        const [words, code] = line.split("\t");
        const id = Number(words.split(" ")[1]);
        const fault = { id, code, name: id === 0 ? undefined : before[id - 1].name };
        return { head: { verdict: id === 0 ? code : "ok" }, entries: before, counts: countsOf(before), fault, isWhole: false };
    }

    close() {
        this.session?.close();
        this.session = null;
    }
}

// The kinds of a plan's lines, the fourth of the fields, by the entries' numbers.
function kindsOf(lines) {
    const kinds = new Map();
    for (let at = 1; at < lines.length - 1; at++) {
        const line = lines[at];
        const name = line.indexOf("\t") + 1;
        const kind = line.indexOf("\t", line.indexOf("\t", name) + 1) + 1;
        kinds.set(Number(line.slice(0, name - 1)), line.slice(kind, line.indexOf("\t", kind)));
    }
    return kinds;
}

function countsOf(entries) {
    const counts = { installed: 0, skipped: 0, faults: 0, built: 0 };
    for (const { verdict } of entries) {
        if (verdict === "skipped") counts.skipped++;
        else if (INSTALLED.has(verdict)) counts.installed++;
        else counts.faults++;
        if (BUILT.has(verdict)) counts.built++;
    }
    return counts;
}

// A line feed ends a line, and a carriage return before it isn't of the text.
const isLine = (line) => !/[\r\n]/.test(line) && line.length < LONGEST_LINE / 3;

function changes(kind, before, after) {
    const lines = [];
    for (const name of before) if (!after.has(name)) lines.push(`${kind}- ${name}`);
    for (const name of after) if (!before.has(name)) lines.push(`${kind}+ ${name}`);
    return lines;
}
