// What is chosen: a target or an environment, extras, groups, policies and variables. They don't hold anything of the lock
// but names, so they can be kept in a link.

import { shellWord } from "./text.mjs";
import { VARIABLES } from "./library.mjs";

export const PYTHONS = ["3.9", "3.10", "3.11", "3.12", "3.13", "3.14"];
export const PLATFORMS = [
    ["linux", "Linux, x86-64"],
    ["manylinux_2_28_aarch64", "Linux, aarch64"],
    ["musllinux_1_2_x86_64", "Linux with musl, x86-64"],
    ["macos", "macOS, arm64"],
    ["macosx_14_0_x86_64", "macOS, x86-64"],
    ["windows", "Windows, x86-64"],
    ["win_arm64", "Windows, arm64"],
];
const LONGEST_LINK = 100000;
const MOST_NAMES = 10000;

export const firstChoices = () => ({
    python: "3.12",
    platform: "linux",
    environment: null,
    extras: new Set(),
    groups: new Set(),
    withoutGroups: new Set(),
    policy: "any",
    policies: new Map(),
    variables: new Map(),
});

// The groups that are asked for: the default ones but those left out, and those added.
export const groupsOf = (choices, head) =>
    head.groups.filter((name) => (head.defaults.has(name) ? !choices.withoutGroups.has(name) : choices.groups.has(name)));

export const extrasOf = (choices, head) => head.extras.filter((name) => choices.extras.has(name));

// The environment with the variables that are set.
export function variablesOf(choices, environment) {
    return new Map([...environment.variables, ...choices.variables]);
}

// Leaves out the names that a lock doesn't have, and gives them.
export function dropUnknown(choices, head, names) {
    const dropped = [];
    const keep = (kept, known) => {
        for (const name of kept.keys()) {
            if (!known(name)) {
                kept.delete(name);
                dropped.push(name);
            }
        }
    };
    keep(choices.extras, (name) => head.extras.includes(name));
    keep(choices.groups, (name) => head.groups.includes(name));
    keep(choices.withoutGroups, (name) => head.defaults.has(name));
    keep(choices.policies, (name) => names.has(name));
    return dropped;
}

// The options of the command line that choose the same.
export function optionsOf(choices, head) {
    const options = choices.environment ? [] : ["--python", choices.python, "--platform", choices.platform];
    for (const name of extrasOf(choices, head)) options.push("--extra", name);
    for (const name of head.groups) {
        if (choices.groups.has(name) && !head.defaults.has(name)) options.push("--group", name);
        if (choices.withoutGroups.has(name) && head.defaults.has(name)) options.push("--no-group", name);
    }
    if (choices.policy !== "any") options.push(OPTION_OF[choices.policy], ":all:");
    for (const [name, policy] of choices.policies) options.push(OPTION_OF[policy], name);
    for (const [name, value] of choices.variables) options.push("--set", `${name}=${value}`);
    return options;
}

const OPTION_OF = { wheel: "--only-binary", source: "--no-binary" };

// The words that a command needs after its own name, with a file for the environment where one was chosen.
export const filesOf = (choices) => (choices.environment ? ["environment.json"] : []);

export function commandLine(choices, head, command, more = []) {
    const words = ["pylock", command, "pylock.toml", ...filesOf(choices), ...optionsOf(choices, head), ...more];
    return words.map(shellWord).join(" ");
}

// ---- links

export function fragmentOf(choices) {
    const pairs = choices.environment ? [] : [["python", choices.python], ["platform", choices.platform]];
    for (const name of choices.extras) pairs.push(["extra", name]);
    for (const name of choices.groups) pairs.push(["group", name]);
    for (const name of choices.withoutGroups) pairs.push(["no-group", name]);
    if (choices.policy !== "any") pairs.push([choices.policy === "wheel" ? "only-binary" : "no-binary", ":all:"]);
    for (const [name, policy] of choices.policies) pairs.push([policy === "wheel" ? "only-binary" : "no-binary", name]);
    for (const [name, value] of choices.variables) pairs.push(["set", `${name}=${value}`]);
    return `#${new URLSearchParams(pairs)}`;
}

// The choices of a link. What it can't mean is passed over: a link may come from anyone.
export function choicesOf(fragment) {
    const choices = firstChoices();
    if (fragment.length > LONGEST_LINK) return choices;
    const pairs = [...new URLSearchParams(fragment.replace(/^#/, ""))].slice(0, MOST_NAMES);
    for (const [key, value] of pairs) READERS[key]?.(choices, value);
    return choices;
}

const READERS = Object.assign(Object.create(null), {
    python: (choices, value) => readTarget(choices, "python", value),
    platform: (choices, value) => readTarget(choices, "platform", value),
    extra: (choices, value) => choices.extras.add(value),
    group: (choices, value) => choices.groups.add(value),
    "no-group": (choices, value) => choices.withoutGroups.add(value),
    "only-binary": (choices, value) => readPolicy(choices, "wheel", value),
    "no-binary": (choices, value) => readPolicy(choices, "source", value),
    set: readVariable,
});

function readTarget(choices, key, value) {
    if (/^[A-Za-z0-9_.-]{1,100}$/.test(value)) choices[key] = value;
}

function readPolicy(choices, policy, name) {
    if (name === ":all:") choices.policy = policy;
    else choices.policies.set(name, policy);
}

function readVariable(choices, text) {
    const at = text.indexOf("=");
    if (VARIABLES.includes(text.slice(0, at))) choices.variables.set(text.slice(0, at), text.slice(at + 1));
}
