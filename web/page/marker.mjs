// The parts of a marker, for showing: only `and`, `or`, parentheses and quotes are found here, and the library judges each part.

import { VARIABLES } from "./library.mjs";

const TOKEN = /"[^"]*"|'[^']*'|[()]|[A-Za-z0-9_]+|[^"'()A-Za-z0-9_]+/g;

// A tree of the marker: {kind: "or" | "and" | "part", text, parts}; null where the parentheses or quotes don't match.
export function partsOf(marker) {
    const tokens = tokensOf(marker);
    const reader = { marker, tokens, at: 0 };
    const tree = readList(reader, "or");
    return tree !== null && reader.at === tokens.length ? tree : null;
}

function tokensOf(marker) {
    const tokens = [];
    for (const match of marker.matchAll(TOKEN)) tokens.push({ text: match[0], start: match.index, end: match.index + match[0].length });
    return tokens.filter((token) => token.text.trim() !== "");
}

function readList(reader, word) {
    const parts = [];
    const start = reader.at;
    do {
        const part = word === "or" ? readList(reader, "and") : readPart(reader);
        if (part === null) return null;
        parts.push(part);
    } while (skip(reader, word));
    return parts.length === 1 ? parts[0] : { kind: word, text: textBetween(reader, start), parts };
}

function readPart(reader) {
    const start = reader.at;
    if (skip(reader, "(")) {
        const inner = readList(reader, "or");
        return inner !== null && skip(reader, ")") ? { ...inner, text: textBetween(reader, start) } : null;
    }
    while (reader.at < reader.tokens.length && !["and", "or", "(", ")"].includes(reader.tokens[reader.at].text)) reader.at++;
    return reader.at > start ? { kind: "part", text: textBetween(reader, start) } : null;
}

function skip(reader, text) {
    if (reader.tokens[reader.at]?.text !== text) return false;
    reader.at++;
    return true;
}

const textBetween = (reader, start) => reader.marker.slice(reader.tokens[start].start, reader.tokens[reader.at - 1].end);

// Each node of a tree, a node before its parts.
export const nodesOf = (tree) => [tree, ...(tree.parts ?? []).flatMap(nodesOf)];

// The variables, and the words `extras` and `dependency_groups`, that a part reads.
export function readsOf(part) {
    const words = tokensOf(part).map((token) => token.text);
    return [...VARIABLES, "extras", "dependency_groups"].filter((name) => words.includes(name));
}
