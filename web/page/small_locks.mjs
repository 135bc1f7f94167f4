// Small locks that ask the library a question: what a text looks like without secrets, what a part of a marker is worth.

const FILE = "question.toml";
const HEAD = 'lock-version = "1.0"\ncreated-by = "-"\n';

// A lock without entries.
export const nothing = () => HEAD;

// A basic string of TOML.
export function tomlText(text) {
    const escaped = text.replaceAll(/["\\\u0000-\u001f\u007f]/g, (one) => `\\u${one.charCodeAt(0).toString(16).padStart(4, "0")}`);
    return `"${escaped}"`;
}

const tomlTexts = (texts) => `[${[...texts].map(tomlText).join(", ")}]`;

// A lock with these entries, each given by its lines.
export const lockOf = (entries, head = "") => `${HEAD}${head}${entries.map((lines) => `[[packages]]\n${lines}`).join("")}`;

// Texts as they are shown to a person: a directory's path is what `explain` shows of it, with *** for what may be a secret.
export function withoutSecrets(library, texts) {
    const asked = [...new Set(texts.filter(mayHide))];
    if (asked.length === 0) return (text) => text;
    const entries = asked.map((text, at) => `name = "a${at}"\ndirectory = {path = ${tomlText(text)}}\n`);
    const words = ["explain", FILE, "--python=3.12", "--platform=linux"];
    const found = library.document(words, { [FILE]: lockOf(entries) }).entries;
    const shown = new Map(asked.map((text, at) => [text, found[at].detail ?? ""]));
    return (text) => shown.get(text) ?? text;
}

// Nothing is hidden of a text that has none of these.
const mayHide = (text) => /[/\\?]/.test(text);

// A file name alone may have a secret as one behind a slash has.
export const behindSlash = (text) => `/${text}`;

// The texts of a source that may have a secret.
export const textsOf = (source) => [
    ...[source.url, source.path, source.subdirectory, source.revision?.commit, source.revision?.type].filter((text) => text !== undefined),
    ...(source.file === undefined ? [] : [behindSlash(source.file)]),
    ...Object.entries(source.hashes ?? {}).map(([algorithm, value]) => `${algorithm}=${value}`),
];

// What each marker is worth in an environment, with these names asked for: a verdict of `explain` for each.
export function worthsOf(library, markers, asked) {
    const entries = markers.map((text, at) => `name = "a${at}"\nmarker = ${tomlText(text)}\ndirectory = {path = "."}\n`);
    const head = `extras = ${tomlTexts(asked.extras)}\ndependency-groups = ${tomlTexts(asked.groups)}\n`;
    const words = ["explain", FILE, "environment.json"];
    for (const extra of asked.extras) words.push(`--extra=${extra}`);
    for (const group of asked.groups) words.push(`--group=${group}`);
    const files = { [FILE]: lockOf(entries, head), "environment.json": asked.environment };
    return library.document(words, files).entries;
}
