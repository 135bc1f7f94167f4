// Texts for a person: what is shown in place of a text of a lock, which may hold anything.

const STEERING = /[\p{Cc}\p{Cf}\p{Zl}\p{Zp}]/gu;
const STEERING_BUT_LINES = /[\p{Cf}\p{Zl}\p{Zp}]|(?![\n\t])\p{Cc}/gu;
const NUMBERS = new Intl.NumberFormat("en");
const SAFE_WORD = /^[A-Za-z0-9_][A-Za-z0-9_./:@%+,=-]*$|^--?[A-Za-z0-9][A-Za-z0-9_./:@%+,=-]*$|^:all:$/;

const escaped = (character) => `\\u{${character.codePointAt(0).toString(16)}}`;

// The text with \u{HEX} for each character that steers what is shown or isn't seen, as the program shows it on a terminal.
export const visible = (text) => text.replace(STEERING, escaped);

// The same for a text of several lines, which keeps its line ends and tabs.
export const visibleLines = (text) => text.replace(STEERING_BUT_LINES, escaped);

// The beginning of a text, which doesn't end within a character.
export function beginning(text, limit) {
    if (text.length <= limit) return text;
    const isHalf = /[\uD800-\uDBFF]/.test(text[limit - 1]);
    return text.slice(0, isHalf ? limit - 1 : limit);
}

// A text of one line that is never long, for cells and messages.
export const brief = (text, limit = 200) =>
    text.length > limit ? `${visible(beginning(text, limit))}…` : visible(text);

export const number = (value) => NUMBERS.format(value);

export const counted = (count, one, many = `${one}s`) => `${number(count)} ${count === 1 ? one : many}`;

// A number of bytes, as 1.4 MB.
export function size(bytes) {
    const units = ["bytes", "kB", "MB", "GB"];
    let [value, unit] = [bytes, 0];
    while (value >= 1000 && unit < units.length - 1) [value, unit] = [value / 1000, unit + 1];
    return `${unit === 0 ? number(value) : value.toFixed(value < 10 ? 1 : 0)} ${units[unit]}`;
}

// A word for a POSIX shell: what isn't of a few safe characters stands in single quotes.
export const shellWord = (text) => (SAFE_WORD.test(text) ? text : `'${text.replaceAll("'", "'\\''")}'`);

// The bytes of a text of base64.
export function bytesOfBase64(text) {
    const letters = atob(text);
    const bytes = new Uint8Array(letters.length);
    for (let at = 0; at < letters.length; at++) bytes[at] = letters.charCodeAt(at);
    return bytes;
}
