// A text that is refused: why, and the lines around the place that is wrong.

import { afterDrawing, element, lines as linesOf, longText } from "./dom.mjs";
import { placeOf } from "./place.mjs";

const AROUND = 3; // lines shown above and below
const BEFORE = 60; // characters shown before the place in a long line
const WIDTH = 160;

// What is told of a refusal: its sentence, and where the text is wrong.
export function refusedNote(refusal, title) {
    const note = element("div", { class: "note fault", role: "alert" },
        element("h3", {}, title),
        sentence(refusal));
    const place = refusal.bytes ? placeOf(refusal) : null;
    if (place) note.append(excerpt(place));
    return note;
}

// The message without the name of the file, which is that of a file in memory.
function sentence({ message, file }) {
    const isOf = file !== undefined && message.startsWith(`${file}:`);
    return longText(isOf ? message.slice(file.length + 1).replace(/^\d+:\d+:/, "").trimStart() : message, "p", { class: "mono" });
}

function excerpt({ lines, line, column, about }) {
    const from = Math.max(1, line - AROUND);
    const to = Math.min(lines.length, line + AROUND);
    const shown = [];
    for (let at = from; at <= to; at++) shown.push(excerptLine(lines[at - 1].replace(/\r$/, ""), at, at === line, column));
    const text = element("pre", { tabindex: "0", "aria-label": "The lines around the place" }, shown);
    afterDrawing(() => bringIntoView(text));
    return element("figure", { class: "excerpt" }, element("figcaption", {}, about), text);
}

function bringIntoView(text) {
    const mark = text.querySelector("mark");
    if (mark) text.scrollLeft = mark.offsetLeft - text.offsetLeft - text.clientWidth / 2;
}

function excerptLine(text, at, isMarked, column) {
    const number = element("span", { class: "line-number", "aria-hidden": "true" }, at);
    const plain = [linesOf(text.slice(0, WIDTH)), text.length > WIDTH ? "…" : ""];
    return element("span", { class: isMarked ? "line wrong" : "line" }, number, isMarked ? markedLine(text, column) : plain);
}

// A line with the character at a column marked; columns count characters.
function markedLine(text, column) {
    const characters = [...text.slice(0, 2 * column + 2 * WIDTH)];
    const at = column - 1;
    const first = Math.max(0, at - BEFORE);
    const before = characters.slice(first, at).join("");
    const after = characters.slice(at + 1, first + WIDTH).join("");
    const character = characters[at] ?? "";
    const marked = element("mark", {}, character.trim() === "" ? "\u00a0" : character);
    return [first > 0 ? "…" : "", linesOf(before), marked, linesOf(after), characters.length > first + WIDTH ? "…" : ""];
}
