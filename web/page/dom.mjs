// Elements, made by calls. A text becomes a text node and nothing else, so no text of a lock is ever read as HTML.

import { beginning, number, visible, visibleLines } from "./text.mjs";

const LONG = 2000;

// An element. Of the properties, a function is a listener, true an empty attribute, and false or null is left out.
export function element(tag, properties = {}, ...children) {
    const made = document.createElement(tag);
    for (const [name, value] of Object.entries(properties)) setProperty(made, name, value);
    made.append(...nodesOf(children));
    return made;
}

function setProperty(made, name, value) {
    if (typeof value === "function") made.addEventListener(name, value);
    else if (name === "value" || name === "checked" || name === "selected" || name === "disabled") made[name] = value;
    else if (value === true) made.setAttribute(name, "");
    else if (value !== false && value !== null && value !== undefined) made.setAttribute(name, String(value));
}

// Children are elements, texts, and lists of these; null and false are none.
function nodesOf(children) {
    const present = children.flat(Infinity).filter((child) => child !== null && child !== undefined && child !== false);
    return present.map((child) => (child instanceof Node ? child : document.createTextNode(visible(String(child)))));
}

export const button = (text, click, properties = {}) => element("button", { type: "button", click, ...properties }, text);

export const options = (pairs) => pairs.map(([value, text]) => element("option", { value }, text));

export const hint = (...children) => element("p", { class: "hint" }, ...children);

// A term and what it is.
export const pair = (term, text) => [element("dt", {}, term), longText(text, "dd", { class: "mono" })];

export const pairs = (...children) => element("dl", { class: "pairs" }, ...children);

// Of a field whose text counts letter by letter.
export const EXACT = { spellcheck: "false", autocapitalize: "off", autocomplete: "off" };

// A text node that keeps the tabs and the line ends of its text.
export const lines = (text) => document.createTextNode(visibleLines(text));

export const find = (selector) => document.querySelector(selector);

// Puts these children in the place of those that the element has.
export function fill(place, ...children) {
    place.replaceChildren(...nodesOf(children));
}

// A text of any length: of a long one the beginning, and a button that shows all.
export function longText(text, tag = "span", properties = {}) {
    if (text.length <= LONG) return element(tag, properties, text);
    const whole = `${number(text.length)} characters`;
    const shown = element("span", {}, `${beginning(text, LONG)}…`);
    const more = button(`Show all ${whole}`, toggle, { class: "small", "aria-expanded": "false" });
    function toggle() {
        const isOpen = more.getAttribute("aria-expanded") === "true";
        more.setAttribute("aria-expanded", String(!isOpen));
        fill(shown, isOpen ? `${beginning(text, LONG)}…` : text);
        fill(more, isOpen ? `Show all ${whole}` : `Show less of ${whole}`);
    }
    return element(tag, { ...properties, class: `${properties.class ?? ""} long`.trim() }, shown, " ", more);
}

// Runs a task after the page has been drawn.
export const afterDrawing = (task) => requestAnimationFrame(() => setTimeout(task));
