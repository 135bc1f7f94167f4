// How a file comes in: dropped, chosen or pasted.

import { EXACT, button, element, hint } from "./dom.mjs";

// A place that takes a file: a button that chooses one, and a field for a text. take(name, bytes) gets it.
export function intake({ label, name, accept, take, told, more }) {
    const input = element("input", { type: "file", accept, hidden: true, tabindex: "-1", change: () => takeChosen(input, take) });
    const area = element("textarea", { rows: 6, ...EXACT, "aria-label": `Text of ${label}` });
    const paste = element("details", { class: "paste" },
        element("summary", {}, "Paste a text"),
        area,
        button("Read this text", () => takeText(area, name, take)));
    const place = element("div", { class: "intake" },
        element("div", { class: "intake-buttons" },
            button(`Choose ${label}`, () => input.click(), { class: "primary" }), more ?? null, input),
        hint(told),
        paste);
    acceptDrops(place, take);
    return place;
}

// The field is emptied, so that the same file can be chosen again when it has changed.
async function takeChosen(input, take) {
    const files = [...input.files];
    input.value = "";
    await takeFiles(files, take);
}

async function takeFiles(list, take) {
    const files = [...list];
    if (files.length > 0) await take(files[0].name, new Uint8Array(await files[0].arrayBuffer()));
}

function takeText(area, name, take) {
    take(name, new TextEncoder().encode(area.value));
}

// Lets an element take dropped files; each further file goes to `also`.
export function acceptDrops(place, take, also = null) {
    place.addEventListener("dragover", (event) => {
        event.preventDefault();
        place.classList.add("dropping");
    });
    place.addEventListener("dragleave", (event) => {
        if (!place.contains(event.relatedTarget)) place.classList.remove("dropping");
    });
    place.addEventListener("drop", async (event) => {
        event.preventDefault();
        event.stopPropagation();
        place.classList.remove("dropping");
        const files = [...event.dataTransfer.files];
        const text = event.dataTransfer.getData("text/plain");
        await takeFiles(files.slice(0, 1), take);
        if (also) await takeFiles(files.slice(1, 2), also);
        if (files.length === 0 && text) take("dropped text", new TextEncoder().encode(text));
    });
}

// A file or a text that is pasted anywhere but in a field.
export function acceptPastes(take) {
    document.addEventListener("paste", async (event) => {
        if (event.target.closest?.("input, textarea, select")) return;
        const text = event.clipboardData.getData("text/plain");
        if (event.clipboardData.files.length > 0) await takeFiles(event.clipboardData.files, take);
        else if (text) take("pasted text", new TextEncoder().encode(text));
    });
}
