// How a text leaves the page: copied, or saved as a file. Nothing is sent.

import { button, element, fill } from "./dom.mjs";

// A button that copies what text() gives.
export function copyButton(text, label = "Copy") {
    const made = button(label, copy);
    async function copy() {
        const isCopied = await copyText(text());
        fill(made, isCopied ? "Copied" : "Not copied");
        setTimeout(() => fill(made, label), 1500);
    }
    return made;
}

async function copyText(text) {
    try {
        await navigator.clipboard.writeText(text);
        return true;
    } catch {
        return copyByField(text);
    }
}

// Where a page may not write to the clipboard by itself.
function copyByField(text) {
    const area = element("textarea", { class: "off-page", readonly: true, "aria-hidden": "true", value: text });
    document.body.append(area);
    area.select();
    const isCopied = document.execCommand("copy");
    area.remove();
    return isCopied;
}

// A button that saves what text() gives as a file.
export function saveButton(name, text) {
    return button("Save as a file", () => save(name(), text()));
}

function save(name, text) {
    const address = URL.createObjectURL(new Blob([text], { type: "text/plain" }));
    element("a", { href: address, download: name }).click();
    setTimeout(() => URL.revokeObjectURL(address), 10000);
}
