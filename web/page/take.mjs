// What can be taken away: the command line that gives the same, the forms of other tools, a link with the choices.

import { button, element, fill, hint, lines, longText, options } from "./dom.mjs";
import { commandLine, filesOf, fragmentOf, optionsOf } from "./choices.mjs";
import { LOCK_FILE, withoutPrefix } from "./library.mjs";
import { textsOf, withoutSecrets } from "./small_locks.mjs";
import { copyButton, saveButton } from "./outtake.mjs";
import { beginning, brief, counted } from "./text.mjs";
import { FORMS } from "./words.mjs";

const LONGEST = 20000; // characters of a form that are shown

export class Take {
    constructor(place, stateOf) {
        this.stateOf = stateOf;
        this.isOpen = false;
        this.form = element("select", { id: "form", change: () => this.draw() }, options(FORMS));
        this.commands = element("div");
        this.output = element("div");
        this.link = element("div");
        place.append(
            section("The command line that gives the same", this.commands),
            section("The plan in a form that another tool takes",
                element("p", {}, element("label", { for: "form" }, "Form "), this.form), this.output),
            section("A link with these choices", this.link));
    }

    draw() {
        const state = this.stateOf();
        if (!state.lock) return;
        this.drawCommands(state);
        this.drawForm(state);
        this.drawLink(state);
    }

    drawCommands({ choices, lock }) {
        const more = this.form.value === "json" ? ["--json"] : this.form.value === "" ? [] : ["--format", this.form.value];
        fill(this.commands, [["plan", more], ["explain", []]].map(([command, words]) => {
            const line = commandLine(choices, lock.head, command, words);
            return element("div", { class: "copied" }, longText(line, "code", { class: "command" }), copyButton(() => line));
        }), choices.environment ? hint("environment.json is the environment that was chosen.") : null);
    }

    drawForm(state) {
        const form = this.form.value;
        const words = ["plan", LOCK_FILE, ...filesOf(state.choices), ...optionsOf(state.choices, state.lock.head)];
        if (form !== "") words.push(...(form === "json" ? ["--json"] : ["--format", form]));
        const ran = state.library.run(words, { [LOCK_FILE]: state.lock.bytes, ...state.environmentFiles });
        const file = FORMS.find(([value]) => value === form)[2];
        const told = lines(beginning(withoutPrefix(ran.diagnostics), 3000));
        const buttons = element("div", { class: "row" }, copyButton(() => ran.output), saveButton(() => file, () => ran.output));
        fill(this.output,
            ran.diagnostics ? element("p", { class: "note" }, element("span", { class: "mono lines" }, told)) : null,
            ran.output === "" ? null : [buttons, preview(state, ran.output)]);
    }

    drawLink({ choices }) {
        const fragment = fragmentOf(choices);
        const address = `${location.href.split("#")[0]}${fragment}`;
        const link = element("a", { href: fragment, class: "command" }, brief(address, 1000));
        fill(this.link,
            element("div", { class: "copied" }, link, copyButton(() => address)),
            hint("It holds the choices, and of the lock nothing but names that are chosen. The lock has to be opened again.",
                choices.environment ? " It doesn't hold the environment file." : ""));
    }
}

const section = (title, ...children) => element("section", {}, element("h3", {}, title), children);

// The text as it would be saved. One that may have a password in it is shown only when that is asked for.
function preview(state, text) {
    const shown = element("pre", { class: "output", tabindex: "0", "aria-label": "The text" });
    const rest = text.length > LONGEST ? hint(`The first ${counted(LONGEST, "character")} are shown; the copy and the file have all.`) : "";
    const show = () => shown.replaceChildren(lines(beginning(text, LONGEST)));
    if (!hasSecret(state, text)) {
        show();
        return element("div", {}, shown, rest);
    }
    const place = element("div", {}, element("p", { class: "note" },
        "This text has URLs that may hold a password: explain and audit hide it, tools need it. ",
        button("Show it all the same", showAll)));
    function showAll() {
        show();
        fill(place, shown, rest);
    }
    return place;
}

// Whether the library hides something of a source of the lock from a person: something before an @ in a place, or a query.
function hasSecret({ library, lock }, text) {
    if (!/[?]|[/\\][^/\s]*@/.test(text)) return false;
    const texts = [...lock.sources.values()].flat().flatMap(textsOf).filter((one) => /[?@]/.test(one));
    const shown = withoutSecrets(library, texts);
    return texts.some((one) => shown(one) !== one);
}
