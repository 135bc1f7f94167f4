// The choices: Python and platform or an environment, extras, groups, policies, variables.

import { EXACT, button, element, fill, find, hint, options } from "./dom.mjs";
import { PLATFORMS, PYTHONS, firstChoices } from "./choices.mjs";
import { intake } from "./intake.mjs";
import { VARIABLES } from "./library.mjs";
import { refusedNote } from "./refused.mjs";
import { brief, counted, number } from "./text.mjs";

const MOST_NAMES = 200; // names that are listed with a box each

export class Panel {
    // change(make) changes the choices; takeEnvironment(name, bytes) takes a file
    constructor(place, { change, takeEnvironment }) {
        this.change = change;
        this.target = new TargetFields(change);
        this.environment = element("div");
        this.names = element("div");
        this.files = element("select", { id: "policy", change: () => change((choices) => { choices.policy = this.files.value; }) },
            options([["any", "any file"], ["wheel", "wheels alone"], ["source", "no wheels"]]));
        this.variables = new VariableFields(change);
        this.error = element("div", { "aria-live": "assertive" });
        const label = element("label", { for: "policy" }, "Take ");
        place.append(
            fieldset("Environment", this.target.element, this.error, this.environment, fileOf(takeEnvironment)),
            this.names,
            fieldset("Files", label, this.files, element("div", { id: "policies" })),
            this.variables.element,
            button("Choose as at first", () => change((choices) => Object.assign(choices, firstChoices()))));
    }

    draw(state) {
        this.target.draw(state);
        this.files.value = state.choices.policy;
        this.drawEnvironment(state);
        this.drawPolicies(state);
        this.variables.draw(state);
        if (state.lock) this.drawNames(state);
        else fill(this.names);
    }

    drawEnvironment({ choices }) {
        if (!choices.environment) return fill(this.environment);
        fill(this.environment, element("p", { class: "row" }, element("span", { class: "chip" }, brief(choices.environment.name, 80)),
            button("Use Python and platform", () => this.change((made) => { made.environment = null; }), { class: "small" })));
    }

    drawPolicies({ choices }) {
        const items = [...choices.policies].slice(0, MOST_NAMES).map(([name, policy]) => this.policyItem(name, policy));
        fill(find("#policies"), items.length === 0 ? null : element("ul", { class: "plain" }, items));
    }

    policyItem(name, policy) {
        const shown = brief(name, 60);
        const remove = () => this.change((made) => made.policies.delete(name));
        return element("li", {}, `${shown}: ${policy === "wheel" ? "wheels alone" : "no wheels"} `,
            button("×", remove, { class: "small", "aria-label": `Take files of ${shown} as of all` }));
    }

    drawNames({ choices, lock: { head } }) {
        if (this.drawnHead === head) return this.checkNames(choices, head);
        this.drawnHead = head;
        this.boxes = [];
        const extras = this.boxesOf("Extras", head.extras, "extra", (made, name, isOn) => setIn(made.extras, name, isOn));
        const groups = this.boxesOf("Dependency groups", head.groups, "group", (made, name, isOn) => setGroup(made, head, name, isOn));
        fill(this.names, extras, groups);
        this.checkNames(choices, head);
    }

    // Boxes for names, with buttons for all and none of them.
    boxesOf(title, names, kind, set) {
        if (names.length === 0) return fieldset(title, hint("The lock has none."));
        const items = names.slice(0, MOST_NAMES).map((name) => this.box(name, kind, set));
        const setAll = (isOn) => this.change((made) => { for (const name of names) set(made, name, isOn); });
        const buttons = element("div", { class: "row" },
            button("all", () => setAll(true), { class: "small", "aria-label": `All ${title}` }),
            button("none", () => setAll(false), { class: "small", "aria-label": `No ${title}` }));
        return fieldset(title,
            element("div", { class: "boxes" }, items),
            names.length > MOST_NAMES ? hint(`${counted(names.length, "name")}; the first ${number(MOST_NAMES)} are listed.`) : null,
            names.length > 1 ? buttons : null);
    }

    box(name, kind, set) {
        const input = element("input", { type: "checkbox", change: () => this.change((made) => set(made, name, input.checked)) });
        const mark = element("span", { class: "hint" });
        this.boxes.push({ input, name, kind, mark });
        return element("label", { class: "box" }, input, " ", element("span", {}, brief(name, 100)), " ", mark);
    }

    checkNames(choices, head) {
        for (const { input, name, kind, mark } of this.boxes) {
            const isDefault = kind === "group" && head.defaults.has(name);
            const chosen = kind === "extra" ? choices.extras : choices.groups;
            input.checked = isDefault ? !choices.withoutGroups.has(name) : chosen.has(name);
            fill(mark, isDefault ? "default" : "");
        }
    }

    // Shows why an environment isn't taken, or that one is.
    refuse(refusal) {
        this.target.mark(refusal?.about ?? null);
        if (!refusal) fill(this.error);
        else if (refusal.about) fill(this.error, element("p", { class: "note fault", id: "target-error" }, brief(refusal.message, 600)));
        else fill(this.error, refusedNote(refusal, "The environment is refused"));
    }
}

const fieldset = (title, ...children) => element("fieldset", {}, element("legend", {}, title), children);

const fileOf = (take) => element("details", {}, element("summary", {}, "Environment file"), intake({
    label: "an environment", name: "pasted environment", accept: ".json,application/json,text/plain", take,
    told: "Of a machine: tools/environment writes it, pylock environment prints one.",
}));

function setIn(names, name, isOn) {
    if (isOn) names.add(name);
    else names.delete(name);
}

function setGroup(choices, head, name, isOn) {
    if (head.defaults.has(name)) setIn(choices.withoutGroups, name, !isOn);
    else setIn(choices.groups, name, isOn);
}

// Python and platform: a list of the usual ones, and a field for any other.
class TargetFields {
    constructor(change) {
        this.fields = [
            this.field(change, "python", "Python", PYTHONS.map((python) => [python, python]), "3.13t"),
            this.field(change, "platform", "Platform", PLATFORMS, "macosx_12_0_arm64"),
        ];
        this.element = element("div", { class: "target" }, this.fields.map((field) => field.place));
    }

    field(change, key, label, usual, example) {
        const set = (value) => change((choices) => Object.assign(choices, { [key]: value, environment: null }));
        const select = element("select", { id: key, change: () => (select.value === OTHER ? this.openOther(key) : set(select.value)) },
            options([...usual, [OTHER, "other …"]]));
        const input = element("input", {
            id: `${key}-other`, type: "text", maxlength: 100, placeholder: example, ...EXACT,
            "aria-label": `Other ${label}`, change: () => set(input.value.trim()),
        });
        const place = element("div", { class: "field" }, element("label", { for: key }, label), select, input);
        return { key, select, input, place, known: new Set(usual.map(([value]) => value)) };
    }

    openOther(key) {
        const { input } = this.fields.find((field) => field.key === key);
        input.hidden = false;
        input.focus();
    }

    draw({ choices }) {
        for (const { key, select, input, known } of this.fields) {
            const isKnown = known.has(choices[key]);
            select.value = isKnown ? choices[key] : OTHER;
            if (isKnown || document.activeElement !== input) input.value = isKnown ? "" : choices[key];
            input.hidden = isKnown;
            select.disabled = choices.environment !== null;
        }
    }

    mark(wrong) {
        for (const { key, input } of this.fields) {
            if (key === wrong) {
                input.setAttribute("aria-invalid", "true");
                input.setAttribute("aria-describedby", "target-error");
            } else {
                input.removeAttribute("aria-invalid");
                input.removeAttribute("aria-describedby");
            }
        }
    }
}

const OTHER = "\u2026";

// A field for each marker variable; an empty one leaves it as the environment has it.
class VariableFields {
    constructor(change) {
        this.inputs = VARIABLES.map((name) => {
            const set = () => change(({ variables }) => (input.value === "" ? variables.delete(name) : variables.set(name, input.value)));
            const input = element("input", { id: `set-${name}`, type: "text", maxlength: 10000, ...EXACT, change: set });
            return { name, input };
        });
        this.summary = element("summary", {}, "Marker variables");
        this.element = element("details", { class: "variables" }, this.summary,
            hint("A text here takes the place of the environment's."),
            this.inputs.map((one) => this.field(one)));
    }

    field({ name, input }) {
        return element("div", { class: "field" }, element("label", { for: `set-${name}`, class: "mono" }, name), input);
    }

    draw({ choices, environment }) {
        for (const { name, input } of this.inputs) {
            if (document.activeElement !== input) input.value = choices.variables.get(name) ?? "";
            input.placeholder = brief(environment.variables.get(name) ?? "no value", 100);
        }
        fill(this.summary, choices.variables.size === 0 ? "Marker variables" : `Marker variables (${choices.variables.size} set)`);
    }
}
