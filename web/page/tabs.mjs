// Tabs: one panel in view, arrows move between the tabs.

export class Tabs {
    // panels are the elements of the page that the tabs control; shown(name) is called for the one that comes into view
    constructor(list, shown) {
        this.tabs = [...list.querySelectorAll("[role=tab]")];
        this.shown = shown;
        list.addEventListener("click", (event) => this.choose(event.target.closest("[role=tab]")));
        list.addEventListener("keydown", (event) => this.press(event));
    }

    get current() {
        return this.tabs.find((tab) => tab.getAttribute("aria-selected") === "true").dataset.name;
    }

    choose(tab) {
        if (!tab) return;
        for (const one of this.tabs) {
            const isChosen = one === tab;
            one.setAttribute("aria-selected", String(isChosen));
            one.tabIndex = isChosen ? 0 : -1;
            document.getElementById(one.getAttribute("aria-controls")).hidden = !isChosen;
        }
        this.shown(tab.dataset.name);
    }

    chooseByName(name) {
        this.choose(this.tabs.find((tab) => tab.dataset.name === name));
    }

    press(event) {
        const at = this.tabs.indexOf(event.target);
        const last = this.tabs.length - 1;
        const wanted = { ArrowRight: at === last ? 0 : at + 1, ArrowLeft: at === 0 ? last : at - 1, Home: 0, End: last }[event.key];
        if (at < 0 || wanted === undefined) return;
        event.preventDefault();
        this.tabs[wanted].focus();
        this.choose(this.tabs[wanted]);
    }
}
