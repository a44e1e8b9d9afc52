// Fields of Dublin Core that can be repeated.

import { button, labelled, make } from "./elements.js";
import { ELEMENTS, text } from "./texts.js";

const FIRST = ["dc:title", "dc:creator"];

// The names and texts of a description, one by one, in the order in which they are offered; other names after them.
export function pairsOf(names) {
    const order = Object.keys(ELEMENTS);
    const place = (name) => (name in ELEMENTS ? order.indexOf(name) : order.length);
    const sorted = Object.entries(names).sort(([a], [b]) => place(a) - place(b));
    return sorted.flatMap(([name, texts]) => texts.map((it) => [name, it]));
}

export class Description {
    constructor(names = null) {
        this.rows = make("div", { className: "rows" });
        this.place = make("div", {}, this.rows, button(text.addField, () => this.add("dc:title", "").focus()));
        const pairs = names ? pairsOf(names) : FIRST.map((it) => [it, ""]);
        pairs.forEach(([name, value]) => this.add(name, value));
    }

    add(name, value) {
        const known = name in ELEMENTS ? ELEMENTS : { ...ELEMENTS, [name]: name };
        const select = make("select", {}, ...Object.entries(known).map(([id, label]) => make("option", { value: id, textContent: label })));
        select.value = name;
        const field = make("textarea", { rows: 1, value });
        const remove = button(text.removeShort, () => row.remove(), { className: "quiet" });
        const row = make("div", { className: "row" }, labelled(text.element, select), labelled(text.value, field), remove);
        const tell = () => {
            remove.setAttribute("aria-label", text.removeField(known[select.value]));
            field.setAttribute("aria-label", text.valueOf(known[select.value]));
        };
        select.addEventListener("change", tell);
        tell();
        this.rows.append(row);
        return select;
    }

    // The names with their texts, in the order of the rows; rows without a text say nothing.
    get names() {
        const found = {};
        for (const row of this.rows.children) {
            const name = row.querySelector("select").value, value = row.querySelector("textarea").value;
            if (value.trim() !== "") {
                found[name] = [...(found[name] ?? []), value];
            }
        }
        return found;
    }
}
