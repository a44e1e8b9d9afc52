// The description of an object, which can be edited. Who comes second is told, and sees both.

import { Description, pairsOf } from "./describing.js";
import { button, faultBox, fill, make, shownLines } from "./elements.js";
import { areEqual, namesIn } from "./making.js";
import { ask, get, insist } from "./server.js";
import { ELEMENTS, text } from "./texts.js";

const TRIES = 4;

const listOf = (names) => {
    const pairs = pairsOf(names);
    return pairs.length === 0 ? make("p", { className: "soft", textContent: text.noMetadata })
        : make("dl", {}, ...pairs.flatMap(([name, value]) => [make("dt", { textContent: ELEMENTS[name] ?? name }), make("dd", {}, shownLines(value))]));
};

export class MetadataView {
    constructor(path, reply) {
        this.path = `${path}/metadata`;
        this.inner = make("div", {});
        this.place = make("section", { className: "panel", id: "metadata" }, make("h3", { textContent: text.metadata }), this.inner);
        this.take(reply);
    }

    take(reply, words = null) {
        Object.assign(this, { tag: reply.tag, names: namesIn(JSON.parse(reply.text)) });
        fill(this.inner, words && make("p", { className: "good", role: "status", textContent: words }), listOf(this.names),
            button(text.edit, () => this.edit(this.names)));
    }

    edit(names, above = null, label = text.save) {
        const description = new Description(Object.keys(names).length > 0 ? names : null);
        const cancel = async () => this.take(await get(this.path, { tries: TRIES }));
        const fault = make("div", {});
        const form = make("form", { on: { submit: async (event) => {
            event.preventDefault();
            try {
                await this.save(description.names);
            } catch (problem) {
                fill(fault, faultBox(problem));
            }
        } } }, description.place, fault, make("div", { className: "buttons" }, make("button", { className: "main", textContent: label }),
            button(above ? text.keepTheirs : text.cancel, cancel)));
        fill(this.inner, above, above && make("h4", { textContent: text.yours }), form);
        form.querySelector("select")?.focus();
    }

    // Saves it if nobody else did meanwhile. A request that was repeated comes second to itself: then what stands there is it.
    async save(names) {
        const content = new TextEncoder().encode(JSON.stringify(names));
        const fields = { "Content-Type": "application/json", "If-Match": this.tag };
        await insist(() => ask("PUT", this.path, { content, fields, wanted: [204, 412] }), { tries: TRIES });
        const now = await get(this.path, { tries: TRIES });
        if (areEqual(namesIn(JSON.parse(now.text)), names)) {
            this.take(now, text.saved);
            return;
        }
        this.tag = now.tag;
        const theirs = namesIn(JSON.parse(now.text));
        this.edit(names, make("div", { id: "conflict" }, make("p", { className: "bad", role: "alert", textContent: text.conflict }),
            make("h4", { textContent: text.theirs }), make("div", { id: "theirs" }, listOf(theirs))), text.saveOver);
    }
}
