// What a check of an object says: a mark for each file, and one line for all.

import { checkObject } from "./checking.js";
import { button, faultBox, fill, make, shown } from "./elements.js";
import { size, text } from "./texts.js";

export class CheckView {
    // `cards` are the places of the files, by their paths in the bag.
    constructor(path, cards) {
        Object.assign(this, { path, cards });
        this.line = make("p", { id: "check-line", role: "status" });
        this.bad = make("ul", { id: "check-bad" });
        this.bar = make("progress", { hidden: true, "aria-label": text.check, max: 1, value: 0 });
        this.buttons = make("div", { className: "buttons" });
        this.place = make("section", { className: "panel", id: "check" }, make("h3", { textContent: text.check }),
            make("p", { textContent: text.checkHint }), this.buttons, this.bar, this.line, this.bad);
        this.ready();
    }

    ready() {
        fill(this.buttons, button(text.check, () => this.run(), { className: "main" }));
        this.bar.hidden = true;
    }

    stop() {
        this.stopper?.abort(new Error("stopped"));
    }

    async run() {
        this.stopper = new AbortController();
        const { signal } = this.stopper;
        this.begin();
        try {
            const counts = await checkObject(this.path, { signal, onPlan: (all) => this.plan(all), onBytes: (bytes) => this.tell(bytes),
                onMark: (file, mark, detail) => this.mark(file, mark, detail) });
            this.end(counts);
        } catch (fault) {
            this.line.textContent = this.counts ? text.checkStopped(this.done, this.counts.all) : "";
            this.line.className = "bad";
            if (!signal.aborted) {
                this.line.after(faultBox(fault));
            }
        }
        this.ready();
    }

    begin() {
        Object.assign(this, { done: 0, told: 0, counts: null });
        fill(this.buttons, button(text.stopCheck, () => this.stop()));
        fill(this.bad);
        this.place.querySelector(".fault")?.remove();
        this.cards.forEach((card) => fill(card.querySelector(".mark")));
        this.line.className = "";
        this.bar.hidden = false;
        this.bar.value = 0;
    }

    plan(counts) {
        this.counts = counts;
        this.bar.max = counts.all;
        this.tell(0);
    }

    tell(bytes) {
        if (performance.now() - this.told > 200) {
            this.told = performance.now();
            this.bar.value = this.done;
            this.line.textContent = text.checking(this.done, this.counts.all, bytes);
        }
    }

    mark(file, mark, { size: bytes, isLacking, isUnlisted }) {
        this.done += 1;
        const card = this.cards.get(file) ?? [...this.cards.values()].find((it) => file === `data/${it.dataset.number}`);
        const detail = isLacking ? ` (${text.lacking})` : isUnlisted ? ` (${text.unlisted})` : "";
        const words = () => make("span", { className: mark === "same" ? "good" : "bad", textContent: text.marks[mark] + detail });
        if (card) {
            fill(card.querySelector(".mark"), words());
            card.querySelector(".size").textContent = bytes === undefined ? "" : `${size(bytes)},`;
        }
        if (mark !== "same") {
            this.bad.append(make("li", {}, shown(file), " ", words()));
        }
    }

    end({ all, own, differs, unread, bytes, isOld }) {
        const isWell = differs === 0 && unread === 0 && !isOld;
        this.line.textContent = isOld ? text.checkChanged : isWell ? text.allWell(all - own, own, bytes)
            : text.damage(all - own, own, differs, unread);
        this.line.className = isWell ? "good" : "bad";
    }
}
