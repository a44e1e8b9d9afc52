// The view that deposits: what is chosen, what is under way, and what was broken off.

import { choices } from "./choosing.js";
import { Deposit, finish } from "./deposit.js";
import { Description } from "./describing.js";
import { button, faultBox, fill, make, moment, shown } from "./elements.js";
import { deposits, forget } from "./journal.js";
import { isFit, linesOf, payloadOf } from "./names.js";
import { RunningView } from "./running_view.js";
import { get, pathOf } from "./server.js";
import { size, text } from "./texts.js";

const isRunning = new Set();

export class DepositView {
    constructor(place, service) {
        Object.assign(this, { place, service, chosen: [], description: new Description() });
        this.unfinished = make("section", {});
        this.list = make("ul", { className: "cards", id: "chosen" });
        this.summary = make("p", { role: "status", textContent: text.nothingChosen });
        this.remark = make("div", {});
        this.form = make("form", { on: { submit: (event) => this.begin(event) } }, this.filesPart(), this.descriptionPart(), this.remark,
            make("button", { className: "main", textContent: text.begin }));
        this.running = make("section", { hidden: true, id: "running" });
        fill(place, make("h2", { textContent: text.deposit }), this.unfinished, this.form, this.running);
        addEventListener("beforeunload", (event) => {
            if (isRunning.size > 0) {
                event.preventDefault();
            }
        });
    }

    filesPart() {
        return make("fieldset", {}, make("legend", { textContent: text.filesLegend }), choices((chosen) => this.choose(chosen)),
            make("p", { className: "soft", textContent: text.rule }), this.summary, this.list);
    }

    descriptionPart() {
        return make("fieldset", {}, make("legend", { textContent: text.describeLegend }), this.description.place);
    }

    async open() {
        if (!this.running.hidden) {
            return;
        }
        try {
            const records = (await deposits()).filter((it) => it.state !== "ingested");
            const left = [];
            for (const record of records) {
                if (!(await wasIngested(record).catch(() => false))) {
                    left.push(record);
                }
            }
            this.showUnfinished(left);
        } catch (fault) {
            fill(this.unfinished, faultBox(fault));
        }
    }

    showUnfinished(records) {
        const cards = records.map((record) => {
            const title = record.metadata["dc:title"]?.[0] ?? text.untitled;
            const bytes = record.files.reduce((sum, it) => sum + it.size, 0);
            return make("li", {}, make("span", {}, shown(text.unfinishedOne(title, record.files.length, bytes, moment(record.began)))),
                make("span", { className: "buttons" },
                    button(text.goOn, () => this.start(new Deposit(record, [], () => {}), false), { "aria-label": text.goOnWith(title) }),
                    button(text.forget, () => this.forget(record), { "aria-label": text.forgetOne(title) })));
        });
        fill(this.unfinished, ...(cards.length === 0 ? [] : [make("h3", { textContent: text.unfinished }),
            make("p", { textContent: text.unfinishedHint }), make("ul", { className: "cards", id: "unfinished" }, ...cards)]));
    }

    async forget(record) {
        if (confirm(text.forgetAsk)) {
            await forget(record.id);
            this.open();
        }
    }

    choose(files) {
        const paths = new Set(this.chosen.map((it) => it.path));
        this.chosen = [...this.chosen, ...files.filter((it) => !paths.has(it.path))];
        this.showChosen();
    }

    // What stands against a file, if anything does.
    faultOf(chosen) {
        const most = this.service.maxAssembledSize;
        return !isFit(chosen.name) ? text.unfit : this.counts.get(chosen.name) > 1 ? text.twice
            : chosen.size > most ? text.tooLarge(most) : null;
    }

    showChosen() {
        this.counts = new Map();
        this.chosen.forEach((it) => this.counts.set(it.name, (this.counts.get(it.name) ?? 0) + 1));
        const bytes = this.chosen.reduce((sum, it) => sum + it.size, 0);
        this.summary.textContent = this.chosen.length === 0 ? text.nothingChosen : text.chosen(this.chosen.length, bytes);
        fill(this.list, ...this.chosen.map((it) => this.card(it)));
        fill(this.remark);
    }

    card(chosen) {
        const fault = this.faultOf(chosen);
        const remove = () => {
            this.chosen = this.chosen.filter((it) => it !== chosen);
            this.showChosen();
            this.list.querySelector("button")?.focus();
        };
        const map = chosen.path === chosen.name ? [shown(chosen.name)]
            : [shown(chosen.path), make("span", { className: "soft", textContent: ` ${text.becomes} ` }), shown(chosen.name)];
        return make("li", {}, make("span", {}, ...map, make("span", { className: "soft", textContent: ` ${size(chosen.size)}` })),
            button(text.remove, remove, { "aria-label": text.removeNamed(chosen.name) }),
            fault && make("span", { className: "bad wide", textContent: fault }));
    }

    begin(event) {
        event.preventDefault();
        const isWrong = this.chosen.some((it) => this.faultOf(it));
        if (this.chosen.length === 0 || isWrong) {
            fill(this.remark, make("p", { className: "bad", role: "alert", textContent: isWrong ? text.cannotBegin : text.chooseFirst }));
            return;
        }
        const id = crypto.randomUUID();
        const record = { id, mark: text.mark(id), began: Date.now(), state: "begun", object: null, metadata: this.description.names,
            files: this.chosen.map(({ name, path, size: bytes, modified }) => ({ name, path, size: bytes, modified })) };
        this.start(new Deposit(record, this.chosen, () => {}), true);
    }

    // Deposits in this tab alone.
    start(deposit, isNew) {
        const { id } = deposit.record;
        return navigator.locks.request(`deposit ${id}`, { ifAvailable: true }, async (lock) => {
            if (!lock) {
                fill(this.remark, make("p", { className: "bad", role: "alert", textContent: text.elsewhere }));
                this.unfinished.append(this.remark);
                return;
            }
            this.form.hidden = this.unfinished.hidden = true;
            this.running.hidden = false;
            isRunning.add(id);
            await new Promise((resolve) => new RunningView(this.running, deposit, isNew, resolve));
            isRunning.delete(id);
            this.end();
        });
    }

    end() {
        this.chosen = [];
        this.showChosen();
        this.form.insertBefore(this.remark, this.form.lastElementChild);
        this.form.hidden = this.unfinished.hidden = false;
        this.running.hidden = true;
        delete this.running.dataset.state;
        fill(this.running);
        this.open();
    }
}

// Whether a deposit that the journal has as begun was ingested after all: its last reply was lost.
async function wasIngested(record) {
    if (!record.object || isRunning.has(record.id)) {
        return isRunning.has(record.id);
    }
    const path = pathOf(record.object);
    const status = await get(path, { wanted: [200, 404], tries: 3 });
    if (status.status === 404 || !JSON.parse(status.text).state.some((it) => it["@id"].endsWith("/ingested"))) {
        return false;
    }
    const list = await get(`${path}/bag`, { tries: 3 });
    const names = new Set(linesOf(list.text).map((line) => payloadOf(line)?.name));
    const isWhole = record.files.every((file) => names.has(file.name));
    if (isWhole) {
        await finish(record, record.files);
    }
    return isWhole;
}
