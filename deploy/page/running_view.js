// A deposit that is under way: a bar for all and one for each file, what is missing, and what stopped it.

import { choices } from "./choosing.js";
import { button, faultBox, fill, make, shown } from "./elements.js";
import { pathOf } from "./server.js";
import { size, text } from "./texts.js";

const BETWEEN = 250;
// The speed is that of the last seconds.
const SPEED_OVER = 8_000;

export class RunningView {
    constructor(place, deposit, isNew, onEnd) {
        Object.assign(this, { place, deposit, onEnd, marks: [], dirty: new Set(), rows: new Map() });
        deposit.onChange = (item) => this.note(item);
        this.state = make("p", { className: "state", role: "status", tabIndex: -1 });
        this.bar = make("progress", { id: "all-progress", max: 1, value: 0, "aria-label": text.all });
        this.figures = make("p", { id: "figures" });
        this.fault = make("div", {});
        this.missing = make("div", {});
        this.buttons = make("div", { className: "buttons" });
        this.list = make("ul", { className: "cards", id: "items" });
        fill(place, this.state, this.bar, this.figures, this.fault, this.missing, this.buttons, this.list);
        this.showItems();
        if (isNew) {
            this.run();
        } else {
            deposit.state = "needs files";
            this.showState();
        }
    }

    run() {
        this.marks = [];
        this.rows.forEach((row) => delete row.first);
        this.deposit.run();
        this.state.focus();
    }

    note(item) {
        if (item) {
            this.dirty.add(item);
            this.timer ??= setTimeout(() => this.showProgress(), BETWEEN);
        } else {
            this.showProgress();
            this.showState();
        }
    }

    showItems() {
        this.rows = new Map(this.deposit.items.map((item) => [item, rowOf(item)]));
        fill(this.list, ...[...this.rows.values()].map((row) => row.element));
        this.deposit.items.forEach((item) => this.showItem(item));
        this.showProgress();
    }

    showProgress() {
        clearTimeout(this.timer);
        this.timer = undefined;
        this.dirty.forEach((item) => this.showItem(item));
        this.dirty.clear();
        const { items, total } = this.deposit;
        const done = items.reduce((sum, item) => sum + item.done, 0);
        this.bar.max = total || 1;
        this.bar.value = total ? done : Number(this.deposit.state === "done");
        this.figures.textContent = [text.progress(done, total), ...this.pace(done, total)].join(", ");
    }

    showItem(item) {
        const row = this.rows.get(item);
        if (row) {
            row.bar.value = item.size ? item.done : Number(item.state === "there");
            row.told.textContent = wordsOf(item, row, this.deposit.state === "running");
            row.told.className = item.state === "changed" || item.state === "missing" ? "bad" : "soft";
            row.element.dataset.state = item.state;
        }
    }

    // The speed, and the time left.
    pace(done, total) {
        const now = performance.now();
        this.marks = [...this.marks.filter((mark) => now - mark.now < SPEED_OVER), { now, done }];
        const first = this.marks[0];
        const speed = ((done - first.done) / (now - first.now)) * 1000;
        return this.deposit.state === "running" && speed > 0 ? [text.speed(speed), text.left((total - done) / speed)] : [];
    }

    showState() {
        const { deposit } = this;
        const isAsBefore = this.place.dataset.state === deposit.state;
        this.place.dataset.state = deposit.state;
        this.state.textContent = deposit.isEnding ? text.ending : text.states[deposit.state];
        this.bar.hidden = this.figures.hidden = deposit.state === "needs files";
        fill(this.fault, deposit.state === "stopped" ? faultBox(deposit.fault) : null);
        // What has the focus stays.
        if (!isAsBefore) {
            fill(this.missing, ...(deposit.state === "needs files" ? this.missingPart() : []));
        }
        if (!isAsBefore || deposit.state === "needs files") {
            fill(this.buttons, ...this.actions());
        }
        if (deposit.state !== "running") {
            deposit.items.forEach((item) => this.showItem(item));
        }
    }

    actions() {
        const { deposit } = this;
        const end = button(text.later, () => this.end());
        const object = deposit.record.object && pathOf(deposit.record.object).split("/").at(-1);
        return {
            "running": () => [button(text.pause, () => deposit.pause(), { className: "main" })],
            "paused": () => [button(text.goOn, () => this.run(), { className: "main" }), end],
            "stopped": () => [button(text.again, () => this.run(), { className: "main" }), end],
            "needs files": () => [button(text.goOn, () => this.run(), { className: "main", disabled: deposit.waiting.length === 0 && deposit.missing.length > 0 }),
                deposit.missing.length > 0 && deposit.missing.length < deposit.items.length
                    ? button(text.leaveMissing(deposit.missing.length), () => this.leaveMissing()) : null, end],
            "done": () => [make("a", { href: `#objects/${object}`, textContent: text.show(object) }), button(text.newDeposit, () => this.end())],
        }[deposit.state]().filter(Boolean);
    }

    missingPart() {
        this.found = make("p", { role: "status", textContent: this.foundSoFar() });
        return [choices((chosen) => this.choose(chosen)), this.found];
    }

    foundSoFar() {
        const { items, missing } = this.deposit;
        return text.found(items.length - missing.length, items.length);
    }

    choose(chosen) {
        const names = new Set(this.deposit.items.map((item) => item.name));
        const others = chosen.filter((it) => !names.has(it.name)).length;
        this.deposit.give(chosen);
        this.showState();
        this.found.textContent = this.foundSoFar() + (others > 0 ? ` ${text.notOfIt(others)}` : "");
        this.showProgress();
    }

    leaveMissing() {
        this.deposit.leaveOut(this.deposit.missing);
        this.showItems();
        this.run();
    }

    end() {
        this.deposit.endKeeping();
        clearTimeout(this.timer);
        this.deposit.onChange = () => {};
        this.onEnd();
    }
}

function rowOf(item) {
    const bar = make("progress", { className: "wide", max: item.size || 1, value: 0, "aria-label": item.name });
    const told = make("span", { className: "soft" });
    return { bar, told, element: make("li", {}, shown(item.name), told, bar) };
}

// The speed of a file since it began to be sent, and the time left.
function paceOf(item, row) {
    row.first ??= { now: performance.now(), done: item.done };
    const seconds = (performance.now() - row.first.now) / 1000, speed = (item.done - row.first.done) / seconds;
    return seconds > 1 && speed > 0 ? [text.speed(speed), text.left((item.size - item.done) / speed)] : [];
}

// How far an item is; how fast it goes, where it goes.
function wordsOf(item, row, isRunning) {
    if (item.state !== "sending") {
        return `${size(item.size)}, ${text.items[item.state]}`;
    }
    return [text.progress(item.done, item.size), ...(isRunning ? paceOf(item, row) : [])].join(", ");
}
