// The view that shows an object: its state, files, description and bag. Files and objects are deleted here.

import { CheckView } from "./check_view.js";
import { button, faultBox, fill, labelled, make, moment, shown } from "./elements.js";
import { deposits } from "./journal.js";
import { Lanes } from "./lanes.js";
import { MetadataView } from "./metadata_view.js";
import { linesOf, payloadOf } from "./names.js";
import { ask, get, insist, pathOf } from "./server.js";
import { size, text } from "./texts.js";

const TRIES = 4;
const HEADS_AT_ONCE = 3;

export class ObjectView {
    constructor(place, service) {
        Object.assign(this, { place, service, number: null, heads: new Lanes(HEADS_AT_ONCE) });
        this.field = make("input", { inputMode: "url", autocomplete: "off", spellcheck: false });
        this.remark = make("div", {});
        this.own = make("div", {});
        this.object = make("div", { id: "object" });
        const form = make("form", { className: "row", on: { submit: (event) => this.ask(event) } }, labelled(text.ask, this.field),
            make("button", { className: "main", textContent: text.showIt }));
        fill(place, make("h2", { textContent: text.objects }), form, this.remark, this.own, this.object);
        this.sizes = new IntersectionObserver((seen) => seen.filter((it) => it.isIntersecting).forEach((it) => this.showSize(it.target)),
            { rootMargin: "1000px" });
    }

    // Goes to the object that was asked for.
    ask(event) {
        event.preventDefault();
        const given = this.field.value.trim();
        const found = /^(?:(https?:\/\/[^/]+)?\/objects\/)?([1-9]\d{0,18})(?:\/.*)?$/.exec(given);
        const known = [location.host, new URL(this.service["@id"]).host];
        const isOther = found?.[1] && !known.includes(new URL(found[1]).host);
        if (!found || isOther) {
            fill(this.remark, make("p", { className: "bad", role: "alert",
                textContent: isOther ? text.otherServer(new URL(found[1]).host) : text.noNumber }));
            return;
        }
        fill(this.remark);
        if (location.hash === `#objects/${found[2]}`) {
            this.open(found[2]);
        }
        location.hash = `#objects/${found[2]}`;
    }

    async open(number) {
        this.check?.stop();
        fill(this.object);
        this.number = number;
        this.showOwn();
        if (number) {
            this.field.value = number;
            await this.load();
        }
    }

    async showOwn() {
        const records = (await deposits().catch(() => [])).filter((it) => it.state === "ingested");
        const cards = records.sort((a, b) => b.ended - a.ended).map((record) => {
            const number = pathOf(record.object).split("/").at(-1);
            const link = make("a", { href: `#objects/${number}`, textContent: text.object(number) });
            const title = shown(record.metadata["dc:title"]?.[0] ?? text.untitled);
            return make("li", {}, make("span", {}, link, ": ", title), make("span", { className: "soft",
                textContent: `${text.chosen(record.count, record.bytes)}, ${moment(record.ended)}` }));
        });
        const list = make("details", { open: !this.number }, make("summary", { textContent: text.noList }), make("ul", { className: "cards", id: "own" }, ...cards));
        fill(this.own, cards.length === 0 ? make("p", { className: "soft", textContent: text.noneYet }) : list);
    }

    get path() {
        return `/objects/${this.number}`;
    }

    // Reads the object and shows it. The last words say what happened before.
    async load(words = null) {
        const { number } = this;
        fill(this.object, make("p", { role: "status", textContent: text.loading }));
        try {
            const read = async (path) => get(this.path + path, { tries: TRIES });
            const [status, list, info, metadata] = [await read(""), await read("/bag"), await read("/bag/bag-info.txt"), await read("/metadata")];
            if (number === this.number) {
                this.show(status, list.text, info.text, metadata, words);
            }
        } catch (fault) {
            fill(this.object, words && make("p", { role: "status", textContent: words }),
                faultBox(fault, button(text.again, () => this.load())));
        }
    }

    show(status, list, info, metadata, words) {
        const document = JSON.parse(status.text);
        Object.assign(this, { tag: status.tag, names: new Map() });
        linesOf(list).map(payloadOf).filter(Boolean).forEach((it) => this.names.set(it.number, it.name));
        this.cards = new Map(document.links.map((link) => this.card(link)));
        this.check = new CheckView(this.path, this.cards);
        const cards = make("ul", { className: "cards", id: "files" }, ...this.cards.values());
        fill(this.object, words && make("p", { className: "good", role: "status", textContent: words }),
            make("h2", { textContent: text.object(this.number), tabIndex: -1 }), this.facts(document, info),
            make("div", { className: "buttons" }, button(text.reload, () => this.load()),
                button(text.deleteObject, () => this.deleteObject(), { className: "danger" })),
            new MetadataView(this.path, metadata).place, this.check.place,
            make("section", {}, make("h3", { textContent: text.filesOf(document.links.length) }),
                document.links.length === 0 ? make("p", { textContent: text.noFiles }) : cards),
            make("details", {}, make("summary", { textContent: text.bag }),
                make("ul", { id: "bag" }, ...linesOf(list).map((path) => make("li", {}, shown(path))))));
        this.cards.forEach((card) => this.sizes.observe(card));
    }

    facts(document, info) {
        const isIngested = document.state.some((it) => it["@id"].endsWith("/ingested"));
        const day = /^Bagging-Date: (.*)$/m.exec(info)?.[1] ?? "";
        const pairs = [[text.address, document["@id"]], [text.state, isIngested ? text.ingested : text.inProgress], [text.changed, day],
            [text.tag, document.eTag]];
        return make("dl", {}, ...pairs.flatMap(([term, value]) => [make("dt", { textContent: term }), make("dd", {}, shown(value))]));
    }

    // A file's place in the list, by the path that it has in the bag.
    card(link) {
        const path = pathOf(link["@id"]);
        const number = path.split("/").at(-1);
        const name = this.names.get(number) ?? number;
        const behalf = link.depositedOnBehalfOf;
        const facts = make("span", { className: "soft wide" }, make("span", { className: "size" }), ` ${text.number(number)}, `,
            shown(link.contentType), `, ${moment(link.depositedOn)}, ${text.by} `, shown(link.depositedBy),
            ...(behalf ? [`, ${text.behalfOf} `, shown(behalf)] : []));
        const anchor = make("a", { href: path, download: name }, shown(name));
        const remove = button(text.deleteFile, () => this.deleteFile(number, name, link.eTag), { className: "danger", "aria-label": text.deleteFileNamed(name) });
        const card = make("li", {}, anchor, remove, facts, make("span", { className: "mark wide" }));
        Object.assign(card.dataset, { path, number });
        return [`data/${number}/${name}`, card];
    }

    async showSize(card) {
        this.sizes.unobserve(card);
        const reply = await this.heads.run(() => (card.isConnected ? ask("HEAD", card.dataset.path) : null)).catch(() => null);
        if (reply?.length) {
            card.querySelector(".size").textContent = `${size(Number(reply.length))},`;
        }
    }

    deleteFile(number, name, tag) {
        this.confirm(number, text.theFile(name), () => this.remove(`${this.path}/files/${number}`, `"${tag}"`, text.theFile(name)));
    }

    deleteObject() {
        const what = text.theObject(this.number);
        this.confirm(this.number, what, () => this.remove(this.path, this.tag, what));
    }

    // Deletes what still is as it was shown. What is gone already was deleted, by us or by another.
    async remove(path, tag, what) {
        try {
            const reply = await insist(() => ask("DELETE", path, { fields: { "If-Match": tag }, wanted: [204, 404, 412] }), { tries: TRIES });
            await this.load(reply.status === 412 ? text.changedMeanwhile : text.deleted(what));
        } catch (fault) {
            fill(this.object, faultBox(fault, button(text.again, () => this.load())));
        }
    }

    // Asks for the number of what is to be deleted.
    confirm(number, what, onSure) {
        const field = make("input", { inputMode: "numeric", autocomplete: "off" });
        const remark = make("p", { className: "bad", role: "alert" });
        const dialog = make("dialog", { on: { close: () => dialog.remove() } });
        const form = make("form", { on: { submit: (event) => {
            event.preventDefault();
            if (field.value.trim() === String(number)) {
                dialog.close();
                onSure();
            } else {
                remark.textContent = text.wrongNumber;
            }
        } } }, make("p", {}, shown(text.deleteAsk(number, what))), labelled(text.typed, field), remark,
        make("div", { className: "buttons" }, make("button", { className: "danger", textContent: text.deleteIt }), button(text.cancel, () => dialog.close())));
        dialog.setAttribute("aria-label", text.deleteFile);
        dialog.append(form);
        this.place.append(dialog);
        dialog.showModal();
    }
}
