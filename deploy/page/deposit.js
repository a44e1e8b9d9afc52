// The deposit of files as one object: made in progress, filled by uploads that are deposited by reference, and ingested in the
// end. Browsers send a request twice where a kept connection breaks, so each change of the object sends If-Match, and what was
// done is asked of the server before a refusal is told.

import { digestOfFile, PART } from "./hashing.js";
import { Item } from "./item.js";
import { dropUploads, keepDeposit, keepDone, keepUpload, uploadsOf } from "./journal.js";
import { Keeper } from "./keeping.js";
import { eachOf, Lanes } from "./lanes.js";
import { makeObject, putMetadata } from "./making.js";
import { disposition, payloadOf, readManifest } from "./names.js";
import { Anew, entryOf, lengthOf, sendSegment } from "./segments.js";
import { ask, Changed, get, insist, pathOf, pauseBefore, Paused, Refused, serviceOf, Unreachable } from "./server.js";

const AT_ONCE = 3;
// Uploads are deposited so many at a time, or so many bytes: the server does nothing else meanwhile.
const MANY = 100, MOST_IN_BATCH = 64 << 20;
const WITH_PROGRESS = 256 << 10;
const MOST_ANEW = 5, MOST_TRIES = 20;

const textOf = (document) => new TextEncoder().encode(JSON.stringify(document));

export class Deposit {
    constructor(record, chosen, onChange) {
        const given = new Map(chosen.map((it) => [it.name, it]));
        Object.assign(this, { record, onChange, state: "new", fault: null, tag: null, there: new Map(), uploads: new Map() });
        Object.assign(this, { changes: new Lanes(1), sending: new Lanes(AT_ONCE), batch: [] });
        this.items = record.files.map((kept) => new Item({ ...kept, ...given.get(kept.name) }));
    }

    get path() {
        return pathOf(this.record.object);
    }

    get missing() {
        return this.items.filter((item) => item.state === "missing" || item.state === "changed");
    }

    // Files that were chosen once more.
    give(chosen) {
        const given = new Map(chosen.map((it) => [it.name, it]));
        for (const item of this.missing.filter((it) => given.has(it.name))) {
            item.take(given.get(item.name));
            item.anew = 0;
        }
    }

    // The person goes on without these; what the object has of them goes.
    leaveOut(items) {
        this.record.leftOut = [...(this.record.leftOut ?? []), ...items.map((item) => item.name)];
        this.items = this.items.filter((it) => !items.includes(it));
    }

    async removeLeftOut() {
        for (const name of this.record.leftOut ?? []) {
            for (const { number } of this.there.get(name) ?? []) {
                await this.changes.run(() => this.removeFile(number));
            }
        }
    }

    pause() {
        this.stop?.abort(new Paused());
    }

    // Goes on until the object is ingested, or files are missing, or the person or a refusal stops it.
    async run() {
        this.stop = new AbortController();
        this.signal = this.stop.signal;
        this.become("running");
        try {
            await this.carryOut();
        } catch (fault) {
            this.fault = fault;
            this.become(fault instanceof Paused ? "paused" : "stopped");
        }
        return this.state;
    }

    // Whether it is ending: all that can be sent is with the server, and is read once more.
    become(state, isEnding = false) {
        Object.assign(this, { state, isEnding });
        this.onChange(null);
    }

    async carryOut() {
        const { record, signal } = this;
        this.batch = [];
        this.service = await serviceOf({ signal });
        record.files = this.items.map((item) => item.kept);
        await keepDeposit(record);
        (await uploadsOf(record.id)).forEach((upload) => this.uploads.set(upload.name, upload));
        if (!record.object) {
            await makeObject(record, signal);
        }
        await putMetadata(record, signal);
        await this.look();
        this.beginKeeping();
        await this.removeLeftOut();
        while (this.waiting.length > 0 || this.items.some((item) => item.file && !item.isReread)) {
            await this.bringAll();
            await this.look();
            this.items.filter((item) => item.state === "there" && !this.isAlone(item)).forEach((item) => this.back(item));
        }
        if (this.missing.length > 0) {
            this.become("needs files");
            return;
        }
        await this.changes.run(() => this.ingest());
        this.endKeeping();
        await finish(record, this.items);
        this.become("done");
    }

    get total() {
        return this.items.reduce((sum, item) => sum + item.size, 0);
    }

    get waiting() {
        return this.items.filter((item) => item.file && item.state !== "there");
    }

    // What the object is and has, by its status and the manifest of its bag.
    async look() {
        const { signal } = this;
        const status = await get(this.path, { signal });
        const manifest = await get(`${this.path}/bag/manifest-sha256.txt`, { signal });
        const document = JSON.parse(status.text);
        this.tag = status.tag;
        this.isIngested = document.state.some((it) => it["@id"].endsWith("/ingested"));
        this.tags = new Map(document.links.map((link) => [pathOf(link["@id"]), link.eTag]));
        this.there = new Map();
        for (const { digest, path } of readManifest(manifest.text)) {
            const { number, name } = payloadOf(path);
            this.there.set(name, [...(this.there.get(name) ?? []), { number, digest }]);
        }
    }

    isKnown(item) {
        return (this.there.get(item.name) ?? []).some((it) => it.digest === item.sha256);
    }

    isAlone(item) {
        return this.isKnown(item) && this.there.get(item.name).length === 1;
    }

    // Brings each file once, and reads each once more beside the last deposit by reference.
    async bringAll() {
        this.become("running");
        await eachOf(this.waiting, AT_ONCE, (item) => this.bring(item));
        this.become("running", true);
        await Promise.all([this.flush(), this.readAgain()]);
        for (const item of this.items.filter((it) => it.isChanged && it.file)) {
            await this.changed(item);
        }
    }

    async bring(item) {
        for (;;) {
            try {
                await this.bringOnce(item);
                return;
            } catch (fault) {
                if (!(fault instanceof Changed || fault instanceof Anew)) {
                    throw fault;
                }
                if (!(await this.goesOnAfter(item, fault instanceof Changed))) {
                    return;
                }
            }
        }
    }

    // Begins a file anew. One that can't be read as it was chosen is read as it is now, or has to be chosen once more.
    async goesOnAfter(item, isUnreadable) {
        if (isUnreadable && !(await item.refresh())) {
            this.onChange(item);
            return false;
        }
        await this.beginAnew(item);
        return true;
    }

    async bringOnce(item) {
        if (await this.isThere(item)) {
            return;
        }
        if (item.size === 0) {
            await this.changes.run(() => this.addEmpty(item));
            return;
        }
        item.state = "sending";
        this.onChange(item);
        await this.sendAll(item);
        item.state = "sent";
        this.onChange(item);
        this.batch.push(item);
        if (this.batch.length >= MANY || this.batch.reduce((sum, it) => sum + it.size, 0) >= MOST_IN_BATCH) {
            await this.flush();
        }
    }

    // Whether the object has the file as it is here. One of its name that is otherwise was sent before it changed, and goes.
    async isThere(item) {
        const found = this.there.get(item.name) ?? [];
        if (found.length === 0) {
            return false;
        }
        item.sha256 = await item.digest(this.signal);
        const same = found.find((it) => it.digest === item.sha256);
        for (const other of found.filter((it) => it !== same)) {
            await this.changes.run(() => this.removeFile(other.number));
        }
        if (same) {
            this.arrived([item]);
        }
        return Boolean(same);
    }

    arrived(items) {
        for (const item of items) {
            item.begin();
            Object.assign(item, { state: "there", sent: item.size });
            this.uploads.delete(item.name);
            this.onChange(item);
        }
    }

    back(item) {
        item.begin();
        Object.assign(item, { state: "waiting", sha256: null, isReread: false, isChanged: false, isUnreadable: false });
    }

    async beginAnew(item) {
        item.anew += 1;
        if (item.anew > MOST_ANEW) {
            throw new Changed(item.name);
        }
        this.back(item);
        await this.drop(item);
        await this.look();
    }

    // Forgets the upload of a file, and has the server forget it where it can.
    async drop(item) {
        const upload = this.uploads.get(item.name);
        if (upload) {
            this.uploads.delete(item.name);
            await dropUploads(this.record.id, [item.name]);
            await ask("DELETE", pathOf(upload.url)).catch(() => {});
        }
    }

    async changed(item) {
        item.isChanged = false;
        await this.goesOnAfter(item, item.isUnreadable);
    }

    // Sends what the file's upload expects, while the whole file is hashed beside it.
    async sendAll(item) {
        const { signal } = this;
        const { upload, expecting } = await this.uploadOf(item);
        item.begin();
        item.sent = item.size - expecting.reduce((sum, number) => sum + lengthOf(number, upload), 0);
        const isHashed = upload.count === 1 && expecting.length === 1;
        const whole = isHashed ? null : upload.count === 1 ? item.digest(signal) : digestOfFile(item.file, null, signal);
        whole?.catch(() => {});
        await eachOf(expecting, AT_ONCE, (number) => this.sending.run(() => this.sendSegment(item, upload, number)));
        item.sha256 = isHashed ? item.sha256 : await whole;
    }

    async sendSegment(item, upload, number) {
        const { signal } = this;
        const length = lengthOf(number, upload);
        const onSent = length < WITH_PROGRESS ? null : (bytes) => {
            item.flying.set(number, bytes);
            this.onChange(item);
        };
        const sha256 = await sendSegment(item, upload, number, { signal, onSent }).finally(() => item.flying.delete(number));
        Object.assign(upload, { touched: Date.now(), received: number });
        item.sent += length;
        item.sha256 = upload.count === 1 ? sha256 : item.sha256;
        this.onChange(item);
    }

    // The upload of a file, and the segments that it expects: the one that is known, where it is of this very file.
    async uploadOf(item) {
        const kept = this.uploads.get(item.name);
        if (!kept) {
            return this.openUpload(item);
        }
        if (kept.size !== item.size || kept.modified !== item.modified) {
            throw new Anew();
        }
        const reply = await get(pathOf(kept.url), { signal: this.signal, wanted: [200, 404, 410] });
        if (reply.status !== 200) {
            throw new Anew();
        }
        const { expecting, received } = JSON.parse(reply.text).segments;
        Object.assign(kept, { touched: Date.now(), received: received.at(-1) });
        return { upload: kept, expecting };
    }

    async openUpload(item) {
        const { signal, service } = this;
        const segment = Math.max(Math.min(PART, service.maxUploadSize), Math.ceil(item.size / service.maxSegments));
        const count = Math.ceil(item.size / segment);
        const fields = { "Content-Disposition": `segment-init; size=${item.size}; segment_count=${count}; segment_size=${segment}` };
        const reply = await insist(() => ask("POST", pathOf(service.staging), { fields, signal }), { signal });
        const { name, size, modified } = item;
        const upload = { deposit: this.record.id, name, url: reply.location, size, modified, segment, count };
        this.uploads.set(name, upload);
        await keepUpload(upload);
        upload.touched = Date.now();
        return { upload, expecting: Array.from({ length: count }, (_, at) => at + 1) };
    }

    // Deposits the uploads that are whole, of all or of none of them.
    async flush() {
        const batch = this.batch;
        this.batch = [];
        if (batch.length > 0) {
            await this.changes.run(() => this.refer(batch));
        }
    }

    async refer(batch) {
        let left = batch;
        for (let number = 1; left.length > 0; number += 1) {
            try {
                const content = textOf({ byReferenceFiles: left.map((item) => entryOf(item, this.uploads.get(item.name))) });
                const fields = { "Content-Disposition": "attachment; by-reference=true", "Content-Type": "application/json" };
                await this.change("POST", content, fields);
                this.arrived(left);
                await dropUploads(this.record.id, left.map((item) => item.name));
            } catch (fault) {
                left = await this.afterReferring(left, fault, number);
            }
            left = left.filter((item) => item.state === "sent");
        }
    }

    // What stands there after a request whose end isn't known, or that was refused. Returns what is to be deposited still.
    async afterReferring(left, fault, number) {
        await this.mayGoOn(fault, number);
        this.arrived(left.filter((item) => this.isKnown(item)));
        await dropUploads(this.record.id, left.filter((item) => item.state === "there").map((item) => item.name));
        const open = left.filter((item) => item.state === "sent");
        if (fault.name === "DigestMismatch" && open.length > 1) {
            for (const item of open) {
                await this.refer([item]);
            }
        } else if (fault.name === "DigestMismatch" && open.length === 1) {
            await this.beginAnew(open[0]);
        } else if (fault.status === 404 || fault.status === 410) {
            await eachOf(open, AT_ONCE, (item) => this.findUpload(item));
        }
        return open;
    }

    async findUpload(item) {
        const reply = await get(pathOf(this.uploads.get(item.name).url), { signal: this.signal, wanted: [200, 404, 410] });
        if (reply.status !== 200) {
            await this.beginAnew(item);
        }
    }

    // After a fault of a change: looks what stands there, where that may help, or tells the fault.
    async mayGoOn(fault, number) {
        const isUnsure = fault instanceof Unreachable || [404, 410, 412].includes(fault.status);
        if (!isUnsure || (number >= MOST_TRIES && (fault instanceof Refused || fault.status === 500))) {
            throw fault;
        }
        if (fault instanceof Unreachable) {
            await pauseBefore(number, this.signal);
        }
        await this.look();
    }

    // One change of the object, which stays in progress unless it is told to end, if it is still as it was seen.
    async change(method, content, fields) {
        const reply = await ask(method, this.path, { content, fields: { "In-Progress": "true", ...fields, "If-Match": this.tag } });
        this.tag = reply.tag;
    }

    async addEmpty(item) {
        item.sha256 = await item.digest(this.signal);
        const fields = { "Content-Disposition": disposition(item.name), "Content-Type": item.type, "Digest": `SHA-256=${item.sha256}` };
        for (let number = 1; !this.isKnown(item); number += 1) {
            this.signal.throwIfAborted();
            try {
                await this.change("POST", undefined, fields);
                this.there.set(item.name, [{ digest: item.sha256 }]);
            } catch (fault) {
                await this.mayGoOn(fault, number);
            }
        }
        this.arrived([item]);
    }

    async removeFile(file) {
        const path = `${this.path}/files/${file}`;
        for (let number = 1; this.tags.has(path); number += 1) {
            try {
                await ask("DELETE", path, { fields: { "If-Match": `"${this.tags.get(path)}"` } });
                await this.look();
            } catch (fault) {
                await this.mayGoOn(fault, number);
            }
        }
    }

    // Each file is read once more before it is ingested, against what was deposited.
    async readAgain() {
        const items = this.items.filter((item) => item.file && item.sha256 && !item.isReread);
        await eachOf(items, AT_ONCE, async (item) => {
            const { sha256 } = item;
            try {
                item.isReread = (await item.digest(this.signal)) === sha256;
            } catch (fault) {
                if (!(fault instanceof Changed)) {
                    throw fault;
                }
                item.isUnreadable = true;
            }
            item.isChanged = !item.isReread;
        });
    }

    async ingest() {
        for (let number = 1; !this.isIngested; number += 1) {
            this.signal.throwIfAborted();
            const lost = this.items.find((item) => !this.isAlone(item));
            if (lost) {
                throw new Changed(lost.name);
            }
            try {
                await this.change("POST", undefined, { "In-Progress": "false" });
                this.isIngested = true;
            } catch (fault) {
                await this.mayGoOn(fault, number);
            }
        }
    }

    // Uploads that wait are kept alive, also while the deposit is paused.
    beginKeeping() {
        this.endKeeping();
        this.keeper = new Keeper(this, this.service.stagingMaxIdle);
    }

    endKeeping() {
        this.keeper?.end();
    }
}

// The deposit is over: what is kept of it is the object.
export async function finish(record, files) {
    const bytes = files.reduce((sum, file) => sum + file.size, 0);
    Object.assign(record, { state: "ingested", count: files.length, bytes, files: [], ended: Date.now() });
    await keepDone(record);
}
