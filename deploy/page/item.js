// A file of a deposit: what was chosen, how far it is, and its content read from the disk.

import { digestOfFile, digestOfPart, PART } from "./hashing.js";
import { Changed } from "./server.js";

export class Item {
    // `file` is null where the person has to choose it once more.
    constructor({ name, path, size, modified, file = null, entry = null }) {
        Object.assign(this, { name, path, size, modified, file, entry });
        Object.assign(this, { state: file ? "waiting" : "missing", sha256: null, isReread: false, isChanged: false, isUnreadable: false, anew: 0 });
        this.begin();
    }

    // Nothing of it is with the server.
    begin() {
        this.sent = 0;
        this.flying = new Map();
    }

    // The bytes that are with the server, or on their way.
    get done() {
        return Math.min(this.size, [...this.flying.values()].reduce((sum, bytes) => sum + bytes, this.sent));
    }

    get type() {
        return /^[\x20-\x7e]{1,255}$/.test(this.file?.type ?? "") ? this.file.type : "application/octet-stream";
    }

    // What the journal keeps of it.
    get kept() {
        const { name, path, size, modified } = this;
        return { name, path, size, modified };
    }

    // Takes a file that was chosen in place of the one before.
    take(chosen) {
        const { file, entry } = chosen;
        Object.assign(this, { file, entry, size: file.size, modified: file.lastModified });
        Object.assign(this, { state: "waiting", sha256: null, isReread: false, isChanged: false, isUnreadable: false });
        this.begin();
    }

    // Reads it anew where the browser can, and tells whether it could.
    async refresh() {
        try {
            const file = await new Promise((resolve, reject) => this.entry.file(resolve, reject));
            await file.slice(0, 1).arrayBuffer();
            this.take({ file, entry: this.entry });
            return true;
        } catch {
            Object.assign(this, { file: null, state: "changed", sha256: null });
            return false;
        }
    }

    // The content of a segment of its upload, which is read from the disk whenever it is asked for.
    part(number, upload) {
        const from = (number - 1) * upload.segment;
        return this.file.slice(from, Math.min(from + upload.segment, upload.size));
    }

    // Throws where it can't be read any more as it was chosen.
    async check() {
        await this.file.slice(0, 1).arrayBuffer().catch((fault) => {
            throw new Changed(fault.message);
        });
    }

    // The SHA-256 of the whole file, as it stands on the disk now.
    async digest(signal) {
        return this.size <= PART ? digestOfPart(this.file) : digestOfFile(this.file, null, signal);
    }
}
