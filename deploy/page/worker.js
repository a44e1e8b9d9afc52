// Digests of files and of what is read back, of any size, in one stream each, beside the page. It is told { id, file },
// { id, path } or { id, stop }, and tells { id, done } as it goes and { id, sha256, done } or { id, fault, message } in the end.

import { eachPiece } from "/page/reading.js";
import { Sha256 } from "/page/sha256.js";

const BETWEEN_TELLING = 100;
const stops = new Map();

class Task {
    constructor(id, signal) {
        Object.assign(this, { id, signal, digest: new Sha256(), done: 0, told: 0 });
    }

    take(bytes) {
        this.signal.throwIfAborted();
        this.digest.update(bytes);
        this.done += bytes.length;
        if (performance.now() - this.told > BETWEEN_TELLING) {
            this.told = performance.now();
            postMessage({ id: this.id, done: this.done });
        }
    }
}

async function readFile(task, file) {
    await eachPiece(file.stream(), (bytes) => task.take(bytes));
    return { wanted: file.size };
}

async function readPath(task, path) {
    const reply = await fetch(location.origin + path, { cache: "no-store", signal: task.signal });
    if (reply.status !== 200) {
        throw Object.assign(new Error(await reply.text()), { name: "Status", status: reply.status });
    }
    await eachPiece(reply.body, (bytes) => task.take(bytes));
    const length = reply.headers.get("Content-Length");
    return { wanted: length === null ? task.done : Number(length) };
}

async function work({ id, file, path }) {
    const stop = new AbortController();
    const task = new Task(id, stop.signal);
    stops.set(id, stop);
    try {
        const { wanted } = await (file ? readFile(task, file) : readPath(task, path));
        if (task.done !== wanted) {
            throw Object.assign(new Error(`${task.done} of ${wanted} bytes`), { name: "Short" });
        }
        postMessage({ id, sha256: task.digest.hex(), done: task.done });
    } catch (fault) {
        postMessage({ id, fault: fault.name, message: fault.message, status: fault.status });
    } finally {
        stops.delete(id);
    }
}

addEventListener("message", ({ data }) => (data.stop ? stops.get(data.id)?.abort() : work(data)));
