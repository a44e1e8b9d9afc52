// The page's side of the worker: the SHA-256 of a file, or of what stands at a path.

import { readInto } from "./reading.js";
import { Changed, insist, refusalOf, Unreachable } from "./server.js";

// So much is read and hashed as a whole: a segment, but for those of files that would have too many.
export const PART = 4 << 20;
// How often a worker is begun that doesn't come.
const WORKERS = 8;
const waiting = new Map();
let worker, last = 0;

function begin() {
    worker = new Worker(`${location.origin}/page/worker.js`, { type: "module" });
    worker.addEventListener("message", ({ data }) => waiting.get(data.id)?.(data));
    // It didn't come, or broke down: its tasks are told so, and the next one begins another.
    worker.addEventListener("error", (event) => {
        event.target.terminate();
        worker = undefined;
        [...waiting.values()].forEach((tell) => tell({ fault: "Worker", message: event.message ?? "" }));
    });
}

function ask(task, onDone, signal) {
    if (!worker) {
        begin();
    }
    const id = (last += 1);
    return new Promise((resolve, reject) => {
        const stop = () => {
            worker?.postMessage({ id, stop: true });
            waiting.delete(id);
            reject(signal.reason);
        };
        signal?.addEventListener("abort", stop, { once: true });
        waiting.set(id, (told) => {
            onDone?.(told.done ?? 0);
            if (told.sha256 || told.fault) {
                waiting.delete(id);
                signal?.removeEventListener("abort", stop);
                resolve(told);
            }
        });
        signal?.throwIfAborted();
        worker.postMessage({ id, ...task });
    });
}

// The SHA-256 of a whole file. One that can't be read as it was chosen has changed.
export function digestOfFile(file, onDone, signal) {
    return insist(async () => {
        const told = await ask({ file }, onDone, signal);
        if (told.fault) {
            throw told.fault === "Worker" ? new Unreachable(told.message) : new Changed(told.message);
        }
        return told.sha256;
    }, { signal, tries: WORKERS });
}

// The SHA-256 and the size of what the server gives at a path.
export async function digestOfPath(path, onDone, signal) {
    const told = await ask({ path }, onDone, signal);
    if (told.fault === "Status") {
        throw refusalOf({ status: told.status, text: told.message });
    }
    if (told.fault) {
        throw new Unreachable(told.message);
    }
    return told;
}

// What was read into before, and is free.
const spare = [];

function take(length) {
    const bytes = spare.pop();
    return bytes?.length >= length ? bytes : new Uint8Array(Math.max(length, PART));
}

// The SHA-256 of a part of a file, as it stands on the disk now.
export async function digestOfPart(part) {
    const bytes = take(part.size);
    try {
        const length = await readInto(bytes, part).catch((fault) => {
            throw new Changed(fault.message);
        });
        if (length !== part.size) {
            throw new Changed("");
        }
        const digest = new Uint8Array(await crypto.subtle.digest("SHA-256", bytes.subarray(0, length)));
        return Array.from(digest, (byte) => byte.toString(16).padStart(2, "0")).join("");
    } finally {
        spare.push(bytes);
    }
}
