// Requests to the server, at the origin of this page. What is refused is told in the server's words.

// What a server or a proxy answers where the same request may fare better later.
const PASSING = new Set([429, 500, 502, 503, 504]);
const FIRST_PAUSE = 500, LONGEST_PAUSE = 30_000;
const MOST_FAULTS = 5;

// A refusal: the name, the text and the log line of the server's error document, where there is one.
export class Refused extends Error {
    constructor(status, document) {
        super(document?.error ?? "");
        Object.assign(this, { status, name: document?.["@type"] ?? "", log: document?.log ?? "" });
    }
}

// No whole answer, or one of a server that isn't well: the request was done wholly or not at all.
export class Unreachable extends Error {
    constructor(message, status = 0) {
        super(message);
        this.status = status;
    }
}

// A file that isn't any more what it was when it was chosen.
export class Changed extends Error {}

// The person stopped it.
export class Paused extends Error {}

// Tells `waits` with the seconds until a request is tried again, and `goes` once one came through.
export const line = new EventTarget();

export const pathOf = (url) => new URL(url).pathname;

export function refusalOf({ status, text }) {
    if (PASSING.has(status)) {
        return new Unreachable("", status);
    }
    try {
        return new Refused(status, JSON.parse(text));
    } catch {
        return new Refused(status, null);
    }
}

// One request. Returns its status, tag, location and text; a status that isn't wanted is thrown.
export async function ask(method, path, { content, fields = {}, wanted = [200, 201, 204], signal, onSent } = {}) {
    const send = onSent ? sendByXhr : sendByFetch;
    const reply = await send(method, location.origin + path, { content, fields, signal, onSent });
    if (!wanted.includes(reply.status)) {
        throw refusalOf(reply);
    }
    line.dispatchEvent(new Event("goes"));
    return reply;
}

async function sendByFetch(method, url, { content, fields, signal }) {
    try {
        const reply = await fetch(url, { method, body: content, headers: fields, cache: "no-store", signal });
        const text = await reply.text();
        const { headers } = reply;
        return { status: reply.status, text, tag: headers.get("ETag"), location: headers.get("Location"),
            length: headers.get("Content-Length") };
    } catch (fault) {
        signal?.throwIfAborted();
        throw new Unreachable(fault.message);
    }
}

// The same, which tells how many bytes of the content were sent: fetch can't.
function sendByXhr(method, url, { content, fields, signal, onSent }) {
    return new Promise((resolve, reject) => {
        const request = new XMLHttpRequest();
        const stop = () => {
            request.abort();
            reject(signal.reason);
        };
        signal?.throwIfAborted();
        signal?.addEventListener("abort", stop, { once: true });
        request.open(method, url);
        for (const [name, value] of Object.entries(fields)) {
            request.setRequestHeader(name, value);
        }
        request.upload.onprogress = (event) => onSent(event.loaded);
        request.onerror = () => reject(new Unreachable(""));
        request.ontimeout = request.onerror;
        request.onload = () => resolve({ status: request.status, text: request.responseText, tag: request.getResponseHeader("ETag"),
            location: request.getResponseHeader("Location") });
        request.onloadend = () => signal?.removeEventListener("abort", stop);
        request.timeout = 600_000;
        request.send(content);
    });
}

// Does a task that may be done again from its beginning, as often as is needed, with growing pauses.
export async function insist(task, { signal, tries = Infinity } = {}) {
    for (let number = 1; ; number += 1) {
        try {
            return await task(number);
        } catch (fault) {
            const isLast = number >= tries || (fault.status === 500 && number >= MOST_FAULTS);
            if (!(fault instanceof Unreachable) || isLast) {
                throw fault;
            }
            await pauseBefore(number, signal);
        }
    }
}

const wakers = new Set();

// Ends all pauses: the next tries begin now.
export function tryNow() {
    wakers.forEach((wake) => wake());
}

// Waits before the try that follows this one.
export function pauseBefore(number, signal) {
    const length = Math.min(FIRST_PAUSE * 2 ** (number - 1), LONGEST_PAUSE);
    line.dispatchEvent(new CustomEvent("waits", { detail: length / 1000 }));
    return new Promise((resolve, reject) => {
        const wake = () => {
            clearTimeout(timer);
            wakers.delete(wake);
            signal?.removeEventListener("abort", stop);
            resolve();
        };
        const stop = () => {
            wake();
            reject(signal.reason);
        };
        const timer = setTimeout(wake, length);
        wakers.add(wake);
        signal?.addEventListener("abort", stop, { once: true });
        if (signal?.aborted) {
            stop();
        }
    });
}

addEventListener("online", tryNow);

// A GET, as often as is needed.
export const get = (path, { signal, tries, wanted = [200] } = {}) =>
    insist(() => ask("GET", path, { signal, wanted }), { signal, tries });

let service;

// The service document, which is asked for once.
export async function serviceOf(how) {
    service ??= JSON.parse((await get("/service", how)).text);
    return service;
}
