// What only this browser knows, in IndexedDB: the deposits that it began, their objects, and the uploads of their files.

const NAME = "swordd", VERSION = 1;
const LONGEST_SILENCE = 10_000;
let opening;

// The browser keeps nothing, or doesn't say that it does.
export class Unkept extends Error {}

const answer = (promise) => Promise.race([promise, new Promise((_, reject) => setTimeout(reject, LONGEST_SILENCE, new Error("")))])
    .catch((fault) => Promise.reject(new Unkept(fault.message)));

async function open() {
    opening ??= answer(opened());
    try {
        return await opening;
    } catch (fault) {
        opening = undefined;
        throw fault;
    }
}

function opened() {
    return new Promise((resolve, reject) => {
        const request = indexedDB.open(NAME, VERSION);
        request.onupgradeneeded = () => {
            request.result.createObjectStore("deposits", { keyPath: "id" });
            request.result.createObjectStore("uploads", { keyPath: ["deposit", "name"] });
        };
        request.onerror = () => reject(request.error);
        request.onsuccess = () => {
            request.result.onversionchange = () => request.result.close();
            request.result.onclose = () => (opening = undefined);
            resolve(request.result);
        };
    });
}

// Whether anything was kept. It is made by the first deposit alone: where a page is left while Chromium makes it, each later
// opening waits until the browser ends.
async function isMade() {
    return opening || !indexedDB.databases || (await answer(indexedDB.databases())).some((it) => it.name === NAME);
}

// One transaction, which is on the disk once it is over.
async function change(work) {
    const base = await open();
    return new Promise((resolve, reject) => {
        const transaction = base.transaction(["deposits", "uploads"], "readwrite", { durability: "strict" });
        transaction.oncomplete = () => resolve();
        transaction.onabort = () => reject(transaction.error);
        work(transaction.objectStore("deposits"), transaction.objectStore("uploads"));
    });
}

// What a store has of these.
async function read(store, ask) {
    if (!(await isMade())) {
        return [];
    }
    const base = await open();
    return new Promise((resolve, reject) => {
        const request = ask(base.transaction(store).objectStore(store));
        request.onsuccess = () => resolve(request.result);
        request.onerror = () => reject(request.error);
    });
}

const all = (deposit) => IDBKeyRange.bound([deposit], [deposit, []]);

export const deposits = () => read("deposits", (store) => store.getAll());

export const uploadsOf = (deposit) => read("uploads", (store) => store.getAll(all(deposit)));

export const keepDeposit = (record) => change((records) => records.put(record));

// The deposit is over: its uploads are forgotten, and its files.
export const keepDone = (record) =>
    change((records, uploads) => {
        records.put(record);
        uploads.delete(all(record.id));
    });

export const forget = (deposit) =>
    change((records, uploads) => {
        records.delete(deposit);
        uploads.delete(all(deposit));
    });

export const dropUploads = (deposit, names) =>
    change((_, uploads) => names.forEach((name) => uploads.delete([deposit, name])));

let waiting = [], flushing = null;

// An upload is kept before its first segment goes. Those that come while another is written are written together.
export async function keepUpload(upload) {
    const mine = waiting;
    mine.push(upload);
    const before = flushing;
    await before?.catch(() => {});
    if (waiting === mine) {
        waiting = [];
        flushing = change((_, uploads) => mine.forEach((it) => uploads.put(it)));
        mine.written = flushing;
    }
    await mine.written;
}
