// The check of an object: its bag's manifests against what is read back, file by file.

import { digestOfPath } from "./hashing.js";
import { linesOf, payloadOf, readManifest, urlPathOf } from "./names.js";
import { get, insist, pathOf, Refused, Unreachable } from "./server.js";

const TRIES = 3;
// What no manifest of this digest names: they name the others.
const TAG_MANIFESTS = new Set(["tagmanifest-sha256.txt", "tagmanifest-sha512.txt"]);

// What has to be read: each path that a manifest or the list names, with the digests that stand for it.
async function plan(path, signal) {
    const read = async (name) => (await get(`${path}/${name}`, { signal, tries: TRIES })).text;
    const manifest = readManifest(await read("bag/manifest-sha256.txt"));
    const entries = new Map();
    for (const { digest, path: file } of [...readManifest(await read("bag/tagmanifest-sha256.txt")), ...manifest]) {
        entries.set(file, [...(entries.get(file) ?? []), digest]);
    }
    for (const file of linesOf(await read("bag"))) {
        if (!entries.has(file) && !TAG_MANIFESTS.has(file)) {
            entries.set(file, []);
        }
    }
    return { entries, numbers: new Set(manifest.map(({ path: file }) => payloadOf(file)?.number)) };
}

// Checks all, and tells each file's mark as it comes: `same`, `differs` or `unread`. Returns how many have which.
export async function checkObject(path, { signal, onPlan, onBytes, onMark }) {
    const before = await get(path, { signal, tries: TRIES });
    const { entries, numbers } = await plan(path, signal);
    const lacking = JSON.parse(before.text).links.map((link) => pathOf(link["@id"]).split("/").at(-1)).filter((it) => !numbers.has(it));
    const own = [...entries.keys()].filter((file) => !payloadOf(file)).length;
    const counts = { all: entries.size + lacking.length, own, same: 0, differs: 0, unread: 0, bytes: 0 };
    const tell = (file, mark, detail) => {
        counts[mark] += 1;
        onMark(file, mark, detail);
    };
    onPlan(counts);
    lacking.forEach((number) => tell(`data/${number}`, "differs", { isLacking: true }));
    for (const [file, digests] of entries) {
        const read = await readBack(`${path}/bag/${urlPathOf(file)}`, signal, (bytes) => onBytes(counts.bytes + bytes));
        counts.bytes += read?.done ?? 0;
        const isSame = read && digests.length > 0 && digests.every((digest) => digest === read.sha256);
        tell(file, isSame ? "same" : read ? "differs" : "unread", { size: read?.done, isUnlisted: digests.length === 0 });
    }
    const after = await get(path, { signal, tries: TRIES, wanted: [200, 404] });
    return { ...counts, isOld: after.tag !== before.tag };
}

// What stands there, or null where it couldn't be read.
async function readBack(path, signal, onBytes) {
    try {
        return await insist(() => digestOfPath(path, onBytes, signal), { signal, tries: TRIES });
    } catch (fault) {
        if (fault instanceof Refused || fault instanceof Unreachable) {
            return null;
        }
        throw fault;
    }
}
