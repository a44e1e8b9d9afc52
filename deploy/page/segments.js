// Segments of an upload: what requests say of them, and how they are sent.

import { digestOfPart } from "./hashing.js";
import { disposition } from "./names.js";
import { ask, insist, pathOf, Refused, Unreachable } from "./server.js";

// What was sent of a file is of no use any more.
export class Anew extends Error {}

export const lengthOf = (number, upload) => Math.min(upload.segment, upload.size - (number - 1) * upload.segment);

export const fieldOf = (number) => `segment; segment_number=${number}`;

// The entry of an upload in a deposit by reference. Its URL is the text that the server gave.
export const entryOf = (item, upload) => ({ "@id": upload.url, contentDisposition: disposition(item.name), contentType: item.type,
    contentLength: item.size, digest: `SHA-256=${item.sha256}` });

// Whether an upload is gone, or has other bytes than those that are sent now.
const isOver = (fault) => fault instanceof Refused && (fault.status === 404 || fault.status === 410 || fault.name === "UnexpectedSegment");

// Whether the upload has a segment whose reply was lost.
async function hasSegment(path, number, signal) {
    const reply = await ask("GET", path, { signal });
    return JSON.parse(reply.text).segments.received.includes(number);
}

// What the fault of a request for a segment is to its file.
async function faultOf(fault, item) {
    if (fault instanceof Unreachable) {
        await item.check();
    }
    return isOver(fault) ? new Anew() : fault;
}

// Sends a segment until it is with the server. Returns its SHA-256. The browser reads it from the disk as it goes: copies of what
// was sent would stay in memory.
export async function sendSegment(item, upload, number, { signal, onSent }) {
    const content = item.part(number, upload), path = pathOf(upload.url);
    const sha256 = await digestOfPart(content);
    const fields = { "Content-Disposition": fieldOf(number), "Digest": `SHA-256=${sha256}` };
    const send = () => insist(async (tries) => {
        try {
            if (tries === 1 || !(await hasSegment(path, number, signal))) {
                await ask("POST", path, { content, fields, signal, onSent });
            }
        } catch (fault) {
            throw await faultOf(fault, item);
        }
    }, { signal });
    await send().catch(async (fault) => {
        if (fault.name !== "DigestMismatch") {
            throw fault;
        }
        // It was spoiled on its way, or the file changed once its digest was taken.
        if ((await digestOfPart(content)) !== sha256) {
            throw new Anew();
        }
        await send();
    });
    return sha256;
}
