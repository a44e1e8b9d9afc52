// Contents in pieces, through buffers that are used again: those that are left behind would fill the memory with the file, since
// browsers collect them late.

const PIECE = 256 << 10;
const spare = [];
// The readers that wait: Chromium collects a stream of a file that nothing else holds, and then its reader waits forever.
const waiting = new Set();

// A reader that fills the buffers that it is given, where the browser has one.
function readerOf(stream) {
    try {
        return stream.getReader({ mode: "byob" });
    } catch {
        return stream.getReader();
    }
}

// Hands on each piece of a stream. Its bytes are there until `take` returns.
export async function eachPiece(stream, take) {
    const reader = readerOf(stream);
    let buffer = spare.pop() ?? new ArrayBuffer(PIECE);
    waiting.add(reader);
    try {
        for (;;) {
            const { done, value } = await reader.read(new Uint8Array(buffer));
            buffer = value?.buffer ?? buffer;
            if (done) {
                return;
            }
            take(value);
        }
    } finally {
        waiting.delete(reader);
        reader.cancel().catch(() => {});
        if (buffer.byteLength === PIECE) {
            spare.push(buffer);
        }
    }
}

// Reads a blob into the beginning of these bytes. Returns how many came.
export async function readInto(bytes, blob) {
    let at = 0;
    await eachPiece(blob.stream(), (piece) => {
        bytes.set(piece, at);
        at += piece.length;
    });
    return at;
}
