// Names of deposited files: how they come of paths, how requests spell them, and how they are shown.

const SEPARATOR = "__";
const LONGEST_NAME = 255;

// The name of a file that was chosen: its path below the chosen folder, with `__` in place of `/`, as deposit.py has it.
export const nameOf = (path) => path.split("/").join(SEPARATOR);

const bytesOf = (text) => new TextEncoder().encode(text);

// Whether the server takes the name: 1 to 255 bytes of UTF-8 without control characters and backslashes, and no `.` or `..`.
export function isFit(name) {
    const isText = !/[\u0000-\u001f\u007f/\\]/.test(name) && !/\p{Surrogate}/u.test(name);
    return isText && name !== "" && name !== "." && name !== ".." && bytesOf(name).length <= LONGEST_NAME;
}

const escape = (sign) => `%${sign.charCodeAt(0).toString(16).toUpperCase()}`;

// What encodeURIComponent leaves and RFC 8187 doesn't: '()*.
export const spelled = (text) => encodeURIComponent(text).replace(/['()*]/g, escape);

// The field that names a deposited file.
export const disposition = (name) => `attachment; filename*=UTF-8''${spelled(name)}`;

// Pieces of a name as it is shown: signs that aren't seen, or that turn the text round, stand as their number.
export function shownPieces(name) {
    const hidden = /[\p{C}\p{Default_Ignorable_Code_Point}]|(?! )[\p{Z}]|^ | $| (?= )/gu;
    const pieces = [];
    let from = 0;
    for (const found of name.matchAll(hidden)) {
        pieces.push({ text: name.slice(from, found.index), isSign: false }, { text: signOf(found[0]), isSign: true });
        from = found.index + found[0].length;
    }
    pieces.push({ text: name.slice(from), isSign: false });
    return pieces.filter((piece) => piece.text !== "");
}

const signOf = (sign) => `⟨U+${sign.codePointAt(0).toString(16).toUpperCase().padStart(4, "0")}⟩`;

// The lines of a manifest or a list: they end at LF alone, since a name may have other ends of lines.
export const linesOf = (text) => text.split("\n").slice(0, -1);

// The digests and paths of a manifest, in whose paths `%` stands as `%25`.
export function readManifest(text) {
    return linesOf(text).map((line) => {
        const gap = line.indexOf("  ");
        return { digest: line.slice(0, gap), path: line.slice(gap + 2).replaceAll("%25", "%") };
    });
}

// The number and the name of a payload file, of its path `data/NUMBER/NAME`; null for another path.
export function payloadOf(path) {
    const found = /^data\/(\d+)\/([^]+)$/.exec(path);
    return found && { number: found[1], name: found[2] };
}

// A path of a bag as a URL has it.
export const urlPathOf = (path) => path.split("/").map(spelled).join("/");
