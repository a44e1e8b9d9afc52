// Files and folders that a person drops or chooses, each with its path below the chosen folder and the name that it gets.

import { make } from "./elements.js";
import { nameOf } from "./names.js";
import { text } from "./texts.js";

function chosenFile(path, file, entry = null) {
    return { path, name: nameOf(path), size: file.size, modified: file.lastModified, file, entry };
}

// The path of a file of an input, below the chosen folder. Chromium writes a backslash of a name as `/` there, and not in the name.
function below({ name, webkitRelativePath: path }) {
    return path === "" ? name : (path.slice(0, path.length - name.length) + name).split("/").slice(1).join("/");
}

export const fromInput = (input) => [...input.files].map((file) => chosenFile(below(file), file));

const promised = (call) => new Promise(call);

// The files of an entry that was dropped. A folder gives at most a hundred of its entries at a time.
async function filesOf(entry, path, isTop) {
    if (entry.isFile) {
        const file = await promised((resolve, reject) => entry.file(resolve, reject));
        return [chosenFile(path + entry.name, file, entry)];
    }
    const reader = entry.createReader();
    const found = [];
    const read = () => promised((resolve, reject) => reader.readEntries(resolve, reject));
    for (let entries = await read(); entries.length > 0; entries = await read()) {
        for (const inner of entries) {
            found.push(...await filesOf(inner, isTop ? "" : `${path}${entry.name}/`, false));
        }
    }
    return found;
}

// The entries have to be asked for at once: the event's data are gone afterwards.
export async function fromDrop(data) {
    const entries = [...data.items].map((item) => item.webkitGetAsEntry()).filter(Boolean);
    const found = [];
    for (const entry of entries) {
        found.push(...await filesOf(entry, "", true));
    }
    return found;
}

// A place to drop files at, with the two ways to choose them. It tells the files that came.
export function choices(onChosen) {
    const take = (input) => {
        onChosen(fromInput(input));
        input.value = "";
    };
    const files = make("input", { type: "file", multiple: true, on: { change: () => take(files) } });
    const folder = make("input", { type: "file", webkitdirectory: true, on: { change: () => take(folder) } });
    const place = make("div", { className: "drop" }, make("p", { textContent: text.drop }), make("div", { className: "buttons" },
        make("label", { className: "file" }, text.chooseFiles, files), make("label", { className: "file" }, text.chooseFolder, folder)));
    const mark = (isOver) => (event) => {
        event.preventDefault();
        place.classList.toggle("over", isOver);
    };
    place.addEventListener("dragenter", mark(true));
    place.addEventListener("dragover", mark(true));
    place.addEventListener("dragleave", mark(false));
    place.addEventListener("drop", async (event) => {
        mark(false)(event);
        onChosen(await fromDrop(event.dataTransfer));
    });
    return place;
}
