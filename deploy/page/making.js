// The making of an object in progress. Its creation can be doubled, by the browser or by a lost reply: each carries a mark until
// its metadata are put, so that a double is found and deleted.

import { keepDeposit } from "./journal.js";
import { ask, get, insist, pathOf, Refused } from "./server.js";

const MARK = "dcterms:provenance";
const LOOKED_BACK = 5, LOOKED_BACK_AFTER_FAULTS = 30;

const textOf = (document) => new TextEncoder().encode(JSON.stringify(document));

// The object of a deposit, which the journal keeps from here on.
export async function makeObject(record, signal) {
    const isSecond = record.wasTried;
    record.wasTried = true;
    await keepDeposit(record);
    const fields = { "Content-Disposition": "attachment; metadata=true", "Content-Type": "application/json", "In-Progress": "true" };
    let tries = 0;
    const reply = await insist(() => {
        tries += 1;
        return ask("POST", "/service", { content: textOf({ [MARK]: record.mark }), fields, signal });
    }, { signal });
    record.object = reply.location;
    await keepDeposit(record);
    await deleteDoubles(record, isSecond || tries > 1 ? LOOKED_BACK_AFTER_FAULTS : LOOKED_BACK, signal);
}

// Deletes the objects before this one that have its mark, are in progress and empty. What can't be found out is left.
async function deleteDoubles(record, most, signal) {
    const own = Number(pathOf(record.object).split("/").at(-1));
    for (let number = own - 1; number > 0 && number >= own - most; number -= 1) {
        try {
            await deleteDouble(`/objects/${number}`, record.mark, signal);
        } catch (fault) {
            if (!(fault instanceof Refused)) {
                throw fault;
            }
        }
    }
}

async function deleteDouble(path, mark, signal) {
    const metadata = await get(`${path}/metadata`, { signal, wanted: [200, 404] });
    if (metadata.status !== 200 || JSON.parse(metadata.text)[MARK] !== mark) {
        return;
    }
    const reply = await get(path, { signal });
    const document = JSON.parse(reply.text);
    if (document.links.length === 0 && document.state.every((it) => it["@id"].endsWith("/inProgress"))) {
        await insist(() => ask("DELETE", path, { fields: { "If-Match": reply.tag }, signal, wanted: [204, 404] }), { signal });
    }
}

// What a metadata document says, name by name.
export function namesIn(document) {
    const kept = Object.entries(document).filter(([name]) => /^dc(terms)?:/.test(name));
    return Object.fromEntries(kept.map(([name, value]) => [name, [value].flat()]));
}

export const areEqual = (one, other) => JSON.stringify(sorted(one)) === JSON.stringify(sorted(other));

const sorted = (names) => Object.entries(names).filter(([, texts]) => texts.length > 0).sort(([a], [b]) => (a < b ? -1 : 1));

// The metadata of a deposit, in place of its mark.
export async function putMetadata(record, signal) {
    if (record.isDescribed) {
        return;
    }
    const path = `${pathOf(record.object)}/metadata`;
    const tagOfMark = async () => {
        const reply = await get(path, { signal });
        return namesIn(JSON.parse(reply.text))[MARK]?.includes(record.mark) ? reply.tag : null;
    };
    for (let tag = await tagOfMark(); tag; tag = await tagOfMark()) {
        const fields = { "Content-Type": "application/json", "If-Match": tag };
        await insist(() => ask("PUT", path, { content: textOf(record.metadata), fields, signal, wanted: [204, 412] }), { signal });
    }
    record.isDescribed = true;
    await keepDeposit(record);
}
