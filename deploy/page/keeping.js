// Uploads that wait are kept alive: a segment that was received is sent once more, within the time after which they time out.

import { eachOf } from "./lanes.js";
import { fieldOf } from "./segments.js";
import { ask, pathOf } from "./server.js";

const LONGEST_BETWEEN = 600_000;

export class Keeper {
    // `uploads` has the uploads of a deposit by the names of their files, each with the moment when a segment was taken last.
    constructor(deposit, mostIdle) {
        const between = Math.min((mostIdle * 1000) / 4, LONGEST_BETWEEN);
        Object.assign(this, { deposit, between, timer: setInterval(() => this.keepAll(), between) });
    }

    end() {
        clearInterval(this.timer);
    }

    // What goes wrong here is seen once the deposit goes on.
    async keepAll() {
        const { items, uploads } = this.deposit;
        const isOld = (item) => Date.now() - (uploads.get(item.name).touched ?? 0) >= this.between / 2;
        const waiting = items.filter((item) => item.file && item.state !== "there" && uploads.has(item.name) && isOld(item));
        await eachOf(waiting, 1, (item) => keep(item, uploads.get(item.name))).catch(() => {});
    }
}

async function keep(item, upload) {
    const number = upload.received ?? upload.count;
    await ask("POST", pathOf(upload.url), { content: item.part(number, upload), fields: { "Content-Disposition": fieldOf(number) } });
    Object.assign(upload, { touched: Date.now(), received: number });
}
