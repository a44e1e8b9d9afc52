// Tasks side by side: so many at a time.

// At most `width` tasks at a time; further ones wait for their turn.
export class Lanes {
    constructor(width) {
        Object.assign(this, { free: width, waiting: [] });
    }

    async run(task) {
        if (this.free > 0) {
            this.free -= 1;
        } else {
            await new Promise((resolve) => this.waiting.push(resolve));
        }
        try {
            return await task();
        } finally {
            const next = this.waiting.shift();
            if (next) {
                next();
            } else {
                this.free += 1;
            }
        }
    }
}

// Does the task for each of the list, so many at a time. The first that fails ends all; those under way end before it is told.
export async function eachOf(list, width, task) {
    const faults = [];
    let next = 0;
    const lane = async () => {
        while (next < list.length && faults.length === 0) {
            next += 1;
            await task(list[next - 1]).catch((fault) => faults.push(fault));
        }
    };
    await Promise.all(Array.from({ length: width }, lane));
    if (faults.length > 0) {
        throw faults[0];
    }
}
