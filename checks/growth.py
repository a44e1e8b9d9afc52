#!/usr/bin/env python3
"""How the time of each kind of request grows with the archive, with the uploads that are open, and with an upload's segments.

    checks/growth.py

`swordd serve` serves five stores in files at once: of 100, 1,000 and 5,000 objects, each with a file and metadata, and of
100 objects with 100 and with 1,000 open uploads. Each kind of request is asked of all of them in turn, again and again, so
that what else the machine does meets them alike. What is measured is the server's processor time, since the time of the
clock is mostly that of the disk, and grows where others use it. A line tells the median of each in microseconds, and how
many times that of the smallest store the largest took. Where that is above 1.5, the kind is measured once more; the status
is 1 where it is above 1.5 again.

Two more stores have an upload with 10 and with 9,870 segments, and are asked for what comes to such an upload, of which a
segment that is new makes it larger by one, up to 10,000; and for a tick that moves the clock. (A GET of the upload tells each
segment, and a DELETE or a deposit moves each, so these are linear.)

The stores are filled by Python's sqlite3, with the rows of a first object, a first upload and a first segment of the server's
own under other numbers; before that it compares such rows with those of a server that was asked for each. It needs nothing
else.
"""

import sys
sys.path.insert(0, f"{sys.path[0]}/lib")

import random
import sqlite3
import tempfile
import time
from contextlib import ExitStack

from depositing import as_upload
from expectations import expect, status_of
from growing import (
    CONTENT, KINDS, NUMBERED, OBJECTS, ROUNDS, WARM_UP, Client, fill, measured, serve, serve_archive, served_archives, transaction)
from served import Server

UPLOADS = (0, 100, 1000)
MOST_TIMES = 1.5
# So many segments an upload has before it is measured, twice at most.
SEGMENTS = (10, 10_000 - 2 * (WARM_UP + ROUNDS))
# Behind a start each request has up to four blocks hashed that were uploaded before: so many come to the end of that.
BEHIND_START = 6_000
LARGE_OPENING = as_upload(1_000_000, 10_000, 100)
SEGMENT_ROWS = (
    "segments SELECT upload, n, size FROM numbers, segments WHERE number = 1",
    "blocks SELECT kind, owner, n, place, bytes FROM numbers, blocks WHERE kind = 1 AND part = 1")
MOMENTS = {"clock", "changed", "deposited", "last"}


class Segmented:
    """A store whose only upload has so many segments, the first ones, all with the same bytes."""

    def __init__(self, server, segments):
        self.client, self.segments, self.second = Client(server), segments, 0

    def segment(self, status, number, content=CONTENT):
        self.client.segment(status, "/staging/1", number, content)

    def add(self):
        self.segments += 1
        self.segment(204, self.segments)

    def tick(self):
        """A request that finds nothing, in a second in which none came yet."""
        time.sleep(max(0, self.second + 1 - time.time()))
        self.client.ask(404, "GET", "/nothing")
        self.second = int(time.time())


SEGMENT_KINDS = {
    "POST a segment that is new": lambda it: it.add(),
    "POST a segment again": lambda it: it.segment(204, 1),
    "POST the last segment again": lambda it: it.segment(204, it.segments),
    "POST other bytes": lambda it: it.segment(400, 1, CONTENT[1:] + b"y"),
    "POST a segment of no number": lambda it: it.segment(400, 0),
}
TICK = {"a tick that moves the clock": lambda it: it.tick()}


def serve_segments(folder, segments):
    """Makes an upload with so many segments by requests. Returns the file of the store."""
    def work(client):
        path = client.ask(201, "POST", "/staging", None, LARGE_OPENING)
        for number in range(1, segments + 1):
            client.segment(204, path, number)
    return serve(folder, work)


def fill_segments(store, segments):
    """Adds rows of further segments, up to this number, to those of a first one."""
    with transaction(store) as database:
        for text in SEGMENT_ROWS:
            database.execute(NUMBERED + text, (segments,))


def rows_of(store):
    """The rows of all tables of a store, without moments."""
    database = sqlite3.connect(store)
    names = [row[0] for row in database.execute("SELECT name FROM sqlite_master WHERE type = 'table'")]
    columns = {name: [row[1] for row in database.execute(f"PRAGMA table_info({name})")] for name in names}
    rows = {name: sorted(map(repr, database.execute(f"SELECT {', '.join(set(columns[name]) - MOMENTS)} FROM {name}")))
            for name in names}
    database.close()
    return rows


def are_filled_as_served(room):
    """Compares the rows of stores that were filled with those of one whose server was asked for each."""
    served, filled = serve_archive(room(), 3, 2), serve_archive(room(), 1, 1)
    fill(filled, 3, 2)
    expect("the rows of a store that was filled", rows_of(filled), rows_of(served))
    served, filled = serve_segments(room(), 3), serve_segments(room(), 1)
    fill_segments(filled, 3)
    expect("the rows of an upload that was filled", rows_of(filled), rows_of(served))


def rest(stores):
    """Asks each until nothing is left that it would hash ahead of a request."""
    for it in stores:
        for _ in range(BEHIND_START):
            it.client.ask(200, "GET", "/service")


def compare(stores, kinds, growths):
    """Measures, once more where it has to, and tells what grows. `growths` has a name for what a store has more of, and the
    places of the stores that have the least and the most of it."""
    def grown(medians):
        return [medians[most] / medians[least] for _, least, most in growths]
    found, again = measured(stores, kinds), {}
    if any(times > MOST_TIMES for medians in found.values() for times in grown(medians)):
        again = measured(stores, kinds)
    for kind, medians in found.items():
        least = [min(pair) for pair in zip(grown(medians), grown(again.get(kind, medians)))]
        print(f"{kind:<28}" + "".join(f"{it:8.0f}" for it in medians) + "".join(f"{it:8.2f}" for it in least))
        for (what, _, _), times in zip(growths, least):
            expect(f"{kind}: growth with the {what}, {times:.2f}", times > MOST_TIMES, False)


def compare_archives(stack, room):
    """Stores of more and more objects, and of more and more open uploads."""
    sizes = [(it, 0) for it in OBJECTS] + [(OBJECTS[0], it) for it in UPLOADS[1:]]
    stores = list(served_archives(stack, room, sizes))
    rest(stores)
    print(f"{'microseconds at':<28}" + "".join(f"{n:>8,}" for n in OBJECTS) + " objects," + "".join(f"{n:>8,}" for n in UPLOADS[1:])
          + " uploads; growth with each")
    compare(stores, KINDS, [("objects", 0, 2), ("uploads", 0, 4)])
    for it in stores:
        it.client.connection.close()


def compare_uploads(stack, room):
    """Stores of an upload of few segments, and of many."""
    stores = []
    for segments in SEGMENTS:
        folder = room()
        fill_segments(serve_segments(folder, 1), segments)
        stores.append(Segmented(stack.enter_context(Server(1, folder)), segments))
    rest(stores)
    print(f"{'microseconds at':<28}" + "".join(f"{n:>8,}" for n in SEGMENTS) + " segments; growth")
    for kinds in (SEGMENT_KINDS, TICK):
        compare(stores, kinds, [("segments", 0, 1)])
    for it in stores:
        it.client.connection.close()


def main():
    random.seed(1)
    with ExitStack() as stack:
        def room():
            return stack.enter_context(tempfile.TemporaryDirectory())
        are_filled_as_served(room)
        compare_archives(stack, room)
        compare_uploads(stack, room)
    return status_of(f"growth: {len(KINDS) + len(SEGMENT_KINDS) + len(TICK)} kinds of requests")


if __name__ == "__main__":
    sys.exit(main())
