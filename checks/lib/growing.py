"""Stores of so many objects and of so many open uploads, in files, and the processor time of a server over them for each kind of
request.

A store is filled by Python's sqlite3, with the rows of a first object and a first upload of the server's own under other numbers.
"""

import contextlib
import hashlib
import http.client
import json
import random
import sqlite3
import statistics
import time

from depositing import ADDRESS, JSON, as_file, as_segment, as_upload, exchange
from expectations import expect
from served import Server

OBJECTS = (100, 1000, 5000)
WARM_UP, ROUNDS = 5, 60
# So many seconds may one measurement take.
MOST_SECONDS = 20
FILE = as_file("a.txt", "text/plain")
CONTENT, TITLES = b"x" * 100, json.dumps({"dc:title": ["T", "U"]})
OPENING = as_upload(200, 2, 100, f"SHA-512={hashlib.sha512(2 * CONTENT).hexdigest()}")
# What object n is, and what upload n is, told of the first one. Each object is two changes.
NUMBERED = "WITH RECURSIVE numbers(n) AS (SELECT 2 UNION ALL SELECT n + 1 FROM numbers WHERE n < ?1) INSERT INTO "
OBJECT_ROWS = (
    "objects SELECT n, ingested, 2 * n, 2 * n, 2 * n - 1, changed FROM numbers, objects WHERE object = 1",
    "metadata SELECT n, name, place, value FROM numbers, metadata WHERE object = 1 ORDER BY n, place",
    "files SELECT n, n, name, media, size, 2 * n - 1, deposited, behalf, by_reference, sha256 FROM numbers, files "
    "WHERE file = 1",
    "blocks SELECT kind, n, part, place, bytes FROM numbers, blocks WHERE kind = 0 AND owner = 1")
UPLOAD_ROWS = (
    "uploads SELECT n, size, count, segment_size, sha256, last FROM numbers, uploads WHERE upload = 1",
    "segments SELECT n, number, size FROM numbers, segments WHERE upload = 1",
    "blocks SELECT kind, n, part, place, bytes FROM numbers, blocks WHERE kind = 1 AND owner = 1")
# In tables of version 2 besides, for a file and for an upload.
SHA512_ROWS = [f"sha512s SELECT kind, n, value FROM numbers, sha512s WHERE kind = {kind} AND owner = 1" for kind in (0, 1)]
# What file n of an object is, told of its first one, number ?1; and the numbers behind that one.
FILE_ROWS = (
    "files SELECT n, object, name, media, size, tag, deposited, behalf, by_reference, sha256 FROM numbers, files WHERE file = ?1",
    "blocks SELECT kind, n, part, place, bytes FROM numbers, blocks WHERE kind = 0 AND owner = ?1",
    "sha512s SELECT kind, n, value FROM numbers, sha512s WHERE kind = 0 AND owner = ?1")
BEHIND = "WITH RECURSIVE numbers(n) AS (SELECT ?1 + 1 UNION ALL SELECT n + 1 FROM numbers WHERE n + 1 < ?1 + ?2) INSERT INTO "


def fill_object(store, count):
    """Gives the object whose file was deposited last, its only one, so many, two at least. No server has the store open."""
    with contextlib.closing(sqlite3.connect(store)) as database:
        (last,) = database.execute("SELECT next_file - 1 FROM state").fetchone()
        for rows in FILE_ROWS:
            database.execute(BEHIND + rows, (last, count))
        database.execute("UPDATE state SET next_file = ?1 + ?2", (last, count))
        database.commit()


class Client:
    """A client of a server, over one connection. A reply of another status ends the measurement."""

    def __init__(self, server):
        self.base, self.process = server.base, server.process
        self.connection = http.client.HTTPConnection(ADDRESS, server.port, timeout=60)
        self.connection.connect()

    def ask(self, status, method, path, body=None, fields=None):
        """One request, which has to come to this status. Returns the path of what it made."""
        reply, _ = exchange(self.connection, method, path, body, fields)
        if reply.status != status:
            raise RuntimeError(f"{method} {path}: {reply.status}")
        return (reply.getheader("Location") or "").removeprefix(self.base)

    def used(self):
        """The processor time that the server has used, in seconds."""
        with open(f"/proc/{self.process.pid}/schedstat", encoding="ascii") as told:
            return int(told.read().split()[0]) / 1e9

    def deposit(self, count):
        """So many objects."""
        for _ in range(count):
            path = self.ask(201, "POST", "/service", CONTENT, FILE)
            self.ask(204, "PUT", f"{path}/metadata", TITLES, JSON)

    def upload(self, count):
        """So many uploads, with the first of two segments."""
        for _ in range(count):
            self.segment(204, self.ask(201, "POST", "/staging", None, OPENING), 1)

    def segment(self, status, path, number, content=CONTENT):
        self.ask(status, "POST", path, content, as_segment(number))


class Asked:
    """A store that is asked for each kind of request in turn, behind which it has as many objects and uploads as before."""

    def __init__(self, server, objects):
        self.client, self.objects = Client(server), objects
        self.chosen = self.made = self.opened = ""

    def deposit(self):
        self.made = self.client.ask(201, "POST", "/service", CONTENT, FILE)
        self.chosen = str(random.randint(1, self.objects))

    def open(self):
        self.opened = self.client.ask(201, "POST", "/staging", None, OPENING)

    def get(self, path):
        self.client.ask(200, "GET", path.replace("N", self.chosen))


KINDS = {
    "GET the service document": lambda it: it.get("/service"),
    "POST a file to the service": lambda it: it.deposit(),
    "GET an object": lambda it: it.get("/objects/N"),
    "GET a file": lambda it: it.get("/objects/N/files/N"),
    "GET the list of a bag": lambda it: it.get("/objects/N/bag"),
    "PUT metadata": lambda it: it.client.ask(204, "PUT", f"/objects/{it.chosen}/metadata", TITLES, JSON),
    "POST a file to an object": lambda it: it.client.ask(200, "POST", it.made, CONTENT, FILE),
    "DELETE an object": lambda it: it.client.ask(204, "DELETE", it.made),
    "POST an upload": lambda it: it.open(),
    "POST a segment": lambda it: it.client.segment(204, it.opened, 1),
    "GET an upload": lambda it: it.get(it.opened),
    "DELETE an upload": lambda it: it.client.ask(204, "DELETE", it.opened),
}


def serve(folder, work):
    """Has a client do this work on a new store. Returns the file of the store, with its server ended."""
    with Server(1, folder) as server:
        client = Client(server)
        work(client)
        client.connection.close()
        expect("the end of the server", server.ends(), (0, ""))
    return server.store


def serve_archive(folder, objects, uploads):
    """Makes the objects and uploads by requests. Returns the file of the store."""
    def work(client):
        client.deposit(objects)
        client.upload(uploads)
    return serve(folder, work)


@contextlib.contextmanager
def transaction(store):
    """A transaction of sqlite3 on the file of a store."""
    database = sqlite3.connect(store, isolation_level=None)
    database.execute("BEGIN")
    yield database
    database.execute("COMMIT")
    database.close()


def fill(store, objects, uploads):
    """Adds rows of further objects and uploads, up to these numbers, to those of a first one."""
    with transaction(store) as database:
        has_sha512s = database.execute("SELECT count(*) FROM sqlite_master WHERE name = 'sha512s'").fetchone() == (1,)
        for rows, sha512, count in zip((OBJECT_ROWS, UPLOAD_ROWS), SHA512_ROWS, (objects, uploads)):
            for text in (*rows, *[sha512] * has_sha512s) if count > 1 else ():
                database.execute(NUMBERED + text, (count,))
        database.execute("UPDATE state SET next_object = ?1 + 1, next_file = ?1 + 1, next_upload = ?2 + 1, "
                         "next_change = 2 * ?1 + 1", (objects, uploads))


def served_archives(stack, room, sizes):
    """For each of these numbers of objects and uploads a store that is served until the stack ends."""
    for objects, uploads in sizes:
        folder = room()
        fill(serve_archive(folder, 1, min(uploads, 1)), objects, uploads)
        yield Asked(stack.enter_context(Server(1, folder)), objects)


def measured(stores, kinds):
    """The median of each kind at each store, in microseconds: kinds are asked of all stores in turn."""
    times = {kind: [[] for _ in stores] for kind in kinds}
    order, ends = list(range(len(stores))), time.monotonic() + MOST_SECONDS
    for turn in range(WARM_UP + ROUNDS):
        for kind, ask in kinds.items():
            random.shuffle(order)
            before = [it.client.used() for it in stores]
            for place in order:
                ask(stores[place])
            if turn >= WARM_UP:
                for place, it in enumerate(stores):
                    times[kind][place].append(it.client.used() - before[place])
        if turn > 2 * WARM_UP and time.monotonic() > ends:
            break
    return {kind: [1e6 * statistics.median(it) for it in times[kind]] for kind in kinds}


def medians_by_objects(stack, room):
    """Each kind of request, with its medians in stores of more and more objects."""
    stores = list(served_archives(stack, room, [(it, 0) for it in OBJECTS]))
    found = measured(stores, KINDS)
    for it in stores:
        it.client.connection.close()
    return list(found.items())
