#!/usr/bin/env python3
"""An upload of 10,000 segments, the most that there may be, over `swordd serve` on a new store.

    checks/segments.py

Each segment is one byte, sent in an order of chance, every tenth one twice, and every hundredth one besides with another
byte, which is refused. The upload's document has to list what was received and what is expected, and the file that is
deposited by reference, in one object with a second one, has to be the segments in the order of their numbers. Then the
bag's manifest names it, and an audit finds it whole. It needs nothing else.
"""

import sys
sys.path.insert(0, f"{sys.path[0]}/lib")

import hashlib
import json
import os
import random
import subprocess

from commands import start
from depositing import Client, by_reference
from expectations import expect, status_of
from served import Server

SEGMENTS = 10_000


class Counting(Client):
    """A client that counts its requests."""

    asked = 0

    def ask(self, *what):
        self.asked += 1
        return super().ask(*what)


def listed(client, url):
    """What the upload's document tells as expected and as received."""
    _, document = client.ask(200, "GET", client.server.path_of(url))
    segments = json.loads(document)["segments"]
    return segments["expecting"], segments["received"]


def send(client, url, content):
    """All segments but the last one, and then that."""
    places = random.sample(range(1, SEGMENTS), SEGMENTS - 1)
    for turn, place in enumerate([*places, SEGMENTS]):
        if turn == SEGMENTS - 1:
            expect("the upload without its last segment", listed(client, url), ([SEGMENTS], list(range(1, SEGMENTS))))
        own = content[place - 1:place]
        client.segment(204, url, place, own)
        if turn % 10 == 0:
            client.segment(204, url, place, own)
        if turn % 100 == 0:
            client.segment(400, url, place, bytes([own[0] ^ 1]))
    for place in (0, SEGMENTS + 1):
        client.segment(400, url, place, content[:1])
    expect("the upload with all its segments", listed(client, url), ([], list(range(1, SEGMENTS + 1))))


def deposit(client, urls):
    """The uploads as the files of an object, each named by its place. Returns the object's path."""
    files = {url: f"attachment; filename={place}" for place, url in enumerate(urls)}
    reply, _ = client.ask(201, "POST", "/service", *by_reference(files))
    return client.server.path_of(reply.headers["Location"])


def audited(store):
    with start("audit", store, stdout=subprocess.PIPE, text=True) as program:
        return program.communicate()[0], program.returncode


def main():
    content = os.urandom(SEGMENTS)
    with Server(1) as server:
        client = Counting(server, 600)
        urls = [client.open(SEGMENTS, SEGMENTS, 1), client.open(1, 1, 1)]
        client.segment(204, urls[1], 1, b"y")
        send(client, urls[0], content)
        path = deposit(client, urls)
        for place, wanted in enumerate((content, b"y")):
            client.ask(404, "GET", server.path_of(urls[place]))
            _, read = client.ask(200, "GET", f"{path}/files/{place + 1}")
            expect(f"file {place + 1}", read, wanted)
        _, manifest = client.ask(200, "GET", f"{path}/bag/manifest-sha512.txt")
        lines = [f"{hashlib.sha512(it).hexdigest()}  data/{place + 1}/{place}" for place, it in enumerate((content, b"y"))]
        expect("the manifest", manifest.decode().splitlines(), lines)
        client.close()
        expect("the end of the server", server.ends(), (0, ""))
        expect("the audit", audited(server.store), ("files 2 damaged 0\n", 0))
    return status_of(f"segments: {SEGMENTS} of one upload, {client.asked} requests")


if __name__ == "__main__":
    sys.exit(main())
