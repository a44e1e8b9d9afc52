#!/usr/bin/env python3
"""A repository's client by Python's http.client, each request over a connection of its own: a deposit, its metadata, a
large file in segments, its bag and its end, against `swordd serve` on a new store, with what came back compared.

    checks/client.py

The status is 0 where all came as it should. It needs nothing else, and takes a second.
"""

import sys
sys.path.insert(0, f"{sys.path[0]}/lib")

import base64
import hashlib
import os
import sqlite3

from depositing import JSON, as_file, as_segment, as_upload, by_reference
from expectations import expect, status_of
from served import Server

SEGMENT = 65_536
REQUESTS = 23


def has(what, content, text):
    """Whether a document has these letters."""
    expect(f"{text} in {what}", text in content.decode(), True)


def in_base64(digest):
    return base64.b64encode(digest.digest()).decode()


def deposit_a_file(server):
    """Returns the path of the object."""
    _, document = server.ask(200, "GET", "/service")
    has("the service document", document, '"@type":"ServiceDocument"')
    told = f"SHA-256={in_base64(hashlib.sha256(b'abc'))}, SHA-512={in_base64(hashlib.sha512(b'abc'))}"
    headers = as_file("a.txt", "text/plain")
    reply, _ = server.ask(201, "POST", "/service", b"abc", {**headers, "Digest": told})
    expect("the object's URL", reply.headers["Location"], server.base + "/objects/1")
    path = server.path_of(reply.headers["Location"])
    _, content = server.ask(200, "GET", path + "/files/1")
    expect("the file", content, b"abc")
    for other in ("SHA-256=" + in_base64(hashlib.sha256()), "SHA-512=" + in_base64(hashlib.sha512())):
        _, document = server.ask(412, "POST", "/service", b"abc", {**headers, "Digest": other})
        has("the refusal", document, '"@type":"DigestMismatch"')
    return path


def replace_metadata(server, path):
    reply, _ = server.ask(204, "PUT", path + "/metadata", '{"dc:title":"Observations"}', JSON)
    expect("the tag of the metadata", reply.headers["ETag"], '"2"')
    _, document = server.ask(200, "GET", path + "/metadata")
    has("the metadata", document, '"dc:title":"Observations"')
    server.ask(412, "DELETE", path + "/metadata", headers={"If-Match": '"1"'})


def deposit_in_segments(server, path, content):
    """A file in four segments, the last one first and twice, which becomes the object's second file."""
    opening = as_upload(len(content), 4, SEGMENT, f"SHA-512={hashlib.sha512(content).hexdigest()}")
    reply, _ = server.ask(201, "POST", "/staging", None, opening)
    upload = reply.headers["Location"]
    for number in (4, 4, 1, 3, 2):
        segment = content[(number - 1) * SEGMENT:number * SEGMENT]
        server.ask(204, "POST", server.path_of(upload), segment, as_segment(number))
    _, document = server.ask(200, "GET", server.path_of(upload))
    has("the upload", document, '"expecting":[],"received":[1,2,3,4]')
    server.ask(200, "POST", path, *by_reference({upload: "attachment; filename=large"}))
    server.ask(404, "GET", server.path_of(upload))
    _, came = server.ask(200, "GET", path + "/files/2")
    expect("the large file", came, content)


def read_bag(server, path, content):
    """The manifests of the bag, line by line, and a file of it."""
    payload = {"data/1/a.txt": b"abc", "data/2/large": content}
    for algorithm in ("sha256", "sha512"):
        _, manifest = server.ask(200, "GET", f"{path}/bag/manifest-{algorithm}.txt")
        lines = [f"{hashlib.new(algorithm, part).hexdigest()}  {name}\n" for name, part in payload.items()]
        expect(f"the manifest by {algorithm}", manifest.decode(), "".join(lines))
    _, came = server.ask(200, "GET", path + "/bag/data/2/large")
    expect("the file of the bag", came, content)


def look_at_store(server):
    """The store once the object is deleted and the server has ended."""
    database = sqlite3.connect(server.store)
    expect("the integrity check", database.execute("PRAGMA integrity_check").fetchall(), [("ok",)])
    for table in ("blocks", "sha512s"):
        expect(f"the rows of {table} that are left", database.execute(f"SELECT count(*) FROM {table}").fetchall(), [(0,)])
    database.close()


def main():
    content = os.urandom(200_000)
    with Server(REQUESTS) as server:
        path = deposit_a_file(server)
        replace_metadata(server, path)
        deposit_in_segments(server, path, content)
        read_bag(server, path, content)
        server.ask(204, "DELETE", path)
        server.ask(404, "GET", path)
        expect("the end of the server", server.ends(), (0, ""))
        look_at_store(server)
    return status_of(f"client: {REQUESTS} requests, each over a connection of its own")


if __name__ == "__main__":
    sys.exit(main())
