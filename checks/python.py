#!/usr/bin/env python3
"""A repository's client by Python's http.client: one connection that is kept alive, contents in chunks, Expect, and
what was answered compared byte for byte, against `swordd serve` on a new store.

    checks/python.py

The status is 0 where all came as it should. It needs nothing else, and takes a second.
"""

import sys
sys.path.insert(0, f"{sys.path[0]}/lib")

import hashlib
import http.client
import json
import os
import socket
import urllib.parse

from depositing import as_file, as_segment, as_upload, by_reference, digest, exchange, first_file
from expectations import expect, status_of
from served import Server

PLAIN = "text/plain; charset=utf-8"


class Client:
    def __init__(self, server):
        self.server, self.number = server, 0
        self.connection = http.client.HTTPConnection("127.0.0.1", server.port, timeout=60)
        self.connection.connect()
        self.socket = self.connection.sock

    def ask(self, status, method, path, body=None, headers=None, chunked=False):
        """One request over the connection that is kept: its status has to be this one."""
        self.number += 1
        reply, content = exchange(self.connection, method, path, body, headers, encode_chunked=chunked)
        expect(f"request {self.number}, {method} {path}", reply.status, status)
        if reply.status not in (204,) and method != "HEAD":
            expect(f"length of request {self.number}", int(reply.headers["Content-Length"]), len(content))
        return reply, content


def deposit_and_read(client):
    content = os.urandom(100_000)
    reply, document = client.ask(201, "POST", "/service", content, {**as_file("random", "a/b"), "Digest": digest(content)})
    status = json.loads(document)
    expect("Location", reply.headers["Location"], client.server.base + "/objects/1")
    expect("state", status["state"][0]["@id"], "http://purl.org/net/sword/3.0/state/ingested")
    file = client.server.path_of(first_file(document))
    reply, read = client.ask(200, "GET", file)
    expect("file", read, content)
    expect("media type", reply.headers["Content-Type"], "a/b")
    reply, _ = client.ask(200, "HEAD", file)
    expect("length of a HEAD", reply.headers["Content-Length"], "100000")


def deposit_in_chunks(client):
    """A content whose length isn't told, as a generator of pieces."""
    pieces = [os.urandom(size) for size in (1, 70_000, 0, 65_536, 3)]
    content = b"".join(pieces)
    headers = {**as_file("chunks"), "Digest": digest(content), "Transfer-Encoding": "chunked"}
    _, document = client.ask(201, "POST", "/service", (piece for piece in pieces if piece), headers, chunked=True)
    _, read = client.ask(200, "GET", client.server.path_of(first_file(document)))
    expect("file of chunks", read, content)


def deposit_in_progress(client):
    headers = {"Content-Disposition": "attachment; metadata=true", "Content-Type": "application/json",
               "In-Progress": "true"}
    reply, document = client.ask(201, "POST", "/service", json.dumps({"dc:title": "Grüße"}), headers)
    path = client.server.path_of(reply.headers["Location"])
    expect("links", json.loads(document)["links"], [])
    client.ask(200, "POST", path, json.dumps({"dc:title": ["2", "3"], "x": 1}), headers)
    _, document = client.ask(200, "GET", path + "/metadata")
    expect("titles", json.loads(document)["dc:title"], ["Grüße", "2", "3"])
    reply, document = client.ask(200, "POST", path)
    expect("state", json.loads(document)["state"][0]["@id"], "http://purl.org/net/sword/3.0/state/ingested")
    tag = reply.headers["ETag"]
    client.ask(412, "DELETE", path, headers={"If-Match": '"1"'})
    client.ask(204, "DELETE", path, headers={"If-Match": tag})
    client.ask(404, "GET", path)


def upload_in_segments(client):
    content = os.urandom(5 * 1024 * 1024 + 1)
    size = 1024 * 1024
    reply, _ = client.ask(201, "POST", "/staging", None, as_upload(len(content), 6, size, f'"{digest(content)}"'))
    upload = reply.headers["Location"]
    path = client.server.path_of(upload)
    for place in (6, 2, 1, 4, 3, 5):
        segment = content[(place - 1) * size:place * size]
        for status, sent in ((204, segment), (204, segment), (400, segment[:-1] + bytes([segment[-1] ^ 1])), (400, segment + b"x")):
            client.ask(status, "POST", path, sent, {**as_segment(place), "Digest": digest(sent)})
    _, document = client.ask(200, "GET", path)
    expect("segments", json.loads(document)["segments"]["expecting"], [])
    files = {upload: "attachment; filename*=UTF-8''gro%C3%9F"}
    reply, document = client.ask(201, "POST", "/service", *by_reference(files))
    object_path = client.server.path_of(reply.headers["Location"])
    _, read = client.ask(200, "GET", client.server.path_of(first_file(document)))
    expect("file of segments", read, content)
    client.ask(404, "GET", path)
    return object_path


def read_bag(client, object_path):
    """Each file of the bag by its manifests."""
    _, paths = client.ask(200, "GET", object_path + "/bag")
    parts = {}
    for path in paths.decode().splitlines():
        quoted = "/".join(urllib.parse.quote(step) for step in path.split("/"))
        reply, parts[path] = client.ask(200, "GET", f"{object_path}/bag/{quoted}")
        if path.endswith(".txt") and not path.startswith("data/"):
            expect("media type of " + path, reply.headers["Content-Type"], PLAIN)
    for algorithm in ("sha256", "sha512"):
        for name in (f"manifest-{algorithm}.txt", f"tagmanifest-{algorithm}.txt"):
            for line in parts[name].decode().splitlines():
                told, path = line.split("  ")
                expect(f"{algorithm} of {path}", hashlib.new(algorithm, parts[path.replace("%25", "%")]).hexdigest(), told)
    payload = [content for path, content in parts.items() if path.startswith("data/")]
    oxum = f"Payload-Oxum: {sum(map(len, payload))}.{len(payload)}"
    expect("payload", oxum in parts["bag-info.txt"].decode(), True)


def wait_to_go_on(client):
    """A client that sends its content once it is told to go on."""
    with socket.create_connection(("127.0.0.1", client.server.port)) as wire:
        wire.sendall(b"POST /service HTTP/1.1\r\nHost: a\r\nContent-Disposition: attachment; filename=late\r\n"
                     b"Expect: 100-continue\r\nConnection: close\r\nContent-Length: 3\r\n\r\n")
        expect("Continue", wire.recv(1000), b"HTTP/1.1 100 Continue\r\n\r\n")
        wire.sendall(b"abc")
        reply = b""
        while part := wire.recv(65536):
            reply += part
        expect("reply behind it", reply.startswith(b"HTTP/1.1 201 Created\r\n"), True)
        expect("its end", b"\r\nConnection: close\r\n" in reply, True)


def break_off(client):
    """A client that leaves in the midst of a content; nothing of it is kept."""
    with socket.create_connection(("127.0.0.1", client.server.port)) as wire:
        wire.sendall(b"POST /service HTTP/1.1\r\nHost: a\r\nContent-Disposition: attachment; filename=left\r\n"
                     b"Content-Length: 1000\r\n\r\nabc")


def main():
    with Server(4) as server:
        client = Client(server)
        deposit_and_read(client)
        deposit_in_chunks(client)
        deposit_in_progress(client)
        read_bag(client, upload_in_segments(client))
        last = client.number
        expect("connections", client.connection.sock is client.socket, True)
        client.connection.close()
        wait_to_go_on(client)
        break_off(client)
        client = Client(server)
        client.ask(200, "GET", "/objects/5")
        client.ask(404, "GET", "/objects/6")
        client.connection.close()
        expect("end of the server", server.ends(), (0, ""))
    return status_of(f"python: {last + client.number} requests")


if __name__ == "__main__":
    sys.exit(main())
