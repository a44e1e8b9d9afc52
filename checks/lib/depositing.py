"""Requests of a depositor: their fields and documents, and a client that keeps its connection."""

import hashlib
import http.client
import json

from expectations import expect

ADDRESS = "127.0.0.1"
JSON = {"Content-Type": "application/json"}


def digest(content):
    """What a Digest field says of a content."""
    return f"SHA-256={hashlib.sha256(content).hexdigest()},SHA-512={hashlib.sha512(content).hexdigest()}"


def as_file(name, media=None):
    """The fields of a content that becomes a file of this name."""
    return {"Content-Disposition": f"attachment; filename={name}", **({"Content-Type": media} if media else {})}


def as_upload(size, count, segment_size, promised=None):
    """The fields that open an upload of so many segments, whose digest may be promised."""
    sizes = f"segment-init; size={size}; segment_count={count}; segment_size={segment_size}"
    return {"Content-Disposition": f"{sizes}; digest={promised}" if promised else sizes}


def as_segment(number):
    """The fields of a segment."""
    return {"Content-Disposition": f"segment; segment_number={number}"}


def by_reference(dispositions):
    """The document and the fields of a deposit of uploads, by the URL of each its disposition."""
    entries = [{"@id": url, "contentDisposition": it} for url, it in dispositions.items()]
    return json.dumps({"byReferenceFiles": entries}), {"Content-Disposition": "attachment; by-reference=true", **JSON}


def first_file(document):
    """The URL of the first file that a status document lists."""
    return json.loads(document)["links"][0]["@id"]


def exchange(connection, method, path, body=None, fields=None, **how):
    """One request over a connection of http.client. Returns the reply, and its content."""
    connection.request(method, path, body, fields or {}, **how)
    reply = connection.getresponse()
    return reply, reply.read()


class Client:
    """A client of a server, over one connection, which it keeps. A reply may take so many seconds."""

    def __init__(self, server, patience=60, source=None):
        self.server = server
        self.connection = http.client.HTTPConnection(ADDRESS, server.port, timeout=patience, source_address=source and (source, 0))

    def ask(self, status, method, path, body=None, fields=None):
        """One request, which has to come to this status. Returns the reply, and its content."""
        reply, content = exchange(self.connection, method, path, body, fields)
        expect(f"{method} {path}", reply.status, status)
        return reply, content

    def open(self, size, count, segment_size):
        """Opens an upload of so many segments. Returns its URL."""
        return self.ask(201, "POST", "/staging", None, as_upload(size, count, segment_size))[0].headers["Location"]

    def segment(self, status, url, number, content):
        self.ask(status, "POST", self.server.path_of(url), content, as_segment(number))

    def close(self):
        self.connection.close()

    def __enter__(self):
        return self

    def __exit__(self, *_):
        self.close()
