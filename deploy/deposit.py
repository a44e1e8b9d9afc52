#!/usr/bin/env python3
"""Deposits a folder with a SWORD 3.0 server as one object: a file each, large ones in segments.

    deposit.py [OPTIONS] URL FOLDER

URL is where the server is reached, as https://deposit.example.org. Each request tells the SHA-256 of what it sends, and in
the end the manifest of the object's bag has to name each file with its SHA-256; then the object is ingested and its URL is
printed. Where a deposit is broken off, the same command goes on with it: what the server has is asked of the server, and
the URLs of the object and of the uploads are kept in a journal beside the folder (FOLDER.deposit, or --journal).

A file in a subfolder is named by its path with `__` in place of `/` (--separator). A file longer than a segment (--segment,
8 MiB by default) comes in segments, and those of a folder of many files are deposited a hundred at a time. The password of --user is read from the variable DEPOSIT_PASSWORD, or asked for.

The status is 0 where all is deposited, 1 where the server refused something or has another content, 2 for wrong words or
files that can't be deposited, and 3 where the server couldn't be reached: run the command again.

It is one file over Python 3.9's standard library.
"""

import argparse
import base64
import getpass
import hashlib
import http.client
import json
import os
import pathlib
import sys
import time
from typing import NamedTuple
from urllib.parse import quote, urlsplit

BLOCK = 1 << 20
# What adds to an object names no tag of it, also where the server asks for one.
ANY_TAG = {"If-Match": "*"}
LONGEST_NAME = 255
# A folder of more files is deposited by reference, so many of them at once, or so many bytes: each deposit is answered by a
# document that names all files of the object.
MANY, MOST_IN_BATCH = 100, 64 << 20
# What a server or a proxy answers where the same request may fare better later.
PASSING = {429, 500, 502, 503, 504}
IS_REACHED = (OSError, http.client.HTTPException)


class Refused(Exception):
    """What the server refused, or has otherwise than it was sent."""


class Unreachable(Exception):
    """The server wasn't reached, or didn't answer, as often as was tried."""


class Unfit(Exception):
    """A folder or a file that can't be deposited."""


class File(NamedTuple):
    """A file of the folder: its path, the name that it has as a deposit, its size and its SHA-256."""

    path: pathlib.Path
    name: str
    size: int
    sha256: str


class Progress:
    """A bar on standard error, where that is a terminal: the bytes that are with the server, of all."""

    def __init__(self, total):
        self.total, self.done, self.began, self.is_shown = total, 0, time.monotonic(), sys.stderr.isatty()

    def add(self, size, name):
        self.done += size
        if not self.is_shown:
            return
        part = self.done / self.total if self.total else 1
        speed = self.done / max(time.monotonic() - self.began, 0.001) / 1e6
        bar = "#" * int(30 * part)
        line = f"[{bar:<30}] {100 * part:3.0f}% {self.done / 1e6:.1f} of {self.total / 1e6:.1f} MB, {speed:.1f} MB/s {name}"
        print(f"\r{line[:110]:<110}", end="", file=sys.stderr, flush=True)

    def end(self):
        if self.is_shown:
            print(file=sys.stderr)


class Journal:
    """The URLs that no one else knows: of the object, and of the upload of each name. It is written anew at each change."""

    def __init__(self, path):
        self.path, self.kept = path, {"object": None, "uploads": {}}
        if path.exists():
            self.kept = json.loads(path.read_text(encoding="utf-8"))

    def keep(self, **changes):
        self.kept.update(changes)
        new = self.path.with_name(self.path.name + ".new")
        with new.open("w", encoding="utf-8") as file:
            json.dump(self.kept, file, indent=1)
            file.flush()
            os.fsync(file.fileno())
        new.replace(self.path)


class Server:
    """Requests over one connection that is kept and opened again where it broke."""

    def __init__(self, url, user, tries):
        parts = urlsplit(url)
        if parts.scheme not in ("http", "https") or not parts.hostname:
            raise Unfit(f"{url} is no URL of a server")
        kind = http.client.HTTPSConnection if parts.scheme == "https" else http.client.HTTPConnection
        self.connection = kind(parts.hostname, parts.port, timeout=600)
        self.front, self.tries, self.fields = parts.path.rstrip("/"), tries, {}
        if user:
            password = os.environ.get("DEPOSIT_PASSWORD") or getpass.getpass(f"password of {user}: ")
            self.fields["Authorization"] = "Basic " + base64.b64encode(f"{user}:{password}".encode()).decode()

    def ask(self, method, url, content=b"", fields=None, wanted=(200, 201, 204)):
        """One request, which is tried once. Returns its status, its fields and its content; one that isn't wanted is refused."""
        path = self.front + urlsplit(url).path
        try:
            self.connection.request(method, path, content, {**self.fields, **(fields or {})})
            reply = self.connection.getresponse()
            document = reply.read()
        except IS_REACHED as fault:
            self.connection.close()
            raise Unreachable(f"{method} {path}: {fault or type(fault).__name__}") from None
        if reply.status in PASSING:
            self.connection.close()
            raise Unreachable(f"{method} {path}: {reply.status} {reply.reason}")
        if reply.status not in wanted:
            raise Refused(f"{method} {path}: {reply.status} {told(document)}")
        return reply.status, reply.headers, document

    def insist(self, task):
        """Does a task that may be done again from its beginning, as often as is needed."""
        for number in range(self.tries):
            try:
                return task()
            except Unreachable as fault:
                if number + 1 == self.tries:
                    raise
                last = str(fault)
                print(f"{last}: once more", file=sys.stderr)
                time.sleep(min(0.2 * 2**number, 30))
        raise Unreachable("no request was tried")

    def get(self, url, wanted=(200,)):
        """A GET, as often as is needed. Returns its status and its content."""
        status, _, document = self.insist(lambda: self.ask("GET", url, wanted=wanted))
        return status, document


def told(document):
    """What an error document says."""
    try:
        return f"{json.loads(document)['@type']}: {json.loads(document)['error']}"
    except (ValueError, KeyError, TypeError):
        return document[:200].decode(errors="replace")


def lines_of(manifest):
    """The digests and the paths of a bag's manifest. Its lines end by LF alone: a name may have what Python takes for another end
    of a line, as U+2028."""
    for line in manifest.decode().split("\n")[:-1]:
        digest, path = line.split("  ", 1)
        yield digest, path.replace("%25", "%")


def sha256_of(path):
    digest = hashlib.sha256()
    with path.open("rb") as file:
        while block := file.read(BLOCK):
            digest.update(block)
    return digest.hexdigest()


def is_fit(name):
    """Whether the server takes the name: UTF-8 without control characters and backslashes, of at most 255 bytes."""
    try:
        return len(name.encode()) <= LONGEST_NAME and not any(ord(sign) < 32 or sign in "\x7f\\" for sign in name)
    except UnicodeEncodeError:
        return False


def files_of(folder, separator):
    """The files of a folder and of those below it, in the order of their names."""
    found = {}
    for path in sorted(it for it in folder.rglob("*") if it.is_file()):
        name = separator.join(path.relative_to(folder).parts)
        if not is_fit(name):
            raise Unfit(f"{name!r} is no name of a deposited file")
        if name in found:
            raise Unfit(f"{path} and {found[name].path} have the same name {name}: use another --separator")
        found[name] = File(path, name, path.stat().st_size, sha256_of(path))
    if not found:
        raise Unfit(f"{folder} has no files")
    return list(found.values())


def disposition(name):
    """The field that names a deposited file."""
    return f"attachment; filename*=UTF-8''{quote(name, safe='')}"


class Deposit:
    """The deposit of a folder's files as one object."""

    def __init__(self, server, journal, files, given):
        self.server, self.journal, self.files, self.given = server, journal, files, given
        self.progress, self.segment, self.most_segments = Progress(sum(it.size for it in files)), given.segment, 1

    def carry_out(self):
        """Returns the URL of the object."""
        service = json.loads(self.server.get("/service")[1])
        self.segment, self.most_segments = min(self.given.segment, service["maxUploadSize"]), service["maxSegments"]
        url = self.journal.kept["object"] or self.create()
        there = self.manifest(url)
        batch = []
        for file in self.files:
            if (file.name, file.sha256) in there:
                self.progress.add(file.size, file.name)
            elif file.size > self.segment or file.size and len(self.files) > MANY:
                batch.append((self.send_in_segments(file), file))
            else:
                self.send_whole(url, file)
            if len(batch) == MANY or sum(it.size for _, it in batch) >= MOST_IN_BATCH:
                self.deposit_batch(url, batch)
                batch = []
        self.deposit_batch(url, batch)
        self.progress.end()
        self.check(url)
        self.journal.keep(uploads={})
        fields = {"In-Progress": "false", **ANY_TAG}
        self.server.insist(lambda: self.server.ask("POST", url, fields=fields))
        return url

    def create(self):
        """An object in progress, of the metadata that was given. Where its reply is lost, an empty object stays behind."""
        texts = {}
        for name, text in self.given.metadata:
            texts.setdefault(f"dc:{name}", []).append(text)
        document = json.dumps(texts).encode()
        fields = {"Content-Disposition": "attachment; metadata=true", "Content-Type": "application/json", "In-Progress": "true"}
        _, headers, _ = self.server.insist(lambda: self.server.ask("POST", "/service", document, fields))
        self.journal.keep(object=headers["Location"])
        return headers["Location"]

    def manifest(self, url):
        """The names and SHA-256 of the files that the object has, by the manifest of its bag."""
        there = set()
        for sha256, path in lines_of(self.server.get(f"{url}/bag/manifest-sha256.txt")[1]):
            there.add((path.split("/", 2)[2], sha256))
        return there

    def send_whole(self, url, file):
        """A file in one request. One whose reply was lost may be there: the manifest tells."""
        content = file.path.read_bytes()
        fields = {"Content-Disposition": disposition(file.name), "Content-Type": "application/octet-stream",
                  "Digest": f"SHA-256={file.sha256}", "In-Progress": "true", **ANY_TAG}
        tries = iter(range(self.server.tries))

        def send():
            if next(tries) == 0 or (file.name, file.sha256) not in self.manifest(url):
                self.server.ask("POST", url, content, fields)
        self.server.insist(send)
        self.progress.add(file.size, file.name)

    def send_in_segments(self, file):
        """A file in the segments that its upload still expects. An upload that is gone is opened anew. Returns the upload."""
        upload = self.journal.kept["uploads"].get(file.name)
        if not upload or upload["sha256"] != file.sha256 or self.server.get(upload["url"], (200, 404, 410))[0] != 200:
            upload = self.open_upload(file)
        self.server.insist(lambda: self.send_missing(upload, file))
        return upload

    def deposit_batch(self, url, batch):
        """The deposit of whole uploads, of all or of none of them."""
        if batch:
            self.server.insist(lambda: self.refer(url, batch))
            done = {file.name for _, file in batch}
            self.journal.keep(uploads={name: it for name, it in self.journal.kept["uploads"].items() if name not in done})

    def open_upload(self, file):
        size = max(self.segment, -(-file.size // self.most_segments))
        count = -(-file.size // size)
        fields = {"Content-Disposition": f"segment-init; size={file.size}; segment_count={count}; segment_size={size}; "
                                         f"digest=SHA-256={file.sha256}"}
        _, headers, _ = self.server.insist(lambda: self.server.ask("POST", "/staging", fields=fields))
        upload = {"url": headers["Location"], "sha256": file.sha256, "segment_size": size, "count": count}
        self.journal.keep(uploads={**self.journal.kept["uploads"], file.name: upload})
        return upload

    def send_missing(self, upload, file):
        """The segments that the upload still expects. One whose reply was lost is expected no more, or may be sent again."""
        _, _, document = self.server.ask("GET", upload["url"])
        size, before = upload["segment_size"], self.progress.done
        expecting = json.loads(document)["segments"]["expecting"]
        self.progress.add(file.size - sum(length_of(it, upload, file) for it in expecting), file.name)
        try:
            with file.path.open("rb") as content:
                for number in expecting:
                    content.seek((number - 1) * size)
                    segment = content.read(size)
                    fields = {"Content-Disposition": f"segment; segment_number={number}",
                              "Digest": f"SHA-256={hashlib.sha256(segment).hexdigest()}"}
                    self.server.ask("POST", upload["url"], segment, fields)
                    self.progress.add(len(segment), file.name)
        except Unreachable:
            self.progress.done = before
            raise

    def refer(self, url, batch):
        """One request for all of them. Where its reply was lost, the uploads are gone, and the manifest has the files."""
        status, _, _ = self.server.ask("GET", batch[0][0]["url"], wanted=(200, 404))
        if status == 404:
            there = self.manifest(url)
            if any((file.name, file.sha256) not in there for _, file in batch):
                raise Refused(f"{batch[0][1].path}: its upload is gone, and the object doesn't have it")
            return
        entries = [{"@id": upload["url"], "contentDisposition": disposition(file.name), "contentType": "application/octet-stream",
                    "contentLength": file.size, "digest": f"SHA-256={file.sha256}"} for upload, file in batch]
        fields = {"Content-Disposition": "attachment; by-reference=true", "Content-Type": "application/json",
                  "In-Progress": "true", **ANY_TAG}
        self.server.ask("POST", url, json.dumps({"byReferenceFiles": entries}).encode(), fields)

    def check(self, url):
        """Each file stands in the manifest of the object's bag by its SHA-256."""
        there = self.manifest(url)
        missing = [it.name for it in self.files if (it.name, it.sha256) not in there]
        if missing:
            raise Refused(f"the object {url} doesn't have {', '.join(missing[:5])} as they are here")


def length_of(number, upload, file):
    """The bytes of a segment."""
    size = upload["segment_size"]
    return size if number < upload["count"] else file.size - (number - 1) * size


def pair(text):
    name, sign, value = text.partition("=")
    if not sign:
        raise argparse.ArgumentTypeError(f"{text} is not NAME=TEXT")
    return name, value


def read_words():
    options = argparse.ArgumentParser(description=__doc__, formatter_class=argparse.RawTextHelpFormatter)
    options.add_argument("url", metavar="URL")
    options.add_argument("folder", metavar="FOLDER", type=pathlib.Path)
    options.add_argument("--metadata", metavar="NAME=TEXT", type=pair, action="append", default=[],
                         help="a Dublin Core element, as title=Observations; may stand several times")
    options.add_argument("--user", metavar="NAME", default=os.environ.get("DEPOSIT_USER"), help="by default that of DEPOSIT_USER")
    options.add_argument("--segment", metavar="BYTES", type=int, default=8 << 20)
    options.add_argument("--separator", metavar="TEXT", default="__")
    options.add_argument("--journal", metavar="FILE", type=pathlib.Path)
    options.add_argument("--tries", metavar="N", type=int, default=8, help="how often a request is tried, 8 by default")
    return options.parse_args()


def main():
    given = read_words()
    folder = given.folder.resolve()
    try:
        if not folder.is_dir():
            raise Unfit(f"{folder} is no folder")
        journal = Journal(given.journal or folder.with_name(folder.name + ".deposit"))
        files = files_of(folder, given.separator)
        print(Deposit(Server(given.url, given.user, given.tries), journal, files, given).carry_out())
        return 0
    except Refused as refused:
        print(f"deposit.py: {refused}", file=sys.stderr)
        return 1
    except Unfit as unfit:
        print(f"deposit.py: {unfit}", file=sys.stderr)
        return 2
    except Unreachable as fault:
        print(f"deposit.py: {fault}; run it again to go on", file=sys.stderr)
        return 3


if __name__ == "__main__":
    sys.exit(main())
