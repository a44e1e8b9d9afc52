#!/usr/bin/env python3
"""Fetches the bag of an object from a running SWORD 3.0 server, and checks each file against both manifests.

    fetch_bag.py [OPTIONS] URL DIR
    fetch_bag.py [OPTIONS] --all FROM TO URL [DIR]

URL is that of the object, as https://deposit.example.org/objects/17, and DIR becomes its bag (RFC 8493). With --all URL is that of
the server, and each object whose number is in the range gets a folder of DIR, as DIR/17; without DIR nothing is kept, which is
an audit. Where it is broken off, the same command goes on with it: a file that is in DIR is read there, and fetched where it
isn't as the manifests have it. bagit.txt comes last, so what has one is whole. The password of --user is read from the variable
DEPOSIT_PASSWORD, or asked for.

The status is 0 where each file is as both manifests have it, 1 where the server refused something or has a file otherwise, 2 for
wrong words or a DIR that has other files, and 3 where the server couldn't be reached: run the command again.

It is one file over deposit.py, which lies beside it, and Python 3.9's standard library.
"""

import argparse
import hashlib
import os
import pathlib
import re
import sys
import time
from typing import NamedTuple
from urllib.parse import quote

from deposit import BLOCK, IS_REACHED, PASSING, Progress, Refused, Server, Unfit, Unreachable, lines_of, told

LAST = "bagit.txt"
# Where a file is written before it has its name, which may be as long as names can be.
PART = ".part"
ALGORITHMS = ("sha256", "sha512")


class Rate:
    """Waits so that no more bytes come a second than this; None bounds nothing."""

    def __init__(self, most):
        self.most, self.came, self.began = most, 0, time.monotonic()

    def add(self, size):
        self.came += size
        if self.most:
            time.sleep(max(0, self.began + self.came / self.most - time.monotonic()))


class Source(Server):
    """A server whose replies may be long: they come block by block."""

    def __init__(self, url, user, tries, rate):
        super().__init__(url, user, tries)
        self.rate = rate

    def stream(self, url, take):
        """A GET, which is tried once, and gives its content to `take`."""
        path = self.front + url
        try:
            self.connection.request("GET", path, headers=self.fields)
            reply = self.connection.getresponse()
            if reply.status != 200:
                self.refuse(path, reply)
            left = reply.length
            while block := reply.read(BLOCK):
                take(block)
                self.rate.add(len(block))
                left = None if left is None else left - len(block)
        except IS_REACHED as fault:
            self.connection.close()
            raise Unreachable(f"GET {path}: {fault or type(fault).__name__}") from None
        if left:
            self.connection.close()
            raise Unreachable(f"GET {path}: {left} bytes are missing")

    def refuse(self, path, reply):
        document = reply.read()
        if reply.status in PASSING:
            self.connection.close()
            raise Unreachable(f"GET {path}: {reply.status} {reply.reason}")
        raise Refused(f"GET {path}: {reply.status} {told(document)}")


class Entry(NamedTuple):
    """A file of a bag: its path, and its digests by the algorithms of the manifests."""

    path: str
    digests: dict


class Hashes:
    """The digests of what it is given, by both algorithms."""

    def __init__(self):
        self.all = {it: hashlib.new(it) for it in ALGORITHMS}

    def update(self, block):
        for it in self.all.values():
            it.update(block)

    def told(self):
        return {name: it.hexdigest() for name, it in self.all.items()}


def digests_of(place):
    """The digests of a file that is there, or None."""
    hashes = Hashes()
    if not place.is_file():
        return None
    with place.open("rb") as file:
        while block := file.read(BLOCK):
            hashes.update(block)
    return hashes.told()


def is_safe(path):
    """Whether a path stays in the folder of its bag."""
    return not any(it in ("", ".", "..") for it in path.split("/")) and "\0" not in path


def entries_of(manifests):
    """The files that manifests of both algorithms name, each by both."""
    found = {}
    for algorithm, manifest in manifests.items():
        for digest, path in lines_of(manifest):
            found.setdefault(path, {})[algorithm] = digest
    for path, digests in found.items():
        if len(digests) != len(ALGORITHMS) or not is_safe(path):
            raise Refused(f"{path!r} isn't a file of both manifests")
    return [Entry(path, digests) for path, digests in found.items()]


class Bag:
    """The bag of an object, in a folder, or in none, where it is read and not kept."""

    def __init__(self, source, path, folder):
        self.source, self.path, self.folder, self.progress = source, path, folder, None

    def url_of(self, path):
        return f"{self.path}/bag/{quote(path, safe='/')}"

    def text(self, path):
        return self.source.get(self.url_of(path))[1]

    def fetch(self):
        """Returns how many files it has. Where the object changed meanwhile, its tag files are others in the end."""
        before = self.tag_files()
        payload = entries_of({it: before[f"manifest-{it}.txt"] for it in ALGORITHMS})
        self.look_for_others(payload, before)
        self.progress = Progress(self.size_in(before["bag-info.txt"]))
        for entry in payload:
            self.fetch_file(entry)
        self.progress.end()
        if self.tag_files() != before:
            raise Refused(f"{self.path} was changed while it was fetched: run it again")
        for path in sorted(before, key=lambda it: it == LAST):
            self.keep(path, before[path])
        return len(payload)

    def tag_files(self):
        """The files beside the payload, each as both tag manifests have it."""
        listed = [it for it in self.source.get(f"{self.path}/bag")[1].decode().split("\n")[:-1] if not it.startswith("data/")]
        found = {it: self.text(it) for it in listed if is_safe(it)}
        missing = {LAST, "bag-info.txt", *(f"{tag}manifest-{it}.txt" for it in ALGORITHMS for tag in ("", "tag"))} - set(found)
        if missing:
            raise Refused(f"{self.path}/bag has no {', '.join(sorted(missing))}")
        for entry in entries_of({it: found[f"tagmanifest-{it}.txt"] for it in ALGORITHMS}):
            if entry.path not in found or any(hashlib.new(it, found[entry.path]).hexdigest() != entry.digests[it] for it in ALGORITHMS):
                raise Refused(f"{self.path}: {entry.path} isn't as the tag manifests have it")
        return found

    @staticmethod
    def size_in(info):
        found = re.search(rb"(?m)^Payload-Oxum: ([0-9]+)\.", info)
        return int(found[1]) if found else 0

    def look_for_others(self, payload, tags):
        """A folder that has what the bag hasn't is no bag of it."""
        if not self.folder:
            return
        named = {entry.path for entry in payload} | set(tags)
        for it in sorted(self.folder.rglob("*")) if self.folder.exists() else []:
            if it.is_file() and it.relative_to(self.folder).as_posix() not in {*named, PART}:
                raise Unfit(f"{it} is no file of the bag: name another folder, or delete it")
        (self.folder / "data").mkdir(parents=True, exist_ok=True)

    def fetch_file(self, entry):
        """A file that is there already, as it should be, isn't asked for."""
        place = self.folder / entry.path if self.folder else None
        if place and digests_of(place) == entry.digests:
            self.progress.add(place.stat().st_size, entry.path)
            return
        if self.source.insist(lambda: self.receive(entry)) != entry.digests:
            raise Refused(f"{self.path}: {entry.path} isn't as its manifests have it")
        self.name(entry.path)

    def receive(self, entry):
        """Writes the file where it has no name yet. Returns its digests."""
        hashes, before = Hashes(), self.progress.done
        with self.opened() as file:
            def take(block):
                hashes.update(block)
                write(file, block)
                self.progress.add(len(block), entry.path)
            try:
                self.source.stream(self.url_of(entry.path), take)
            except Unreachable:
                self.progress.done = before
                raise
        return hashes.told()

    def opened(self):
        return open(self.folder / PART if self.folder else os.devnull, "wb", buffering=0)

    def name(self, path):
        """What was written gets its name, once it is on the disk."""
        if not self.folder:
            return
        place, part = self.folder / path, self.folder / PART
        place.parent.mkdir(parents=True, exist_ok=True)
        with part.open("rb") as file:
            os.fsync(file.fileno())
        part.replace(place)

    def keep(self, path, content):
        with self.opened() as file:
            write(file, content)
        self.name(path)


def write(file, block):
    """Writes all of a block. A disk that takes no more is no fault of the server's."""
    try:
        while block:
            block = block[file.write(block):]
    except OSError as fault:
        raise Unfit(f"{file.name}: {fault.strerror}") from None


def fetch_range(source, first, last, folder):
    """The bags of all objects of a range. What is wrong of one is told, and the others are fetched all the same."""
    objects = files = wrong = 0
    for number in range(first, last + 1):
        path = f"/objects/{number}"
        if source.get(path, wanted=(200, 404))[0] == 404:
            continue
        objects += 1
        try:
            files += Bag(source, path, folder and folder / str(number)).fetch()
        except Refused as refused:
            wrong += 1
            print(f"fetch_bag.py: {refused}", file=sys.stderr)
    print(f"objects {objects} files {files} wrong {wrong}")
    return 1 if wrong else 0


def read_words():
    options = argparse.ArgumentParser(description=__doc__, formatter_class=argparse.RawTextHelpFormatter)
    options.add_argument("url", metavar="URL")
    options.add_argument("folder", metavar="DIR", type=pathlib.Path, nargs="?")
    options.add_argument("--all", metavar=("FROM", "TO"), type=int, nargs=2)
    options.add_argument("--rate", metavar="BYTES", type=float, help="the most bytes a second, by default as many as come")
    options.add_argument("--user", metavar="NAME", default=os.environ.get("DEPOSIT_USER"), help="by default that of DEPOSIT_USER")
    options.add_argument("--tries", metavar="N", type=int, default=8, help="how often a request is tried, 8 by default")
    return options.parse_args()


def carry_out(given):
    """Returns the status."""
    found = re.fullmatch(r"(https?://[^/]+.*?)(/objects/[0-9]+)?/?", given.url)
    if not found or bool(found[2]) == bool(given.all) or not (given.all or given.folder):
        raise Unfit(f"{given.url} is to be the URL of {'a server' if given.all else 'an object, with a folder'}")
    source = Source(found[1], given.user, given.tries, Rate(given.rate))
    if given.all:
        return fetch_range(source, *given.all, given.folder)
    Bag(source, found[2], given.folder).fetch()
    print(given.folder)
    return 0


def main():
    try:
        return carry_out(read_words())
    except Refused as refused:
        print(f"fetch_bag.py: {refused}", file=sys.stderr)
        return 1
    except Unreachable as fault:
        print(f"fetch_bag.py: {fault}; run it again to go on", file=sys.stderr)
        return 3
    except (Unfit, OSError) as unfit:
        print(f"fetch_bag.py: {unfit}", file=sys.stderr)
        return 2


if __name__ == "__main__":
    sys.exit(main())
