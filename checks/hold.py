#!/usr/bin/env python3
"""How long one client's requests make all others wait, over `swordd_host`, beside how long they may.

    checks/hold.py [--mib 512] [--texts 1000000] [--references 100000] [--files 3000] [--listed 20000] [--check] [WORD..]

One client does one thing after another; a second one asks for the service document over and over. Each line tells how long the
act took, how long the other waited at most, and how long it may: 100 ms, and 100 ms for each 16 MiB that the request brings or
moves. Where the tables of the kit take more than that, an act may take so many microseconds for each text (EACH). On a machine that
is slower than usual (slowness) all that is longer by as much. With words it does only the acts whose line has one of them. With
--check its status is 1 where another waited longer.
"""

import sys
sys.path.insert(0, f"{sys.path[0]}/lib")

import argparse
import json
import os
import subprocess
import tempfile
import time

from depositing import JSON, Client, as_file, by_reference, exchange, first_file
from growing import fill_object
from hosted import MIB, Host, rest
from host_waits import MOST, SEGMENT_SIZE, Other, refused, slowness, upload

PATIENCE, CLIENTS, IDLE = 900, 10, 8
CROWD, CROWD_SECONDS = 900, 5
# What a text takes at most to be kept and to be deleted.
EACH = {"kept": 20, "deleted": 12}
READ = "import sys, urllib.request\nwith urllib.request.urlopen(sys.argv[1]) as it:\n    while it.read(1 << 20): pass"
# Asks for a path over so many connections, and reads what comes until the time is over.
READ_BY_MANY = """
import selectors, socket, sys, time
port, path, count, seconds = int(sys.argv[1]), sys.argv[2], int(sys.argv[3]), float(sys.argv[4])
ready = selectors.DefaultSelector()
for _ in range(count):
    wire = socket.create_connection(("127.0.0.1", port))
    wire.sendall(f"GET {path} HTTP/1.1\\r\\nHost: a\\r\\n\\r\\n".encode())
    wire.setblocking(False)
    ready.register(wire, selectors.EVENT_READ)
end, came = time.monotonic() + seconds, 0
while time.monotonic() < end:
    for key, _ in ready.select(1):
        came += len(key.fileobj.recv(1 << 18))
print(f"    {came >> 20} MiB came")
"""
METADATA = {"Content-Disposition": "attachment; metadata=true", **JSON}


class Acts:
    """What one client does, in this order: each act with its name and the bytes that it brings or moves."""

    def __init__(self, options, folder):
        self.options, self.folder, self.size = options, folder, options.mib * MIB
        self.host = Host(folder).wait_until_it_listens()

    def restart(self, change=None, **settings):
        """Restarts the host, by these settings, and with a change of its store in between."""
        self.host.kill()
        if change:
            change(self.host.store)
        self.host = Host(self.folder, **settings).wait_until_it_listens()

    def client(self):
        return Client(self.host, PATIENCE)

    def ask(self, status, *request):
        with self.client() as client:
            return client.ask(status, *request)

    def refer(self, status, path="/service", **more):
        """A deposit of the upload by reference, whose entry may say more."""
        body, fields = by_reference({self.host.base + self.upload: "attachment; filename=a"})
        entry = json.loads(body)["byReferenceFiles"][0]
        return self.ask(status, "POST", path, json.dumps({"byReferenceFiles": [{**entry, **more}]}), fields)

    def made(self, name, make):
        """What an earlier act made, which may have been left out."""
        if name not in vars(self):
            setattr(self, name, make())
        return getattr(self, name)

    def path_of(self, reply):
        return self.host.path_of(reply.headers["Location"])

    def send(self):
        with self.client() as client:
            return self.host.path_of(upload(client, os.urandom(self.size), SEGMENT_SIZE))

    def deposit(self):
        _, document = self.refer(201)
        return self.host.path_of(first_file(document))

    def describe(self):
        texts = json.dumps({"dc:subject": self.options.texts * [""]}, separators=(",", ":"))
        return self.path_of(self.ask(201, "POST", "/service", texts, METADATA)[0])

    def fill(self):
        with self.client() as client:
            path = self.path_of(client.ask(201, "POST", "/service", b"x", as_file("a"))[0])
            for _ in range(self.options.files - 1):
                client.ask(200, "POST", path, b"x", as_file("a"))
        return path

    def list_many(self):
        """An object of many files, whose rows are put into the tables."""
        path = self.path_of(self.ask(201, "POST", "/service", b"x", as_file("a"))[0])
        self.restart(lambda store: fill_object(store, self.options.listed))
        return path

    def remake(self):
        """A file of the size, in an object of its own."""
        self.upload = self.send()
        self.remade = self.deposit()

    def remove(self, method, is_set):
        """Puts a byte in the place of that file, or of its file set, or deletes it."""
        path = f"{self.remade.rpartition('/')[0]}" if is_set else self.remade
        self.ask(204, method, path, *((b"x", as_file("a")) if method == "PUT" else ()))

    def read_at_once(self, path):
        """By programs of their own, since threads of this one would hold up the other client."""
        readers = [subprocess.Popen([sys.executable, "-c", READ, self.host.base + path]) for _ in range(CLIENTS)]
        for it in readers:
            it.wait()

    def read_by_many(self):
        words = [str(self.host.port), self.file, str(CROWD), str(CROWD_SECONDS)]
        subprocess.run([sys.executable, "-c", READ_BY_MANY, *words], check=True)

    def leave_unread(self):
        """Asks for the file, and reads nothing of it."""
        wire = self.host.connect(room=16_384)
        wire.sendall(f"GET {self.file} HTTP/1.1\r\nHost: a\r\n\r\n".encode())
        time.sleep(3)
        print(f"    {sum(self.host.spools()) // MIB} MiB in spools")
        wire.close()

    def refer_to_nothing(self):
        uploads = {f"{self.host.base}/staging/{10**6 + it}": "attachment; filename=a" for it in range(self.options.references)}
        self.ask(404, "POST", "/service", *by_reference(uploads))

    def send_many(self):
        with self.client() as client:
            return [self.host.path_of(upload(client, b"x", 1)) for _ in range(self.options.files)]

    def refer_to_many(self):
        """A deposit of many uploads, which is refused for a digest of the last one."""
        self.ask(*refused(self.host, self.many))

    def leave_uploads(self):
        """Uploads that are left idle, one of them large, until they have ended but for the tick of the next request."""
        self.restart(staging_max_idle=IDLE)
        with self.client() as client:
            for _ in range(1_000):
                client.open(1, 1, 1)
        self.send()
        time.sleep(IDLE + 2)

    def all(self):
        """Each act: its line, the milliseconds that others may wait, what comes before and isn't measured, and what is done."""
        for line, moved, before, act in self.with_contents():
            yield line, MOST * max(1, moved / (16 * MIB)), before, act
        for line, count, each, before, act in self.with_many():
            yield line, max(MOST, count * EACH.get(each, 0) / 1_000), before, act
        size = f"{self.options.mib} MiB"
        yield (f"1,000 uploads and one of {size} end idle", MOST * max(1, self.options.mib / 16), self.leave_uploads,
               lambda: self.ask(200, "GET", "/service"))

    def with_contents(self):
        """Those with large contents: each with the bytes that it brings or moves."""
        size, path = f"{self.options.mib} MiB", "/objects/999999999"
        sent, kept = lambda: self.made("upload", self.send), lambda: self.made("file", lambda: sent() and self.deposit())
        # The log of the deposit is copied by then.
        rested = lambda: (kept(), rest(self.host))
        yield "nothing", 0, None, lambda: time.sleep(1)
        yield "deposit of 16 MiB", 16 * MIB, None, lambda: self.ask(201, "POST", "/service", os.urandom(16 * MIB), as_file("a"))
        yield f"{size} in segments of 16 MiB", SEGMENT_SIZE, None, sent
        yield f"by reference {size}, of no object (404)", 0, sent, lambda: self.refer(404, path)
        yield "the same behind a restart", 0, lambda: (sent(), self.restart()), lambda: self.refer(404, path)
        yield "by reference, another digest (412)", 0, sent, lambda: self.refer(412, digest=f"SHA-256={64 * '0'}")
        yield "the same again (412)", 0, sent, lambda: self.refer(412, digest=f"SHA-256={64 * '0'}")
        yield f"by reference {size}", self.size, sent, kept
        yield f"GET of {size}", 0, rested, lambda: self.ask(200, "GET", self.file)
        yield f"{CLIENTS} GETs of {size} at once", 0, rested, lambda: self.read_at_once(self.file)
        yield f"GET of {size} that isn't read", 0, rested, self.leave_unread
        yield f"{CROWD} clients that read {size}", 0, rested, self.read_by_many
        yield f"DELETE of its object, {size}", self.size, kept, lambda: self.ask(204, "DELETE", self.file.partition("/files")[0])
        for method, is_set in (("PUT", False), ("DELETE", False), ("PUT", True), ("DELETE", True)):
            yield (f"{method} of a file{' set' * is_set}, {size}", self.size, self.remake,
                   lambda method=method, is_set=is_set: self.remove(method, is_set))

    def with_many(self):
        """Those of many texts, references or files: each with how many texts come or go, and what each of them may take."""
        texts, references, files = self.options.texts, self.options.references, self.options.files
        described, filled = lambda: self.made("described", self.describe), lambda: self.made("filled", self.fill)
        shown = lambda status, method, path: self.ask(status, method, f"{self.described}{path}")
        yield f"metadata of {texts:,} texts", texts, "kept", None, described
        yield "HEAD of its object", 0, None, described, lambda: shown(200, "HEAD", "")
        for it in ("bagit.txt", "manifest-sha512.txt"):
            yield f"{it} of its object", 0, None, described, lambda it=it: shown(200, "GET", f"/bag/{it}")
        for method in ("HEAD", "GET"):
            yield (f"{method} of its tagmanifest-sha256.txt", 0, None, described,
                   lambda method=method: shown(200, method, "/bag/tagmanifest-sha256.txt"))
        yield "GET of the metadata", 0, None, described, lambda: shown(200, "GET", "/metadata")
        yield f"{CLIENTS} GETs of it at once", 0, None, described, lambda: self.read_at_once(f"{self.described}/metadata")
        yield "one text more", 0, None, described, lambda: self.ask(200, "POST", self.described, '{"dc:subject":""}', METADATA)
        yield "DELETE of its object", texts, "deleted", described, lambda: shown(204, "DELETE", "")
        yield f"{references:,} references of nothing", 0, None, None, self.refer_to_nothing
        sent = lambda: self.made("many", self.send_many)
        yield f"by reference {files:,} uploads, another digest (412)", 0, None, sent, self.refer_to_many
        yield "the same again, of so many (412)", 0, None, sent, self.refer_to_many
        yield f"an object of {files:,} files, one by one", 0, None, None, filled
        yield "GET of that object", 0, None, filled, lambda: self.ask(200, "GET", self.filled)
        yield "DELETE of that object", 0, None, filled, lambda: self.ask(204, "DELETE", self.filled)
        listed, count = lambda: self.made("listed", self.list_many), f"{self.options.listed:,} files"
        for what, method, path in (("object", "GET", ""), ("object", "HEAD", ""), ("bag", "GET", "/bag"),
                                   *((f"{it}-{digest}", "GET", f"/bag/{it}-{digest}.txt")
                                     for it in ("manifest", "tagmanifest") for digest in ("sha256", "sha512"))):
            yield (f"{method} of a listed {what}, {count}", 0, None, listed,
                   lambda method=method, path=path: self.ask(200, method, f"{self.listed}{path}"))
        yield f"one file more beside {count}", 0, None, listed, lambda: self.ask(200, "POST", self.listed, b"x", as_file("a"))


def main():
    words = argparse.ArgumentParser(description=__doc__, formatter_class=argparse.RawDescriptionHelpFormatter)
    for name, most in (("mib", 512), ("texts", 1_000_000), ("references", 100_000), ("files", 3_000), ("listed", 20_000)):
        words.add_argument(f"--{name}", type=int, default=most)
    words.add_argument("--check", action="store_true")
    words.add_argument("words", nargs="*")
    options = words.parse_args()
    longer = 0
    with tempfile.TemporaryDirectory() as folder:
        acts = Acts(options, folder)
        for line, most, before, act in acts.all():
            if options.words and not any(it in line for it in options.words):
                continue
            if before:
                before()
            acts.host.forget_peak()
            with Other(acts.host) as other:
                began = time.monotonic()
                act()
                took = time.monotonic() - began
            most *= slowness()
            longer += other.longest > most
            print(f"{line:<44} took {took:6.2f} s, others waited {other.longest:6.0f} ms of {most:5.0f}, {acts.host.peak():5.0f} MiB"
                  f"{'  LONGER' if other.longest > most else ''}", flush=True)
        acts.host.kill()
    print(f"hold: {longer} acts above their bound")
    return 1 if options.check and longer else 0


if __name__ == "__main__":
    sys.exit(main())
