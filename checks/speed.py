#!/usr/bin/env python3
"""Times `swordd serve` by Python's http.client over one connection, beside a write of the same bytes by Python's sqlite3
with the same durability (write-ahead log, synchronous=FULL) on the same disk, in the same run.

    checks/speed.py [--segmented MIB] [--before PROGRAM]
    checks/speed.py --digests [--before PROGRAM]
    checks/speed.py --uploads [COUNTxKIB ..]
    checks/speed.py --pictures FOLDER
    checks/speed.py --host

It prints deposits of 1 KiB and of 16 MiB, reads of both, a file of 512 MiB in segments and its deposit by reference, and
the greatest memory that the server had: after the deposits and reads, after as many again, and at the end. Then it
exports the bag of that file beside `cp` and `sync`, and audits the store beside `sha256sum` of as many bytes, each less
what an open of the store takes by itself. In the end, or by --digests alone, it measures what SHA-512 costs:

- the SHA-512 of 16 MiB by what the server takes it with (checks/benches/digest_bench), beside `openssl speed sha512`, and
  the same of SHA-256. Without openssl it says that this is skipped.
- with PROGRAM, a swordd that computes none (of version 1): how much longer a deposit of 16 MiB takes than one by it.
- the first open of a store of version 1 with 512 MiB, which Python's sqlite3 makes by the statements of
  checks/examples/older-stores.txt: what makes it a store of version 2, which is what the first audit takes above the
  next one, takes at most twice what `sha512sum` takes for the same bytes, and one audit. Where the store stays one of version 1, it says that this is
  skipped.

By --uploads alone, it measures uploads of so many segments of so many KiB, by default 10000x64 and 256x16384 (4 GiB, for which
the disk needs some 25). Each segment is sent to the server and then written by sqlite3, in turn, so that what else the machine
does meets both alike: the rate of the first 100 segments, and of the last. Then come the last segment once more, the deposit by
reference (by sqlite3: both digests, and one statement that moves the blocks), a GET of the file, the commands as above, the
open by a server, a GET again, and a DELETE of the object. Each may take 64 MiB above what the server had before.

By --pictures alone, it draws into a folder what docs/SPEED.md shows: each workload beside sqlite3, by the ratio of the medians
of what took turns (beside-sqlite3.svg), the greatest memory that the server had by then (memory.svg), and the processor time of
each kind of request over the number of objects, as growth.py does (objects.svg).

By --host alone, it measures `swordd_host` under 1 to 1,000 clients at once, beside nginx with the same file from disk and
`swordd serve`, and how long others wait while one client deposits 16 MiB, or 512 MiB by reference, or reads 512 MiB
(checks/lib/host_speed.py).

The status is 1 where one of these takes more. It measures, so it is no part of checks/all: numbers of one run on a busy
machine say little. Run it on one that does nothing else.
"""

import sys
sys.path.insert(0, f"{sys.path[0]}/lib")

import argparse
import contextlib
import hashlib
import json
import os
import pathlib
import re
import shutil
import sqlite3
import statistics
import subprocess
import tempfile
import time

import growing
import host_speed
import older_stores
import pictures
from crates import ROOT, built_program
from depositing import JSON, Client, as_file, by_reference, exchange, first_file
from expectations import expect, wrong
from plain_stores import BLOCK, Plain, PlainUpload
from served import Server

MIB = 1024 * 1024
SMALL, LARGE = 1024, 16 * MIB
UPLOADS = ["10000x64", "256x16384"]
# So many segments are the first ones, and the last ones.
ENDS = 100
# So many MiB may a step take above what the server had before.
MOST_ABOVE = 64
# So many seconds may an open take.
PATIENCE = 1800
# By this a process gives freed memory back at once, so that what its open took doesn't hide what it takes later.
GIVES_BACK = {"MALLOC_MMAP_THRESHOLD_": "65536", "MALLOC_TRIM_THRESHOLD_": "65536"}


def timed(what, count, work, size):
    """Does the work so often, and prints the time of one and the bytes of a second."""
    began = time.perf_counter()
    for _ in range(count):
        work()
    took = time.perf_counter() - began
    print(f"{what:<44} {1000 * took / count:10.2f} ms each {count * size / took / MIB:10.1f} MiB/s", flush=True)


class Measured(Client):
    """A client whose requests are timed. A reply of another status ends the measurement."""

    def __init__(self, server):
        super().__init__(server, 600)

    def ask(self, status, method, path, body=None, fields=None):
        reply, content = exchange(self.connection, method, path, body, fields)
        assert reply.status == status, (method, path, reply.status, content[:300])
        return reply, content

    def deposit(self, content):
        _, document = self.ask(201, "POST", "/service", content, as_file("a"))
        return self.server.path_of(first_file(document))

    def read(self, path, content):
        _, came = self.ask(200, "GET", path)
        assert came == content

    def upload(self, mebibytes):
        """A file in segments of 16 MiB."""
        count = mebibytes // 16
        url, digest = self.open(count * LARGE, count, LARGE), hashlib.sha256()
        for place in range(1, count + 1):
            segment = os.urandom(LARGE)
            digest.update(segment)
            self.segment(204, url, place, segment)
        return url, digest.digest()

    def deposit_upload(self, url):
        _, document = self.ask(201, "POST", "/service", *by_reference({url: "attachment; filename=b"}))
        return self.server.path_of(first_file(document))

    def hash_file(self, path):
        """Reads a file without holding it."""
        self.connection.request("GET", path)
        reply = self.connection.getresponse()
        digest = hashlib.sha256()
        while part := reply.read(MIB):
            digest.update(part)
        return digest.digest()


def small_and_large(client):
    small, large = os.urandom(SMALL), os.urandom(LARGE)
    timed("deposit of 1 KiB", 1000, lambda: client.deposit(small), SMALL)
    path = client.deposit(small)
    timed("read of 1 KiB", 1000, lambda: client.read(path, small), SMALL)
    timed("deposit of 16 MiB", 10, lambda: client.deposit(large), LARGE)
    path = client.deposit(large)
    timed("read of 16 MiB", 10, lambda: client.read(path, large), LARGE)


def segmented(client, mebibytes):
    began = time.perf_counter()
    url, digest = client.upload(mebibytes)
    sent = time.perf_counter()
    path = client.deposit_upload(url)
    deposited = time.perf_counter()
    assert client.hash_file(path) == digest
    read = time.perf_counter()
    for what, took in (("sent in segments", sent - began), ("deposited by reference", deposited - sent),
                       ("read", read - deposited)):
        print(f"{f'{mebibytes} MiB {what}':<44} {took:10.2f} s       {mebibytes / took:10.1f} MiB/s", flush=True)
    return path.split("/")[2]


def ran(*words):
    """Runs a program: its status, the seconds that it took, and the greatest memory that it had, in MiB."""
    began = time.perf_counter()
    with subprocess.Popen(words, stdout=subprocess.DEVNULL, stderr=subprocess.DEVNULL) as process:
        _, status, usage = os.wait4(process.pid, 0)
        process.returncode = os.waitstatus_to_exitcode(status)
    return process.returncode, time.perf_counter() - began, usage.ru_maxrss / 1024


def exported_and_audited(folder, store, item, mebibytes):
    """The commands, beside those of the system over the same bytes."""
    program, bag = built_program("swordd"), f"{folder}/bag"
    status, opened, room = ran(program, "export", store, "4000000000000000000", f"{folder}/none")
    assert status == 1, status
    print(f"{'open of the store alone':<44} {opened:10.2f} s       {room:10.0f} MiB of memory", flush=True)
    size = store.stat().st_size / MIB
    for what, words, wanted, octets in (
            (f"export of {mebibytes:.0f} MiB", (program, "export", store, item, bag), 0, mebibytes),
            (f"cp and sync of {mebibytes:.0f} MiB", ("sh", "-c", f"cp -r {bag} {bag}-2 && sync {bag}-2/data/*/*"), 0, mebibytes),
            (f"audit of a store of {size:.0f} MiB", (program, "audit", store), 0, size),
            (f"sha256sum of {mebibytes:.0f} MiB", ("sh", "-c", f"sha256sum {bag}/data/*/*"), 0, mebibytes)):
        status, took, peak = ran(*words)
        assert status == wanted, (what, status)
        if words[0] == program:
            took, told = took - opened, f", {peak - room:.0f} MiB of memory above the open's"
        else:
            told = ""
        print(f"{what:<44} {took:10.2f} s       {octets / took:10.1f} MiB/s{told}", flush=True)


def plain(folder):
    store = Plain(folder)
    small, large = os.urandom(SMALL), os.urandom(LARGE)
    timed("sqlite3: write of 1 KiB", 1000, lambda: store.write(small), SMALL)
    timed("sqlite3: read of 1 KiB", 1000, store.read, SMALL)
    timed("sqlite3: write of 16 MiB", 10, lambda: store.write(large), LARGE)
    timed("sqlite3: read of 16 MiB", 10, store.read, LARGE)
    store.database.close()


def seconds_of(work):
    began = time.perf_counter()
    work()
    return time.perf_counter() - began


def openssl_seconds(algorithm, size):
    """What the digest of so many bytes takes by openssl, or None where there is none."""
    if not shutil.which("openssl"):
        return None
    said = subprocess.run(["openssl", "speed", "-mr", "-seconds", "2", "-bytes", "65536", algorithm],
                          capture_output=True, text=True)
    rates = re.findall(rf"^\+F:\d+:{algorithm}:([0-9.]+)$", said.stdout, re.M)
    return size / float(rates[0]) if rates else None


def bench_seconds(program, algorithm):
    """What the digest of 16 MiB takes by the library that the server uses: the least of five runs."""
    def least(mebibytes):
        return min(ran(program, algorithm, str(mebibytes))[1] for _ in range(5))

    return (least(272) - least(16)) / 16


def deposits_beside(before):
    """The median seconds of a deposit of 16 MiB by the program before and by this one, asked in turn."""
    took, content = ([], []), os.urandom(LARGE)
    with Server(1, executable=before) as older, Server(1) as newer:
        clients = Measured(older), Measured(newer)
        for turn in range(24):
            for client, seconds in zip(clients, took):
                spent = seconds_of(lambda: client.deposit(content))
                if turn >= 4:
                    seconds.append(spent)
        for client in clients:
            client.close()
    return map(statistics.median, took)


def cost_of_sha512(before):
    """What SHA-512 costs a deposit."""
    said = subprocess.run([ROOT / "checks/bench", "--path", "digest_bench"], capture_output=True, text=True)
    program = said.stdout.split("\n")[-2]
    for algorithm in ("sha512", "sha256"):
        by_openssl = openssl_seconds(algorithm, LARGE)
        if by_openssl is None:
            print("skipped: what digests cost, for want of openssl")
            return
        own = bench_seconds(program, algorithm)
        print(f"{algorithm} of 16 MiB {1000 * own:.1f} ms, by openssl {1000 * by_openssl:.1f} ms: {own / by_openssl:.2f} times",
              flush=True)
    if before is not None:
        without, deposit = deposits_beside(before)
        print(f"deposit of 16 MiB {1000 * deposit:.1f} ms, by the program before {1000 * without:.1f} ms", flush=True)


def make_older_store(folder, mebibytes):
    """A store of version 1, and its files beside it: one object with files of 16 MiB. Returns their SHA-512."""
    folder.mkdir()
    digests, count = [], mebibytes // 16
    database = sqlite3.connect(folder / "older.db", isolation_level=None)
    database.execute("PRAGMA journal_mode=WAL")
    database.execute("BEGIN")
    for text in older_stores.statements():
        if text.startswith(("CREATE", "INSERT INTO format")):
            database.execute(text)
    database.execute("INSERT INTO state VALUES (1, 1523836800, 2, ?1 + 1, 1, ?1 + 1)", (count,))
    database.execute("INSERT INTO objects VALUES (1, 1, ?1, 1, ?1, 1523836800)", (count,))
    for file in range(1, count + 1):
        content = os.urandom(LARGE)
        digests.append(hashlib.sha512(content).digest())
        pathlib.Path(folder, f"file-{file:03}").write_bytes(content)
        database.execute("INSERT INTO files VALUES (?1, 1, 'a', 'application/octet-stream', ?2, ?1, 1523836800, NULL, 0, ?3)",
                         (file, LARGE, hashlib.sha256(content).digest()))
        blocks = ((file, at // BLOCK, content[at:at + BLOCK]) for at in range(0, LARGE, BLOCK))
        database.executemany("INSERT INTO blocks VALUES (0, ?, 1, ?, ?)", blocks)
    database.execute("COMMIT")
    database.close()
    return digests


def cost_of_upgrade(folder, mebibytes):
    """What it takes to make a store of version 1 one of version 2."""
    digests = make_older_store(folder, mebibytes)
    store, files = folder / "older.db", sorted(map(str, folder.glob("file-*")))

    audit = built_program("swordd"), "audit", store
    (_, first, room), (_, second, _), (_, summed, _) = found = ran(*audit), ran(*audit), ran("sha512sum", *files)
    expect("the statuses of two audits and of sha512sum", [it[0] for it in found], [0, 0, 0])
    print(f"first open and audit of a store of version 1 with {mebibytes} MiB {first:.2f} s and {room:.0f} MiB of memory, "
          f"the next audit {second:.2f} s: {first - second:.2f} s more; sha512sum {summed:.2f} s", flush=True)
    database = sqlite3.connect(store)
    version = database.execute("SELECT version FROM format").fetchone()[0]
    if version == older_stores.VERSION:
        print(f"skipped: what an upgrade costs, since the store stays one of version {version}")
    else:
        rows = database.execute("SELECT kind, owner, value FROM sha512s ORDER BY kind, owner").fetchall()
        expect("the rows of sha512s are those of the files", rows, [(0, file, it) for file, it in enumerate(digests, 1)])
        expect("an upgrade takes at most twice the time of sha512sum, and one audit", first - second <= 2 * summed + second, True)
    database.close()


def whole(folder, mebibytes):
    with Server(1, folder) as server:
        client = Measured(server)
        small_and_large(client)
        first = server.peak()
        small_and_large(client)
        second = server.peak()
        item = segmented(client, mebibytes)
        print(f"peak memory: {first:.0f} MiB after the deposits and reads, {second:.0f} MiB after as many again, "
              f"{server.peak():.0f} MiB at the end")
        client.close()
        status, said = server.ends()
        assert (status, said) == (0, ""), (status, said)
    began = time.perf_counter()
    with Server(1, folder) as server:
        size = server.store.stat().st_size / MIB
        print(f"open of a store of {size:.0f} MiB: {time.perf_counter() - began:.2f} s, {server.peak():.0f} MiB")
    exported_and_audited(folder, server.store, item, mebibytes)
    plain(folder)


def told(what, took, mebibytes, more=""):
    print(f"{what:<44} {took:10.2f} s       {mebibytes / took:10.1f} MiB/s{more}", flush=True)


def in_turn(client, store, count, size):
    """Sends segments, each to the server and then to sqlite3. Returns the upload's URL, the SHA-256 of the whole, and the last
    segment."""
    url, digest, took = client.open(count * size, count, size), hashlib.sha256(), ([], [])
    for place in range(1, count + 1):
        content = os.urandom(size)
        digest.update(content)
        took[0].append(seconds_of(lambda: client.segment(204, url, place, content)))
        took[1].append(seconds_of(lambda: store.segment(place, content)))
    for name, seconds in (("", took[0]), ("sqlite3: ", took[1])):
        for part, some in (("first", seconds[:ENDS]), ("last", seconds[-ENDS:])):
            rate = len(some) / sum(some)
            print(f"{f'{name}the {part} {len(some)} segments':<44} {rate:10.1f} a second {rate * size / MIB:8.1f} MiB/s", flush=True)
    return url, digest.digest(), content


class Steps:
    """What is asked of a server, with the memory that each takes above what it has at rest."""

    def __init__(self, server):
        self.server = server
        server.forget_peak()
        self.rest = server.peak()

    def tell(self, what, work, mebibytes):
        """Returns how many MiB it took."""
        self.server.forget_peak()
        took = seconds_of(work)
        above = self.server.peak() - self.rest
        told(what, took, mebibytes, f", {above:.0f} MiB of memory above {self.rest:.0f}")
        return above

    def step(self, what, work, mebibytes):
        above = self.tell(what, work, mebibytes)
        expect(f"{what}: memory above what it had, {above:.0f} MiB", above > MOST_ABOVE, False)


def kept_upload(folder, count, size):
    """Sends an upload, deposits it and reads the file. Returns the file's path."""
    mebibytes, made = count * size / MIB, []
    with Server(1, folder, env={**os.environ, **GIVES_BACK}) as server:
        client, store = Measured(server), PlainUpload(folder)
        client.deposit(os.urandom(SMALL))
        steps = Steps(server)
        steps.step("segments, with those of sqlite3", lambda: made.extend(in_turn(client, store, count, size)), mebibytes)
        url, digest, last = made
        steps.step("the last segment once more", lambda: client.segment(204, url, count, last), size / MIB)
        steps.step("deposit by reference", lambda: made.append(client.deposit_upload(url)), mebibytes)
        told("sqlite3: digests, and blocks moved", seconds_of(store.deposit), mebibytes)
        steps.step("GET of the file", lambda: expect("the file's SHA-256", client.hash_file(made[-1]), digest), mebibytes)
        told("sqlite3: blocks read", seconds_of(store.read), mebibytes)
        store.end()
        client.close()
        expect("the end of the server", server.ends(PATIENCE), (0, ""))
    return made[-1]


def large_upload(folder, count, size):
    """What an upload of so many segments of so many bytes takes, from its opening to the end of its object."""
    mebibytes = count * size / MIB
    print(f"an upload of {count} segments of {size // 1024} KiB, {mebibytes:.0f} MiB", flush=True)
    path = kept_upload(folder, count, size)
    item = path.split("/")[2]
    exported_and_audited(folder, pathlib.Path(folder, "deposits.db"), item, mebibytes)
    for name in ("bag", "bag-2"):
        shutil.rmtree(pathlib.Path(folder, name))
    began = time.perf_counter()
    with Server(1, folder, patience=PATIENCE, env={**os.environ, **GIVES_BACK}) as server:
        took, room = time.perf_counter() - began, server.store.stat().st_size / MIB
        told(f"open of {room:.0f} MiB by a server", took, room, f", {server.peak():.0f} MiB of memory")
        client, steps = Measured(server), Steps(server)
        steps.step("GET of the file", lambda: client.hash_file(path), mebibytes)
        steps.step("DELETE of its object", lambda: client.ask(204, "DELETE", f"/objects/{item}"), mebibytes)
        client.close()
        expect("the end of the server", server.ends(PATIENCE), (0, ""))


def in_turns(count, *works):
    """The median seconds of each of these, which are done in turn so often."""
    took = [[seconds_of(work) for work in works] for _ in range(count)]
    return [statistics.median(it) for it in zip(*took)]


def workloads(client, store, upload):
    """The name of each workload with what the server does, what sqlite3 does, and how often."""
    small, large, part = os.urandom(SMALL), os.urandom(LARGE), os.urandom(MIB)
    titles = json.dumps({"dc:title": ["T", "U"]})
    path = client.deposit(small)
    yield "deposit of 1 KiB", 300, lambda: client.deposit(small), lambda: store.write(small)
    yield "read of 1 KiB", 300, lambda: client.read(path, small), store.read
    whole = path.rsplit("/", 2)[0]
    yield "PUT of metadata", 300, lambda: client.ask(204, "PUT", f"{whole}/metadata", titles, JSON), lambda: store.describe(("T", "U"))
    yield "list of a bag", 300, lambda: client.ask(200, "GET", f"{whole}/bag"), store.names
    yield "deposit of 16 MiB", 8, lambda: client.deposit(large), lambda: store.write(large)
    path = client.deposit(large)
    yield "read of 16 MiB", 8, lambda: client.read(path, large), store.read
    url = client.open(64 * MIB, 64, MIB)
    places = [iter(range(1, 65)), iter(range(1, 65))]
    yield "segment of 1 MiB", 64, lambda: client.segment(204, url, next(places[0]), part), lambda: upload.segment(next(places[1]), part)
    yield "deposit of 64 of these", 1, lambda: client.deposit_upload(url), upload.deposit


def measure_beside(folder):
    """The ratio of each workload, and the greatest memory that the server had once it was done."""
    ratios, peaks = [], []
    with Server(1, folder) as server, tempfile.TemporaryDirectory() as beside:
        client, store, upload = Measured(server), Plain(folder), PlainUpload(beside)
        peaks.append(("at rest", server.peak()))
        for name, count, served, plainly in workloads(client, store, upload):
            took, other = in_turns(count, served, plainly)
            print(f"{name:<28} {1000 * took:10.2f} ms, by sqlite3 {1000 * other:10.2f} ms: {took / other:6.2f}", flush=True)
            ratios.append((name, took / other))
            peaks.append((name, server.peak()))
        client.close()
        expect("the end of the server", server.ends(), (0, ""))
        store.database.close()
        upload.end()
    return ratios, peaks


def draw(folder):
    folder.mkdir(exist_ok=True)
    with tempfile.TemporaryDirectory() as room:
        ratios, peaks = measure_beside(room)
    with contextlib.ExitStack() as stack:
        medians = growing.medians_by_objects(stack, lambda: stack.enter_context(tempfile.TemporaryDirectory()))
    for name, picture in (
            ("beside-sqlite3", pictures.bars("time beside sqlite3 with the same durability", ratios, 1)),
            ("memory", pictures.bars("the greatest memory that the server had by then, in MiB", peaks)),
            ("objects", pictures.lines("processor time of a request by objects, in microseconds", growing.OBJECTS, medians))):
        (folder / f"{name}.svg").write_text(picture, encoding="utf-8")


def main():
    options = argparse.ArgumentParser(description=__doc__, formatter_class=argparse.RawTextHelpFormatter)
    options.add_argument("--segmented", type=int, default=512, metavar="MIB")
    options.add_argument("--before", type=pathlib.Path, metavar="PROGRAM")
    options.add_argument("--digests", action="store_true")
    options.add_argument("--uploads", nargs="*", metavar="COUNTxKIB")
    options.add_argument("--pictures", type=pathlib.Path, metavar="FOLDER")
    options.add_argument("--host", action="store_true")
    given = options.parse_args()
    if given.host:
        return host_speed.main()
    if given.pictures is not None:
        draw(given.pictures)
        return 1 if wrong else 0
    if given.uploads is not None:
        for count, kibibytes in (map(int, it.split("x")) for it in given.uploads or UPLOADS):
            with tempfile.TemporaryDirectory() as folder:
                large_upload(folder, count, 1024 * kibibytes)
        return 1 if wrong else 0
    with tempfile.TemporaryDirectory() as folder:
        if not given.digests:
            whole(folder, given.segmented)
    with tempfile.TemporaryDirectory() as folder:
        cost_of_sha512(given.before)
        cost_of_upgrade(pathlib.Path(folder, "older"), 512)
    return 1 if wrong else 0


if __name__ == "__main__":
    sys.exit(main())
