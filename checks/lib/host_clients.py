"""Parts of checks/host.py: what clients of every kind see of a host."""

import contextlib
import hashlib
import http.client
import json
import os
import random
import selectors
import shutil
import time
from concurrent.futures import ThreadPoolExecutor
from functools import partial

import depositing
from depositing import as_file, by_reference, first_file
from expectations import expect
from hosted import ADDRESS, MIB, PATIENCE, Host, until

SEATS, CROWD = 1024, 1100
GET = b"GET /service HTTP/1.1\r\nHost: a\r\n\r\n"
# The line of each request has these, and that of one that was refused its refusal.
FIELDS = {"event": str, "moment": int, "connection": int, "peer": str, "method": str, "path": str, "status": int, "bytes_in": int,
          "bytes_out": int, "microseconds": int}
ELSEWHERE = "127.0.0.2"
# How many bytes the system keeps of what a client doesn't read.
SMALL_ROOM = 4096


class Client(depositing.Client):
    """A client over one connection, which notes what it asked and how long it waited at most."""

    def __init__(self, host, source=ADDRESS):
        super().__init__(host, PATIENCE, source)
        self.source, self.longest, self.asked = source, 0, []

    def ask(self, status, method, path, body=None, fields=None):
        began = time.monotonic()
        reply, content = super().ask(status, method, path, body, fields)
        self.longest = max(self.longest, time.monotonic() - began)
        self.asked.append((self.source, method, path, reply.status))
        return reply, content

    def deposit(self, content, media="application/octet-stream"):
        """Returns the path of the file, and what it is told to be."""
        _, document = self.ask(201, "POST", "/service", content, as_file("a", media))
        link = json.loads(document)["links"][0]
        return self.server.path_of(link["@id"]), link["contentType"]

    def read(self, path, content):
        reply, came = self.ask(200, "GET", path)
        expect(f"the bytes of {path}", hashlib.sha256(came).digest(), hashlib.sha256(content).digest())
        return reply.headers["Content-Type"]


def at_once(works):
    """Does them side by side, each in a thread of its own. Returns what they come to; one that fails is told."""
    def done(work):
        try:
            return work()
        except (OSError, http.client.HTTPException, AssertionError, ValueError, LookupError) as fault:
            expect("a client", repr(fault), "served")
            return None
    with ThreadPoolExecutor(len(works)) as pool:
        return list(pool.map(done, works))


def request_head(path, extra=""):
    return f"GET {path} HTTP/1.1\r\nHost: a\r\n{extra}\r\n".encode()


def read_to_end(wire):
    """All that comes, up to the end of the connection, and whether it ended well."""
    came = []
    try:
        while part := wire.recv(MIB):
            came.append(part)
    except OSError as fault:
        return b"".join(came), repr(fault)
    return b"".join(came), "ended"


def is_gone(wire):
    """Whether the host has ended a connection from which nothing is to come."""
    wire.setblocking(False)
    try:
        return wire.recv(1) == b""
    except BlockingIOError:
        return False
    except OSError:
        return True


def are_served(host, count=20):
    """The longest time that a client waits which asks for the service document and deposits a small file in turn."""
    with Client(host) as client:
        for number in range(count):
            client.ask(200, "GET", "/service")
            client.deposit(b"%d" % number)
        return client.longest


# ---- busy ----

def deposits(host, number):
    """Four deposits that no other client makes, each read again."""
    with Client(host, (ADDRESS, ELSEWHERE)[number % 2]) as client:
        for turn in range(4):
            content, media = os.urandom(random.randint(1, 100_000)), f"text/of-{number}-{turn}"
            path, told = client.deposit(content, media)
            expect("the media type that a deposit is told", told, media)
            expect("the media type of the file", client.read(path, content), media)
        return client


def busy():
    with Host() as host:
        silent = [host.connect() for _ in range(300)]
        for number, wire in enumerate(silent):
            wire.sendall((b"", GET[:20], GET[:-1])[number % 3])
        clients = [it for it in at_once([partial(deposits, host, number) for number in range(50)]) if it]
        longest = max((it.longest for it in clients), default=0)
        for wire in silent:
            expect("whether a silent client was left", is_gone(wire), False)
        wire = silent[2]
        wire.settimeout(PATIENCE)
        wire.sendall(GET[-1:])
        expect("the end of a silent client's request", wire.recv(15), b"HTTP/1.1 200 OK")
        for it in silent:
            it.close()
        with Client(host) as last:
            last.ask(404, "GET", "/nothing")
            last.ask(405, "PUT", "/service")
        asked = [sent for it in [*clients, last] for sent in it.asked] + [(ADDRESS, "GET", "/service", 200)]
        look_at_log(host, asked)
        return f"200 deposits and as many reads, the longest {longest:.2f} s, {host.peak():.0f} MiB of memory"


def look_at_log(host, asked):
    """One line for each request, with all its fields, behind one for the start."""
    expect("whether each request has a line", until(lambda: len(host.lines("exchange")) >= len(asked), 10), True)
    lines = host.lines()
    expect("what the first line tells", lines[0]["event"] if lines else None, "started")
    told = host.lines("exchange")
    for it in told:
        expect("the fields of a line", [name for name, kind in FIELDS.items() if not isinstance(it.get(name), kind)], [])
    told = [it for it in told if set(FIELDS) <= set(it)]
    expect("the requests of the log", sorted((it["peer"], it["method"], it["path"], it["status"]) for it in told), sorted(asked))
    refusals = sorted((it["status"], it["refusal"]) for it in told if it.get("refusal"))
    expect("the refusals of the log", refusals, [(404, "NotFound"), (405, "MethodNotAllowed")])
    peers = {it["connection"]: it["peer"] for it in told}
    expect("whether a connection has one peer", all(peers[it["connection"]] == it["peer"] for it in told), True)
    expect("how many connections it tells", len(peers), 52)
    deposited = [it for it in told if it["status"] == 201]
    expect("whether the bytes of a deposit came in", all(it["bytes_in"] > 100 and it["bytes_out"] > 500 for it in deposited), True)
    expect("whether the moments are now", all(abs(it["moment"] - time.time()) < 600 for it in told), True)


# ---- unread ----

def ask_and_wait(host, path, times=1, source=ADDRESS):
    """A client that asks for a file so often at once, and doesn't read."""
    wire = host.connect(source, room=SMALL_ROOM)
    wire.sendall((times - 1) * request_head(path) + request_head(path, "Connection: close\r\n"))
    return wire


def contents_of(wire):
    """The contents of all replies that come to a client, each of which is 200."""
    came = read_to_end(wire)[0].split(b"HTTP/1.1 200 OK\r\n")
    expect("what comes before the replies of the one that reads", came[0], b"")
    return [it.partition(b"\r\n\r\n")[2] for it in came[1:]]


def unread():
    content, other, count, times = os.urandom(16 * MIB), os.urandom(1000), 20, 3
    with Host(idle_seconds=600) as host:
        with Client(host) as client:
            path, _ = client.deposit(content)
        before = host.peak()
        lazy = [ask_and_wait(host, path, times) for _ in range(count)]
        longest = are_served(host)
        expect("whether what isn't read needs a spool", host.spools(), [])
        expect(f"whether memory holds what they don't read: {host.peak():.0f} MiB", host.peak() > before + 64, False)
        expect("whether one that reads gets every byte", contents_of(lazy.pop()) == times * [content], True)
        # What is sent of a file that changes goes into spools, so that the change doesn't wait for those who don't read.
        with Client(host) as client:
            client.ask(204, "PUT", path, other, as_file("b"))
            changed = client.longest
        expect("whether each has its spool, once the file has changed", len(host.spools()), count - 1)
        spooled = sum(host.spools())
        expect("whether the spools have more than one reply for each", spooled > (count - 1) * (len(content) + 1000), False)
        expect("the names in the folder of spools", list(host.spool_folder.iterdir()), [])
        longest = max(longest, are_served(host))
        expect(f"whether memory holds what they don't read: {host.peak():.0f} MiB", host.peak() > before + 64, False)
        expect("whether one gets what it asked for first, and then what is there",
               contents_of(lazy.pop()) == [content] + (times - 1) * [other], True)
        for wire in lazy:
            wire.close()
        expect("whether the spools go with their connections", until(lambda: not host.spools()), True)
        return (f"a PUT of what {count - 1} don't read took {changed:.2f} s, {spooled / MIB:.0f} MiB in their spools, others waited "
                f"{longest:.2f} s at most, {host.peak():.0f} MiB of memory")


# ---- crowd ----

def answered(wires, count):
    """Which of them are answered, once so many are, or the time is up; and which were ended."""
    served, ended, ends = set(), set(), time.monotonic() + PATIENCE
    with selectors.DefaultSelector() as ready:
        for wire in wires:
            ready.register(wire, selectors.EVENT_READ)
        while len(served) < count and time.monotonic() < ends:
            for key, _ in ready.select(1):
                try:
                    part = key.fileobj.recv(65_536)
                except OSError:
                    part = b""
                (served if part.startswith(b"HTTP/1.1 200") else ended).add(key.fileobj)
                ready.unregister(key.fileobj)
    return served, ended


def crowd():
    with Host(idle_seconds=600) as host:
        wires = [host.connect(f"127.0.0.{2 + number // 300}") for number in range(CROWD)]
        for wire in wires:
            wire.sendall(GET)
        began = time.monotonic()
        served, ended = answered(wires, SEATS)
        took = time.monotonic() - began
        expect("how many are served at once", len(served), SEATS)
        expect("how many are turned away", len(ended), 0)
        for wire in served:
            wire.close()
        rest = [wire for wire in wires if wire not in served]
        served, ended = answered(rest, len(rest))
        expect("how many of those who waited are served", len(served), CROWD - SEATS)
        for wire in rest:
            wire.close()
        return f"{SEATS} of {CROWD} answered in {took:.2f} s, the others once there was room, {host.peak():.0f} MiB of memory"


# ---- slow ----

IDLE, LEAST_RATE = 4, 1000
HEAD = "POST /service HTTP/1.1\r\nHost: a\r\nContent-Disposition: attachment; filename=a\r\nContent-Length: {}\r\n\r\n"


def silent_for(host, began):
    """A client that says nothing is closed, and no sooner than it may be."""
    with host.connect() as wire:
        expect("what a silent client gets", read_to_end(wire)[0][:12] in (b"", b"HTTP/1.1 408"), True)
        took = time.monotonic() - began
        expect(f"whether it is closed before its time, {took:.1f} s", took < IDLE - 1, False)
        return took


def drop_by_drop(host, began):
    """A client that sends a byte now and then is closed, though it is never silent."""
    with host.connect() as wire:
        wire.sendall(HEAD.format(100_000).encode())
        ends = time.monotonic() + PATIENCE
        with contextlib.suppress(OSError):
            while time.monotonic() < ends:
                wire.sendall(b"x")
                time.sleep(0.5)
                wire.setblocking(False)
                with contextlib.suppress(BlockingIOError):
                    if wire.recv(1000) == b"":
                        break
                wire.settimeout(PATIENCE)
        took = time.monotonic() - began
        expect("whether a client of two bytes a second is closed", took < PATIENCE, True)
        return took


def sip_by_sip(host, path, began):
    """A client that reads some bytes now and then is closed."""
    with ask_and_wait(host, path, source=ELSEWHERE) as wire:
        def is_closed():
            with contextlib.suppress(OSError):
                wire.recv(20)
            time.sleep(0.5)
            return [it["reason"] for it in host.lines("closed") if it["peer"] == ELSEWHERE]
        # It is silent while the system has not made room for more.
        expect("whether a client that reads 40 bytes a second is closed", until(is_closed) and is_closed()[0] in ("slow", "idle"), True)
        return time.monotonic() - began


def steady(host):
    """One that sends as much as it has to is served, however long it takes."""
    content = os.urandom(3 * IDLE * 80_000)
    with host.connect() as wire:
        wire.sendall(HEAD.format(len(content)).encode())
        for at in range(0, len(content), 20_000):
            wire.sendall(content[at:at + 20_000])
            time.sleep(0.25)
        expect("the reply to a client that takes its time", wire.recv(12), b"HTTP/1.1 201")


def slow():
    with Host(idle_seconds=IDLE, least_rate=LEAST_RATE) as host:
        with Client(host) as client:
            path, _ = client.deposit(os.urandom(16 * MIB))
        began = time.monotonic()
        works = [partial(it, host, began) for it in (silent_for, drop_by_drop)]
        times = at_once([*works, partial(sip_by_sip, host, path, began), partial(steady, host)])
        reasons = host.reasons()
        expect(f"the reasons that it tells, {reasons}", reasons["idle"] >= 1 <= reasons["slow"] and sum(reasons.values()) == 3, True)
        told = ", ".join("never" if it is None else f"{it:.1f}" for it in times[:3])
        return f"of {IDLE} s to be silent in, closed after {told} s; one that goes on is served"


# ---- broken ----

def broken():
    size, count = 200_000, 5
    content = os.urandom(size * count - 7)
    parts = [content[at:at + size] for at in range(0, len(content), size)]
    with Host() as host:
        with Client(host) as client:
            url = client.open(len(content), count, size)
            path = host.path_of(url)
            for number in (1, 3):
                client.segment(204, url, number, parts[number - 1])
        with host.connect() as wire:
            head = HEAD.format(size).replace("/service", path).replace("attachment; filename=a", "segment; segment_number=2")
            wire.sendall(head.encode() + parts[1][:size // 2])
            with Client(host) as client:
                client.ask(200, "GET", path)
        with Client(host) as client:
            _, document = client.ask(200, "GET", path)
            expect("what was received", json.loads(document)["segments"]["received"], [1, 3])
            for number in (2, 3, 4, 5):
                client.segment(204, url, number, parts[number - 1])
            _, document = client.ask(201, "POST", "/service", *by_reference({url: "attachment; filename=b"}))
            client.read(host.path_of(first_file(document)), content)
        return f"{count} segments, one of which broke off in its midst"


# ---- refused ----

def send_on(host, head, piece, count):
    """Goes on sending a request that is refused from its head on, and reads the reply only then. Nothing breaks off on the way."""
    with host.connect() as wire:
        wire.sendall(head)
        for _ in range(count):
            wire.sendall(piece)
        came, end = read_to_end(wire)
        expect("the refusal", came.partition(b"\r\n")[0], b"HTTP/1.1 413 Content Too Large")
        expect("its document", came.endswith(b"}") and b'"MaxUploadSizeExceeded"' in came, True)
        expect("the end of the connection", end, "ended")


def refused():
    with Host(max_upload=MIB, idle_seconds=10) as host:
        chunks = HEAD.replace("Content-Length: {}", "Transfer-Encoding: chunked").encode()
        length = HEAD.format(10_000_000_000).encode()
        works = [partial(send_on, host, length, b"x" * 65_536, 200)] * 10
        works += [partial(send_on, host, chunks, b"10000\r\n" + b"x" * 65_536 + b"\r\n", 200)] * 10
        at_once(works)
        return f"{len(works)} clients that sent 13 MB to the end had their 413"


# ---- spools ----

def fronts(lazy, content):
    """How many of them were cut, where each has a front of the reply."""
    cut = 0
    for wire in lazy:
        came = read_to_end(wire)[0].partition(b"\r\n\r\n")[2]
        expect("whether a client has a front of the content", content.startswith(came), True)
        cut += len(came) < len(content)
        wire.close()
    return cut


def put_over(host, path):
    """Changes a file that clients are being sent. What they don't read goes into the spools, as far as these have room."""
    with Client(host) as client:
        client.ask(204, "PUT", path, b"x", as_file("x"))
        return client.longest


def spools():
    content, most, count = os.urandom(16 * MIB), 24 * MIB, 8
    with Host(spool_bytes=most, idle_seconds=600) as host, Client(host) as client:
        paths = [client.deposit(content)[0] for _ in range(3)]
        lazy = [ask_and_wait(host, paths[0]) for _ in range(count)]
        longest = max(are_served(host), put_over(host, paths[0]))
        spooled = sum(host.spools())
        expect(f"whether the spools keep to their limit, {spooled / MIB:.1f} MiB", spooled <= most, True)
        cut = fronts(lazy, content)
        expect("how many replies are cut, which share the spools", cut, count)
        expect("whether the spools are gone", until(lambda: not host.spools()), True)
        lazy = [ask_and_wait(host, paths[1])]
        longest = max(longest, put_over(host, paths[1]))
        expect("how many are cut once there is room", fronts(lazy, content), 0)
        shutil.rmtree(host.spool_folder)
        lazy = [ask_and_wait(host, paths[2]) for _ in range(4)]
        longest = max(longest, are_served(host), put_over(host, paths[2]))
        gone = fronts(lazy, content)
        expect("how many are cut where the folder is gone", gone, 4)
        expect("the lines of the log for replies that were cut", host.reasons()["reply_cut"], cut + gone)
        return f"{cut} of {count} replies cut at {most // MIB} MiB, {gone} without a folder, others waited {longest:.2f} s at most"


# ---- address ----

def is_served(host, source):
    """Whether a new connection is served, which is closed then."""
    with host.connect(source) as wire:
        try:
            wire.sendall(GET)
            return wire.recv(12) == b"HTTP/1.1 200"
        except OSError:
            return False


def address():
    most = 5
    with Host(address_connections=most, idle_seconds=600) as host:
        mine = [Client(host) for _ in range(most)]
        for client in mine:
            client.ask(200, "GET", "/service")
        expect("whether one more is served", [is_served(host, ADDRESS) for _ in range(10)], [False] * 10)
        expect("whether one from elsewhere is", [is_served(host, ELSEWHERE) for _ in range(10)], [True] * 10)
        for client in mine:
            client.ask(200, "GET", "/service")
        expect("the reasons that it tells", host.reasons(), {"address_limit": 10})
        mine.pop().close()
        expect("whether one more is served once another has left", until(lambda: is_served(host, ADDRESS)), True)
        for client in mine:
            client.close()
        return f"{most} from one address, further ones turned away"


# ---- unfinished ----

class Sender:
    """A client that sends a deposit without its last byte, as far as the host reads."""

    def __init__(self, host, size):
        self.wire, self.is_closed = host.connect(), False
        self.rest = memoryview(HEAD.format(size).encode() + os.urandom(size))
        self.wire.setblocking(False)

    def go_on(self, left):
        """Sends what the system takes. Returns whether all is sent but so many bytes, or the host has closed the connection."""
        try:
            while len(self.rest) > left:
                self.rest = self.rest[self.wire.send(self.rest[:len(self.rest) - left]):]
        except BlockingIOError:
            pass
        except OSError:
            self.is_closed = True
        self.is_closed = self.is_closed or left == 1 and is_gone(self.wire)
        return self.is_closed or len(self.rest) == left

    def is_deposited(self):
        self.wire.settimeout(PATIENCE)
        try:
            return self.wire.recv(12) == b"HTTP/1.1 201"
        except OSError:
            return False


def unfinished():
    most, count, size = 32 * MIB, 40, 8 * MIB
    with Host(unfinished_bytes=most, idle_seconds=600) as host:
        are_served(host, 1)
        before, senders = host.peak(), [Sender(host, size) for _ in range(count)]
        expect("whether each is read or closed",
               until(lambda: all([it.go_on(1) for it in senders]) and not host.underway() and all(it.go_on(1) for it in senders)), True)
        longest, above = are_served(host), host.peak() - before
        rest = [it for it in senders if not it.is_closed]
        expect(f"whether memory keeps to the limit, {above:.0f} MiB", above < 5 * most / MIB, True)
        expect(f"whether as many stay as have room, {len(rest)}", most / size - 2 <= len(rest) <= most / size, True)
        expect("whether these are read to their end", until(lambda: all([it.go_on(0) for it in rest])), True)
        expect("whether these are deposited", [it.is_deposited() for it in rest], [True] * len(rest))
        expect("the reasons that it tells", host.reasons(), {"unfinished_limit": count - len(rest)})
        for it in senders:
            it.wire.close()
        return (f"of {count} clients with {size // MIB} MiB {len(rest)} stayed, {above:.0f} MiB of memory, "
                f"others waited {longest:.2f} s at most")


PARTS = {it.__name__: it for it in (busy, unread, crowd, slow, broken, refused, spools, address, unfinished)}
