"""Parts of checks/host.py: a host that is told to stop, what one says that ends for a fault, and one that doesn't."""

import http.client
import json
import os
import pathlib
import random
import resource
import tempfile
import threading
import time

from depositing import as_file, exchange, first_file
from expectations import expect
from host_clients import GET, SMALL_ROOM, Client, read_to_end, request_head
from hosted import ADDRESS, MIB, PATIENCE, Host, until
from system_faults import Faults

STOPPED = "swordd_host: it was told to stop"
# So many seconds after its file was made a host has seen that, however busy the machine is.
SEEN = 5
IDLE = 3


class Depositor:
    """Deposits files and reads each again over one connection, until the host ends it."""

    def __init__(self, host):
        self.host, self.kept, self.replies = host, {}, 0
        self.connection = http.client.HTTPConnection(ADDRESS, host.port, timeout=PATIENCE)
        self.connection.connect()
        self.connection.auto_open = 0
        self.thread = threading.Thread(target=self.go_on)
        self.thread.start()

    def ask(self, method, path, body=None, fields=None):
        """The content of a reply, or nothing where the host has ended the connection before. A reply that began has to come
        whole."""
        try:
            self.connection.request(method, path, body, fields or {})
            reply = self.connection.getresponse()
        except (OSError, http.client.NotConnected):
            return None
        content = reply.read()
        self.replies += expect(f"a {method} of a depositor", reply.status, {"POST": 201, "GET": 200}[method])
        return content

    def go_on(self):
        try:
            while self.deposits():
                pass
        except (OSError, http.client.HTTPException, ValueError) as fault:
            expect("the end of a depositor", repr(fault), "between two replies")
        self.connection.close()

    def deposits(self):
        content = os.urandom(random.randint(1, 60_000))
        document = self.ask("POST", "/service", content, as_file("a"))
        if document is None:
            return False
        path = self.host.path_of(first_file(document))
        self.kept[path] = content
        came = self.ask("GET", path)
        return came is not None and expect("whether a depositor read its file", came == content, True)


def is_ended(host, patience=PATIENCE):
    """Its exit status, once it has ended by itself within so many seconds, and the last line that it said."""
    until(lambda: host.process.poll() is not None, patience)
    return host.process.poll(), host.said().rstrip("\n").rpartition("\n")[2]


def is_let_in(host):
    """Whether somebody listens to who connects."""
    try:
        host.connect().close()
    except ConnectionRefusedError:
        return False
    return True


def slow_reader(host, path):
    """A client that has begun to read a large file."""
    wire = host.connect(room=SMALL_ROOM)
    wire.sendall(request_head(path))
    return wire, wire.recv(100)


def answered(host):
    """How many requests it answered, by its log."""
    events = [json.loads(line)["event"] for line in host.said().splitlines() if line.startswith("{")]
    return events.count("exchange")


def stop_under_load(folder):
    """Each reply that began comes whole, who has sent no whole request gets nothing, nobody is let in, and the host ends once all
    have left, long before an idle time."""
    large, file = os.urandom(16 * MIB), folder / "stop"
    with Host(folder / "served", stop_file=str(file)) as host:
        with Client(host) as client:
            path, _ = client.deposit(large)
        slow, front = slow_reader(host, path)
        half, idle = host.connect(), host.connect()
        half.sendall(GET[:-1])
        depositors = [Depositor(host) for _ in range(20)]
        time.sleep(1)
        file.touch()
        for it in depositors:
            it.thread.join(PATIENCE)
        expect("the depositors that are served on", sum(it.thread.is_alive() for it in depositors), 0)
        half.sendall(GET[-1:])
        expect("what comes to half a request", read_to_end(half), (b"", "ended"))
        expect("what comes to a silent client", read_to_end(idle), (b"", "ended"))
        expect("whether a late client is let in", is_let_in(host), False)
        expect("whether it ends while a reply is out", host.process.poll(), None)
        expect("the large file", (front + read_to_end(slow)[0]).partition(b"\r\n\r\n")[2] == large, True)
        for wire in (half, idle, slow):
            wire.close()
        expect("how it ends once it is told to", is_ended(host), (0, STOPPED))
        expect("the replies that were made", answered(host), 2 + sum(it.replies for it in depositors))
    return {path: content for it in depositors for path, content in it.kept.items()}


def is_kept(folder, kept):
    """What was answered is there once the store is opened again."""
    with Host(folder / "served") as host, Client(host) as client:
        for path, content in kept.items():
            expect("a file of a host that stopped", client.ask(200, "GET", path)[1] == content, True)


def stop_with_a_slow_client(folder):
    """One that goes on reading, but slowly, is waited for an idle time and no longer. Returns how long it took."""
    file = folder / "stop-slow"
    with Host(idle_seconds=IDLE, least_rate=0, stop_file=str(file)) as host:
        with Client(host) as client:
            path, _ = client.deposit(os.urandom(16 * MIB))
        slow, _ = slow_reader(host, path)
        file.touch()
        began = time.monotonic()
        while host.process.poll() is None and time.monotonic() - began < PATIENCE:
            time.sleep(0.2)
            slow.recv(100)
        took = time.monotonic() - began
        expect("how it ends where a client is slow", is_ended(host), (0, STOPPED))
        expect("whether it waits for an idle time", IDLE < took < IDLE + SEEN, True)
        return took


def stopped():
    with tempfile.TemporaryDirectory() as name:
        folder = pathlib.Path(name)
        kept = stop_under_load(folder)
        is_kept(folder, kept)
        expect("whether the host left its file", (folder / "stop").exists(), True)
        took = stop_with_a_slow_client(folder)
    return f"{len(kept)} deposits of 20 clients before it stopped; {took:.1f} s for a slow one, of {IDLE} idle seconds"


# ---- ends ----

# Python ignores the signal of a file that is too long, and what it starts so ignores it too.
FAILING = {"restore_signals": False}


def bound_files(host, most):
    """From now on it can write no file past so many bytes."""
    resource.prlimit(host.process.pid, resource.RLIMIT_FSIZE, (most, most))


def ends_by(fault, status, line):
    """How it ends once calls of the system fail, while a client is connected."""
    with tempfile.TemporaryDirectory() as name:
        faults = Faults(pathlib.Path(name))
        with Host(how={"env": faults.environment()}, idle_seconds=IDLE) as host, Client(host) as client:
            client.deposit(b"a")
            faults.fail(fault)
            if fault == "sync":
                client.ask(500, "POST", "/service", b"a", as_file("a"))
            expect(f"how it ends where each {fault} fails", is_ended(host), (status, line))


def ended():
    """What ends it for a fault is a line of plain text, the last one."""
    ends_by("sync", 2, "swordd_host: a fault of the disk has shut the store")
    ends_by("poll", 3, "swordd_host: waiting for its sockets failed")
    with Host(how=FAILING, connections=1) as host:
        with Client(host) as client:
            client.deposit(100_000 * b"a")
            bound_files(host, 4096)
        expect("how it ends where its file can't be closed", is_ended(host), (2, "swordd_host: the database can't be closed"))
    return "a shut store, a failed poll, and a file that can't be closed, each with its line"


# ---- failing ----

def is_taken(host, content):
    """Whether a deposit is taken, or gets 500."""
    with Client(host) as client:
        reply, _ = exchange(client.connection, "POST", "/service", content, as_file("a"))
    expect("the status of a deposit over a disk that failed", reply.status in (201, 500), True)
    return reply.status == 201


def fails_for_a_while(fault):
    """A disk that can't be written, or read either, shuts no store: what writes gets 500, and in the next second all does, as
    that writes the clock. Once the disk is whole again so is the service, and nothing is lost."""
    content = os.urandom(1_000_000)
    with tempfile.TemporaryDirectory() as name:
        faults = Faults(pathlib.Path(name))
        with Host(how={"env": faults.environment()}) as host:
            with Client(host) as client:
                path, _ = client.deposit(content)
            faults.fail(fault)
            expect(f"whether a deposit is taken where each {fault} fails", is_taken(host, content), False)
            time.sleep(1.1)
            for _ in range(3):
                host.ask(500, "GET", path)
            expect(f"whether it ends where each {fault} fails", host.process.poll(), None)
            faults.mend(fault)
            expect("whether deposits go on over a disk that is whole again", until(lambda: is_taken(host, content)), True)
            expect("a file from before", host.ask(200, "GET", path)[1] == content, True)


def failing():
    for fault in ("write", "disk"):
        fails_for_a_while(fault)
    return "a disk that can't be written, and one that can't be read either, until they are whole again"


PARTS = {it.__name__: it for it in (stopped, ended, failing)}
