"""Starts `swordd serve` for the checks of a client: on a free port, over a store in a folder of its own."""

import http.client
import os
import pathlib
import random
import socket
import subprocess
import tempfile
import time

from commands import start
from depositing import ADDRESS, exchange
from expectations import expect

# Ports with as many digits as that of the examples, so that no length changes.
FOUR_DIGITS = range(8081, 9999)
# So many ticks of the processor's clock are a second.
TICK = os.sysconf("SC_CLK_TCK")


def never_given():
    """The ports of five digits that the system gives to no connection that goes out, in any order: what one of these checks
    chooses is not taken by a client of another before a server listens there. All, where the system keeps none back."""
    lowest, highest = map(int, pathlib.Path("/proc/sys/net/ipv4/ip_local_port_range").read_text().split())
    ports = [it for it in range(10_000, 65_536) if not lowest <= it <= highest] or range(10_000, 65_536)
    return random.sample(ports, len(ports))


def free_port(ports=None):
    """A port of 127.0.0.1 at which nothing listens: the first one of these, or any that is never given."""
    for port in ports or never_given():
        with socket.socket() as probe:
            try:
                probe.bind((ADDRESS, port))
                return probe.getsockname()[1]
            except OSError:
                pass
    raise OSError("no port is free")


def wait_for_listener(port, process, said, patience):
    """Waits until a program listens at a port of 127.0.0.1: it looks into the table of sockets, since a connection would be
    counted. Where the program ends, or takes longer than so many seconds, what it said is told."""
    wanted = f"0100007F:{port:04X} 00000000:0000 0A"
    for _ in range(100 * patience):
        if wanted in pathlib.Path("/proc/net/tcp").read_text():
            return
        if process.poll() is not None:
            raise RuntimeError(f"{process.args[0]} ended: {said()}")
        time.sleep(0.01)
    raise RuntimeError(f"{process.args[0]} does not listen")


class Served:
    """A program that serves HTTP at a port of 127.0.0.1, over the store `deposits.db` of a folder. It may open that for
    `patience` seconds."""

    def __init__(self, folder, port, patience):
        self.kept = tempfile.TemporaryDirectory() if folder is None else None
        self.folder = pathlib.Path(folder or self.kept.name)
        self.store = self.folder / "deposits.db"
        self.port, self.patience, self.process = port or free_port(), patience, None
        self.base = f"http://127.0.0.1:{self.port}"

    def said(self):
        """What it wrote on standard error."""
        raise NotImplementedError

    def wait_until_it_listens(self):
        wait_for_listener(self.port, self.process, self.said, self.patience)
        return self

    def forget_peak(self):
        """Its greatest memory counts from here on."""
        pathlib.Path(f"/proc/{self.process.pid}/clear_refs").write_text("5")

    def peak(self):
        """The greatest memory that it had, in MiB."""
        for line in pathlib.Path(f"/proc/{self.process.pid}/status").read_text().splitlines():
            if line.startswith("VmHWM:"):
                return int(line.split()[1]) / 1024
        return 0.0

    def seconds(self):
        """The processor seconds that it has taken."""
        fields = pathlib.Path(f"/proc/{self.process.pid}/stat").read_text().rpartition(")")[2].split()
        return (int(fields[11]) + int(fields[12])) / TICK

    def ask(self, status, method, path, body=None, headers=None):
        """One request over a connection of its own: its status has to be this one. Returns the reply and its content."""
        connection = http.client.HTTPConnection(ADDRESS, self.port, timeout=60)
        reply, content = exchange(connection, method, path, body, headers)
        connection.close()
        expect(f"{method} {path}", reply.status, status)
        return reply, content

    def path_of(self, url):
        """The path of a URL that the server told."""
        return url.removeprefix(self.base)

    def ends(self, patience=60):
        """Its exit status, once it has served all its connections, and what it wrote on standard error. That may take so many
        seconds, since the log is copied into the file then."""
        return self.process.wait(patience), self.said()

    def kill(self):
        if self.process.poll() is None:
            self.process.kill()
            self.process.wait()

    def __enter__(self):
        try:
            return self.wait_until_it_listens()
        except RuntimeError:
            self.__exit__()
            raise

    def __exit__(self, *_):
        self.kill()
        if self.kept:
            self.kept.cleanup()


class Server(Served):
    """`swordd serve`, which ends after so many connections, under the command `front` if there is one. `how` is what
    `subprocess.Popen` takes besides."""

    def __init__(self, count, folder=None, port=None, patience=60, front=(), **how):
        super().__init__(folder, port, patience)
        self.process = start("serve", str(self.port), self.store, str(count), front=front, stderr=subprocess.PIPE, **how)

    def said(self):
        return self.process.stderr.read().decode()

    def __exit__(self, *_):
        super().__exit__()
        self.process.stderr.close()
