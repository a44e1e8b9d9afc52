"""Starts `swordd_host` for the checks: by a configuration of its own, at a free port, over a store and a folder of spools in a
folder of its own."""

import json
import os
import pathlib
import shutil
import socket
import subprocess
import time
from collections import Counter

from crates import built_program
from expectations import expect
from served import Served

# So many seconds may anything take that a host has to do, however busy the machine is.
PATIENCE = 60
ADDRESS = "127.0.0.1"
MIB = 1024 * 1024


def begin(*words, **how):
    """Starts the program with these words."""
    return subprocess.Popen([built_program("swordd_host"), *words], **how)


def until(holds, patience=PATIENCE):
    """Whether it comes to hold within so many seconds."""
    ends = time.monotonic() + patience
    while not (held := holds()) and time.monotonic() < ends:
        time.sleep(0.02)
    return bool(held or holds())


def rest(server):
    """Waits until a server takes hardly any processor time: it has nothing left to do. Returns whether it comes to that."""
    def is_idle():
        before = server.seconds()
        time.sleep(0.5)
        return server.seconds() - before <= 0.02
    return until(is_idle)


class Host(Served):
    """A host by the configuration of these settings, and of others where they are not given, in this folder or in one of its
    own. It begins with a copy of this store, where one is given. `how` is what `subprocess.Popen` takes besides."""

    def __init__(self, folder=None, begun_with=None, how=None, **settings):
        super().__init__(folder, None, PATIENCE)
        self.spool_folder = self.folder / "spools"
        self.spool_folder.mkdir(parents=True, exist_ok=True)
        if begun_with:
            shutil.copy(begun_with, self.store)
        self.settings = {"address": ADDRESS, "port": self.port, "database": str(self.store), "base": self.base,
                         "spool_folder": str(self.spool_folder), "title": "swordd", "abstract": "Deposit service",
                         "depositor": "depositor", **settings}
        self.store, self.base, self.log = pathlib.Path(self.settings["database"]), self.settings["base"], self.folder / "log"
        configuration = self.folder / "configuration.json"
        configuration.write_text(json.dumps(self.settings))
        with open(self.log, "wb") as log:
            self.process = begin(configuration, stdin=subprocess.DEVNULL, stdout=subprocess.DEVNULL, stderr=log, **(how or {}))

    def said(self):
        return self.log.read_text(errors="replace")

    def lines(self, event=None):
        """The lines of its log, or those of an event."""
        lines = []
        for line in self.said().split("\n")[:-1]:
            try:
                lines.append(json.loads(line))
            except ValueError:
                expect("a line of the log", line, "JSON")
        return [it for it in lines if event in (None, it.get("event"))]

    def reasons(self):
        """How often it closed a connection, or turned a client away, for each reason that it tells."""
        return Counter(it.get("reason") for it in self.lines("closed") + self.lines("refused"))

    def spools(self):
        """The sizes of the spools that it has open."""
        sizes, folder = [], pathlib.Path(f"/proc/{self.process.pid}/fd")
        for file in folder.iterdir():
            try:
                if os.readlink(file).startswith(f"{self.spool_folder}/"):
                    sizes.append(file.stat().st_size)
            except OSError:
                pass
        return sizes

    def underway(self):
        """How many bytes the system holds between clients and this host, which have been sent and not read."""
        port, held = f":{self.port:04X}", 0
        for line in pathlib.Path("/proc/net/tcp").read_text().splitlines()[1:]:
            _, local, remote, state, queues, *_ = line.split()
            if state == "01" and (local.endswith(port) or remote.endswith(port)):
                held += sum(int(it, 16) for it in queues.split(":"))
        return held

    def connect(self, source=ADDRESS, room=None):
        """A connection from this address of the loopback, whose system keeps few bytes unread where a room is given."""
        wire = socket.socket()
        if room:
            wire.setsockopt(socket.SOL_SOCKET, socket.SO_RCVBUF, room)
        wire.settimeout(PATIENCE)
        wire.bind((source, 0))
        wire.connect((ADDRESS, self.port))
        return wire
