#!/usr/bin/env python3
"""Fills the disk of a host's store, and looks what is served then, and once there is room again.

    checks/full.py

The store is on a file system of 56 MiB in memory. A client deposits files of 1 MiB until one is refused for want of room. From
then on what brings a content gets 500, for some seconds; GETs, HEADs, a completion and DELETEs are answered as ever. So it is
after a kill and another start over the full disk. Once the file system is larger, deposits go on, and each file that was
acknowledged is there, byte for byte, but for those that were deleted. The log tells of the reserve each time, and another host,
which is configured to have none, has none. It is the same on a file system that contents of 16 MiB, the largest, fill to within a
few KiB, so that the copy of the log has nothing but the reserve. The status is 0 where it was so. Mounting needs root; where it is
refused, nothing is played, and the line says so.
"""

import sys
sys.path.insert(0, f"{sys.path[0]}/lib")

import contextlib
import os
import pathlib
import subprocess
import tempfile
import time

from depositing import Client, as_file, exchange, first_file
from expectations import expect, find, status_of
from hosted import MIB, Host, until

SIZE, LARGER = "56m", "106m"
RESERVE = 32 * MIB
# Three contents of 16 MiB in the file, a fourth in the log, the reserve, and 64 KiB.
TIGHT, TIGHT_FILES = f"{49_616 + 16_769 + RESERVE // 1024 + 64}k", 4
# For so many seconds it is looked that nothing changes.
SECONDS = 3
MOST_FILES = 60


@contextlib.contextmanager
def small_disk(folder, size):
    """A file system of this size in the folder, or None where it can't be mounted."""
    folder.mkdir()
    mounted = subprocess.run(["mount", "-t", "tmpfs", "-o", f"size={size}", "swordd-full", folder], capture_output=True, check=False)
    try:
        yield folder if mounted.returncode == 0 else None
    finally:
        if mounted.returncode == 0:
            subprocess.run(["umount", folder], check=True)


class Kept:
    """What was acknowledged: each file's bytes by the path of its object and its own."""

    def __init__(self):
        self.files = {}

    def deposit(self, host, status, size=MIB):
        """Deposits a file, which comes to this status, or else to 201 or 500. Returns whether it was taken."""
        content = os.urandom(size)
        with Client(host) as client:
            reply, document = exchange(client.connection, "POST", "/service", content, as_file("a"))
        if status or reply.status != 201:
            expect("the status of a deposit", reply.status, status or 500)
        if reply.status == 201:
            self.files[host.path_of(reply.headers["Location"])] = host.path_of(first_file(document)), content
        return reply.status == 201

    def look(self, host, paths):
        """Each of these objects, and its file, is shown."""
        for path in paths:
            file, content = self.files[path]
            host.ask(200, "GET", path)
            host.ask(200, "HEAD", path)
            expect(f"the bytes of {file}", host.ask(200, "GET", file)[1] == content, True)

    def delete(self, host, path):
        host.ask(204, "DELETE", path)
        host.ask(404, "GET", path)
        del self.files[path]


def states(host):
    return [it["state"] for it in host.lines("reserve")]


def fill(host, kept, size=MIB):
    """Deposits until one is refused."""
    while kept.deposit(host, None, size) and len(kept.files) < MOST_FILES:
        pass
    find(f"the disk isn't full after {MOST_FILES} deposits", len(kept.files) < MOST_FILES)


def stay_low(host, kept):
    """What is served while the disk is full, over some seconds."""
    paths = list(kept.files)
    for second in range(SECONDS):
        kept.deposit(host, 500, 1000)
        kept.look(host, paths[second::SECONDS])
        kept.delete(host, paths[second])
        time.sleep(1.1)


def serve_full(folder, store, reserve, kept):
    with Host(folder, database=str(store)) as host:
        expect("the bytes of the reserve", reserve.stat().st_size, RESERVE)
        find("the reserve has holes", reserve.stat().st_blocks * 512 >= RESERVE)
        expect("what the log tells of a reserve that stands", states(host), [])
        reply, _ = host.ask(201, "POST", "/service", b"a", {**as_file("a"), "In-Progress": "true"})
        fill(host, kept)
        expect("what the log tells of the reserve on a full disk", states(host), ["given_up"])
        expect("whether the reserve is there on a full disk", reserve.exists(), False)
        stay_low(host, kept)
        host.ask(200, "POST", host.path_of(reply.headers["Location"]), b"", {"In-Progress": "false"})
        host.process.kill()
        host.process.wait()


def serve_with_room(folder, store, reserve, kept):
    with Host(folder, database=str(store)) as host:
        expect("what the log tells of a start on a full disk", states(host), ["not_written"])
        expect("whether a part of the reserve is there", reserve.exists(), False)
        stay_low(host, kept)
        subprocess.run(["mount", "-o", f"remount,size={LARGER}", store.parent], check=True)
        find("no deposit is taken once there is room", until(lambda: kept.deposit(host, None)))
        expect("what the log tells of the reserve once there is room", states(host), ["not_written", "standing"])
        expect("the bytes of the reserve once there is room", reserve.stat().st_size, RESERVE)
        kept.deposit(host, 201)
        kept.look(host, list(kept.files))


def serve_without(folder, store):
    with Host(folder, database=str(store), reserve_bytes=0) as host:
        Kept().deposit(host, 201)
        expect("the files of a store without a reserve", sorted(it.name for it in store.parent.glob("other*")), ["other.db", "other.db-wal"])


def serve_tight(folder, store):
    kept = Kept()
    with Host(folder, database=str(store)) as host:
        fill(host, kept, 16 * MIB)
        expect("how many contents of 16 MiB were taken", len(kept.files), TIGHT_FILES)
        stay_low(host, kept)


def play(disk, folder):
    store, reserve, kept = disk / "deposits.db", disk / "deposits.db-reserve", Kept()
    serve_full(folder / "full", store, reserve, kept)
    serve_with_room(folder / "room", store, reserve, kept)
    serve_without(folder / "without", disk / "other.db")
    return len(kept.files)


def main():
    with tempfile.TemporaryDirectory() as name, small_disk(pathlib.Path(name) / "disk", SIZE) as disk:
        if disk is None:
            print("full: left out, since no file system can be mounted here")
            return 0
        count = play(disk, pathlib.Path(name))
        with small_disk(pathlib.Path(name) / "tight-disk", TIGHT) as tight:
            serve_tight(pathlib.Path(name) / "tight", tight / "deposits.db")
    return status_of(f"full: a disk of {SIZE} filled, {count} files there in the end")


if __name__ == "__main__":
    sys.exit(main())
