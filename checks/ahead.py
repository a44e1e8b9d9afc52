#!/usr/bin/env python3
"""Uploads are hashed before a deposit by reference needs their digests, as their segments come, and once more behind a restart.

    checks/ahead.py

The same upload is deposited twice, in segments, by `swordd serve` and then by `swordd_host`: once by the process that took
the segments in, and once by another one, which was started between. The host deposits it a third time, by another process that
has had time to hash it. All have to reply the same, and the bag's manifest to name the content. What is measured is the server's
processor time for the deposit by reference: the first and the third may take 0.7 of the second at most, of which about two thirds
are digests. Where one takes more they are measured once more. It needs nothing else.
"""

import sys
sys.path.insert(0, f"{sys.path[0]}/lib")

import hashlib
import random
import tempfile

from depositing import Client, by_reference
from expectations import expect, find, status_of
from hosted import Host, rest
from served import Server

MIB = 1024 * 1024
SEGMENTS, SEGMENT_SIZE = 8, 6 * MIB
MOST = 0.7


def send(server, content):
    """Sends all segments. Returns the upload's path."""
    with Client(server) as client:
        url = client.open(len(content), SEGMENTS, SEGMENT_SIZE)
        for number in range(1, SEGMENTS + 1):
            client.segment(204, url, number, content[(number - 1) * SEGMENT_SIZE:number * SEGMENT_SIZE])
    return server.path_of(url)


def deposit(server, path, content):
    """Deposits the upload by reference, and looks into the bag. Returns the server's seconds for the deposit."""
    with Client(server) as client:
        before = server.seconds()
        entry = {server.base + path: "attachment; filename=whole"}
        reply, _ = client.ask(201, "POST", "/service", *by_reference(entry))
        took = server.seconds() - before
        made = server.path_of(reply.headers["Location"])
        _, manifest = client.ask(200, "GET", f"{made}/bag/manifest-sha256.txt")
        expect("the manifest", manifest.decode(), f"{hashlib.sha256(content).hexdigest()}  data/1/whole\n")
    return took


def measured(begin, content, is_restarted, is_rested):
    """The seconds of a deposit by the server that took the segments in, or by another one, which may have rested before."""
    with tempfile.TemporaryDirectory() as folder:
        with begin(folder) as server:
            path = send(server, content)
            if not is_restarted:
                rest(server)
                return deposit(server, path, content)
        with begin(folder) as server:
            if is_rested:
                rest(server)
            return deposit(server, path, content)


def is_ahead(name, begin, content, **how):
    """A deposit is much shorter where its upload was hashed. Returns what it took."""
    for tries in range(2):
        ahead, behind = measured(begin, content, **how), measured(begin, content, True, False)
        if ahead <= MOST * behind:
            break
    find(f"{name}: {ahead:.2f} s where it was hashed, and {behind:.2f} s where not", ahead <= MOST * behind)
    return f"{name} {ahead:.2f} for {behind:.2f} s"


def main():
    content = random.randbytes(SEGMENTS * SEGMENT_SIZE)
    said = [is_ahead("serve", lambda folder: Server(2, folder), content, is_restarted=False, is_rested=True),
            is_ahead("host", Host, content, is_restarted=False, is_rested=True),
            is_ahead("host behind a restart", Host, content, is_restarted=True, is_rested=True)]
    return status_of(f"ahead: {', '.join(said)}")


if __name__ == "__main__":
    sys.exit(main())
