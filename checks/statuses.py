#!/usr/bin/env python3
"""Brings `swordd` to each of its exit statuses, in every way that README.md and docs/OPERATING.md tell, and compares the
status and the one line on standard error.

    checks/statuses.py

The status is 0 where all is so. It needs Linux and the kit's clang (checks/lib/allocations.py, for want of memory), and takes
some five seconds, most of them for a connection of as many reads as there may be.
"""

import sys
sys.path.insert(0, f"{sys.path[0]}/lib")

import contextlib
import os
import pathlib
import resource
import signal
import socket
import sqlite3
import subprocess
import tempfile

from allocations import build_refuser
from commands import NO_SUCH_OBJECT, STORE_FAULT, TRANSFER_FAULT, USAGE, ends, start
from depositing import as_file
from expectations import expect, status_of
from served import Server, free_port

REPLAY = ("replay", "1523836800", "http://127.0.0.1:8080")
GET = b"GET /service HTTP/1.1\r\nHost: a\r\n\r\n"
MOST_READS = 1_048_576
FULL, A_FOLDER = "/dev/full", "/"


def done(store, folder):
    """Status 0: no line. The end of a served COUNT is seen where the store is made."""
    expect("the replies to no input", ends(0, "", *REPLAY), b"")
    replies = ends(0, "", *REPLAY, given=GET)
    expect("the reply to a request", replies.startswith(b"HTTP/1.1 200 OK\r\n"), True)
    ends(0, "", *REPLAY, given=b"a broken head\r\n\r\n")
    expect("an audit", ends(0, "", "audit", store), b"files 1 damaged 0\n")
    ends(0, "", "export", store, "1", folder / "bag")


def wrong_words(store, folder):
    """Status 1 with the usage: words that are missing, too many, of another range, no number, no UTF-8; a refused base."""
    one = str(store)
    for words in (
            (), ("",), ("rerun",), (b"\xff",), ("replay",), ("replay", "0"), (*REPLAY, "x"), ("replay", "-1", "http://a"),
            ("replay", "1.5", "http://a"), ("replay", str(2**64), "http://a"), ("replay", "0", b"http://\xff"),
            ("replay", "0", ""), ("replay", "0", "a"), ("replay", "0", "https://a"), ("replay", "0", "http://a/"),
            ("replay", "0", "http://A"), ("serve",), ("serve", "8080", one), ("serve", "8080", one, "1", "1"),
            ("serve", "0", one, "1"), ("serve", "65536", one, "1"), ("serve", "x", one, "1"), ("serve", "8080", one, "0"),
            ("serve", "8080", one, "1000001"), ("serve", "8080", one, "x"), ("export", one, "1"),
            ("export", one, "1", "x", "x"), ("export", one, "0", "x"), ("export", one, "01", "x"),
            ("export", one, "4000000000000000001", "x"), ("export", one, "x", "x"), ("audit",), ("audit", one, one)):
        ends(1, USAGE, *words, cwd=folder)
    expect("whether a folder was made", (folder / "x").exists(), False)


def no_such_object(store, folder):
    ends(1, NO_SUCH_OBJECT, "export", store, "2", folder / "none")


def commands_over(store, folder):
    """The commands over a store, an export into a folder that isn't there."""
    return ("serve", str(free_port()), store, "1"), ("export", store, "1", folder / "not-made"), ("audit", store)


def store_faults(store, folder):
    """Status 2: a file that can't be opened, is none of ours, is of another version, or is open elsewhere, and so locked."""
    other, version, missing = folder / "other.db", folder / "version.db", folder / "no-such-folder/deposits.db"
    other.write_text("no database at all, but a text that is longer than a head of one: " + 200 * "0")
    version.write_bytes(store.read_bytes())
    change(version, "UPDATE format SET version = 9")
    for bad in (other, version, missing, folder):
        for words in commands_over(bad, folder):
            ends(2, STORE_FAULT, *words)
    with Server(1, folder):
        for words in commands_over(store, folder):
            ends(2, STORE_FAULT, *words)
    lost = folder / "lost.db"
    lost.write_bytes(store.read_bytes())
    change(lost, "DELETE FROM blocks")
    ends(2, STORE_FAULT, "export", lost, "1", folder / "lost")
    change(lost, "UPDATE files SET sha256 = X'07'")
    expect("an audit of a digest of one byte", ends(4, "", "audit", lost), b"damaged 1 1\nfiles 1 damaged 1\n")
    expect("whether a folder was made", (folder / "not-made").exists(), False)


def change(store, statement):
    database = sqlite3.connect(store)
    database.execute(statement)
    database.commit()
    database.close()


def want_of_memory(store, folder):
    """Status 2 too: an allocation of each command is refused, from its words to the opening of the store."""
    refuser = str(build_refuser(folder))
    for refused in ("1", "20", "300"):
        for words in (REPLAY, *commands_over(store, folder)):
            ends(2, STORE_FAULT, *words, env={"LD_PRELOAD": refuser, "REFUSED": refused})


def transfer_faults(store, folder):
    """Status 3: standard input, standard output and the folder of an export fail."""
    with open(FULL, "wb") as full:
        ends(3, TRANSFER_FAULT, *REPLAY, given=GET, stdout=full)
        ends(3, TRANSFER_FAULT, "audit", store, stdout=full)
    unread = os.open(A_FOLDER, os.O_RDONLY)
    ends(3, TRANSFER_FAULT, *REPLAY, stdin=unread)
    os.close(unread)
    ends(3, TRANSFER_FAULT, "export", store, "1", folder)
    ends(3, TRANSFER_FAULT, "export", store, "1", folder / "no-such-folder/bag")
    ends(3, TRANSFER_FAULT, "export", store, "1", folder / "cut", preexec_fn=allow_short_files)
    expect("the bytes of the cut file", (folder / "cut/data/1/a.txt").stat().st_size < 200_000, True)


def allow_short_files():
    """A write that takes a file past 100,000 bytes fails."""
    signal.signal(signal.SIGXFSZ, signal.SIG_IGN)
    resource.setrlimit(resource.RLIMIT_FSIZE, (100_000, 100_000))


def too_many_reads():
    """Status 3: a connection that comes to the greatest number of reads, each of one byte: a pipe of packets."""
    reading, writing = os.pipe2(os.O_DIRECT)
    program = start(*REPLAY, stdin=reading, stdout=subprocess.PIPE, stderr=subprocess.PIPE)
    os.close(reading)
    try:
        os.write(writing, b"POST /service HTTP/1.1\r\nHost: a\r\nContent-Length: %d\r\n\r\n" % (2 * MOST_READS))
        for _ in range(MOST_READS + 1000):
            os.write(writing, b"x")
        expect("whether it reads on", True, False)
    except BrokenPipeError:
        pass
    os.close(writing)
    replies, said = program.communicate(timeout=60)
    expect("the end of too many reads", (program.returncode, said.decode(), replies), (3, TRANSFER_FAULT, b""))


def no_connection(store, folder):
    """Status 3: the port is taken, or the connection can't be accepted, as the system gives the process no file more."""
    with socket.socket() as taken:
        taken.bind(("127.0.0.1", 0))
        taken.listen()
        ends(3, TRANSFER_FAULT, "serve", str(taken.getsockname()[1]), store, "1")
    # The first connection has its file already while the server waits for it.
    with Server(2, folder) as server:
        resource.prlimit(server.process.pid, resource.RLIMIT_NOFILE, (1, 1))
        with contextlib.suppress(OSError):
            socket.create_connection(("127.0.0.1", server.port)).close()
        expect("the end of a server that can't accept", server.ends(), (3, TRANSFER_FAULT))


def failed_close(store, folder):
    """Status 2, behind an audit that is done: a server was killed, and its log can't be copied into the file of the store."""
    with Server(2, folder) as server:
        server.ask(201, "POST", "/service", 200_000 * b"y", as_file("b.txt"))
    found = b"files 2 damaged 0\n"
    expect("an audit of a store that can't be closed", ends(2, STORE_FAULT, "audit", store, preexec_fn=allow_short_files), found)
    expect("the same once it can", ends(0, "", "audit", store), found)


def main():
    with tempfile.TemporaryDirectory() as name:
        folder = pathlib.Path(name)
        with Server(1, folder) as server:
            server.ask(201, "POST", "/service", 200_000 * b"x", as_file("a.txt"))
            expect("the end of the server", server.ends(), (0, ""))
        for check in (done, wrong_words, no_such_object, store_faults, want_of_memory, transfer_faults, no_connection,
                      failed_close):
            check(server.store, folder)
        too_many_reads()
    return status_of("statuses: each with its line")


if __name__ == "__main__":
    sys.exit(main())
