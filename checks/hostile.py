#!/usr/bin/env python3
"""Plays a hostile body to `swordd replay`: a deposit in chunks of one byte, each behind the longest chunk line there may
be (1,024 bytes with its CR LF), 2 GB for 2 MiB of content. It has to be answered 201, and the program may hold at most
64 MiB at any time: what a connection holds doesn't grow with the bytes that are no content.

    checks/hostile.py

The status is 0 where it is so. It needs nothing else, and takes some ten seconds.
"""

import sys
sys.path.insert(0, f"{sys.path[0]}/lib")

import os
import resource
import subprocess
import tempfile

from commands import start

CONTENT = 2 * 1024 * 1024
MOST_KIB = 64 * 1024
# A program that holds more than the limit meets the end of its address space soon, and not that of the machine.
ADDRESS_SPACE = 1024 * 1024 * 1024
HEAD = (b"POST /service HTTP/1.1\r\nHost: a\r\nTransfer-Encoding: chunked\r\nContent-Type: text/plain\r\n"
        b"Content-Disposition: attachment; filename=a.txt\r\n\r\n")
CHUNK = b"1;" + 1020 * b"x" + b"\r\n" + b"a\r\n"
CHUNKS = 1024


def send(wire):
    """Writes the request. A server that closes the connection before its end is seen by what it answered."""
    piece = CHUNKS * CHUNK
    try:
        wire.write(HEAD)
        for _ in range(CONTENT // CHUNKS):
            wire.write(piece)
        wire.write(b"0\r\n\r\n")
        wire.close()
    except BrokenPipeError:
        pass


def allow_memory():
    resource.setrlimit(resource.RLIMIT_AS, (ADDRESS_SPACE, ADDRESS_SPACE))


def main():
    words = "replay", "1523836800", "http://127.0.0.1:8080"
    with tempfile.TemporaryFile() as replies:
        program = start(*words, stdin=subprocess.PIPE, stdout=replies, preexec_fn=allow_memory)
        send(program.stdin)
        _, status, used = os.wait4(program.pid, 0)
        program.returncode = os.waitstatus_to_exitcode(status)
        replies.seek(0)
        answer = replies.readline().decode(errors="replace").strip()
    print(f"hostile body: {answer or 'no answer'}, status {program.returncode}, at most {used.ru_maxrss / 1024:.0f} MiB")
    well = answer == "HTTP/1.1 201 Created" and program.returncode == 0 and used.ru_maxrss <= MOST_KIB
    return 0 if well else 1


if __name__ == "__main__":
    sys.exit(main())
