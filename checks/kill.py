#!/usr/bin/env python3
"""Kills `swordd serve` at random moments under load, and looks at what is left.

    checks/kill.py [ROUNDS]

In each round (200) a client deposits files, replaces metadata and sends segments over one connection, and after a
random time the server gets SIGKILL. Then sqlite3 checks the store, and the server is started again on it: each change
that was answered has to be there, and of the one that was in work all or nothing. Each segment of an upload is sent again
then, whether it was stored or not, and other bytes are refused in the place of one that was. Each upload promised a SHA-512
at its opening, every second one that of another content: sent to its end and deposited, it is refused then, and else taken.
The status is 0 where it was so. It needs nothing else; a round takes a second and a half of processor time.
"""

import sys
sys.path.insert(0, f"{sys.path[0]}/lib")

import http.client
import random
import tempfile
import threading
import time

import loads
from expectations import find, wrong
from served import Server

MANY = 1_000_000


def play():
    known = loads.Known()
    with tempfile.TemporaryDirectory() as folder:
        with Server(MANY, folder) as server:
            client = threading.Thread(target=loads.load, args=(server.port, known))
            client.start()
            time.sleep(random.uniform(0.01, 0.5))
            server.process.kill()
            server.process.wait()
            client.join()
        loads.integrity(folder)
        with Server(MANY, folder) as again:
            connection = http.client.HTTPConnection("127.0.0.1", again.port, timeout=60)
            loads.check(connection, known)
            connection.close()
    return len(known.files) + len(known.gone)


def main(arguments):
    rounds = int(arguments[0]) if arguments else 200
    seed = random.randrange(2**32)
    random.seed(seed)
    changes = sum(play() for _ in range(rounds))
    find("no deposit was answered", changes)
    print(f"kill: {rounds} rounds, {changes} deposits answered, {len(wrong)} wrong (seed {seed})")
    return 1 if wrong else 0


if __name__ == "__main__":
    sys.exit(main(sys.argv[1:]))
