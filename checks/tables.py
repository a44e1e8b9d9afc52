#!/usr/bin/env python3
"""The file of a store, read by Python's sqlite3 once `swordd serve` has written it: the queries of checks/tables.txt, each
of which has to show what is written there.

    checks/tables.py

The status is 0 where all is so. It needs nothing else, and takes a second.
"""

import sys
sys.path.insert(0, f"{sys.path[0]}/lib")

import hashlib
import os
import sqlite3

from crates import ROOT
from depositing import JSON, as_file, as_segment, as_upload
from expectations import expect, status_of
from served import Server

QUERIES = ROOT / "checks/tables.txt"


def deposit(server, contents):
    """Makes the requests that tables.txt speaks of."""
    server.ask(201, "POST", "/service", contents["a.txt"], as_file("a.txt", "text/plain"))
    server.ask(204, "PUT", "/objects/1/metadata", '{"dc:title":"Observations"}', JSON)
    server.ask(200, "POST", "/objects/1", contents["large"], as_file("large", "image/png"))
    promised = f"SHA-512={hashlib.sha512(contents['segment']).hexdigest()}"
    server.ask(201, "POST", "/staging", None, as_upload(100_000, 2, 65_536, promised))
    server.ask(204, "POST", "/staging/1", contents["segment"], as_segment(1))


def read_queries(contents):
    """Returns the queries, each with the lines that it has to show, and those of contents, each with its content."""
    shown, whole = [], []
    for line in QUERIES.read_text(encoding="utf-8").splitlines():
        if line.startswith("? "):
            shown.append((line[2:], []))
        elif line.startswith("= "):
            name, _, query = line[2:].partition(" ")
            whole.append((query, contents[name]))
        elif line and not line.startswith("#"):
            for name, content in contents.items():
                line = line.replace("{%s}" % name, hashlib.sha256(content).hexdigest().upper())
                line = line.replace("{%s sha512}" % name, hashlib.sha512(content).hexdigest().upper())
            shown[-1][1].append(line)
    return shown, whole


def as_shown(row):
    """A row as the sqlite3 shell shows it."""
    return "|".join("" if it is None else str(it) for it in row)


def main():
    contents = {"a.txt": b"abc", "large": os.urandom(65_537), "segment": os.urandom(65_536)}
    with Server(5) as server:
        deposit(server, contents)
        expect("the end of the server", server.ends(), (0, ""))
        database = sqlite3.connect(f"file:{server.store}?mode=ro", uri=True)
        shown, whole = read_queries(contents)
        for query, lines in shown:
            expect(query, [as_shown(row) for row in database.execute(query)], lines)
        for query, content in whole:
            expect(query, b"".join(bytes.fromhex(row[0]) for row in database.execute(query)), content)
        database.close()
    return status_of(f"tables: {len(shown) + len(whole)} queries")


if __name__ == "__main__":
    sys.exit(main())
