#!/usr/bin/env python3
"""Counts by callgrind how many instructions a request of each kind takes `swordd replay`, or `swordd serve`.

    checks/instructions.py [--serve] [--parts] [--owners] [--functions N] [--calls WORD] [KIND..]

Each kind is a request that is asked over and over, on one connection over a database in memory, in an object that has one file
of 1 KiB, or 100 of them. What one takes is what 200 more of them add, or two more where it has 1 MiB or 16, so that neither the
opening of the database nor what the first requests prepare is in it. Behind it stands how many statements are run for it. With
`--serve` it is asked over a socket, each request once the one before was answered, and the database is a file. A KIND chooses the
kinds that have its words. `--parts` tells where the instructions are, `--owners` which crates they are for, the kit's or this
repository's, with what these have the standard library and the C library do, `--functions` the N functions in which most of them
are, and `--calls` how often a request calls the functions whose name has the word.

It needs valgrind. Instructions are the same in every run, whatever else the machine does, but tell nothing of the disk: for
time there is speed.py. It measures, so it is no part of checks/all.
"""

import sys
sys.path.insert(0, f"{sys.path[0]}/lib")

import argparse
import collections
import http.client
import json
import re
import subprocess
import tempfile
from pathlib import Path

from crates import built_program
from depositing import as_segment, as_upload, by_reference
from served import FOUR_DIGITS, Server, free_port

MOMENT, BASE = "1523836800", "http://127.0.0.1:8080"
FEW, MORE = 100, 300
FEW_LARGE, MORE_LARGE = 1, 3
CONTENT = bytes(range(65, 81)) * 64
MIB, PARTS_OF_UPLOAD = 1024 * CONTENT, 16
FILE = {"Content-Type": "text/plain", "Content-Disposition": "attachment; filename=a.txt"}
DOCUMENT = {"Content-Type": "application/json"}
TITLES = json.dumps({"dc:title": ["T", "U"]}).encode()
MANY = 100
OPENING = as_upload(10_000 * len(CONTENT), 10_000, len(CONTENT))


def request(method, path, body=b"", fields=None):
    lines = [f"{method} {path} HTTP/1.1", "Host: 127.0.0.1:8080"]
    lines += [f"{name}: {value}" for name, value in (fields or {}).items()]
    lines += [f"Content-Length: {len(body)}"] if body else []
    return "\r\n".join([*lines, "", ""]).encode() + body


DEPOSIT = request("POST", "/service", CONTENT, FILE)
DESCRIBED = [DEPOSIT, request("PUT", "/objects/1/metadata", TITLES, DOCUMENT)]
FULL = [*DESCRIBED, *(MANY - 1) * [request("POST", "/objects/1", CONTENT, FILE)]]


def segment(number, content=CONTENT, upload=1):
    return request("POST", f"/staging/{upload}", content, as_segment(number))


def whole_uploads(count):
    """What sends so many uploads of 16 MiB in segments of 1 MiB."""
    opening = request("POST", "/staging", b"", as_upload(PARTS_OF_UPLOAD * len(MIB), PARTS_OF_UPLOAD, len(MIB)))
    return [it for upload in range(1, count + 1) for it in (opening, *(segment(at + 1, MIB, upload) for at in range(PARTS_OF_UPLOAD)))]


def reference(upload):
    document, fields = by_reference({f"{BASE}/staging/{upload}": "attachment; filename=a.txt"})
    return request("POST", "/service", document.encode(), fields)


# What is sent before, and the request of each place from 0.
KINDS = {
    "GET the service document": ([], lambda _: request("GET", "/service")),
    "POST a file of 1 KiB to the service": ([], lambda _: DEPOSIT),
    "GET an object": (DESCRIBED, lambda _: request("GET", "/objects/1")),
    "GET metadata": (DESCRIBED, lambda _: request("GET", "/objects/1/metadata")),
    "PUT metadata": (DESCRIBED, lambda _: request("PUT", "/objects/1/metadata", TITLES, DOCUMENT)),
    "GET a file of 1 KiB": (DESCRIBED, lambda _: request("GET", "/objects/1/files/1")),
    "PUT a file of 1 KiB": (DESCRIBED, lambda _: request("PUT", "/objects/1/files/1", CONTENT, FILE)),
    "POST a segment of 1 KiB": ([request("POST", "/staging", b"", OPENING)], lambda at: segment(at + 1)),
    "GET the list of a bag": (DESCRIBED, lambda _: request("GET", "/objects/1/bag")),
    "GET a manifest": (DESCRIBED, lambda _: request("GET", "/objects/1/bag/manifest-sha256.txt")),
    "GET a payload of 1 KiB": (DESCRIBED, lambda _: request("GET", "/objects/1/bag/data/1/a.txt")),
    "GET an object of 100 files": (FULL, lambda _: request("GET", "/objects/1")),
    "GET the list of a bag of 100": (FULL, lambda _: request("GET", "/objects/1/bag")),
    "GET a manifest of 100": (FULL, lambda _: request("GET", "/objects/1/bag/manifest-sha256.txt")),
    "GET the bagit.txt of 100": (FULL, lambda _: request("GET", "/objects/1/bag/bagit.txt")),
    "GET a payload of 1 KiB of 100": (FULL, lambda _: request("GET", "/objects/1/bag/data/1/a.txt")),
}

LARGE = request("POST", "/service", 16 * MIB, FILE)
LARGE_KINDS = {
    "POST a file of 16 MiB to the service": ([], lambda _: LARGE),
    "GET a file of 16 MiB": ([LARGE], lambda _: request("GET", "/objects/1/files/1")),
    "POST a segment of 1 MiB": ([request("POST", "/staging", b"", as_upload(64 * len(MIB), 64, len(MIB)))], lambda at: segment(at + 1, MIB)),
    "POST an upload of 16 MiB by reference": (whole_uploads(MORE_LARGE), lambda at: reference(at + 1)),
}
KINDS |= LARGE_KINDS

# A part of the program, and the functions in it.
PARTS = {"digests": r"sha2::", "memory": r"_?(int_)?(m|re|c)?alloc|_?int_|free|rattle_alloc|unlink_chunk|sysmalloc|.*arena",
         "copies": r"_*mem(cpy|move|set|cmp)", "sqlite": r"<?sqlite", "heads": r"<?(httparse|http_uri|memchr)",
         "the server": r"<?(dep_|swordd)"}
STATEMENT = "sqlite::connection::bind_all"
# Whose crate a function is of. What is of neither works for its callers.
OWNERS = {"the kit's sqlite": r"<?sqlite", "the kit's digests": r"<?sha2",
          "the kit's other crates": r"<?(httparse|http_uri|memchr|matchit|url|serde_json|json|itoa|httpdate|jiff|percent_encoding|base64|hex|mio)",
          "the server": PARTS["the server"]}


def first_match(patterns, name):
    return next((it for it, names in patterns.items() if re.match(names, name or "")), "other")


class Profile:
    """What callgrind wrote of one run: the instructions of each function by itself, and how often it was called."""

    def __init__(self, text):
        self.own, self.calls, names = collections.Counter(), collections.Counter(), {}
        # By each function, what its callers had it and those that it calls do.
        self.callers, self.shared = collections.defaultdict(collections.Counter), {}
        function, is_call = None, False
        for line in text.splitlines():
            if named := re.match(r"(c?fn)=\((\d+)\)(?: (.*))?$", line):
                word, number, name = named.groups()
                names.setdefault(number, name)
                if word == "fn":
                    function = names[number]
                else:
                    called = names[number]
            elif line.startswith("calls="):
                self.calls[called] += int(line[6:].split()[0])
                is_call = True
            elif cost := re.match(r"[+\-*\d]\S* (\d+)$", line):
                if is_call:
                    self.callers[called][function] += int(cost.group(1))
                else:
                    self.own[function] += int(cost.group(1))
                is_call = False

    def shares(self, name, above=()):
        """The owners of what a function does, each with its share."""
        owner = first_match(OWNERS, name)
        callers = {it: cost for it, cost in self.callers[name].items() if it not in above and it != name}
        if owner != "other" or not callers or not sum(callers.values()):
            return {owner: 1.0}
        if name not in self.shared:
            found = collections.Counter()
            for caller, cost in callers.items():
                for it, share in self.shares(caller, (*above, name)).items():
                    found[it] += share * cost / sum(callers.values())
            self.shared[name] = found
        return self.shared[name]

    def owners(self):
        """The instructions by their owners."""
        found = collections.Counter()
        for name, cost in list(self.own.items()):
            for owner, share in self.shares(name).items():
                found[owner] += share * cost
        return found


def replayed(words, requests):
    """Gives all requests to the program at once. Returns what it answered."""
    ran = subprocess.run([*words, built_program("swordd"), "replay", MOMENT, BASE], input=b"".join(requests), capture_output=True, check=False)
    return ran.stdout if ran.returncode == 0 else ran.stderr


def served(words, requests, folder):
    """Asks one request after another over a connection. Returns what was answered."""
    with Server(1, folder, free_port(FOUR_DIGITS), front=words) as server:
        connection = http.client.HTTPConnection("127.0.0.1", server.port)
        connection.connect()
        said = b""
        for it in requests:
            connection.sock.sendall(it.replace(BASE.encode(), server.base.encode()))
            reply = http.client.HTTPResponse(connection.sock)
            reply.begin()
            reply.read()
            said += f"HTTP/1.1 {reply.status}\r\n".encode()
        connection.close()
        server.ends()
    return said


def profiled(kind, count, serves):
    """The profile of a run of so many requests, each of which has to be answered well."""
    before, ask = KINDS[kind]
    requests = [*before, *(ask(at) for at in range(count))]
    with tempfile.TemporaryDirectory() as folder:
        out = Path(folder, "out")
        words = ["valgrind", "--tool=callgrind", f"--callgrind-out-file={out}"]
        said = served(words, requests, folder) if serves else replayed(words, requests)
        statuses = re.findall(rb"HTTP/1\.1 (\d+)", said)
        if len(statuses) != len(requests) or not all(it.startswith(b"2") for it in statuses):
            sys.exit(f"{kind}: {len(statuses)} replies to {len(requests)} requests, {set(statuses)}, {said[-300:]}")
        return Profile(out.read_text(encoding="utf-8", errors="replace"))


def less(more, few, requests):
    """What one of so many more requests adds to each name, the most first."""
    added = {name: (count - few[name]) / requests for name, count in more.items()}
    return sorted(added.items(), key=lambda it: -it[1])


def main():
    parser = argparse.ArgumentParser(usage=__doc__)
    parser.add_argument("kinds", nargs="*")
    parser.add_argument("--serve", action="store_true")
    parser.add_argument("--parts", action="store_true")
    parser.add_argument("--owners", action="store_true")
    parser.add_argument("--functions", type=int, default=0)
    parser.add_argument("--calls", action="append", default=[])
    chosen = parser.parse_args()
    for kind in KINDS:
        if chosen.kinds and not any(word in kind for word in chosen.kinds):
            continue
        counts = (FEW_LARGE, MORE_LARGE) if kind in LARGE_KINDS else (FEW, MORE)
        few, more = (profiled(kind, count, chosen.serve) for count in counts)
        own, calls = (less(*it, counts[1] - counts[0]) for it in ((more.own, few.own), (more.calls, few.calls)))
        print(f"{kind:<40}{sum(count for _, count in own):12,.0f}{dict(calls).get(STATEMENT, 0):6,.0f} statements", flush=True)
        parts = collections.Counter()
        for name, count in own if chosen.parts else ():
            parts[first_match(PARTS, name)] += count
        for owner, count in less(more.owners(), few.owners(), counts[1] - counts[0]) if chosen.owners else ():
            print(f"    {count:12,.0f} for {owner}")
        for part, count in parts.most_common():
            print(f"    {count:12,.0f} {part}")
        for name, count in own[:chosen.functions]:
            print(f"    {count:12,.0f} {name}")
        for name, count in calls:
            if count and any(word in name for word in chosen.calls):
                print(f"    {count:12,.2f} calls {name}")


if __name__ == "__main__":
    main()
