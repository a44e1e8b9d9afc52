#!/usr/bin/env python3
"""Four stores behind nginx by server name, with deploy/shards.conf, each with a user of its own: a load of deposits on one, then on
all four, while one of them is moved to another folder and port. Each deposit that was answered is looked up in the end.

    checks/shards.py [SECONDS]      of each load, 4 by default

It prints the deposits a second of one store and of four, and what the move cost. The status is 0 where nothing that was answered
is lost; the rates are for the reader. It needs nginx (apt-get install nginx), and says so where there is none.
"""

import sys
sys.path.insert(0, f"{sys.path[0]}/lib")

import contextlib
import http.client
import json
import multiprocessing
import pathlib
import re
import shutil
import tempfile
import threading
import time

import fronted
from crates import ROOT
from expectations import expect, status_of
from hosted import Host
from served import free_port

SITE = ROOT / "deploy/shards.conf"
NAMES = ("maps", "letters", "data", "y2026")
CLIENTS = 8
SIZE = 1024
MOVED = 2


def name_of(store):
    return f"{NAMES[store]}.deposit.example.org"


def site(folder, port, ports):
    """The site over these stores, in clear, since it is the stores that are measured, with its users' files in the folder."""
    for number in range(1, len(NAMES) + 1):
        (folder / f"store_{number}.users").write_text(f"user-{number}:{{PLAIN}}{fronted.PASSWORD}\n", encoding="utf-8")
    text = fronted.fitted(SITE.read_text(encoding="utf-8"), {
        "listen 443 ssl;": f"listen 127.0.0.1:{port};", "listen 80;": f"listen 127.0.0.1:{free_port()};",
        "/etc/nginx/": f"{folder}/", "/var/log/nginx/": f"{folder}/",
        **{f"127.0.0.1:{8081 + at}": f"127.0.0.1:{it}" for at, it in enumerate(ports)}})
    return re.sub(r"(?m)^ *ssl_.*\n", "", text)


def fields_of(store, user=None):
    """The name of a store, and the password of its user or of another's."""
    return {"Host": name_of(store), **fronted.password_of(f"user-{user or store + 1}")}


def content_of(client, number):
    return f"{client} {number} ".encode().ljust(SIZE, b"x")


def deposit_on(port, store, client, until, outcome):
    """One client's deposits until that time, each at once after the other. It puts what was answered, and the longest wait."""
    answered, longest, connection, number = [], 0, None, 0
    while (began := time.time()) < until:
        number += 1
        try:
            connection = connection or http.client.HTTPConnection("127.0.0.1", port, timeout=60)
            connection.request("POST", "/service", content_of(client, number), {
                **fields_of(store), "Content-Disposition": f"attachment; filename={client}-{number}"})
            reply = connection.getresponse()
            document = reply.read()
            if reply.status == 201:
                answered.append((store, json.loads(document)["links"][0]["@id"], client, number))
            else:
                time.sleep(0.02)
        except (OSError, http.client.HTTPException):
            connection = None
            time.sleep(0.02)
        longest = max(longest, time.time() - began)
    outcome.put((answered, longest))


def load(port, stores, seconds, meanwhile=None):
    """Clients on these stores for so long, each in a process of its own. Returns what was answered."""
    outcome, until = multiprocessing.Queue(), time.time() + seconds
    clients = [multiprocessing.Process(target=deposit_on, args=(port, stores[at % len(stores)], f"{len(stores)}-{at}", until, outcome))
               for at in range(CLIENTS)]
    for it in clients:
        it.start()
    if meanwhile:
        meanwhile()
    parts = [outcome.get(timeout=seconds + 120) for _ in clients]
    for it in clients:
        it.join()
    return [one for answered, _ in parts for one in answered], max(longest for _, longest in parts)


class Stores:
    """The hosts of the stores, each over a folder of its own, and nginx in front of them."""

    def __init__(self, place, kept):
        self.place, self.kept, self.port = place, kept, free_port()
        self.hosts = [self.start(at, place / f"store-{at}") for at in range(len(NAMES))]
        (place / "nginx").mkdir()
        self.nginx = kept.enter_context(fronted.Nginx(place / "nginx", self.site(), self.port))
        self.seconds_of_move = 0

    def start(self, store, folder):
        return self.kept.enter_context(Host(folder, base=f"http://{name_of(store)}", on_behalf_of=True))

    def site(self):
        return site(self.place / "nginx", self.port, [it.port for it in self.hosts])

    def move(self):
        """One store goes to another folder and port: its host ends, database and log are copied, another one begins."""
        began, old, folder = time.monotonic(), self.hosts[MOVED], self.place / "moved"
        old.process.terminate()
        old.process.wait()
        folder.mkdir()
        for file in old.folder.glob("deposits.db*"):
            shutil.copy2(file, folder)
        self.hosts[MOVED] = self.start(MOVED, folder)
        self.nginx.reload(self.site())
        self.seconds_of_move = time.monotonic() - began
        for file in old.folder.glob("deposits.db*"):
            file.unlink()


def get(connection, store, path):
    """A GET, once more where nginx closed the connection meanwhile, as those of before a reload."""
    for is_last in (False, True):
        try:
            connection.request("GET", path, headers=fields_of(store))
            reply = connection.getresponse()
            return reply.status, reply.read()
        except http.client.RemoteDisconnected:
            connection.close()
            if is_last:
                raise


def look_up(port, answered):
    """Each deposit that was answered is there, with its bytes."""
    connection, lost = http.client.HTTPConnection("127.0.0.1", port, timeout=60), 0
    for store, url, client, number in answered:
        lost += get(connection, store, url.removeprefix(f"http://{name_of(store)}")) != (200, content_of(client, number))
    expect("deposits that were answered and are lost", lost, 0)


def main(words):
    seconds = float(words[0]) if words else 4.0
    if fronted.missing():
        print(f"shards: skipped, since {fronted.missing()} isn't installed (apt-get install nginx)")
        return 0
    with tempfile.TemporaryDirectory() as name, contextlib.ExitStack() as kept:
        stores = Stores(pathlib.Path(name), kept)
        of_one, _ = load(stores.port, [0], seconds)
        mover = threading.Timer(seconds / 3, stores.move)
        of_four, _ = load(stores.port, range(len(NAMES)), seconds)
        moving, longest = load(stores.port, range(len(NAMES)), seconds, mover.start)
        mover.join()
        for it in range(len(NAMES)):
            expect(f"whether {name_of(it)} has deposits", any(one[0] == it for one in of_four), True)
        look_up(stores.port, [*of_one, *of_four, *moving])
    rates = [len(it) / seconds for it in (of_one, of_four, moving)]
    print(f"one store {rates[0]:.0f} deposits of 1 KiB a second, four {rates[1]:.0f} ({rates[1] / rates[0]:.2f} times as many), "
          f"and {rates[2]:.0f} with a move that took {stores.seconds_of_move:.1f} s; longest wait {longest:.1f} s")
    return status_of(f"shards: {len(of_one) + len(of_four) + len(moving)} deposits answered")


if __name__ == "__main__":
    sys.exit(main(sys.argv[1:]))
