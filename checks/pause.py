#!/usr/bin/env python3
"""Backs up a host that goes on serving, by deploy/backup, at random moments under load, and looks at each copy.

    checks/pause.py [COPIES]

Three clients deposit files, replace metadata and send segments, each over a connection of its own, while the script pauses the
host and copies its store, so many times (6). Each copy is then opened, as after a kill: what a client was answered before the
pause is there, and of what was in work all or nothing. In the end so is all in the host itself, and no client waited longer than
the copies took. Then what goes wrong: copies that fail, scripts that are killed, a full disk, a host that was made to go on.
Each leaves no copy, and the host serves. The status is 0 where it was so.
"""

import sys
sys.path.insert(0, f"{sys.path[0]}/lib")

import contextlib
import copy
import http.client
import os
import pathlib
import random
import signal
import subprocess
import tempfile
import threading
import time

import loads
from crates import ROOT
from expectations import expect, find, status_of, wrong
from hosted import Host, until
from served import Server

TOOL = ROOT / "deploy/backup"
CLIENTS = 3
MANY = 1_000_000
# So many seconds may a client wait beyond the longest pause.
SLACK = 3
# In the place of `cp`, where the host is paused: tells so, and waits until it may go on.
GATE = """#!/bin/sh
case "$*" in *--reflink=always*) exit 1 ;; esac
touch "$GATE/paused"
until [ -e "$GATE/open" ]; do sleep 0.01; done
{then}
exec /bin/cp "$@"
"""


class Gate:
    """A folder of commands that are found before the system's: a `cp` that waits, and others where they are given."""

    def __init__(self, folder, then="", **others):
        self.folder = folder
        folder.mkdir()
        for name, text in {"cp": GATE.replace("{then}", then), **others}.items():
            (folder / name).write_text(text, encoding="utf-8")
            (folder / name).chmod(0o755)

    def environment(self):
        return {**os.environ, "GATE": str(self.folder), "PATH": f"{self.folder}:{os.environ['PATH']}"}

    def is_paused(self):
        return (self.folder / "paused").exists()

    def open(self):
        (self.folder / "open").touch()


def begin(host, copies, gate, *words):
    return subprocess.Popen([TOOL, *words, "--pid", str(host.process.pid), host.store, copies], env=gate.environment(), text=True,
                            stdout=subprocess.PIPE, stderr=subprocess.PIPE)


def state_of(host):
    return pathlib.Path(f"/proc/{host.process.pid}/stat").read_text().rpartition(") ")[2][0]


def goes_on(what, host):
    """The host isn't stopped, and answers."""
    expect(f"whether the host goes on after {what}", until(lambda: state_of(host) != "T"), True)
    host.ask(200, "GET", "/service")


class Load:
    """A client of the host: what it was answered, and its longest wait."""

    def __init__(self, host):
        self.known, self.longest, self.host = loads.Known(), 0, host
        self.thread = threading.Thread(target=self.run)
        self.thread.start()

    def run(self):
        connection = http.client.HTTPConnection("127.0.0.1", self.host.port, timeout=60)
        request = connection.request

        def timed(*words, **how):
            self.began = time.monotonic()
            request(*words, **how)
        answer = connection.getresponse

        def answered():
            reply = answer()
            self.longest = max(self.longest, time.monotonic() - self.began)
            return reply
        connection.request, connection.getresponse = timed, answered
        loads.load_over(connection, self.known)


def snapshot(clients):
    """What each client knows, while the host is paused and so none learns more."""
    time.sleep(0.1)
    return [copy.deepcopy(it.known) for it in clients]


def back_up(host, clients, place, number):
    """A copy at a random moment. Returns its folder, what was known then, and the seconds of the pause."""
    time.sleep(random.uniform(0.05, 0.5))
    gate = Gate(place / f"gate-{number}")
    with begin(host, place / "copies", gate) as script:
        expect("whether the host is paused", until(gate.is_paused) and state_of(host), "T")
        known = snapshot(clients)
        gate.open()
        told, said = script.communicate()
    expect(f"the end of backup {number}: {said}", script.returncode, 0)
    return pathlib.Path(told.strip()), known, int(said.split()[-2]) / 1000


def look_at(folder, known):
    """A copy opens as after a kill, and has what each client was answered."""
    loads.integrity(folder)
    with Server(MANY, folder) as again:
        for it in known:
            with contextlib.closing(http.client.HTTPConnection("127.0.0.1", again.port, timeout=60)) as connection:
                loads.check(connection, it)


def under_load(place, count):
    """Returns how many changes the copies were asked for."""
    with Host(place / "host") as host:
        clients = [Load(host) for _ in range(CLIENTS)]
        copies = [back_up(host, clients, place, number) for number in range(count)]
        time.sleep(0.2)
        host.kill()
        for it in clients:
            it.thread.join()
    for folder, known, _ in [] if wrong else copies:
        look_at(folder, known)
    look_at(host.folder, [it.known for it in clients])
    longest, pause = max(it.longest for it in clients), max(it[2] for it in copies)
    expect(f"whether a client waited {longest:.1f} s, and not those {pause:.1f} of the longest pause", longest < pause + SLACK, True)
    return sum(len(it.files) + len(it.gone) for _, known, _ in copies for it in known)


def left_in(copies):
    return sorted(it.name for it in copies.iterdir()) if copies.exists() else []


def fails(host, place, what, gate, wanted, meanwhile=None):
    """A backup that comes to nothing: the host serves, nothing is left, and what is wrong is told."""
    copies = place / "failed"
    with begin(host, copies, gate) as script:
        if meanwhile:
            expect(f"whether the host is paused: {what}", until(gate.is_paused), True)
            meanwhile(script)
        gate.open()
        _, said = script.communicate()
    goes_on(what, host)
    expect(f"the status of {what}", script.returncode != 0, True)
    find(f"what is told of {what}: {said}", wanted in said)
    expect(f"what is left of {what}", left_in(copies), [])


def failures(place):
    full = "#!/bin/sh\nprintf 'Avail\\n%s\\n' 4000\n"
    with Host(place / "ill") as host:
        host.ask(201, "POST", "/service", b"abc", {"Content-Disposition": "attachment; filename=a"})
        fails(host, place, "a copy that fails", Gate(place / "1", then="echo no >&2; exit 1"), "the copy failed")
        disk = Gate(place / "2", df=full)
        fails(host, place, "a full disk", disk, "has room for 4000 bytes")
        expect("whether the host was paused on a full disk", disk.is_paused(), False)
        fails(host, place, "a host that goes on meanwhile", Gate(place / "3"), "the server went on",
              lambda _: host.process.send_signal(signal.SIGCONT))
        fails(host, place, "a script that is ended", Gate(place / "4"), "", lambda script: script.terminate())
        another_backup(host, place)
        a_killed_script(host, place)
        unknown_holder(host, place)
    as_it_stands(host, place)


def another_backup(host, place):
    """While one is under way a second one touches nothing."""
    gate = Gate(place / "5")
    with begin(host, place / "first", gate) as script:
        expect("whether the host is paused by the first", until(gate.is_paused), True)
        with begin(host, place / "second", gate) as second:
            expect("the end of a second backup", (second.wait(), "is under way" in second.stderr.read()), (1, True))
        expect("the host meanwhile", state_of(host), "T")
        gate.open()
        expect("the end of the first", script.wait(), 0)
    goes_on("two backups", host)


def a_killed_script(host, place):
    """SIGKILL leaves it no time: the host goes on all the same, and the next backup removes what was begun."""
    gate, copies = Gate(place / "6"), place / "killed"
    with begin(host, copies, gate) as script:
        expect("whether the host is paused by what is killed", until(gate.is_paused), True)
        script.kill()
        script.wait()
        goes_on("a script that was killed", host)
        expect("what is left of it", [it[-5:] for it in left_in(copies)], ["Z.new"])
        gate.open()
    (copies / "20200101T000000Z").mkdir()
    ran = subprocess.run([TOOL, "--keep", "1", "--pid", str(host.process.pid), host.store, copies], capture_output=True, text=True,
                         check=False)
    expect(f"the next backup: {ran.stderr}", ran.returncode, 0)
    expect("what stands there then", left_in(copies), ["20200101T000000Z", pathlib.Path(ran.stdout.strip()).name])


def unknown_holder(host, place):
    """Where another process has the store than it was told, it copies nothing."""
    ran = subprocess.run([TOOL, host.store, place / "unknown"], capture_output=True, text=True, check=False)
    expect("a backup that isn't told of the host", (ran.returncode, left_in(place / "unknown")), (1, []))
    find(f"what it says: {ran.stderr}", f"is open in process {host.process.pid}" in ran.stderr)


def as_it_stands(host, place):
    """Of a host that is gone, as after a kill."""
    ran = subprocess.run([TOOL, host.store, place / "unknown"], capture_output=True, text=True, check=False)
    if not expect(f"a copy of a host that isn't running: {ran.stderr}", ran.returncode, 0):
        return
    with Server(MANY, ran.stdout.strip()) as again:
        expect("the file in a copy of a host that isn't running", again.ask(200, "GET", "/objects/1/files/1")[1], b"abc")


def main(words):
    seed = random.randrange(2**32)
    random.seed(seed)
    count = int(words[0]) if words else 6
    with tempfile.TemporaryDirectory() as name:
        place = pathlib.Path(name)
        changes = under_load(place, count)
        failures(place)
    find("no deposit was answered", changes)
    return status_of(f"pause: {count} copies of {changes} deposits that were answered, and 8 that fail (seed {seed})")


if __name__ == "__main__":
    sys.exit(main(sys.argv[1:]))
