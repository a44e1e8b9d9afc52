#!/usr/bin/env python3
"""Clients of `swordd_host`, many at once and of every kind, each part over hosts of its own.

    checks/host.py [PART ..]

Without PART all parts are played, one after another. Each has a line, and what came otherwise has one before it:

    busy         50 clients with deposits beside 300 that are silent, and the line of each request in the log
    unread       20 clients that ask for 16 MiB three times at once, and don't read, also while the file changes
    crowd        1,100 connections at once, where 1,024 have room
    slow         clients that are silent, send a byte now and then, or read so
    broken       one that stops in the midst of a segment, and comes back with the rest of the upload
    refused      a deposit that is too large, whose client goes on sending
    spools       more bytes of a file that changes than the spools may have, and a folder of spools that is gone
    address      more connections from one address than it may have
    unfinished   more bytes of unfinished requests than there may be
    stopped      a host that is told to stop under the load of 20 clients, and opened again
    ended        what a host says that ends for a fault of its disk or of its sockets
    failing      a disk whose writes fail for a while, where the host goes on
    segments     uploads of segments of 7 to 16 MiB
    waits        what makes others wait no longer: a deposit of 64 MiB that is refused, 400,000 texts that nobody asked for, and
                 deposits of 41 uploads that a host had time to hash behind a restart
    fair         ten clients that do what takes the host most, beside one that asks for the service document
    killed       a host that is killed under the load of 20 clients, and opened again
    examples     the example files over sockets, 50 examples at once over one store
    statuses     its names, what it prints of a configuration, each fault of one by its field, and each exit status

What has to come is waited for at most a minute, so a slow machine is no fault; the times that are told are for the reader, but
those of `waits` are bounded widely. The status is 0 where all came as it should. It needs Linux, 4,096 files for a process, and
the kit's clang (checks/lib/system_faults.py).
"""

import sys
sys.path.insert(0, f"{sys.path[0]}/lib")

import http.client
import json
import random
import re
import resource
import socket
import subprocess
import tempfile
import threading
import time
from functools import partial

import host_clients
import host_examples
import host_stops
import host_waits
import loads
from commands import USAGE
from crates import ROOT, built_program
from expectations import expect, status_of, wrong
from hosted import ADDRESS, MIB, PATIENCE, Host, begin

FILES = 4096

# ---- killed ----

def open_again(folder, clients):
    """What a client was answered is there, by a host that opens the store once more."""
    loads.integrity(folder)
    with Host(folder) as host:
        def look(known):
            connection = http.client.HTTPConnection(ADDRESS, host.port, timeout=PATIENCE)
            loads.check(connection, known)
            connection.close()
        host_clients.at_once([partial(look, it) for it in clients])


def killed():
    rounds, count, changes = 3, 20, 0
    for _ in range(rounds):
        clients = [loads.Known() for _ in range(count)]
        with tempfile.TemporaryDirectory() as folder:
            with Host(folder) as host:
                threads = [threading.Thread(target=loads.load, args=(host.port, it)) for it in clients]
                for it in threads:
                    it.start()
                time.sleep(random.uniform(0.3, 1.0))
                host.kill()
                for it in threads:
                    it.join()
            open_again(folder, clients)
        changes += sum(len(it.files) + len(it.gone) for it in clients)
    expect("whether a deposit was answered", changes > 0, True)
    return f"{rounds} kills, {changes} deposits answered"


# ---- examples ----

def examples():
    counts = host_examples.play(host_examples.chosen_files(), expect)
    reasons = ", ".join(f"{name} {count}" for name, count in counts.left_out.most_common())
    print(f"  left out: {sum(counts.left_out.values())} examples, by what they need: {reasons}")
    return (f"{counts.examples} examples with {counts.exchanges} exchanges, {host_examples.AT_ONCE} at once, over "
            f"{counts.hosts} configurations")


# ---- statuses ----

REQUIRED = ("database", "spool_folder", "base")
WRONG_VALUES = {
    "address": ("localhost", "", 1, None), "port": (0, 65_536, "8080", -1, 1.5), "database": (1, None, "", "/", "/no/such/folder/a.db"),
    "spool_folder": (False, "", "/no/such/folder"), "stop_file": (1, None), "base": ("nonsense", "https://a", "http://a/", 7), "title": (1,),
    "abstract": ([],), "depositor": ({},), "on_behalf_of": ("true", 1), "require_if_match": (0,),
    "max_upload": (0, 16 * MIB + 1, "1"), "max_assembled": (0, 2**34 + 1), "max_segments": (0, 10_001),
    "staging_max_idle": (0, 31_536_001), "idle_seconds": (0, 86_401, "60"), "least_rate": (-1, "1", 1_000_000_001),
    "connections": (0, 1.5, None), "address_connections": (0, 1_025, True), "spool_bytes": (MIB - 1, "x"),
    "unfinished_bytes": (32 * MIB - 1, []), "reserve_bytes": (-1, "1", 64 * MIB + 1)}


def ends(words, status, text):
    """The program has to end by itself with this status, with this text in the one line at most that it says on standard
    error. Whether it ends."""
    how = {"stdin": subprocess.DEVNULL, "stdout": subprocess.DEVNULL, "stderr": subprocess.PIPE}
    with begin(*words, **how) as program:
        try:
            said = program.communicate(timeout=PATIENCE)[1].decode(errors="replace")
        except subprocess.TimeoutExpired:
            program.kill()
            return expect(f"the end of {words}", "it goes on", status)
    what = f"the end by {text or 'no fault'}"
    expect(what, program.returncode, status)
    return expect(f"{what}, in {said!r}", text in said and said.count("\n") <= 1, True)


def configurations(settings):
    """Files of configurations, each with a fault, and what it is told by."""
    for name in REQUIRED:
        yield {key: it for key, it in settings.items() if key != name}, name
    for name, values in WRONG_VALUES.items():
        for value in values:
            yield {**settings, name: value}, name
    yield {**settings, "idle_second": 1}, "idle_second"
    yield json.dumps(settings)[:-1] + ', "port": 8080}', "port"
    yield [settings], ""
    yield "{", ""


def example(folder, settings):
    """The configuration that is printed has each field but one explained, and is taken once its folders are there."""
    with begin("--example", stdout=subprocess.PIPE, stderr=subprocess.PIPE, text=True) as program:
        printed, explained = program.communicate(timeout=PATIENCE)
    expect("the status of an example", program.returncode, 0)
    printed = json.loads(printed)
    expect("the fields that no example has", sorted(set(WRONG_VALUES) - set(printed)), ["connections"])
    expect("the fields that aren't explained", [name for name in WRONG_VALUES if f"{name}:" not in explained], [])
    file = folder / "example.json"
    file.write_text(json.dumps({**printed, "database": settings["database"], "spool_folder": settings["spool_folder"]}))
    ends(["--check", file], 0, "")


HOST_USAGE = "usage: swordd_host CONFIGURATION | --example | --check CONFIGURATION | --version\n"
# By which of its names the program is called, and whether it is the host's.
CALLED = {"swordd_host": True, "/a/swordd_host": True, "./swordd_host": True, "swordd": False, "a/xswordd_host": False,
          "swordd_hosts": False, "swordd_host/swordd": False, "_host": False, "": False}


def names():
    """The name by which it is called decides what its words mean, also where one of them isn't UTF-8."""
    for name, is_host in CALLED.items():
        for words in ((), (b"\xff",), ("--check",)):
            ran = subprocess.run([name, *words], executable=built_program("swordd_host"), capture_output=True, check=False)
            usage = HOST_USAGE if is_host else USAGE
            expect(f"the end as {name!r} with {words}", (ran.returncode, ran.stdout, ran.stderr.decode()), (1, b"", usage))


def checked():
    """What `--check` prints of a configuration is checked.txt, byte for byte, and it says nothing else."""
    place = ROOT / "checks"
    with begin("--check", "checked.json", cwd=place, stdout=subprocess.PIPE, stderr=subprocess.PIPE) as program:
        printed = program.communicate(timeout=PATIENCE)
    expect("what is printed of checked.json", (program.returncode, *printed), (0, (place / "checked.txt").read_bytes(), b""))


def version():
    """The version is printed with the kit that README names."""
    kit = re.search(r"^Proved with `(.+?)`", (ROOT / "README.md").read_text(encoding="utf-8"), re.MULTILINE)[1]
    with begin("--version", stdout=subprocess.PIPE, stderr=subprocess.PIPE, text=True) as program:
        printed, said = program.communicate(timeout=PATIENCE)
    told = re.fullmatch(r"swordd_host [0-9]+(\.[0-9]+)+, (.+)\n", printed)
    expect("the version", (program.returncode, told and told[2], said), (0, kit, ""))


def unprinted(configuration):
    """What can't be printed on standard output is told, behind the fields that are explained."""
    for words in (["--example"], ["--check", configuration], ["--version"]):
        with open("/dev/full", "wb") as full:
            ran = subprocess.run([built_program("swordd_host"), *words], stdout=full, stderr=subprocess.PIPE, check=False)
        said = ran.stderr.decode().splitlines()[-1:]
        expect(f"the end of {words[0]}", (ran.returncode, said), (3, ["swordd_host: standard output can't be written"]))


def statuses():
    names()
    checked()
    version()
    with Host(connections=3) as host:
        settings, folder = host.settings, host.folder
        for _ in range(3):
            host.ask(200, "GET", "/service")
        expect("the status once all connections were served", host.ends()[0], 0)
        example(folder, settings)
        number = 0
        for number, (value, field) in enumerate(configurations(settings)):
            file = folder / f"wrong-{number}.json"
            file.write_text(value if isinstance(value, str) else json.dumps(value))
            if not (ends(["--check", file], 1, field) and ends([file], 1, field)):
                break
        for words in ([], [folder / "none.json"], ["--check"], ["--example", "x"], [file, file]):
            ends(words, 1, "")
        good, other = folder / "good.json", folder / "other.db"
        good.write_text(json.dumps({**settings, "database": str(other)}))
        ends(["--check", good], 0, "")
        stop = folder / "stop"
        stop.touch()
        good.write_text(json.dumps({**settings, "database": str(other), "stop_file": str(stop)}))
        ends(["--check", good], 0, "")
        ends([good], 1, "stop_file: the file is there")
        expect("whether a check, or a start that is told to stop, makes a store", other.exists(), False)
        expect("whether a start leaves the stop file", stop.exists(), True)
        stop.unlink()
        unprinted(good)
        other.write_text("no database at all, but a text that is longer than a head of one: " + 200 * "0")
        ends([good], 2, "")
        other.unlink()
        with socket.socket() as taken:
            taken.bind((ADDRESS, settings["port"]))
            taken.listen()
            ends([good], 3, "can't listen")
        return f"{number + 1} faults of configurations by their fields, and the statuses 0 to 3"


PARTS = {**host_clients.PARTS, **host_stops.PARTS, **host_waits.PARTS, **{it.__name__: it for it in (killed, examples, statuses)}}


def allow_files():
    """A process, and those that it starts, may have so many files."""
    _, most = resource.getrlimit(resource.RLIMIT_NOFILE)
    if most != resource.RLIM_INFINITY and most < FILES:
        expect("the files that a process may have", most, FILES)
    else:
        resource.setrlimit(resource.RLIMIT_NOFILE, (FILES, most))


def play(name):
    """Plays a part and prints its line. One that breaks off is wrong."""
    began, before = time.monotonic(), len(wrong)
    try:
        told = PARTS[name]()
    except (OSError, RuntimeError, http.client.HTTPException, ValueError, LookupError) as fault:
        expect(f"the part {name}", repr(fault), "played to its end")
        told = "broken off"
    verdict = "" if len(wrong) == before else f"  {len(wrong) - before} WRONG"
    print(f"{name:<11} {time.monotonic() - began:5.1f} s  {told}{verdict}", flush=True)


def main(names):
    if not set(names) <= set(PARTS):
        print(f"the parts are {' '.join(PARTS)}", file=sys.stderr)
        return 2
    allow_files()
    for name in names or PARTS:
        play(name)
    return status_of(f"host: {len(names or PARTS)} parts")


if __name__ == "__main__":
    sys.exit(main(sys.argv[1:]))
