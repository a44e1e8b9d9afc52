#!/usr/bin/env python3
"""Exports bags through the program, from a store that `swordd serve` made, and looks at each folder: its files, its
manifests by hashlib, and checks/validate-bag, a validator that knows RFC 8493 alone and also has to see damage. So it
does with an object of 3,000 files, whose manifests are long, and sees that each file was synchronized once it was whole.
Then it audits the store, before and after statements of Python's sqlite3 that damage it.

    checks/bags.py

The status is 0 where all is so. It needs the kit's clang (checks/lib/system_faults.py), and takes three seconds.
"""

import sys
sys.path.insert(0, f"{sys.path[0]}/lib")

import hashlib
import os
import pathlib
import shutil
import sqlite3
import subprocess
import tempfile

from commands import NO_SUCH_OBJECT, STORE_FAULT, TRANSFER_FAULT, USAGE, ends
from crates import ROOT
from expectations import expect, status_of
from growing import transaction
from served import Server
from system_faults import Faults

VALIDATOR = ROOT / "checks/validate-bag"
LISTED = ["bagit.txt", "bag-info.txt", "manifest-sha256.txt", "manifest-sha512.txt", "metadata/sword.json"]
TAGS = [*LISTED, "tagmanifest-sha256.txt", "tagmanifest-sha512.txt"]
LONG = 255 * "y"
MANY, LONG_MANIFEST = 3000, 128 * 1024
FILE_ROW = """INSERT INTO files SELECT ?1, object, name, media, ?2, tag, deposited, behalf, by_reference, ?3 FROM files
    WHERE file = 1"""
DAMAGE = """UPDATE blocks SET bytes = X'616264' WHERE owner = 5; UPDATE files SET size = 4 WHERE file = 4;
    UPDATE blocks SET place = 9 WHERE owner = 2 AND place = 0; DELETE FROM blocks WHERE owner = 3;"""


def fill(server, large):
    """Makes an object of four files and metadata, one of metadata alone, and one of a file."""
    def deposit(status, path, disposition, content, media="application/octet-stream"):
        server.ask(status, "POST", path, content, {"Content-Disposition": disposition, "Content-Type": media})
    metadata = '{"dc:title":"T"}'
    deposit(201, "/service", "attachment; filename=50%.txt", b"abc")
    deposit(200, "/objects/1", "attachment; filename=%2e%2e", large)
    deposit(200, "/objects/1", "attachment; filename*=UTF-8''d%C3%A9j%C3%A0%20vu.txt", b"abc")
    deposit(200, "/objects/1", f"attachment; filename={LONG}", b"")
    deposit(200, "/objects/1", "attachment; metadata=true", metadata, "application/json")
    deposit(201, "/service", "attachment; metadata=true", metadata, "application/json")
    deposit(201, "/service", "attachment; filename=a.txt", b"abc")


def has(bag, *names):
    """The folder has just these files and empty folders."""
    found = [it.relative_to(bag) for it in bag.rglob("*") if it.is_file() or not any(it.iterdir())]
    expect(f"the files of {bag.name}", sorted(map(str, found)), sorted(names))


def is_valid_by_validator(bag):
    ran = subprocess.run([sys.executable, "-B", VALIDATOR, bag], capture_output=True, text=True)
    return ran.returncode == 0


def is_valid(bag):
    """By the manifests, of which each algorithm has two, and by the validator."""
    payload = [str(it.relative_to(bag)) for it in (bag / "data").rglob("*") if it.is_file()]
    for kind, named in (("manifest", payload), ("tagmanifest", LISTED)):
        for algorithm in ("sha256", "sha512"):
            lines = (bag / f"{kind}-{algorithm}.txt").read_text(encoding="utf-8").splitlines()
            told = {path.replace("%25", "%"): digest for digest, _, path in (line.partition("  ") for line in lines)}
            expect(f"the {kind} of {bag.name} by {algorithm}", told,
                   {path: hashlib.new(algorithm, (bag / path).read_bytes()).hexdigest() for path in named})
    expect(f"the validator's word on {bag.name}", is_valid_by_validator(bag), True)


def damage(bag, folder):
    """The validator sees a changed byte, a file too many, a file too few, another tag file, and a manifest of either
    algorithm that tells another digest or lacks a file, where all else is as it tells."""
    def without_line(copy, manifest):
        """The manifest without its first line, and the tag manifests without it."""
        (copy / manifest).write_bytes((copy / manifest).read_bytes().partition(b"\n")[2])
        for it in copy.glob("tagmanifest-*.txt"):
            it.write_bytes(b"".join(line for line in it.read_bytes().splitlines(True) if manifest.encode() not in line))

    def with_other_digest(copy, manifest):
        """The tag manifest with another digit in its first line."""
        content = (copy / manifest).read_bytes()
        (copy / manifest).write_bytes((b"1" if content[:1] == b"0" else b"0") + content[1:])

    for number, works in enumerate((
            lambda copy: (copy / "data/1/50%.txt").write_bytes(b"abcx"), lambda copy: (copy / "data/9").write_bytes(b""),
            lambda copy: next((copy / "data/3").iterdir()).unlink(),
            lambda copy: (copy / "bagit.txt").write_bytes((bag / "bagit.txt").read_bytes() + b"x"),
            lambda copy: without_line(copy, "manifest-sha256.txt"), lambda copy: without_line(copy, "manifest-sha512.txt"),
            lambda copy: with_other_digest(copy, "tagmanifest-sha256.txt"),
            lambda copy: with_other_digest(copy, "tagmanifest-sha512.txt"))):
        copy = folder / f"damaged-{number}"
        shutil.copytree(bag, copy)
        works(copy)
        expect(f"the validator's word on damage {number}", is_valid_by_validator(copy), False)


def export(store, folder, large):
    first, second = folder / "first", folder / "second"
    files = ["data/1/50%.txt", "data/2/%2e%2e", "data/3/déjà vu.txt", f"data/4/{LONG}"]
    expect("what an export prints", ends(0, "", "export", store, "1", first), b"")
    has(first, *TAGS, *files)
    is_valid(first)
    expect("the large file", (first / files[1]).read_bytes(), large)
    ends(0, "", "export", store, "2", second)
    has(second, *TAGS, "data")
    is_valid(second)
    damage(first, folder)


def export_wrongly(store, folder):
    """Faults come in their order: the words, the store, the folder, the object."""
    other, first, none = folder / "other.db", folder / "first", folder / "none"
    other.write_text("no database at all, but a text that is longer than a head of one: " + 200 * "0")
    ends(1, USAGE, "export", other, "01", first)
    ends(1, USAGE, "export", store, "4000000000000000001", none)
    ends(2, STORE_FAULT, "export", other, "9", first)
    ends(3, TRANSFER_FAULT, "export", store, "9", first)
    ends(3, TRANSFER_FAULT, "export", store, "1", none / "inside")
    expect("whether a folder was made", none.exists(), False)
    is_valid(first)
    ends(1, NO_SUCH_OBJECT, "export", store, "9", none)
    expect("what is in the folder of no object", list(none.iterdir()), [])


def audit(store, folder):
    """Before and after the store is damaged, of which an export then gives a front."""
    expect("an audit", ends(0, "", "audit", store), b"files 5 damaged 0\n")
    absent = folder / "absent.db"
    ends(2, STORE_FAULT, "audit", absent)
    ends(2, STORE_FAULT, "export", absent, "1", folder / "none-of-it")
    expect("whether a store was made", absent.exists(), False)
    ends(2, STORE_FAULT, "audit", folder / "other.db")
    database = sqlite3.connect(store)
    database.executescript(DAMAGE)
    database.close()
    told = b"damaged 1 2\ndamaged 1 3\ndamaged 3 5\nfiles 5 damaged 3\n"
    expect("an audit of what is damaged", ends(4, "", "audit", store), told)
    third = folder / "third"
    ends(2, STORE_FAULT, "export", store, "1", third)
    has(third, *TAGS, "data/1/50%.txt", "data/2/%2e%2e", "data/3/déjà vu.txt")


def fill_many(folder):
    """Makes an object of a file through the server, and gives it further ones by their rows. Returns the store, and the
    contents of the files by their numbers."""
    with Server(1, folder) as server:
        fields = {"Content-Disposition": "attachment; filename=a", "Content-Type": "text/plain"}
        server.ask(201, "POST", "/service", b"1", fields)
        expect("the end of the server", server.ends(), (0, ""))
    contents = {number: str(number).encode() for number in range(1, MANY + 1)}
    with transaction(server.store) as database:
        for number, it in list(contents.items())[1:]:
            database.execute(FILE_ROW, (number, len(it), hashlib.sha256(it).digest()))
            database.execute("INSERT INTO blocks VALUES (0, ?, 1, 0, ?)", (number, it))
            database.execute("INSERT INTO sha512s VALUES (0, ?, ?)", (number, hashlib.sha512(it).digest()))
        database.execute("UPDATE state SET next_file = ?", (MANY + 1,))
    return server.store, contents


def export_many(folder, faults):
    """Manifests that are longer than 128 KiB are whole, byte for byte."""
    folder.mkdir()
    store, contents = fill_many(folder)
    bag = folder / "bag"
    faults.synced()
    ends(0, "", "export", store, "1", bag, env=faults.environment())
    is_synced(bag, faults)
    has(bag, *TAGS, *[f"data/{number}/a" for number in contents])
    for algorithm in ("sha256", "sha512"):
        wanted = "".join(f"{hashlib.new(algorithm, it).hexdigest()}  data/{number}/a\n" for number, it in contents.items())
        manifest = (bag / f"manifest-{algorithm}.txt").read_text(encoding="utf-8")
        expect(f"whether a manifest is long by {algorithm}", len(wanted) > LONG_MANIFEST, True)
        expect(f"whether the manifest of {MANY} files is whole by {algorithm}", manifest == wanted, True)
    is_valid(bag)


def is_synced(bag, faults):
    """Each file was synchronized, when it had all its bytes."""
    files = {str(it): it.stat().st_size for it in bag.resolve().rglob("*") if it.is_file()}
    told = {path: length for path, length in faults.synced().items() if path.startswith(f"{bag.resolve()}/")}
    wrong = sorted(set(told.items()) ^ set(files.items()))
    expect(f"the files of {bag.name} that weren't synchronized whole, {len(wrong)}", wrong[:3], [])


def main():
    large = os.urandom(200_000)
    with tempfile.TemporaryDirectory() as name:
        folder = pathlib.Path(name)
        faults = Faults(folder)
        with Server(7, folder) as server:
            fill(server, large)
            expect("the end of the server", server.ends(), (0, ""))
        export(server.store, folder, large)
        export_wrongly(server.store, folder)
        export_many(folder / "many", faults)
        audit(server.store, folder)
    return status_of("bags: exported whole, valid, and damage is seen")


if __name__ == "__main__":
    sys.exit(main())
