"""A server of this repository that checks/conform plays against: its clock is set, and its store changed, exported and audited."""

import json
import os
import pathlib
import re
import sqlite3
import subprocess
import tempfile

from clocks import build_clock, set_moment
from crates import built_program
from example_play import MOMENT
from model import Config
from served import ADDRESS

# Has the C library take memory in large pages, where the system has them: it is started some thousand times, and half of what a start
# takes are the small ones.
LARGE_PAGES = "glibc.malloc.hugetlb=1:glibc.malloc.mmap_threshold=1073741824:glibc.malloc.top_pad=16777216"
# How the commands of its program end.
ENDS = {("export", 0): "done", ("export", 1): "no-such-object", ("audit", 0): "done", ("audit", 4): "damaged", ("audit", 2): "store-fault"}
# The files of a bag that have names of their own, in their order.
TAG_FILES = ("bagit.txt", "bag-info.txt", "manifest-sha256.txt", "manifest-sha512.txt", "metadata/sword.json", "tagmanifest-sha256.txt",
             "tagmanifest-sha512.txt")


def given_bag(bag):
    """What a sink is given where this folder is made, if it is: its files in their order."""
    payload = sorted(bag.glob("data/*/*"), key=lambda it: int(it.parent.name))
    tag_files = [bag / it for it in TAG_FILES if (bag / it).exists()]
    others = {it for it in bag.rglob("*") if it.is_file()} - {*payload, *tag_files}
    files = b"".join(b"file %s\r\n%s\r\n" % (os.fsencode(it.relative_to(bag)), it.read_bytes()) for it in [*tag_files, *payload, *others])
    return (b"folder data\r\n" if (bag / "data").is_dir() else b"") + files


class OwnServer:
    """A host in a folder of its own, whose clock is set and whose store is changed. Its base is the written one, whatever its port, so
    that all has to come as it is written."""

    def __init__(self, folder, port):
        self.folder, self.program = pathlib.Path(folder), built_program("swordd_host")
        self.store, self.moment, self.process = self.folder / "deposits.db", None, None
        self.named = {**os.environ, "LD_PRELOAD": str(build_clock(folder)), "MOMENT": str(self.folder / "moment"),
                      "GLIBC_TUNABLES": LARGE_PAGES}
        self.settings = {**vars(Config()), "address": ADDRESS, "port": port, "database": str(self.store), "spool_folder": str(folder),
                         "connections": 1_000_000, "reserve_bytes": 0}

    def start(self, configured, is_kept=False):
        """Starts it anew by this configuration: over an empty store, or over the one that it left."""
        self.end()
        if not is_kept:
            self.remove_store()
        configuration = self.folder / "configuration.json"
        configuration.write_text(json.dumps({**self.settings, **configured}))
        with open(self.folder / "said", "wb") as said:
            self.process = subprocess.Popen([self.program, configuration], env=self.named, stdin=subprocess.DEVNULL, stdout=said,
                                            stderr=said)

    def remove_store(self):
        for file in self.folder.glob(f"{self.store.name}*"):
            file.unlink()

    def set_moment(self, moment):
        """Moves its clock. Returns whether it shows the moment of the examples, as at first."""
        if moment != self.moment:
            set_moment(self.folder / "moment", moment)
            self.moment = moment
        return moment == MOMENT

    def end(self):
        """Ends it. Its store stays."""
        if self.process:
            self.process.kill()
            self.process.wait()
            self.process = None

    def run(self, *words):
        """How a command ends over its store, once it has ended itself, and what it prints."""
        ran = subprocess.run(["swordd", *words], executable=self.program, capture_output=True, check=False)
        return ENDS.get((words[0], ran.returncode), f"status {ran.returncode}"), ran.stdout

    def exported(self, number):
        """What an export gives, and the word for its end."""
        with tempfile.TemporaryDirectory(dir=self.folder) as made:
            bag = pathlib.Path(made) / "bag"
            end, _ = self.run("export", self.store, number, bag)
            return given_bag(bag), end

    def audited(self):
        """What an audit prints, and the word for its end."""
        end, printed = self.run("audit", self.store)
        return printed, end

    def audited_object(self, number):
        """The same of one object: how many files the store has of it, and which an audit of all finds damaged."""
        end, printed = self.run("audit", self.store)
        damaged = re.findall(rb"(?m)^damaged %d (\d+)$" % number, printed)
        database = sqlite3.connect(self.store)
        (count,) = database.execute("SELECT count(*) FROM files WHERE object = ?", (number,)).fetchone()
        database.close()
        lines = [b"checked %d" % count, *(b"damaged %s" % it for it in damaged)]
        return b"".join(it + b"\r\n" for it in lines), "done" if end == "damaged" else end

    def change(self, statements):
        """Its store is changed, once it has ended. There may be none yet."""
        database = sqlite3.connect(self.store)
        database.execute("PRAGMA journal_mode=WAL")
        database.executescript(statements)
        database.close()
