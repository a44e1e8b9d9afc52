"""The same bytes as the server's by Python's sqlite3, with the same durability, for what is measured beside it."""

import hashlib
import pathlib
import sqlite3

BLOCK = 65_536


class Plain:
    """The same bytes by sqlite3: a row for a file, and its content in blocks."""

    def __init__(self, folder):
        self.database = sqlite3.connect(pathlib.Path(folder) / "plain.db", isolation_level=None)
        for text in ("PRAGMA journal_mode=WAL", "PRAGMA synchronous=FULL",
                     "CREATE TABLE files (file INTEGER PRIMARY KEY, size INTEGER, sha256 BLOB) STRICT",
                     "CREATE TABLE blocks (file INTEGER, place INTEGER, bytes BLOB, PRIMARY KEY (file, place)) STRICT",
                     "CREATE TABLE metadata (object INTEGER, name TEXT, place INTEGER, value TEXT, "
                     "PRIMARY KEY (object, name, place)) STRICT"):
            self.database.execute(text)
        self.next = 0

    def write(self, content):
        self.next += 1
        self.database.execute("BEGIN IMMEDIATE")
        self.database.execute("INSERT INTO files VALUES (?, ?, ?)",
                              (self.next, len(content), hashlib.sha256(content).digest()))
        blocks = ((self.next, at // BLOCK, content[at:at + BLOCK]) for at in range(0, len(content), BLOCK))
        self.database.executemany("INSERT INTO blocks VALUES (?, ?, ?)", blocks)
        self.database.execute("COMMIT")

    def read(self):
        rows = self.database.execute("SELECT bytes FROM blocks WHERE file = ? ORDER BY place", (self.next,))
        return b"".join(row[0] for row in rows)

    def describe(self, texts):
        self.database.execute("BEGIN IMMEDIATE")
        self.database.execute("DELETE FROM metadata WHERE object = 1")
        rows = ((place, it) for place, it in enumerate(texts))
        self.database.executemany("INSERT INTO metadata VALUES (1, 'dc:title', ?, ?)", rows)
        self.database.execute("COMMIT")

    def names(self):
        return self.database.execute("SELECT file, size, sha256 FROM files WHERE file = ?", (self.next,)).fetchall()


class PlainUpload:
    """An upload by sqlite3, in tables like the server's: the row of each segment, and its content in blocks."""

    BYTES = "SELECT bytes FROM blocks WHERE kind = ? AND owner = 1 ORDER BY part, place"

    def __init__(self, folder):
        self.file = pathlib.Path(folder) / "plain.db"
        self.database = sqlite3.connect(self.file, isolation_level=None)
        for text in ("PRAGMA journal_mode=WAL", "PRAGMA synchronous=FULL",
                     "CREATE TABLE uploads (upload INTEGER PRIMARY KEY, last INTEGER) STRICT",
                     "CREATE TABLE segments (upload INTEGER, number INTEGER, size INTEGER, PRIMARY KEY (upload, number)) STRICT",
                     "CREATE TABLE blocks (kind INTEGER, owner INTEGER, part INTEGER, place INTEGER, bytes BLOB, "
                     "PRIMARY KEY (kind, owner, part, place)) STRICT",
                     "INSERT INTO uploads VALUES (1, 0)"):
            self.database.execute(text)

    def segment(self, number, content):
        self.database.execute("BEGIN IMMEDIATE")
        blocks = ((number, at // BLOCK, content[at:at + BLOCK]) for at in range(0, len(content), BLOCK))
        self.database.executemany("INSERT INTO blocks VALUES (1, 1, ?, ?, ?)", blocks)
        self.database.execute("INSERT INTO segments VALUES (1, ?, ?)", (number, len(content)))
        self.database.execute("UPDATE uploads SET last = ?", (number,))
        self.database.execute("COMMIT")

    def digest(self, kind):
        digests = hashlib.sha256(), hashlib.sha512()
        for (content,) in self.database.execute(self.BYTES, (kind,)):
            for it in digests:
                it.update(content)
        return digests[0].digest()

    def deposit(self):
        self.database.execute("BEGIN IMMEDIATE")
        self.digest(1)
        for text in ("UPDATE blocks SET kind = 0 WHERE kind = 1 AND owner = 1", "DELETE FROM segments", "DELETE FROM uploads"):
            self.database.execute(text)
        self.database.execute("COMMIT")

    def read(self):
        for _ in self.database.execute(self.BYTES, (0,)):
            pass

    def end(self):
        self.database.close()
        self.file.unlink()
