#!/usr/bin/env python3
"""The store of version 1 that checks/examples/older-stores.txt has as SQL, its text `version-1`.

    checks/older_store.py FILE               makes the database FILE by the statements of the text
    checks/older_store.py --anew             has a program of version 1 make the store, and writes the text from it
    checks/older_store.py --anew --check     says whether the text is as it would be written

A program of version 1 (SWORDD=PATH, or the one in crates/swordd/out) is sent the requests of the first example of that file
and keeps what it always kept. Then each table is read by Python's sqlite3: its statement as the program made it, and its
rows. Only the moments are those of the example, in the place of the days on which the program ran; the second upload
timed out since between the two the program was started again. The text is what counts: a program of a later version
writes other tables, so --anew ends with status 2 there.
"""

import sys
sys.path.insert(0, f"{sys.path[0]}/lib")

import socket
import sqlite3
import tempfile

from crates import DATA
from example_play import Play, put, read_file, texts_of
from older_stores import EXAMPLES, NAME, VERSION, statements
from served import FOUR_DIGITS, Server, free_port

# The columns that are moments.
MOMENTS = (("state", "clock"), ("objects", "changed"), ("files", "deposited"), ("uploads", "last"))


class Requests(Play):
    """Notes the requests of an example in place of asking them: for each exchange its moment, what is sent, and how many
    bytes have to come back."""

    def __init__(self, words):
        super().__init__(words, "whole", False)
        self.asked = []

    def ends(self, word):
        self.asked.append((self.moment, self.stream, len(self.want)))
        self.stream, self.want = b"", b""


def make(file):
    """Makes a new database by these statements, as a server leaves it that has ended."""
    database = sqlite3.connect(file)
    database.execute("PRAGMA journal_mode=WAL")
    database.executescript("\n".join(statements()))
    database.close()


def asked_first():
    """What is asked in the first example."""
    requests = Requests(texts_of(DATA / "texts.txt"))
    front, examples = read_file(EXAMPLES)
    for _, line in front + examples[0].lines:
        requests.line(line)
    return requests.asked


def ask(folder, exchanges):
    """A server on the store of the folder is sent these exchanges."""
    port = free_port(FOUR_DIGITS)
    with Server(1, folder, port) as server:
        with socket.create_connection(("127.0.0.1", port)) as client:
            for stream, length in exchanges:
                client.sendall(stream.replace(b"8080", b"%d" % port))
                came = b""
                while len(came) < length:
                    part = client.recv(65_536)
                    if not part:
                        raise RuntimeError(f"{came} came for {stream}")
                    came += part
        if server.ends() != (0, ""):
            raise RuntimeError("the server failed")
        return server.store


def set_moments(store, moment):
    """Puts a moment in the place of all later ones."""
    with sqlite3.connect(store) as database:
        for table, column in MOMENTS:
            database.execute(f"UPDATE {table} SET {column} = ?1 WHERE {column} > ?1", (moment,))
    database.close()


def listed(store):
    """The statements that make the store, one a line."""
    database = sqlite3.connect(store)
    tables = database.execute("SELECT name, sql FROM sqlite_master WHERE type = 'table' ORDER BY rowid").fetchall()
    lines = [f"{sql};" for _, sql in tables]
    for name, _ in tables:
        columns = [row[1] for row in database.execute(f"PRAGMA table_info({name})")]
        quoted = " || ', ' || ".join(f"quote({it})" for it in columns)
        rows = database.execute(f"SELECT {quoted} FROM {name} ORDER BY rowid")
        lines += [f"INSERT INTO {name} ({', '.join(columns)}) VALUES ({row[0]});" for row in rows]
    database.close()
    return lines


def written_anew():
    """The lines of the text, by a program of version 1."""
    exchanges = asked_first()
    with tempfile.TemporaryDirectory() as folder:
        for moment in sorted({it[0] for it in exchanges}):
            store = ask(folder, [(stream, length) for at, stream, length in exchanges if at == moment])
            set_moments(store, moment)
        lines = listed(store)
    if f"INSERT INTO format (id, version) VALUES (1, {VERSION});" not in lines:
        print("the program makes tables of another version, so the text stays as it is", file=sys.stderr)
        sys.exit(2)
    return [f"| {it}\\" for it in lines]


def main(words):
    if words and not words[0].startswith("--"):
        make(words[0])
        return 0
    if "--anew" not in words:
        sys.exit(__doc__)
    front, _, rest = EXAMPLES.read_text(encoding="utf-8").partition(f"\ntext {NAME}\n")
    text = "\n".join([f"{front}\ntext {NAME}", *written_anew(), "", rest.partition("\n\n")[2]])
    if not put(EXAMPLES, text, "--check" in words):
        sys.exit("not as it would be written")
    print(f"{NAME}: {text.count('INSERT INTO')} rows")
    return 0


if __name__ == "__main__":
    sys.exit(main(sys.argv[1:]))
