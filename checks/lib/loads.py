"""A client's load of changes on a server that is killed in its midst, and what has to be there of it then."""

import hashlib
import http.client
import json
import os
import random
import shutil
import sqlite3
import tempfile
from dataclasses import dataclass, field

from depositing import ADDRESS, as_file, as_segment, as_upload, by_reference, exchange, first_file
from expectations import find

SEGMENT = 70_000


class Known:
    """What the client was answered, and what it asked last."""

    def __init__(self):
        self.files, self.titles, self.uploads, self.gone, self.asked = {}, {}, {}, set(), None


@dataclass
class Upload:
    """An upload of three segments: its content, whether the SHA-512 that it promised is that, and what was answered."""
    content: bytes
    is_promised: bool
    received: set = field(default_factory=set)

    def deposited(self):
        """The status of its deposit."""
        return 201 if self.is_promised else 412


def path_in(url):
    return "/" + url.split("/", 3)[3]


def deposit(connection, known):
    content = os.urandom(random.choice([1, 1000, 70_000, 300_000]))
    known.asked = ("deposit", content)
    reply, document = exchange(connection, "POST", "/service", content, as_file("a"))
    assert reply.status == 201, reply.status
    known.files[path_in(first_file(document))] = hashlib.sha256(content).digest()


def replace_metadata(connection, known):
    path = random.choice(list(known.files)).split("/files")[0]
    title = str(random.random())
    known.asked = ("title", path, title)
    reply, _ = exchange(connection, "PUT", path + "/metadata", json.dumps({"dc:title": title}))
    assert reply.status == 204, reply.status
    known.titles[path] = title


def delete_object(connection, known):
    path = random.choice(list(known.files)).split("/files")[0]
    known.asked = ("delete", path)
    reply, _ = exchange(connection, "DELETE", path)
    assert reply.status == 204, reply.status
    known.gone.add(path)
    known.files = {file: told for file, told in known.files.items() if not file.startswith(path + "/")}
    known.titles.pop(path, None)


def send_segment(connection, known):
    """A segment of an upload of three; with the third one it is deposited."""
    waiting = [path for path, upload in known.uploads.items() if len(upload.received) < 3]
    if not waiting:
        open_upload(connection, known)
        return
    path = waiting[0]
    upload = known.uploads[path]
    place = random.choice([n for n in (1, 2, 3) if n not in upload.received])
    known.asked = ("segment", path, place)
    status = ask_for_segment(connection, path, upload, place)
    assert status == 204, status
    upload.received.add(place)
    if len(upload.received) == 3:
        deposit_upload(connection, known, path)


def open_upload(connection, known):
    upload = Upload(os.urandom(3 * SEGMENT), random.random() < 0.5)
    promised = hashlib.sha512(upload.content if upload.is_promised else b"").hexdigest()
    known.asked = ("open",)
    opening = as_upload(len(upload.content), 3, SEGMENT, f"SHA-512={promised}")
    reply, _ = exchange(connection, "POST", "/staging", None, opening)
    assert reply.status == 201, reply.status
    known.uploads[path_in(reply.headers["Location"])] = upload


def ask_for_segment(connection, path, upload, place):
    content = upload.content[(place - 1) * SEGMENT:place * SEGMENT]
    return exchange(connection, "POST", path, content, as_segment(place))[0].status


def ask_for_deposit(connection, path):
    url = f"http://{ADDRESS}:{connection.port}{path}"
    return exchange(connection, "POST", "/service", *by_reference({url: "attachment; filename=b"}))


def deposit_upload(connection, known, path):
    """One that is refused stays."""
    upload = known.uploads[path]
    known.asked = ("assemble", path)
    reply, document = ask_for_deposit(connection, path)
    assert reply.status == upload.deposited(), reply.status
    if reply.status == 201:
        known.files[path_in(first_file(document))] = hashlib.sha256(upload.content).digest()
        del known.uploads[path]


def load(port, known):
    """Asks for changes until the server is gone."""
    load_over(http.client.HTTPConnection(ADDRESS, port, timeout=60), known)


def load_over(connection, known):
    try:
        while True:
            works = [deposit, send_segment, send_segment]
            if known.files:
                works += [replace_metadata, delete_object] if len(known.files) > 5 else [replace_metadata]
            random.choice(works)(connection, known)
            known.asked = None
    except (OSError, http.client.HTTPException):
        connection.close()


def check(connection, known):
    """What was answered is there; what was in work may be."""
    asked = known.asked or ("nothing",)
    for file, told in known.files.items():
        in_work = asked[0] == "delete" and file.startswith(asked[1] + "/")
        reply, content = exchange(connection, "GET", file)
        good = reply.status == 200 and hashlib.sha256(content).digest() == told
        find(f"file {file}: {reply.status}", good or (in_work and reply.status == 404))
    for path, title in known.titles.items():
        in_work = [asked[2]] if asked[:2] == ("title", path) else []
        reply, document = exchange(connection, "GET", path + "/metadata")
        if not (asked == ("delete", path) and reply.status == 404):
            find(f"title of {path}", reply.status == 200 and json.loads(document)["dc:title"] in [title, *in_work])
    for path in known.gone:
        find(f"{path} came back", exchange(connection, "GET", path)[0].status == 404)
    for path, upload in known.uploads.items():
        reply, document = exchange(connection, "GET", path)
        if asked == ("assemble", path) and upload.is_promised and reply.status == 404:
            continue
        received = set(json.loads(document)["segments"]["received"]) if reply.status == 200 else None
        in_work = {asked[2]} if asked[:2] == ("segment", path) else set()
        find(f"segments of {path}", received is not None and received - in_work == upload.received - in_work)
        if received is not None:
            go_on(connection, path, upload, received)


def go_on(connection, path, upload, received):
    """Each segment is sent, those that were received too, and the upload is deposited, by what was promised at its opening."""
    other = Upload(os.urandom(3 * SEGMENT), False)
    for place in (1, 2, 3):
        status = ask_for_segment(connection, path, other, place) if place in received else 400
        find(f"other bytes as segment {place} of {path}: {status}", status == 400)
        status = ask_for_segment(connection, path, upload, place)
        find(f"segment {place} of {path}: {status}", status == 204)
    status = ask_for_deposit(connection, path)[0].status
    find(f"the deposit of {path}: {status}", status == upload.deposited())


def integrity(folder):
    """sqlite3's check of a copy, so that the server finds the files as the kill left them."""
    with tempfile.TemporaryDirectory() as copies:
        shutil.copytree(folder, copies, dirs_exist_ok=True)
        database = sqlite3.connect(f"{copies}/deposits.db")
        answer = database.execute("PRAGMA integrity_check").fetchone()[0]
        database.close()
    find(f"integrity check: {answer}", answer == "ok")
