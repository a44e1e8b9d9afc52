#!/usr/bin/env python3
"""Runs the recipes of docs/CLIENTS.md word for word as they stand there, against `swordd serve` on a new store, through a relay
that breaks connections; and deploy/deposit.py, which is broken off again and again. What the archive then has is compared. And
fetches bags from it by deploy/fetch_bag.py, which is broken off as often.

    checks/clients.py

It needs curl, and sha256sum of the coreutils; where there is no curl, it says so and leaves those recipes out. It takes some
four processor seconds.
"""

import sys
sys.path.insert(0, f"{sys.path[0]}/lib")

import hashlib
import os
import pathlib
import pty
import re
import shutil
import subprocess
import tempfile

from crates import ROOT
from expectations import expect, status_of
from hosted import Host
from recipes import files_in, names_in, run, run_by_python, run_by_shell
from relay import Relay
from served import Server

TOOL, FETCHER, VALIDATOR = ROOT / "deploy/deposit.py", ROOT / "deploy/fetch_bag.py", ROOT / "checks/validate-bag"
MOST_CONNECTIONS = 1_000_000


def environment_of(server, relay):
    """The server's URL, and the relay as a proxy, since documents tell the server's own URL."""
    kept = {name: value for name, value in os.environ.items() if "proxy" not in name.lower()}
    return {**kept, "SWORD": server.base, "http_proxy": relay.url, "PATH": f"{TOOL.parent}:{os.environ['PATH']}"}


def recipes_by_curl(server, relay, folder):
    printed = run_by_shell(folder, environment_of(server, relay))
    expect("what they print", [it.replace(server.base, "URL") for it in printed], [
        "deposited: URL/objects/1", "DIGEST  data/2/large.bin", "data/2/large.bin: OK", "URL/objects/3"])
    expect("the file", server.ask(200, "GET", "/objects/1/files/1")[1], b"Observations of a day\n")
    came = server.ask(200, "GET", "/objects/2/files/2")[1]
    expect("whether the large file came as it is", came == (folder / "large.bin").read_bytes(), True)
    expect("the files of the folder", names(server, "/objects/3"), ["1902__may.txt", "large.bin", "observations.txt"])


def recipes_by_python(server, relay, folder, first):
    """Their objects are the next ones."""
    printed = run_by_python(folder, environment_of(server, relay))
    expect("what they print first", printed[0], f"deposited: {server.base}/objects/{first}")
    expect("what they print last", re.sub(r"/\d+/", "/N/", printed[-1]), "data/N/large.bin is as it was deposited")
    _, document = server.ask(200, "GET", f"/objects/{first}/metadata")
    expect("the metadata", b'"dc:creator":["Kim","Lee"]' in document, True)


def manifest(server, path):
    return files_in(server.ask(200, "GET", f"{path}/bag/manifest-sha256.txt")[1].decode())


def names(server, path):
    return names_in(server.ask(200, "GET", f"{path}/bag/manifest-sha256.txt")[1].decode())


def make_folder(folder):
    """Files of many names and sizes. Returns their digests and names as deposits."""
    files = {"a.txt": b"abc", "empty": b"", "50% of it.txt": b"percent", "dépôt.txt": b"name", "deep/er/x": b"x",
             "lines\u2028of\u2029all\x85kinds ": b"names", "middle.bin": os.urandom(200_000), "large.bin": os.urandom(3_000_001)}
    for name, content in files.items():
        path = folder / name
        path.parent.mkdir(parents=True, exist_ok=True)
        path.write_bytes(content)
    return sorted(f"{hashlib.sha256(content).hexdigest()} {name.replace('/', '__')}" for name, content in files.items())


def folder_broken_off(server, relay, place):
    """The tool is killed again and again until it comes to its end; the object then has each file once."""
    folder = place / "folder"
    wanted = make_folder(folder)
    command = [sys.executable, TOOL, "--segment", "262144", relay.url, folder]
    for number in range(60):
        with subprocess.Popen(command, stdout=subprocess.PIPE, stderr=subprocess.DEVNULL, text=True) as tool:
            try:
                url, _ = tool.communicate(timeout=0.25 + 0.1 * number)
                break
            except subprocess.TimeoutExpired:
                tool.kill()
    expect("whether it was killed before", number > 0, True)
    expect("how it ends", tool.returncode, 0)
    path = server.path_of(url.strip())
    expect("the files that were deposited", manifest(server, path), wanted)
    _, document = server.ask(200, "GET", path)
    expect("the state", b"state/ingested" in document, True)
    expect("the uploads that are left in the journal", '"uploads": {}' in (place / "folder.deposit").read_text(), True)
    again = run("the tool once more", command, place, dict(os.environ))
    expect("the object", (again, manifest(server, path)), (url, wanted))
    return path


def bag_broken_off(relay, place, path):
    """The bag of the folder's object, by a tool that is killed again and again; then once more, over what is there."""
    bag, command = place / "bag", [sys.executable, FETCHER, "--rate", "2e6", f"{relay.url}{path}", place / "bag"]
    for number in range(60):
        with subprocess.Popen(command, stdout=subprocess.PIPE, stderr=subprocess.DEVNULL, text=True) as tool:
            try:
                said, _ = tool.communicate(timeout=0.3 + 0.1 * number)
                break
            except subprocess.TimeoutExpired:
                tool.kill()
    expect("whether the fetch was killed before", number > 0, True)
    expect("how the fetch ends", (tool.returncode, said), (0, f"{bag}\n"))
    is_the_folder(bag, place / "folder")
    fetched = {it: it.stat().st_mtime_ns for it in bag.glob("data/*/*")}
    (bag / "bagit.txt").unlink()
    damaged = next(it for it in fetched if it.name == "a.txt")
    damaged.write_bytes(b"abd")
    run("the fetch once more", command, place, dict(os.environ))
    is_the_folder(bag, place / "folder")
    expect("what was fetched anew", [it.name for it, when in fetched.items() if it.stat().st_mtime_ns != when], ["a.txt"])


def is_the_folder(bag, folder):
    """The bag is valid, and has just the files of the folder."""
    ran = subprocess.run([sys.executable, "-B", VALIDATOR, bag], capture_output=True, text=True, check=False)
    expect("the validator's word on the bag", (ran.returncode, ran.stdout), (0, "valid\n"))
    wanted = {str(it.relative_to(folder)).replace("/", "__"): it.read_bytes() for it in folder.rglob("*") if it.is_file()}
    came = {it.name: it.read_bytes() for it in bag.glob("data/*/*")}
    expect("whether the bag has the folder's files", came == wanted, True)


def bags_of_all(server, relay, place):
    """A range of objects: kept, and only read. Those that aren't there are left out. Objects of its own, since a deposit that
    was broken off may have left one without files."""
    replies = [server.ask(201, "POST", "/service", b"abc", {"Content-Disposition": "attachment; filename=a"})[0] for _ in range(3)]
    last = int(replies[-1].headers["Location"].rpartition("/")[2])
    server.ask(204, "DELETE", f"/objects/{last - 1}")
    words = [sys.executable, FETCHER, "--all", str(last - 2), str(last + 2), relay.url]
    kept, read = (subprocess.run([*words, *where], capture_output=True, text=True, check=False) for where in ([place / "all"], []))
    expect(f"the end of a fetch of a range: {kept.stderr}{read.stderr}", (kept.returncode, read.returncode), (0, 0))
    expect("what is told of two objects of a file each", (kept.stdout, read.stdout), 2 * ("objects 2 files 2 wrong 0\n",))
    expect("the bags", sorted(int(it.name) for it in (place / "all").iterdir()), [last - 2, last])


def statuses_of_the_fetcher(server, place, path):
    """Refused or otherwise than it was is 1, unfit 2, not reached 3."""
    changing = Relay(server.port, change=lambda piece: piece.replace(b"percent", b"Percent"))
    (place / "others").mkdir()
    (place / "others/x").write_bytes(b"")
    object_number = path.rpartition("/")[2]
    for status, words in (
            (1, [f"{server.base}/objects/999", place / "none"]), (1, [f"{changing.url}{path}", place / "otherwise"]),
            (1, ["--all", object_number, object_number, changing.url]), (2, [f"{server.base}{path}", place / "others"]),
            (2, [f"{server.base}{path}"]), (2, [server.base, place / "none"]), (2, ["ftp://a/objects/1", place / "none"]),
            (3, ["--tries", "1", "http://127.0.0.1:9/objects/1", place / "none"])):
        ran = subprocess.run([sys.executable, FETCHER, *words], capture_output=True, check=False)
        expect(f"the status of fetch_bag.py {' '.join(map(str, words))}", ran.returncode, status)
    expect("whether what isn't right is a bag", (place / "otherwise/bagit.txt").exists(), False)
    changing.close()


def folder_of_many(server, place):
    """Many small files come by reference, a hundred at a time, and an empty one."""
    folder = place / "many"
    folder.mkdir()
    contents = {f"{number:03}": b"%d" % number * (number % 7) for number in range(230)}
    for name, content in contents.items():
        (folder / name).write_bytes(content)
    url = run("a folder of many files", [sys.executable, TOOL, server.base, folder], place, dict(os.environ)).strip()
    wanted = sorted(f"{hashlib.sha256(content).hexdigest()} {name}" for name, content in contents.items())
    expect("the files of a folder of many", manifest(server, server.path_of(url)), wanted)
    _, document = server.ask(200, "GET", server.path_of(url))
    expect("how many came by reference", document.count(b"terms/byReferenceDeposit"), 230 - 33)


def names_of_each_character():
    """Names in which each character up to U+30FF stands that a name may have, every 32nd above, and two of each further plane."""
    characters = [chr(it) for it in [*range(32, 0x3100), *range(0x3100, 0xD800, 32), *range(0xE000, 0xFFFF, 32), 0xFEFF, 0xFFFF]]
    characters = [it for it in characters if it not in "/\\\x7f"]
    characters += [chr(it << 16 | low) for it in range(1, 17) for low in (0, 0xFFFF)]
    found, name = [], ""
    for it in characters:
        if len((name + it).encode()) > 255:
            found.append(name)
            name = ""
        name += it
    return [*found, name]


def folder_of_each_character(server, place):
    folder, contents = place / "characters", {name: b"%d" % number for number, name in enumerate(names_of_each_character())}
    folder.mkdir()
    for name, content in contents.items():
        (folder / name).write_bytes(content)
    url = run("a folder of each character", [sys.executable, TOOL, server.base, folder], place, dict(os.environ)).strip()
    wanted = sorted(f"{hashlib.sha256(content).hexdigest()} {name}" for name, content in contents.items())
    expect("whether the names are those of each character", manifest(server, server.path_of(url)) == wanted, True)


def folder_with_tags(place):
    """Where a change needs the tag of what it changes."""
    place.mkdir()
    wanted = make_folder(place / "folder")
    with Host(place / "host", require_if_match=True) as host:
        host.ask(201, "POST", "/service", b"abc", {"Content-Disposition": "attachment; filename=a"})
        host.ask(412, "POST", "/objects/1", b"abc", {"Content-Disposition": "attachment; filename=a"})
        command = [sys.executable, TOOL, "--segment", "262144", host.base, place / "folder"]
        url = run("the tool where tags are required", command, place, dict(os.environ)).strip()
        expect("the files where tags are required", manifest(host, host.path_of(url)), wanted)
        expect("the state", b"state/ingested" in host.ask(200, "GET", host.path_of(url))[1], True)


def bar_of_progress(server, place):
    """On a terminal it shows how far it came."""
    folder = place / "shown"
    make_folder(folder)
    main, terminal = pty.openpty()
    subprocess.run([sys.executable, TOOL, server.base, folder], stdout=subprocess.DEVNULL, stderr=terminal, check=False)
    os.close(terminal)
    shown = os.read(main, 65_536).decode()
    expect("the bar", "[##############################] 100% 3.2 of 3.2 MB" in shown, True)


def statuses_of_the_tool(server, place):
    """Refused is 1, unfit 2, not reached 3."""
    folder = place / "statuses"
    folder.mkdir()
    (folder / "a").write_bytes(b"abc")
    (place / "nothing").mkdir()
    (place / "gone").write_text('{"object": "' + server.base + '/objects/999", "uploads": {}}')
    for status, words in ((1, ["--journal", place / "gone", server.base, folder]), (2, [server.base, place / "nothing"]),
                          (2, ["ftp://a", folder]), (3, ["--tries", "1", "http://127.0.0.1:9", folder])):
        ran = subprocess.run([sys.executable, TOOL, *words], capture_output=True, check=False)
        expect(f"the status of deposit.py {words[-2]} {words[-1]}", ran.returncode, status)


def main():
    has_curl = bool(shutil.which("curl"))
    with tempfile.TemporaryDirectory() as name, Server(MOST_CONNECTIONS) as server:
        place, relay = pathlib.Path(name), Relay(server.port)
        for folder in ("curl", "python"):
            (place / folder).mkdir()
        if has_curl:
            recipes_by_curl(server, relay, place / "curl")
        recipes_by_python(server, relay, place / "python", 4 if has_curl else 1)
        path = folder_broken_off(server, relay, place)
        bag_broken_off(relay, place, path)
        statuses_of_the_fetcher(server, place, path)
        bags_of_all(server, relay, place)
        folder_of_many(server, place)
        folder_of_each_character(server, place)
        folder_with_tags(place / "tags")
        bar_of_progress(server, place)
        statuses_of_the_tool(server, place)
        expect("whether connections were broken", relay.broken > 3, True)
        relay.close()
    left_out = "" if has_curl else ", those by curl left out, since there is none"
    return status_of(f"clients: the recipes of the page, deposit.py and fetch_bag.py, over {relay.broken} broken connections{left_out}")


if __name__ == "__main__":
    sys.exit(main())
