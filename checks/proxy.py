#!/usr/bin/env python3
"""Plays a depositor's story through Debian's nginx with deploy/nginx.conf, over TLS and with a password, by Python's http.client
and by curl: each reply has to be the one that comes without a proxy, but for Date, Connection and nginx's own Server. And
clients that are slow hold nobody up, each user may do what its role says, a file names who deposited it, and the groups of
deploy/shards.conf have stores of their own.

    checks/proxy.py

The status is 0 where all came as it should. It needs nginx and openssl (apt-get install nginx openssl), and curl for its part;
where something is missing, it says what it skips. It takes some ten processor seconds.
"""

import sys
sys.path.insert(0, f"{sys.path[0]}/lib")

import concurrent.futures
import contextlib
import hashlib
import http.client
import json
import os
import pathlib
import re
import shutil
import socket
import subprocess
import tempfile
import time
from typing import NamedTuple
from urllib.parse import urlsplit

import fronted
import recipes
import shards
from conformance import folder_in_memory
from crates import ROOT
from depositing import digest
from expectations import expect, status_of
from hosted import until

SEGMENT = 65_536
NOT_COMPARED = {"date", "connection", "server", "keep-alive"}
MOMENT = re.compile(rb"\d{4}-\d\d-\d\dT\d\d:\d\d:\d\dZ")
SLOW, UNREAD = 30, 5
# What the roles of the site allow, by the methods in the order that they are tried.
ALLOWED = {"reader": "GET HEAD", "robot": "GET HEAD POST", fronted.USER: "GET HEAD POST PUT", fronted.CURATOR: "GET HEAD POST PUT DELETE"}
# An object of the story that is there in the end, which gets the greatest content.
LARGE_OBJECT = "/objects/2"


class Request(NamedTuple):
    method: str
    path: str
    content: bytes = b""
    fields: dict = {}


class Reply(NamedTuple):
    """What is compared of a reply: the moments of its documents are left out."""

    status: int
    fields: tuple
    content: bytes


def compared(status, fields, content):
    told = sorted((name.lower(), value) for name, value in fields if name.lower() not in NOT_COMPARED)
    return Reply(status, tuple(told), MOMENT.sub(b"MOMENT", content))


def story(base):
    """Requests of each kind, in their order, over a new store."""
    large = bytes(range(256)) * 700
    segments = [large[at:at + SEGMENT] for at in range(0, len(large), SEGMENT)]
    plain = {"Content-Type": "text/plain", "Content-Disposition": "attachment; filename=a.txt"}
    as_json, metadata = {"Content-Type": "application/json"}, b'{"dc:title":"Observations"}'
    entry = {"@id": f"{base}/staging/1", "contentDisposition": "attachment; filename=large", "digest": digest(large)}
    opening = {"Content-Disposition": f"segment-init; size={len(large)}; segment_count={len(segments)}; "
                                      f"segment_size={SEGMENT}; digest=SHA-512={hashlib.sha512(large).hexdigest()}"}
    by_reference = {"Content-Disposition": "attachment; by-reference=true", **as_json}
    numbered = [Request("POST", "/staging/1", part, {"Content-Disposition": f"segment; segment_number={number}"})
                for number, part in enumerate(segments, 1)]
    return [
        Request("GET", "/service"), Request("HEAD", "/service"),
        Request("POST", "/service", b"abc", {**plain, "Digest": digest(b"abc")}),
        Request("POST", "/service", b"abd", {**plain, "Digest": digest(b"abc")}),
        Request("GET", "/objects/1"), Request("GET", "/objects/1/files/1"), Request("HEAD", "/objects/1/files/1"),
        Request("PUT", "/objects/1/metadata", metadata, as_json),
        Request("PUT", "/objects/1/metadata", metadata, {**as_json, "If-Match": '"1"'}),
        Request("PUT", "/objects/1/metadata", metadata, {**as_json, "If-Match": '"2"'}),
        Request("PUT", "/objects/1/metadata", b'{"dc:title"', as_json), Request("GET", "/objects/1/metadata"),
        Request("POST", "/staging", b"", opening), *numbered[::-1], numbered[1], Request("GET", "/staging/1"),
        Request("POST", "/staging/1", b"other", {"Content-Disposition": "segment; segment_number=2"}),
        Request("POST", "/objects/1", json.dumps({"byReferenceFiles": [entry]}).encode(), by_reference),
        Request("GET", "/staging/1"), Request("GET", "/objects/1/files/2"), Request("GET", "/objects/1/bag"),
        *[Request("GET", f"/objects/1/bag/{path}") for path in (
            "bagit.txt", "manifest-sha256.txt", "manifest-sha512.txt", "metadata/sword.json", "data/2/large", "data/9/x")],
        Request("POST", "/objects/1/bag"), Request("GET", "/nothing"), Request("DELETE", "/service"),
        Request("POST", "/service", b"abc", {**plain, "Content-Type": "text/plain", "In-Progress": "perhaps"}),
        Request("POST", "/service", b"abc", {**plain, "Packaging": "http://a/b"}),
        Request("POST", "/service", b"abc", {**plain, "On-Behalf-Of": "lee"}),
        Request("POST", "/service", b"abc", {"Content-Disposition": "attachment; filename*=UTF-8''d%C3%A9p%C3%B4t%25.txt"}),
        Request("GET", "/objects/2/bag/manifest-sha256.txt"), Request("GET", "/objects/2/bag/data/3/d%C3%A9p%C3%B4t%25.txt"),
        Request("DELETE", "/objects/1/files/2"), Request("DELETE", "/objects/1"), Request("GET", "/objects/1"),
    ]


def authorized(fields, user=fronted.CURATOR, **how):
    return {**fields, "Host": fronted.NAME, **fronted.password_of(user, **how)}


def by_http_client(connection, request, fields):
    connection.request(request.method, request.path, request.content or None, fields)
    reply = connection.getresponse()
    return compared(reply.status, reply.getheaders(), reply.read())


def by_curl(proxy, folder, request):
    """The same by curl, with a connection of its own. A file name and a URL are sent as they stand."""
    (folder / "content").write_bytes(request.content)
    words = ["curl", "--silent", "--show-error", "--cacert", proxy.certificate, "--user", f"{fronted.CURATOR}:{fronted.PASSWORD}",
             "--resolve", f"{fronted.NAME}:{proxy.port}:127.0.0.1", "--http1.1", "--path-as-is", "--dump-header", folder / "head",
             "--output", folder / "body", *[it for pair in request.fields.items() for it in ("-H", ": ".join(pair))]]
    words += ["--head"] if request.method == "HEAD" else ["-X", request.method]
    if request.content:
        kind = [] if "Content-Type" in request.fields else ["-H", "Content-Type:"]
        words += ["--data-binary", f"@{folder / 'content'}", *kind]
    (folder / "body").write_bytes(b"")
    ran = subprocess.run([*words, f"https://{fronted.NAME}:{proxy.port}{request.path}"], capture_output=True, text=True, check=False)
    expect(f"what curl says of {request.method} {request.path}", (ran.returncode, ran.stderr), (0, ""))
    first, *lines = (folder / "head").read_text(encoding="utf-8").replace("\r", "").rstrip("\n").split("\n\n")[-1].split("\n")
    content = b"" if request.method == "HEAD" else (folder / "body").read_bytes()
    return compared(int(first.split()[1]), [tuple(line.split(": ", 1)) for line in lines], content)


def replies_alone():
    """The replies of the host without a proxy, to requests on behalf of the user that the proxy knows."""
    with tempfile.TemporaryDirectory(dir=folder_in_memory()) as name, fronted.host(name) as host:
        connection = http.client.HTTPConnection("127.0.0.1", host.port, timeout=60)
        return [by_http_client(connection, it, {**it.fields, "On-Behalf-Of": fronted.CURATOR}) for it in story(host.base)]


def compare(what, requests, came, wanted):
    for request, reply, alone in zip(requests, came, wanted):
        expect(f"{what}: {request.method} {request.path}", reply, alone)


def tls_story(wanted):
    with tempfile.TemporaryDirectory(dir=folder_in_memory()) as name, fronted.host(name) as host, \
            fronted.Proxy(name, host.port) as proxy:
        connection = http.client.HTTPSConnection("127.0.0.1", proxy.port, timeout=60, context=proxy.context())
        requests = story(host.base)
        compare("by http.client", requests, [by_http_client(connection, it, authorized(it.fields)) for it in requests], wanted)
        connection.close()
        answers_of_its_own(proxy)
        slow_clients(host, proxy)
        roles(proxy)
        one_user_everywhere(proxy)
        who_deposited(proxy)
        recipes_through_tls(host, proxy, pathlib.Path(name))


def curl_story(wanted):
    with tempfile.TemporaryDirectory(dir=folder_in_memory()) as name, fronted.host(name) as host, \
            fronted.Proxy(name, host.port) as proxy:
        requests = story(host.base)
        compare("by curl", requests, [by_curl(proxy, pathlib.Path(name), it) for it in requests], wanted)


def ask(proxy, method, path, content=None, fields=None, user=fronted.CURATOR, **how):
    connection = http.client.HTTPSConnection("127.0.0.1", proxy.port, timeout=120, context=proxy.context())
    connection.request(method, path, content, authorized(fields or {}, user, **how) if user else fields or {})
    reply = connection.getresponse()
    content = reply.read()
    connection.close()
    return reply, content


def answers_of_its_own(proxy):
    """No password, no TLS, and a content that is too large, which is told as the server would tell it."""
    for method in ("GET", "DELETE"):
        expect(f"{method} without a password", ask(proxy, method, "/objects/1", user=None)[0].status, 401)
        expect(f"{method} with a wrong one", ask(proxy, method, "/objects/1", password="b")[0].status, 401)
    clear = http.client.HTTPConnection("127.0.0.1", proxy.clear_port, timeout=60)
    clear.request("POST", "/service?x", b"abc", {"Host": fronted.NAME})
    reply = clear.getresponse()
    expect("without TLS", (reply.status, reply.headers["Location"], reply.read()[:11]), (403, None, b"https alone"))
    clear.close()
    expect("what a password in clear gets", in_clear(proxy), b"")
    fields = {"Content-Disposition": "attachment; filename=x"}
    expect("the greatest content", ask(proxy, "POST", LARGE_OBJECT, 16_777_216 * b"x", fields)[0].status, 200)
    reply, document = ask(proxy, "POST", "/service", 16_777_217 * b"x", fields)
    expect("a byte more", (reply.status, reply.headers["Content-Type"]), (413, "application/json"))
    expect("its document", MOMENT.sub(b"MOMENT", document), (
        b'{"@context":"https://swordapp.github.io/swordv3/swordv3.jsonld","@type":"MaxUploadSizeExceeded",'
        b'"error":"The content is too large","log":"refusal 15","timestamp":"MOMENT"}'))


def in_clear(proxy):
    """All that comes to a request in clear that has a password."""
    with socket.create_connection(("127.0.0.1", proxy.clear_port), timeout=60) as wire:
        password = authorized({})["Authorization"]
        wire.sendall(f"GET /service HTTP/1.1\r\nHost: {fronted.NAME}\r\nAuthorization: {password}\r\n\r\n".encode())
        return wire.recv(1000)


def slow_clients(host, proxy):
    """Clients that stop in their head or their content, or don't read what they asked for, hold up none that deposit."""
    password = authorized({})["Authorization"]
    heads = (f"POST /service HTTP/1.1\r\nHost: {fronted.NAME}\r\nAuthorization: {password}\r\nContent-Length: 100000\r\n"
             "Content-Disposition: attachment; filename=slow\r\n", "\r\n" + 500 * "x")
    slow = [proxy.connect() for _ in range(SLOW)]
    for number, connection in enumerate(slow):
        connection.sendall("".join(heads[:1 + number % 2]).encode())
    path = json.loads(ask(proxy, "GET", LARGE_OBJECT)[1])["links"][-1]["@id"].split(fronted.NAME)[1]
    for _ in range(UNREAD):
        slow.append(proxy.connect())
        slow[-1].sendall(f"GET {path} HTTP/1.1\r\nHost: {fronted.NAME}\r\nAuthorization: {password}\r\n\r\n".encode())

    def deposit(number):
        began = time.monotonic()
        reply, _ = ask(proxy, "POST", "/service", b"abc", {"Content-Disposition": f"attachment; filename=f{number}"})
        return reply.status, time.monotonic() - began
    with concurrent.futures.ThreadPoolExecutor(8) as pool:
        outcomes = list(pool.map(deposit, range(40)))
    expect("deposits beside slow clients", {status for status, _ in outcomes}, {201})
    expect("whether one waited for 20 seconds", max(seconds for _, seconds in outcomes) < 20, True)
    expect("whether the host keeps what isn't read", until(lambda: len(host.spools()) == UNREAD), True)
    expect("the files in which nginx does", proxy.held_in_files(), 0)
    for connection in slow:
        connection.close()


def roles(proxy):
    """Each user by each method: what the role doesn't allow gets 403, and changes nothing."""
    ask(proxy, "POST", "/service", b"abc", {"Content-Disposition": "attachment; filename=a"})
    requests = {"GET": {}, "HEAD": {}, "POST": {"Content-Disposition": "attachment; filename=b"},
                "PUT": {"Content-Disposition": "attachment; filename=c"}, "DELETE": {}}
    path = urlsplit(ask(proxy, "POST", "/service", b"abc", requests["POST"])[0].headers["Location"]).path
    for user, methods in ALLOWED.items():
        for method, fields in requests.items():
            reply, _ = ask(proxy, method, path, b"abc" if fields else None, fields, user)
            expect(f"{method} of {user}", reply.status, 403 if method not in methods.split() else 204 if method == "DELETE" else 200)
    expect("DELETE of what is gone", ask(proxy, "GET", path)[0].status, 404)


def one_user_everywhere(proxy):
    """A user may have 100 requests under way, also from several addresses; others aren't held up."""
    head = "".join(f"{name}: {value}\r\n" for name, value in authorized({"Content-Length": "9"}, "robot").items())
    slow = [proxy.connect(f"127.0.0.{2 + number // 40}") for number in range(110)]
    for connection in slow:
        connection.sendall(f"POST /service HTTP/1.1\r\n{head}\r\n".encode())
    is_full = until(lambda: ask(proxy, "GET", "/service", user="robot")[0].status == 503)
    expect("whether a user with 110 requests under way is turned away", is_full, True)
    expect("another user then", ask(proxy, "GET", "/service")[0].status, 200)
    for connection in slow:
        connection.close()
    expect("the user later", until(lambda: ask(proxy, "GET", "/service", user="robot")[0].status == 200), True)


def who_deposited(proxy):
    """A file names the user, whatever the client says, and so does the log."""
    fields = {"Content-Disposition": "attachment; filename=a", "On-Behalf-Of": "lee"}
    reply, document = ask(proxy, "POST", "/service?who", b"abc", fields, user="robot")
    expect("on whose behalf a file came", json.loads(document)["links"][0]["depositedOnBehalfOf"], "robot")
    wanted = {"user": "robot", "method": "POST", "path": "/service?who", "status": 201, "location": reply.headers["Location"]}
    log = [json.loads(it) for it in (proxy.folder / "deposit.log").read_text(encoding="utf-8").splitlines()]
    expect("the lines of the log", [{name: it[name] for name in wanted} for it in log if "who" in it["path"]], [wanted])


def kept_connections():
    """nginx gives a connection up before the host does, so that no request goes out on one that is being closed."""
    told = json.loads((ROOT / "deploy/configuration.json").read_text(encoding="utf-8"))
    for site in (fronted.SITE, shards.SITE):
        seconds = re.findall(r"keepalive 16;\s+(?:#.*\s+)*keepalive_timeout (\d+)s;", site.read_text(encoding="utf-8"))
        expect(f"whether {site.name} has it so", [int(it) < told["idle_seconds"] for it in seconds], [True] * max(1, len(seconds)))
    with tempfile.TemporaryDirectory(dir=folder_in_memory()) as name, fronted.host(name, idle_seconds=3) as host, \
            fronted.Proxy(name, host.port, {"keepalive_timeout 30s;": "keepalive_timeout 1s;"}) as proxy:
        for _ in range(2):
            ask(proxy, "POST", "/service", b"abc", {"Content-Disposition": "attachment; filename=a"})
            time.sleep(4)
        expect("the connections that the host closed", host.lines("closed"), [])


def groups():
    """Each store has users of its own."""
    with tempfile.TemporaryDirectory(dir=folder_in_memory()) as name, contextlib.ExitStack() as kept:
        stores = shards.Stores(pathlib.Path(name), kept)

        def status(method, store, user, path="/service"):
            connection = http.client.HTTPConnection("127.0.0.1", stores.port, timeout=60)
            fields = {**shards.fields_of(store, user), "Content-Disposition": "attachment; filename=a"}
            connection.request(method, path, b"abc" if method == "POST" else None, fields)
            reply = connection.getresponse()
            reply.read()
            connection.close()
            return reply.status
        expect("a group in its store", [status("POST", store, store + 1) for store in range(4)], 4 * [201])
        expect("a group in another's", [status("GET", store, 4 - store) for store in range(4)], 4 * [401])
        expect("DELETE of a user without a role", status("DELETE", 0, 1, "/objects/1"), 403)


def recipes_through_tls(host, proxy, folder):
    """The recipes of docs/CLIENTS.md as they stand there, with a password, and a certificate that the system is told of."""
    for name in ("curl", "python"):
        (folder / name).mkdir()
    (folder / ".netrc").write_text(f"machine 127.0.0.1 login {fronted.USER} password {fronted.PASSWORD}\n", encoding="utf-8")
    (folder / ".curlrc").write_text(f'netrc\ncacert = "{proxy.certificate}"\n', encoding="utf-8")
    told = {**os.environ, "SWORD": proxy.url, "HOME": str(folder), "SSL_CERT_FILE": str(proxy.certificate),
            "PATH": f"{ROOT / 'deploy'}:{os.environ['PATH']}", "SWORD_USER": f"{fronted.USER}:{fronted.PASSWORD}",
            "DEPOSIT_USER": fronted.USER, "DEPOSIT_PASSWORD": fronted.PASSWORD}
    if shutil.which("curl"):
        printed = recipes.run_by_shell(folder / "curl", told)
        expect("the files of the folder", recipes.names_in(manifest_of(host, printed[-1])),
               ["1902__may.txt", "large.bin", "observations.txt"])
        expect("what the recipes by curl print", re.sub(r"\d+", "N", printed[0]), re.sub(r"\d+", "N", f"deposited: {proxy.url}/objects/1"))
    printed = recipes.run_by_python(folder / "python", told)
    expect("what the recipes by Python print last", re.sub(r"/\d+/", "/N/", printed[-1]), "data/N/large.bin is as it was deposited")


def manifest_of(host, url):
    """The manifest of an object, by the host itself."""
    connection = http.client.HTTPConnection("127.0.0.1", host.port, timeout=60)
    connection.request("GET", f"{url.removeprefix(host.base)}/bag/manifest-sha256.txt")
    lines = connection.getresponse().read().decode()
    connection.close()
    return lines


def main():
    if fronted.missing():
        print(f"proxy: skipped, since {fronted.missing()} isn't installed (apt-get install nginx openssl curl)")
        return 0
    wanted = replies_alone()
    tls_story(wanted)
    kept_connections()
    groups()
    if shutil.which("curl"):
        curl_story(wanted)
    else:
        print("skipped: curl, which isn't installed")
    return status_of(f"proxy: {len(wanted)} requests, and {SLOW + UNREAD} slow clients")


if __name__ == "__main__":
    sys.exit(main())
