"""Plays example files over sockets, many examples at once over one store.

What comes back has to be what is written, but for what a store that others use too makes different: the numbers that are given
there, with the lengths that tell how long these are, and the moments. An example has names of its own for numbers: each that
comes where it is written for the first time stands for what is written from then on, in what is sent and in what comes, and two
stand for two. A number that no reply told yet is sent as one that the store never gives.

An example is left out where it needs another moment, another configuration, a store by itself or faults.
"""

import re
import socket
import sqlite3
import tempfile
import threading
import time
from collections import Counter
from concurrent.futures import ThreadPoolExecutor
from contextlib import ExitStack

from crates import DATA
from example_play import (
    LEFT_OUT, NAMES, LeftOut, Play, Wrong, cells_of, is_of_a_host, listed_files, pieces, play_lines, read_file, texts_above, ways_of)
from hosted import PATIENCE, Host

BASE = "http://127.0.0.1:8080"
AT_ONCE, MOST_PIECES = 50, 500
# A larger content says no more here, and takes long to look through.
MOST_SENT = 2_000_000
FIRST_GIVEN = 1_000_000
NEVER_GIVEN = 3_000_000_000_000_000_000
KINDS = {b"/objects/": "object", b"/files/": "file", b"data/": "file", b"data%2F": "file", b"/staging/": "upload",
         b"/staging/./": "upload", b'"eTag":"': "tag", b'ETag: "': "tag"}
SHOWN = re.compile(rb'(/objects/|/files/|/staging/(?:\./)?|data/|data%2F|"eTag":"|ETag: ")([1-9][0-9]{0,17})(?![0-9])')
TAGS = re.compile(rb'^If-Match:[^\r\n]*', re.M | re.I)
TAG = re.compile(rb'(?<![0-9])[1-9][0-9]{0,17}(?![0-9])')
MOMENTS = ((b" GMT", re.compile(rb'\w{3}, \d\d \w{3} \d{4} \d\d:\d\d:\d\d GMT'), b"MOMENT"),
           (b"Z", re.compile(rb'\d{4}-\d\d-\d\dT\d\d:\d\d:\d\dZ'), b"STAMP"),
           (b"Bagging-Date", re.compile(rb'(Bagging-Date: )\d{4}-\d\d-\d\d'), rb"\1DAY"))
# These files of a bag tell a day or numbers, so their digests are others.
DIGESTS = re.compile(rb'[0-9a-f]{64,128}(?=  (?:bag-info|manifest-sha256|manifest-sha512)\.txt)')
FRAMES = re.compile(rb"^(?:Content-Length|Transfer-Encoding): *(\d{1,8}|chunked)\r?$", re.M | re.I)
CHUNK = re.compile(rb"([0-9a-fA-F]{1,8})[^\r\n]*\r\n")
LENGTH = re.compile(rb'(?<=^Content-Length: )\d+', re.M)


def plain(text):
    """The text without moments, and what follows from these. To look for a pattern in a large content takes long."""
    for mark, pattern, name in MOMENTS:
        if mark in text:
            text = pattern.sub(name, text)
    return DIGESTS.sub(b"DIGEST", text) if b"bag-info.txt" in text else text


def shape(text):
    """The text without numbers, and the numbers, each with its kind."""
    numbers = []

    def without(match):
        numbers.append((KINDS[match.group(1)], int(match.group(2))))
        return match.group(1) + b"NUMBER"
    text = SHOWN.sub(without, plain(text))
    return LENGTH.sub(b"LENGTH", text) if b"Content-Length: " in text else text, numbers


def messages(stream):
    """The requests of a stream, each as its head and its body, or None where it isn't just whole requests, well framed."""
    found = []
    while stream:
        head, end, stream = stream.partition(b"\r\n\r\n")
        lengths = FRAMES.findall(head)
        if not end or not head or head.startswith(b"\n") or len(lengths) > 1:
            return None
        size = chunked_size(stream) if [it.lower() for it in lengths] == [b"chunked"] else int(lengths[0]) if lengths else 0
        if len(stream) < size:
            return None
        found.append((head + end, stream[:size]))
        stream = stream[size:]
    return found


def chunked_size(stream):
    """How many bytes a body in chunks has; where it isn't whole, more than there are."""
    at = 0
    while line := CHUNK.match(stream, at):
        size, at = int(line.group(1), 16), line.end()
        if size == 0:
            end = stream.find(b"\r\n\r\n", at - 2)
            return end + 4 if end >= 0 else len(stream) + 1
        at += size + 2
    return len(stream) + 1


def replies(text):
    """The replies of a text, each as its head and its body, which is None where a length isn't that of what follows."""
    found = []
    while text:
        head, end, text = text.partition(b"\r\n\r\n")
        length = LENGTH.search(head + end)
        size = int(length.group()) if length else 0
        has_body = size <= len(text) and (size == len(text) or text[size:].startswith(b"HTTP/1."))
        found.append((head + end, text[:size] if has_body and length else None if length else b""))
        text = text[size:] if has_body else text
    return found


def begun_store(folder):
    """The file of a store that gives large numbers, so that a small one is never given, however it is spelled."""
    with Host(folder, connections=1) as host:
        host.ask(404, "GET", "/nothing")
        host.ends()
    database = sqlite3.connect(host.store)
    database.execute("UPDATE state SET next_object = ?1, next_file = ?1, next_upload = ?1, next_change = ?1", (FIRST_GIVEN,))
    database.commit()
    database.close()
    return host.store


class Hosts:
    """A host for each configuration that an example has, which goes on until all are played."""

    def __init__(self):
        self.by_settings, self.guard, self.stack = {}, threading.Lock(), ExitStack()
        self.store = begun_store(self.stack.enter_context(tempfile.TemporaryDirectory()))

    def of(self, settings):
        key = tuple(sorted(settings.items()))
        with self.guard:
            if key not in self.by_settings:
                host = Host(begun_with=self.store, **{"base": BASE, "idle_seconds": 600, **settings})
                host.given = set()
                self.by_settings[key] = self.stack.enter_context(host)
            return self.by_settings[key]

    def __enter__(self):
        return self

    def __exit__(self, *_):
        self.stack.close()


class Numbers:
    """What the numbers of an example stand for."""

    guard = threading.Lock()

    def __init__(self):
        self.by_written = {}

    def learn(self, written, came, given):
        """Pairs of what is written and what came. None of them was given to another example."""
        for (kind, number), (_, other) in zip(written, came):
            known = self.by_written.get((kind, number))
            if known is None:
                with Numbers.guard:
                    if (kind, other) in given:
                        raise Wrong(f"the {kind} {other} was given before")
                    given.add((kind, other))
                self.by_written[kind, number] = other
            elif known != other:
                raise Wrong(f"{kind} {other} in place of {known}, which is written as {number}")

    def put(self, text, unknown=NEVER_GIVEN):
        """The text with the numbers that it stands for, and this one, or another for each, where one stands for none yet."""
        def of(kind, number):
            return b"%d" % self.by_written.get((kind, number), unknown + (number if unknown == NEVER_GIVEN else 0))

        def shown(match):
            return match.group(1) + of(KINDS[match.group(1)], int(match.group(2)))

        def tags(match):
            return TAG.sub(lambda tag: of("tag", int(tag.group())), match.group())
        text = SHOWN.sub(shown, text)
        return TAGS.sub(tags, text) if b"if-match" in text[:16_384].lower() else text


class Came:
    """What came, with its shape, which is taken anew behind the last head alone."""

    def __init__(self):
        self.text, self.shaped, self.numbers, self.begin = bytearray(), b"", [], 0

    def take(self, part):
        self.text += part
        end = self.text.rfind(b"\r\n\r\n", self.begin) + 4
        if end > self.begin + 3:
            shaped, numbers = shape(bytes(self.text[self.begin:end]))
            self.shaped, self.numbers, self.begin = self.shaped + shaped, self.numbers + numbers, end

    def all(self):
        shaped, numbers = shape(bytes(self.text[self.begin:]))
        return self.shaped + shaped, self.numbers + numbers

    def may_be(self, wanted, least):
        """Whether it is a front of what is wanted, as far as it was looked at. A text with fewer bytes than the least isn't."""
        return len(self.text) < least or wanted.startswith(self.shaped) and len(self.all()[0]) < len(wanted)


class SocketPlay(Play):
    """An example that is played over sockets of its own."""

    def __init__(self, words, way, hosts):
        super().__init__(words, way, False)
        self.hosts, self.host, self.settings, self.wires, self.numbers, self.exchanges = hosts, None, {}, {}, Numbers(), 0

    def line(self, line):
        word = line.partition(" ")[0]
        if word in LEFT_OUT:
            raise LeftOut(word)
        super().line(line)

    def sets(self, word, rest):
        if word == "connection":
            self.current = int(rest)
        elif word == "close":
            self.wire(int(rest)).close()
        elif word == "restart":
            self.leave()
            self.current = 1
        elif word == "next" and len(rest) < 20:
            pass
        elif word == "config" and self.host is None:
            name, _, value = rest.partition(" ")
            self.settings[NAMES[name]] = read_value(value)
        else:
            raise LeftOut(word)

    def wire(self, number):
        self.host = self.host or self.hosts.of(self.settings)
        if number not in self.wires:
            self.wires[number] = self.host.connect()
            self.wires[number].setsockopt(socket.IPPROTO_TCP, socket.TCP_NODELAY, 1)
        return self.wires[number]

    def leave(self):
        for wire in self.wires.values():
            wire.close()
        self.wires = {}

    def ends(self, word):
        if word not in ("open", "closed", "ended", "served", "gone"):
            raise LeftOut(word)
        if len(self.stream) > MOST_SENT:
            raise LeftOut("a large content")
        self.exchanges += 1
        number = self.current
        if word in ("ended", "served"):
            number = f"exchange {self.exchanges}"
        for stream, want in self.parts():
            self.exchange(self.wire(number), stream, want, word == "ended")
        if word in ("ended", "served", "closed"):
            self.sees_end(self.wire(number), word == "ended")
        self.stream, self.want = b"", b""

    def parts(self):
        """What is sent and has to come, request by request where one names what is given to an earlier one."""
        asked, named = set(shape(self.stream)[1]), set(shape(self.want)[1])
        unknown = asked - set(self.numbers.by_written)
        if not unknown & named:
            if unknown and self.want.startswith(b"HTTP/1.1 2"):
                raise LeftOut("numbers that no reply told")
            return [(self.stream, self.want)]
        sent, came = messages(self.stream), [it for it in replies(self.want) if b" 100 Continue" not in it[0]]
        if sent is None or len(sent) != len(came) or b" 100 Continue" in self.want:
            raise LeftOut("replies that can't be told apart")
        return [(b"".join(request), head + (body or b"")) for request, (head, body) in zip(sent, came)]

    def exchange(self, wire, stream, want, is_cut):
        """A request whose numbers have other lengths than they are written with has another length."""
        sent = messages(stream)
        if sent is None:
            if shape(stream.partition(b"\r\n\r\n")[2])[1] and not is_cut:
                raise LeftOut("numbers in what is no request")
            stream = self.numbers.put(stream)
        else:
            stream = b"".join(self.request(head, body) for head, body in sent)
        try:
            for piece in self.pieces(stream):
                wire.sendall(piece)
        except OSError:
            pass
        self.comes(wire, want)

    def request(self, head, body):
        put = self.numbers.put(body)
        if len(put) != len(body):
            if not LENGTH.search(head):
                raise LeftOut("numbers in chunks")
            head = LENGTH.sub(b"%d" % len(put), head)
        return self.numbers.put(head) + put

    def pieces(self, stream):
        """Few enough of them."""
        size = len(stream) if self.way == "whole" else int(self.way)
        return pieces(max(1, size, len(stream) // MOST_PIECES), stream)

    def comes(self, wire, want):
        """Just this has to come."""
        wanted, written = shape(want)
        came, least, ends = Came(), len(self.numbers.put(want, 1)) - 64, time.monotonic() + PATIENCE
        while came.may_be(wanted, least) and time.monotonic() < ends:
            try:
                part = wire.recv(65_536)
            except OSError as fault:
                raise Wrong(f"{fault!r} behind {came.text[-300:]}") from None
            if not part:
                break
            came.take(part)
        shaped, numbers = came.all()
        if shaped != wanted:
            place = next((i for i, (a, b) in enumerate(zip(wanted, shaped)) if a != b), min(len(wanted), len(shaped)))
            place = max(place - 30, 0)
            raise Wrong(f"they part\n  written: {wanted[place:place + 300]}\n  came:    {shaped[place:place + 300]}")
        self.numbers.learn(written, numbers, self.host.given)
        self.have_lengths(want, came.text)

    def have_lengths(self, want, came):
        """Each length is that of what is written, with the numbers that it stands for."""
        lengths = [int(it) for it in LENGTH.findall(came)]
        for head, body in replies(want):
            if LENGTH.search(head):
                length = lengths.pop(0)
                if body is not None and length != len(self.numbers.put(body)):
                    raise Wrong(f"the length {length} in place of {len(self.numbers.put(body))}")

    @staticmethod
    def sees_end(wire, is_shut):
        try:
            if is_shut:
                wire.shutdown(socket.SHUT_WR)
            rest = wire.recv(65_536)
        except OSError as fault:
            raise Wrong(f"{fault!r} in place of the end") from None
        if rest:
            raise Wrong(f"{rest[:300]} in place of the end")


def read_value(text):
    return int(text) if text.isdigit() else text == "true" if text in ("true", "false") else text


def listed(names):
    """All examples of these files: the file and the line, the texts that they have, their lines, and the way."""
    words = {}
    for name in names:
        front, examples = read_file(DATA / name)
        mine = texts_above(words, front)
        if not examples:
            words = mine
        for number, _, lines in examples:
            for way in ("whole", *filter(str.isdigit, ways_of(lines))):
                for cells in cells_of(lines):
                    yield f"{name}:{number}", {**mine, **cells}, lines, way


def chosen_files():
    """All but those of a host of the player, and those on the order of refusals, which checks/conform-swordd plays one by one."""
    return [it.name for it in listed_files() if not is_of_a_host(it) and it.name != "order.txt"]


def play_one(hosts, told, words, lines, way):
    """How many exchanges came as they are written, what went wrong, and why it was left out."""
    play = SocketPlay(words, way, hosts)
    try:
        play_lines(play, lines, f"{told}, {{}}, {way}")
        return play.exchanges, None, None
    except LeftOut as reason:
        return 0, None, reason.args[0]
    except (Wrong, OSError, RuntimeError) as fault:
        return play.exchanges, str(fault), None
    finally:
        play.leave()


class Counts:
    """How many examples came as they are written, with how many exchanges, and how many were left out, by the reason."""

    def __init__(self):
        self.examples, self.exchanges, self.left_out, self.hosts = 0, 0, Counter(), 0


def play(names, expect):
    """Plays all examples of the files, so many at once."""
    counts = Counts()
    with Hosts() as hosts, ThreadPoolExecutor(AT_ONCE) as pool:
        for exchanges, fault, reason in pool.map(lambda it: play_one(hosts, *it), listed(names)):
            if fault:
                expect("an example", fault, "as it is written")
            if reason:
                counts.left_out[reason] += 1
            else:
                counts.examples += 1
                counts.exchanges += exchanges
        counts.hosts = len(hosts.by_settings)
    return counts
