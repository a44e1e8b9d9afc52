"""Plays an example of the profile over sockets, against any server that is reached by a URL.

docs/EXAMPLES.md, "Against any server", says what is compared byte for byte, and what depends on the server's base and on
its clock.
"""

import base64
import contextlib
import hashlib
import os
import re
import select
import socket
import subprocess
import tempfile
import time
from urllib.parse import urlsplit

from crates import ROOT, built_program
from example_play import LEFT_OUT, MOMENT, NAMES, Play, Wrong, cells_of, pieces, play_lines

WRITTEN = b"127.0.0.1:8080"
OTHER_SPELLINGS = re.compile(rb"127\.1:8080|0x7f\.0\.0\.1:8080|127\.0\.0\.1:08080")
ALGORITHMS = ("sha256", "sha512")
MOST_SENT = 65_536
# The fields that a proxy sets for its own connection.
HOPS = (b"connection:", b"keep-alive:", b"server:")
# What nginx answers by itself to a request that it doesn't take for one.
ANSWERED_BY_NGINX = re.compile(rb"HTTP/1.1 (?:400|405|414|501|505) .*<center>nginx</center>", re.S)
# What is asked until a reply has another moment, and how often at most.
PROBE = b"GET /nothing HTTP/1.1\r\nHost: 127.0.0.1:8080\r\nConnection: close\r\n\r\n"
MOST_PROBES = 20
# The seconds that are waited for the rest of what is already wrong.
WAIT_FOR_REST = 0.2
# The seconds in which a server has to take connections once it has an empty store.
MOST_SECONDS_TO_START = 60
# The number of a connection that has one exchange of its own.
OWN = 0
# What the lines of an example need that no request brings about.
NEEDS = {
    "a moment": {"at"},
    "a statement": {"sql", "store", "next", "unopened", "store-fault"},
    "a disk that fails or stops": {"fails", "stops"},
    "a reader or a writer that fails": {
        "reader-fails", "reads", "writer-takes", "writer-fails-after", "cut", "read-fault", "write-fault", "unserved", "bound"},
    "a call that is no request": {"export", "audit", "intake", "shut", "refused"},
    "1,024 connections": {"crowd", "full", "gone"},
}
# The same of a server of this repository in a folder of its own, whose clock is set and whose store is changed, exported and audited.
OWN_NEEDS = {**NEEDS, "a moment": set(), "a statement": {"unopened", "store-fault"},
             "a call that is no request": {"intake", "shut", "refused"}}
# A host sends a content in turns, and looks for each of its rows at its place: where a row stands at another, it cuts the content, and
# a connection that is served by itself takes what stands there in their order.
IN_ORDER = ("a row of another part or place stands where that is in their order",
            "a row of 65536 or of 65537 bytes in another part or place")
# The commands that such a server's program has.
COMMANDS = re.compile(r"export \S+|audit (?:all|\d+)")
FORMS = (b"%a, %d %b %Y %H:%M:%S GMT", b"%Y-%m-%dT%H:%M:%SZ", b"%Y-%m-%d")
BAG_INFO = re.compile(rb"Bagging-Date: (\S+)\nPayload-Oxum: \d+\.\d+\n")


class Skipped(Exception):
    """What an example needs that this server can't be given."""


def need_of(lines, needs=NEEDS):
    """What the lines of an example need that no request brings about, or None."""
    words = {line.partition(" ")[0] for _, line in lines}
    return next((need for need, those in needs.items() if words & those), None)


def own_need_of(title, lines):
    """What an example needs that a server of our own can't be given, or None."""
    if title in IN_ORDER:
        return "rows that are taken in their order"
    if any(re.fullmatch(r"at (?!\d{1,18}$).*", line) for _, line in lines):
        return "moments that no clock shows"
    if any(line.startswith(("export ", "audit ")) and not COMMANDS.fullmatch(line) for _, line in lines):
        return "a call that no command makes"
    return need_of(lines, OWN_NEEDS)


def spelled(moment):
    """The moment in the forms in which a reply tells it."""
    return [time.strftime(form.decode(), time.gmtime(moment)).encode() for form in FORMS]


def moved(stream, authority):
    """The messages of a stream with another host and port in place of the written ones, and with the lengths and the
    digests that their contents have then."""
    if authority == WRITTEN:
        return stream
    if authority in stream or OTHER_SPELLINGS.search(stream):
        raise Skipped("the base that is written")
    is_longer, done = len(authority) != len(WRITTEN), b""
    while stream:
        head, end, rest = stream.partition(b"\r\n\r\n")
        length = length_told(head) if end else 0
        content, stream = rest[:length], rest[length:]
        is_whole = len(content) == length and not content.startswith(b"HTTP/1.1 ")
        if is_longer and not (is_whole or is_known(head)) or is_longer and is_chunked(head) and WRITTEN in rest:
            raise Skipped(f"a base of {len('http://') + len(WRITTEN)} letters")
        if not is_whole:
            content, stream = b"", rest
        done += moved_message(head, end, content, authority)
    return done


def length_told(head):
    """The length of the content that a head tells, or 0."""
    told = re.search(rb"(?im)^content-length: *(\d+)", head)
    return int(told[1]) if told else 0


def is_known(head):
    """Whether a length that is told without its content doesn't depend on the base: that of a file, of a text, or of what
    is sent in part."""
    return b"Content-Type: application/json" not in head


def is_chunked(head):
    return b"transfer-encoding:" in head.lower()


def moved_message(head, end, content, authority):
    """One message, whose head may tell its length, and digests of its content."""
    new = content.replace(WRITTEN, authority)
    if content:
        head = re.sub(rb"(?im)^(content-length: *)\d+", rb"\g<1>%d" % len(new), head)
    for algorithm in ALGORITHMS:
        old, true = hashlib.new(algorithm, content), hashlib.new(algorithm, new)
        head = head.replace(old.hexdigest().encode(), true.hexdigest().encode())
        head = head.replace(base64.b64encode(old.digest()), base64.b64encode(true.digest()))
    return head.replace(WRITTEN, authority) + end + new


def replies(stream, lacking=()):
    """The replies of a stream: head and content of each. Those of these places have no content, as the replies to a HEAD."""
    found = []
    while stream:
        head, end, stream = stream.partition(b"\r\n\r\n")
        length = length_told(head) if end and len(found) not in lacking else 0
        found.append((head + end, stream[:length], len(stream) >= length and bool(end)))
        stream = stream[length:]
    return found


def lacking_content(want):
    """The places of the replies that were written without the content whose length they tell."""
    lacking, stream = set(), want
    for place in range(len(want)):
        head, end, stream = stream.partition(b"\r\n\r\n")
        length = length_told(head)
        if length and (len(stream) < length or stream.startswith(b"HTTP/1.1 ")):
            lacking.add(place)
            length = 0
        stream = stream[length:]
        if not stream:
            break
    return lacking


def without_hops(stream, lacking):
    """The replies with their fields in the order of their names, without those that a proxy sets."""
    parts = []
    for head, content, _ in replies(stream, lacking):
        first, *lines = head.rstrip(b"\r\n").split(b"\r\n")
        kept = sorted(it for it in lines if not it.lower().startswith(HOPS))
        parts += [b"\r\n".join([first, *kept]), b"\r\n\r\n", content]
    return bytearray(b"".join(parts))


class Clock:
    """What a server's clock may tell while an example is played: the moments from its beginning to now, and some seconds
    about them, since two clocks differ."""

    def __init__(self, seconds):
        self.began, self.seconds, self.infos = int(time.time()), seconds, set()

    def as_written(self, want, came):
        """What came, with the written moment in each place in which that is written and one of these came. So it is with
        the digests of a bag-info.txt, which has the day."""
        if came == want:
            return bytes(came)
        self.infos |= {it[0] for it in BAG_INFO.finditer(want)}
        moments = range(self.began - self.seconds, int(time.time()) + self.seconds + 1)
        forms = zip(spelled(MOMENT), zip(*map(spelled, moments)))
        for written, told in [*forms, *self.digests(moments)]:
            for place in re.finditer(re.escape(written), want):
                if came[place.start():place.end()] in told:
                    came[place.start():place.end()] = written
        return bytes(came)

    def digests(self, moments):
        """The digests of each bag-info.txt that was written, and of what it has to be at these moments."""
        day, days = spelled(MOMENT)[2], {spelled(it)[2] for it in moments}
        for info in self.infos:
            for algorithm in ALGORITHMS:
                told = [hashlib.new(algorithm, info.replace(day, it)).hexdigest().encode() for it in days]
                yield hashlib.new(algorithm, info).hexdigest().encode(), told


class SetClock:
    """A server's clock that tells the moments that are written."""

    def as_written(self, want, came):
        return bytes(came)


class Place:
    """A server at a URL: its sockets, and what gives it an empty store."""

    def __init__(self, url, freshen, patience=5.0, is_single=False, seconds=2, piece="whole", is_proxied=False, own=None):
        parts = urlsplit(url)
        self.address = parts.hostname, parts.port or 80
        self.authority = WRITTEN if own else parts.netloc.encode()
        self.freshen, self.patience, self.is_single, self.own = freshen, patience, is_single, own
        self.seconds, self.piece, self.is_proxied, self.is_fresh = seconds, piece, is_proxied, False

    def empty(self, configured):
        """An empty store by this configuration, where the one that is there isn't so."""
        if configured or not self.is_fresh:
            self.freshen(configured)
        self.is_fresh = not configured

    def moves_clock(self, moment):
        """A server of our own tells this moment from here on, and so does its store."""
        self.is_fresh = self.own.set_moment(moment) and self.is_fresh

    def goes_by(self, moment):
        """A server of our own goes by this moment, once it has answered by it: behind a long round it keeps one for some rounds."""
        date = b"Date: " + spelled(moment)[0]
        for _ in range(MOST_PROBES):
            with self.connect() as probe:
                probe.sendall(PROBE)
                if date in probe.recv(MOST_SENT):
                    return

    def starts_again(self, configured):
        """A server of our own is started over its store, which an earlier one has left."""
        self.own.start(configured, is_kept=True)

    def ends_own(self):
        """A server of our own ends."""
        self.own.end()
        self.is_fresh = False

    def notice(self, stream):
        """Notes that the store may be another once this is sent."""
        if not stream.startswith((b"GET ", b"HEAD ")) or re.search(rb"POST|PUT|DELETE", stream):
            self.is_fresh = False

    def connect(self):
        """A connection, once the server takes one."""
        until = time.monotonic() + MOST_SECONDS_TO_START
        while True:
            try:
                connection = socket.create_connection(self.address, self.patience)
                connection.setsockopt(socket.IPPROTO_TCP, socket.TCP_NODELAY, 1)
                return connection
            except ConnectionRefusedError:
                if time.monotonic() > until:
                    raise
                time.sleep(0.01)


def folder_in_memory():
    """The system's folder in memory, for a store that is made some thousand times, or None."""
    return "/dev/shm" if os.path.isdir("/dev/shm") else None


def conform(url, name, port, words, is_behind_proxy=False, is_own=False):
    """Runs checks/conform with these words against a program at this port, which is started anew over an empty store for each
    example. Returns its status."""
    fresh, named = ROOT / "checks/fresh", {**os.environ, name.upper(): str(built_program(name))}
    with tempfile.TemporaryDirectory(dir=folder_in_memory()) as folder:
        command = f"{fresh} {name} {port} {folder}" + (f" {url}" if is_behind_proxy else "")
        how = ["--own", folder] if is_own else ["--fresh", command]
        try:
            return subprocess.run([ROOT / "checks/conform", url, *how, *words], env=named, check=False).returncode
        finally:
            subprocess.run([fresh, "--end", folder], check=False)


class Line:
    """A connection to the server."""

    def __init__(self, place):
        self.place, self.socket, self.is_closed = place, place.connect(), False

    def send(self, stream):
        """Sends all of it piece by piece, and reads meanwhile, so that neither side waits for the other. Returns what came."""
        came = b""
        for piece in pieces(self.place.piece, stream):
            left = memoryview(piece)
            while left and not self.is_closed:
                readable, writable, _ = select.select([self.socket], [self.socket], [], self.place.patience)
                if readable:
                    came += self.read()
                elif writable:
                    left = left[self.write(left[:MOST_SENT]):]
                else:
                    raise Wrong("the server reads no more")
        return came

    def write(self, part):
        """Sends some of it. Where the server has closed the connection, what it sent before may still be read."""
        try:
            return self.socket.send(part)
        except (BrokenPipeError, ConnectionResetError):
            return len(part)

    def receive(self, came, want, clock, is_last):
        """Reads on until as much came as is wanted, or, behind the last of a connection, to its end; not for long where
        what came is already another. Returns all that came, with the written moments."""
        came = bytearray(came)
        while (len(came) < len(want) or is_last) and not self.is_closed:
            if not self.is_readable(WAIT_FOR_REST):
                if not want.startswith(clock.as_written(want, came)) or not self.is_readable(self.place.patience):
                    break
            came += self.read()
        self.is_closed = self.is_closed or self.is_at_end()
        return clock.as_written(want, came)

    def receive_replies(self, came, want, clock, is_last):
        """The same from a proxy, which sends other fields in another order. Returns what came, and what is wanted, alike."""
        came, lacking = bytearray(came), lacking_content(want)
        wanted = len(replies(want, lacking))
        while not self.is_closed and (is_last or sum(it[2] for it in replies(bytes(came), lacking)) < wanted):
            if not self.is_readable(self.place.patience):
                break
            came += self.read()
        self.is_closed = self.is_closed or self.is_at_end()
        want = bytes(without_hops(want, lacking))
        return clock.as_written(want, without_hops(bytes(came), lacking)), want

    def is_readable(self, seconds):
        return bool(select.select([self.socket], [], [], max(seconds, 0))[0])

    def is_at_end(self):
        """Whether the server has closed it by now."""
        try:
            return self.is_readable(0) and not self.socket.recv(1, socket.MSG_PEEK)
        except ConnectionResetError:
            return True

    def read(self):
        try:
            piece = self.socket.recv(MOST_SENT)
        except ConnectionResetError:
            piece = b""
        self.is_closed = not piece
        return piece

    def half_close(self):
        with contextlib.suppress(OSError):
            self.socket.shutdown(socket.SHUT_WR)

    def end(self):
        """Ends a connection, on which nothing more has to come."""
        with self.socket:
            self.half_close()
            extra = b"" if self.is_closed or not self.is_readable(self.place.patience) else self.read()
        if extra:
            raise Wrong(f"more is sent\n  sent:    {extra[:300]}")


class SocketPlay(Play):
    """An example that is played over sockets. `restart` and `reopen` give it new connections, and another server where that is of our
    own, and what changes the store ends it."""

    left_out = LEFT_OUT - {"sql", "store"}

    def __init__(self, words, place):
        super().__init__(words, "whole", False)
        self.place, self.lines, self.own = place, {}, place.own
        self.clock = SetClock() if self.own else Clock(place.seconds)
        self.configured, self.has_begun, self.has_server = {}, False, False
        if self.own:
            place.moves_clock(MOMENT)

    def sets(self, word, rest):
        if word == "config":
            self.configure(*rest.split(" ", 1))
        elif word == "at":
            self.place.moves_clock(int(rest))
            if self.has_server:
                self.place.goes_by(int(rest))
        elif word in ("restart", "reopen"):
            self.leave()
        elif word == "next":
            self.change("UPDATE state SET next_{} = {}".format(*rest.split(" ")))
        elif word == "sql":
            self.change(rest)
        elif word == "store":
            self.fill(rest)
        elif word == "export":
            self.rests()
            self.call = self.own.exported(rest)
        elif word == "audit":
            self.rests()
            self.call = self.own.audited() if rest == "all" else self.own.audited_object(int(rest))
        elif word == "connection":
            self.current = int(rest)
        elif word == "close":
            self.line_of(int(rest)).end()
            del self.lines[int(rest)]
        else:
            raise Wrong(f"no line begins with {word}")

    def configure(self, name, value):
        if self.has_server and not self.own:
            raise Skipped("a configuration that changes")
        kind = type(getattr(self.config, NAMES[name]))
        self.configured[NAMES[name]] = value == "true" if kind is bool else kind(value)

    def leave(self):
        """Its connections end, and with them a server of our own."""
        self.end()
        self.current = 1
        self.has_server = self.has_server and not self.own

    def rests(self):
        """A server that has made its tables has ended."""
        if not self.has_begun:
            self.begin()
            Line(self.place).end()
        self.leave()
        self.place.ends_own()

    def change(self, statements):
        """Statements change the store."""
        self.rests()
        self.own.change(statements)

    def fill(self, statements):
        """Statements make the store."""
        self.place.ends_own()
        self.own.remove_store()
        self.own.change(statements)
        self.has_begun = True

    def begin(self):
        """A server is there by this configuration: over an empty store, or over what the last one left."""
        if not self.has_begun:
            self.place.empty(self.configured)
        elif not self.has_server:
            self.place.starts_again(self.configured)
        self.has_begun = self.has_server = True

    def ends(self, word):
        """Plays an exchange and compares what came. One that is ended or served has a connection of its own."""
        self.begin()
        stream, want = (moved(it, self.place.authority) for it in (self.stream, self.want))
        if word in ("ended", "served"):
            self.current = OWN
        line = self.line_of(self.current)
        self.place.notice(stream)
        came = line.send(stream)
        if word == "ended":
            line.half_close()
        if self.place.is_proxied:
            came, want = line.receive_replies(came, want, self.clock, word != "open")
            if ANSWERED_BY_NGINX.search(came):
                raise Skipped("a proxy that hands each request on")
        else:
            came = line.receive(came, want, self.clock, word != "open")
        self.want = want
        self.compare(came, "closed" if line.is_closed else "open", "open" if word == "open" else "closed")
        self.stream, self.want = b"", b""
        if self.current == OWN:
            self.lines.pop(OWN).end()
            self.current = 1

    def line_of(self, number):
        """The connection of this number. Where the server takes one after another, all others end first."""
        if number not in self.lines:
            for other, line in self.lines.items() if self.place.is_single else ():
                if line is not None and not line.is_closed:
                    line.end()
                    self.lines[other] = None
            self.lines[number] = Line(self.place)
        if self.lines[number] is None:
            raise Skipped("connections at once")
        return self.lines[number]

    def end(self):
        """Ends its connections, and sees that nothing more comes on one that was to stay open."""
        lines, self.lines = [it for it in self.lines.values() if it is not None], {}
        try:
            for line in lines:
                line.end()
        finally:
            for line in lines:
                line.socket.close()


def play(words, lines, place):
    """Plays an example once, by these texts."""
    playing = SocketPlay(words, place)
    try:
        play_lines(playing, lines, "line {}")
        playing.end()
    finally:
        with contextlib.suppress(Wrong):
            playing.end()


def play_example(title, words, lines, place):
    """Plays an example once for each of its rows. Returns how often it was played; raises Skipped where it never was."""
    need = own_need_of(title, lines) if place.own else need_of(lines)
    if need:
        raise Skipped(need)
    played, skipped = 0, None
    for cells in cells_of(lines):
        try:
            play({**words, **cells}, lines, place)
            played += 1
        except Skipped as reason:
            skipped = reason
        except Wrong as wrong:
            raise Wrong(f"row {list(cells.values())}: {wrong}" if cells else str(wrong)) from None
    if not played or skipped and place.own:
        raise skipped
    return played
