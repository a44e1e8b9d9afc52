#!/usr/bin/env python3
"""The second server of the profile (checks/lib/model.py) over sockets of 127.0.0.1, with faults planted where they are asked for.

    checks/toy_server.py PORT CONFIGURATION [FAULT..]

Its archive is in memory. SIGHUP gives it an empty one, by the configuration that the file then has: a JSON object of the
names of `model.Config`, or nothing. It serves until it is ended. The faults are those of FAULTS, each a way in which a
server may go wrong that looks right at first.
"""

import sys
sys.path.insert(0, f"{sys.path[0]}/lib")

import json
import pathlib
import selectors
import signal
import socket
import time

import model

MOST_READ = BLOCK = 65_536


class ToyServer:
    """A listener and its connections, which share one archive."""

    def __init__(self, port, configuration):
        self.configuration = pathlib.Path(configuration)
        self.sockets = selectors.DefaultSelector()
        self.base = f"http://127.0.0.1:{port}"
        self.listener = socket.create_server(("127.0.0.1", port), backlog=128)
        self.sockets.register(self.listener, selectors.EVENT_READ)
        self.begin()

    def begin(self):
        """An empty archive; connections of before go on reading, and are answered by the old one."""
        told = self.configuration.read_text(encoding="utf-8") if self.configuration.exists() else ""
        config = model.Config(**{"base": self.base, **json.loads(told or "{}")})
        self.server = model.Server(config, model.Archive())

    def accept(self):
        connection, _ = self.listener.accept()
        connection.setsockopt(socket.IPPROTO_TCP, socket.TCP_NODELAY, 1)
        self.sockets.register(connection, selectors.EVENT_READ, (self.server, self.server.connect()))

    def read(self, connection, server, number):
        """Hands on what came. A connection that is closed is read to its end, so that its reply isn't lost."""
        piece = connection.recv(MOST_READ)
        if not piece:
            self.sockets.unregister(connection)
            connection.close()
            return
        sent, came = server.arrive(number, piece, int(time.time()))
        connection.sendall(sent)
        if came == "closed" and server.connections[number - 1] is not None:
            server.connections[number - 1] = None
            connection.shutdown(socket.SHUT_WR)

    def serve(self):
        while True:
            for key, _ in self.sockets.select():
                if key.data is None:
                    self.accept()
                    continue
                try:
                    self.read(key.fileobj, *key.data)
                except OSError:
                    self.sockets.unregister(key.fileobj)
                    key.fileobj.close()


def tells_methods_without_a_blank(true=model.Reply.spelled):
    """The methods of a bag's list and of its files are told without the blank between them."""
    def spelled(self, *how):
        return true(self, *how).replace(b"Allow: GET, HEAD\r\n", b"Allow: GET,HEAD\r\n")
    model.Reply.spelled = spelled


def leaves_percent_bare(true=model.bag_of):
    """A manifest has a path with a `%` as it stands."""
    def bag_of(item):
        return [(path, media, content.replace(b"%25", b"%")) for path, media, content in true(item)]
    model.bag_of = bag_of


def prefers_the_plain_name(true=model.file_name):
    """A file name is read from `filename` where both it and `filename*` stand."""
    def file_name(parameters):
        return true({name: text for name, text in parameters.items() if name != b"filename*" or b"filename" not in parameters})
    model.file_name = file_name


def compares_the_first_block(true=model.Step.add_segment):
    """A segment that was received is taken again where it has as many bytes, and the same ones in its first 65,536."""
    def add_segment(self):
        kept = self.archive.uploads[self.key].segments.get(self.told, b"")
        content = self.request.content
        if kept and len(kept) == len(content) and kept[:BLOCK] == content[:BLOCK]:
            self.request.content = kept
        return true(self)
    model.Step.add_segment = add_segment


def keeps_old_connections(true=model.Request.closes):
    """A connection of HTTP/1.0 stays open behind its request."""
    def closes(self):
        return self.version == 1 and true(self)
    model.Request.closes = closes


FAULTS = {it.__name__: it for it in (
    tells_methods_without_a_blank, leaves_percent_bare, prefers_the_plain_name, compares_the_first_block,
    keeps_old_connections)}


def main(words):
    port, configuration, *faults = words
    for name in faults:
        FAULTS[name]()
    signal.signal(signal.SIGHUP, lambda *_: server.begin())
    server = ToyServer(int(port), configuration)
    server.serve()


if __name__ == "__main__":
    main(sys.argv[1:])
