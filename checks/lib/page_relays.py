"""Relays for the checks of the page: one that sees the requests that nginx sends to the host, and one that breaks the browser's
connections as replies come."""

import re
import socket
import threading

from relay import Relay, end


class Watching(Relay):
    """Between nginx and a host. It notes each request as its method, its path and the number of its segment, and turns the first
    byte of the contents that it is to spoil. While `goes_on` is cleared it holds the segments behind each first one. Changes of
    objects without If-Match are `untagged`."""

    def __init__(self, port):
        self.requests, self.untagged, self.spoils = [], [], lambda path: False
        self.goes_on = threading.Event()
        self.goes_on.set()
        super().__init__(port)

    def pass_on(self, client):
        try:
            server = socket.create_connection(self.target)
        except OSError:
            end(client)
            return
        threading.Thread(target=self.pass_back, args=(server, client), daemon=True).start()
        try:
            self.pass_requests(client.makefile("rb"), server)
        except OSError:
            pass
        end(client, server)

    def pass_requests(self, stream, server):
        while head := head_of(stream):
            method, path, _ = head.split(b" ", 2)
            length = re.search(rb"(?im)^content-length: *(\d+)", head)
            content = bytearray(stream.read(int(length[1]) if length else 0))
            if method != b"GET" and path.startswith(b"/objects/") and b"\r\nif-match:" not in head.lower():
                self.untagged.append((method, path))
            number = re.search(rb"segment_number=(\d+)", head)
            self.requests.append((method.decode(), path.decode(), number and int(number[1])))
            if number and int(number[1]) > 1:
                self.goes_on.wait()
            if content and self.spoils(path.decode()):
                content[0] ^= 1
            server.sendall(head + content)

    def segments(self, begin=0):
        """The uploads and numbers of the segments that were sent, from that request on."""
        return [(path, number) for _, path, number in self.requests[begin:] if number]


def head_of(stream):
    lines = []
    while (line := stream.readline()) not in (b"\r\n", b""):
        lines.append(line)
    return b"".join([*lines, b"\r\n"]) if lines else b""


class Cutting(Relay):
    """Between a browser and nginx. It breaks the connection in place of each reply whose number it is to cut."""

    def __init__(self, port):
        self.cuts, self.number, self.cut = lambda number: False, 0, 0
        super().__init__(port)

    def pass_on(self, client):
        server = socket.create_connection(self.target)
        asked = threading.Event()
        threading.Thread(target=self.pass_replies, args=(server, client, asked), daemon=True).start()
        try:
            while piece := client.recv(65_536):
                asked.set()
                server.sendall(piece)
        except OSError:
            pass
        end(client, server)

    def pass_replies(self, server, client, asked):
        try:
            while piece := server.recv(65_536):
                if asked.is_set() and self.is_cut(asked):
                    break
                client.sendall(piece)
        except OSError:
            pass
        end(server, client)

    def is_cut(self, asked):
        """Whether the reply that begins to come is cut."""
        asked.clear()
        with self.lock:
            self.number += 1
            is_cut = self.cuts(self.number)
            self.cut += is_cut
            return is_cut
