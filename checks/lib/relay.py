"""A relay between clients and a server, which breaks connections: a thread for each."""

import socket
import threading


class Relay:
    """Listens at a port of its own and passes on what comes, to the server and back, where `change` may have it otherwise. It
    breaks each connection whose number in a round of `every` is the last one, once so many bytes went over it either way; one
    over which less goes is left whole."""

    def __init__(self, port, every=3, most=150_000, change=lambda piece: piece):
        self.target, self.every, self.most = ("127.0.0.1", port), every, most
        self.broken, self.long_ones, self.lock, self.change = 0, 0, threading.Lock(), change
        self.listener = socket.create_server(("127.0.0.1", 0), backlog=64)
        self.port = self.listener.getsockname()[1]
        self.url = f"http://127.0.0.1:{self.port}"
        threading.Thread(target=self.accept, daemon=True).start()

    def accept(self):
        while True:
            try:
                client, _ = self.listener.accept()
            except OSError:
                return
            threading.Thread(target=self.pass_on, args=(client,), daemon=True).start()

    def is_to_break(self):
        """Whether this is the connection of a round that breaks."""
        with self.lock:
            self.long_ones += 1
            self.broken += self.long_ones % self.every == 0
            return self.long_ones % self.every == 0

    def pass_on(self, client):
        server = socket.create_connection(self.target)
        threading.Thread(target=self.pass_back, args=(server, client), daemon=True).start()
        passed = 0
        try:
            while piece := client.recv(16_384):
                server.sendall(piece)
                was, passed = passed, passed + len(piece)
                if was < self.most <= passed and self.is_to_break():
                    break
            else:
                server.shutdown(socket.SHUT_WR)
                return
        except OSError:
            pass
        end(client, server)

    def pass_back(self, server, client):
        passed = 0
        try:
            while piece := server.recv(65_536):
                was, passed = passed, passed + len(piece)
                if was < self.most <= passed and self.is_to_break():
                    break
                client.sendall(self.change(piece))
        except OSError:
            pass
        end(client, server)

    def close(self):
        end(self.listener)


def end(*connections):
    """Ends both ways at once, also for a thread that waits for it."""
    for it in connections:
        try:
            it.shutdown(socket.SHUT_RDWR)
        except OSError:
            pass
        it.close()
