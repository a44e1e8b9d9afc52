"""Starts Debian's nginx with deploy/nginx.conf in front of a host, with a certificate and a password of its own making."""

import base64
import os
import pathlib
import shutil
import signal
import socket
import ssl
import subprocess

from crates import ROOT
from hosted import PATIENCE, Host
from served import free_port, wait_for_listener

SITE = ROOT / "deploy/nginx.conf"
NAME, USER, PASSWORD = "deposit.example.org", "kim", "a-word"
# Who may do all.
CURATOR = "curator"
# Users whom the site's remarks give a role.
ROLES = {"reader": "reads", "robot": "adds", CURATOR: "all"}
MAIN = """daemon off;
user {user};
pid {folder}/nginx.pid;
error_log {folder}/error.log warn;
worker_processes 2;
events {{ worker_connections 1024; }}
http {{
    access_log off;
    client_body_temp_path {folder}/bodies;
    proxy_temp_path {folder}/replies;
    fastcgi_temp_path {folder}/unused-1;
    uwsgi_temp_path {folder}/unused-2;
    scgi_temp_path {folder}/unused-3;
    include {folder}/site.conf;
}}
"""


def host(folder, **settings):
    """A host over the store of a folder, whose base is the public name, and which takes deposits on behalf of others."""
    return Host(folder, base=f"http://{NAME}", on_behalf_of=True, **settings)


def password_of(user, password=PASSWORD):
    """The field that tells a user's password."""
    return {"Authorization": "Basic " + base64.b64encode(f"{user}:{password}".encode()).decode()}


def missing():
    """What this machine lacks for a proxy, or None."""
    return next((it for it in ("nginx", "openssl") if not program(it)), None)


def program(name):
    return shutil.which(name, path=f"{os.environ['PATH']}:/usr/sbin:/sbin")


def fitted(text, changes):
    """The text with these changes, each of a line that stands there."""
    for old, new in changes.items():
        if old not in text:
            raise ValueError(f"{SITE.name} has no {old}")
        text = text.replace(old, new)
    return text


class Nginx:
    """nginx over a site: a text that is read inside of `http`."""

    def __init__(self, folder, site, port):
        self.folder, self.port, self.process = pathlib.Path(folder), port, None
        self.write(site)
        user = "root" if os.geteuid() == 0 else os.environ.get("USER", "nobody")
        (self.folder / "nginx.conf").write_text(MAIN.format(folder=self.folder, user=user), encoding="utf-8")

    def write(self, site):
        (self.folder / "site.conf").write_text(site, encoding="utf-8")

    def reload(self, site):
        """From here on this site; requests that are under way end by the one of before."""
        self.write(site)
        self.process.send_signal(signal.SIGHUP)

    def __enter__(self):
        command = [program("nginx"), "-c", self.folder / "nginx.conf", "-p", self.folder]
        self.process = subprocess.Popen(command, stdin=subprocess.DEVNULL, stderr=subprocess.DEVNULL)
        try:
            wait_for_listener(self.port, self.process, self.said, PATIENCE)
        except RuntimeError:
            self.__exit__()
            raise
        return self

    def said(self):
        """What it wrote into its log of errors."""
        log = self.folder / "error.log"
        return log.read_text(errors="replace") if log.exists() else ""

    def __exit__(self, *_):
        self.process.terminate()
        self.process.wait()


class Proxy(Nginx):
    """deploy/nginx.conf in front of the server at a port of 127.0.0.1."""

    def __init__(self, folder, behind, changes=None):
        folder, self.clear_port = pathlib.Path(folder), free_port()
        port, self.certificate = free_port(), folder / "deposit.crt"
        self.url = f"https://127.0.0.1:{port}"
        super().__init__(folder, fitted(SITE.read_text(encoding="utf-8"), {
            "127.0.0.1:8080": f"127.0.0.1:{behind}", "listen 80;": f"listen 127.0.0.1:{self.clear_port};",
            "listen 443 ssl;": f"listen 127.0.0.1:{port} ssl;", "/etc/nginx/": f"{folder}/", "/var/log/nginx/": f"{folder}/",
            "/usr/share/swordd": str(ROOT / "deploy"),
            **{f"# {name:<8} {role};": f"{name} {role};" for name, role in ROLES.items()}, **(changes or {})}), port)
        self.make_secrets()

    def make_secrets(self):
        """A certificate for the public name, and the users, who have one password."""
        names = f"subjectAltName=DNS:{NAME},IP:127.0.0.1"
        words = ["req", "-x509", "-newkey", "rsa:2048", "-nodes", "-days", "2", "-subj", f"/CN={NAME}", "-addext", names,
                 "-keyout", self.folder / "deposit.key", "-out", self.certificate]
        subprocess.run([program("openssl"), *words], check=True, capture_output=True)
        spelled = subprocess.run([program("openssl"), "passwd", "-apr1", PASSWORD], check=True, capture_output=True, text=True).stdout
        (self.folder / "deposit.users").write_text("".join(f"{it}:{spelled}" for it in (USER, *ROLES)), encoding="utf-8")

    def context(self):
        return ssl.create_default_context(cafile=str(self.certificate))

    def held_in_files(self):
        """How many files nginx has open in which it keeps replies."""
        workers = pathlib.Path(f"/proc/{self.process.pid}/task/{self.process.pid}/children").read_text().split()
        files = [it for worker in workers for it in pathlib.Path(f"/proc/{worker}/fd").iterdir()]
        return sum(os.readlink(it).startswith(f"{self.folder}/replies/") for it in files)

    def connect(self, source="127.0.0.1"):
        """A connection with TLS from this address of the loopback, which nothing is sent on yet."""
        clear = socket.create_connection(("127.0.0.1", self.port), timeout=60, source_address=(source, 0))
        return self.context().wrap_socket(clear, server_hostname=NAME)
