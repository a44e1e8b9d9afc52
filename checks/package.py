#!/usr/bin/env python3
"""Makes the Debian package by deploy/package, twice, and plays an operator with it in a Debian made by debootstrap: installs it,
starts the server, deposits, upgrades to a next version, deposits and reads, removes and purges.

    checks/package.py

The status is 0 where all came as it should. It needs root, `swordd` built, dpkg-dev, lintian, debootstrap and Debian's registry;
it says what it left out where lintian or debootstrap is missing. It takes a minute or two, most of it debootstrap's.
"""

import sys
sys.path.insert(0, f"{sys.path[0]}/lib")

import contextlib
import hashlib
import json
import os
import pathlib
import re
import shutil
import subprocess
import tempfile

from crates import ROOT, built_program
from depositing import as_file
from expectations import expect, find, status_of
from served import Served, free_port

# What deploy/package reads of the tree, beside the program.
READ = ("deploy", "docs", "README.md", "CHANGELOG.md", "LICENSE", "crates/dep_application/src/start.rt")
VERSION = re.compile(r'(?m)(?<=const VERSION: &str = ").*(?=";$)')
FOLDERS = {"var/lib/swordd": (0o750, "swordd"), "var/spool/swordd": (0o750, "swordd"), "var/backups/swordd": (0o700, "root")}
CONFIGURATION = "etc/swordd/configuration.json"
PATH = "/usr/sbin:/usr/bin:/sbin:/bin"
# Seconds after which a command is given up.
PATIENCE = 900


def run(status, *words, **how):
    """A command, which has to end with this status. Returns what it said."""
    ran = subprocess.run([str(it) for it in words], stdout=subprocess.PIPE, stderr=subprocess.STDOUT, text=True, check=False,
                         timeout=PATIENCE, **how)
    if not expect(f"the end of {' '.join(map(str, words))}", ran.returncode, status):
        print(ran.stdout)
    return ran.stdout


def version():
    return VERSION.search((ROOT / "crates/dep_application/src/start.rt").read_text(encoding="utf-8"))[0]


def copy_tree(folder, told):
    """What deploy/package reads, with this version."""
    for name in READ:
        (folder / name).parent.mkdir(parents=True, exist_ok=True)
        (shutil.copytree if (ROOT / name).is_dir() else shutil.copy)(ROOT / name, folder / name)
    source, changes = folder / READ[-1], folder / "CHANGELOG.md"
    source.write_text(VERSION.sub(told, source.read_text(encoding="utf-8")), encoding="utf-8")
    changes.write_text(changes.read_text(encoding="utf-8").replace(f"[{version()}]", f"[{told}]"), encoding="utf-8")
    return folder


def make(tree, folder, *front, **told):
    """The package of a tree, under the command `front` if there is one."""
    folder.mkdir()
    said = run(0, *front, tree / "deploy/package", folder, env={**os.environ, "SWORDD": str(built_program("swordd")), **told})
    packages = list(folder.iterdir())
    expect("what is printed", said, f"{packages[0]}\n")
    return packages[0]


def packages(place):
    """One of this version, which is made again elsewhere, on one processor and under another mask; and one of the next version."""
    moment = run(0, "git", "-C", ROOT, "log", "-1", "--format=%ct").strip()
    first = make(ROOT, place / "first")
    otherwise = ("taskset", "-c", "0", "sh", "-c", 'umask 077; exec "$@"', "sh")
    again = make(copy_tree(place / "tree", version()), place / "again", *otherwise, SOURCE_DATE_EPOCH=moment, TZ="Asia/Tokyo")
    expect("the name of the package", first.name, f"swordd_{version()}_{run(0, 'dpkg', '--print-architecture').strip()}.deb")
    find("two runs make the same bytes", first.read_bytes() == again.read_bytes())
    later = make(copy_tree(place / "next", f"{version()}.1"), place / "later", SOURCE_DATE_EPOCH=moment)
    lacking = place / "next/CHANGELOG.md"
    lacking.write_text(lacking.read_text(encoding="utf-8").replace(f"[{version()}.1]", "[0.1]"), encoding="utf-8")
    run(1, place / "next/deploy/package", place, env={**os.environ, "SOURCE_DATE_EPOCH": moment})
    return first, later


def lint(package):
    """lintian finds no error, and one override is there. Returns what was left out."""
    if not shutil.which("lintian"):
        return ", lintian isn't there"
    said = run(0, "lintian", "--allow-root", "--fail-on=none", "--show-overrides", package)
    expect("the errors that lintian finds", re.findall(r"(?m)^E: .*", said), [])
    expect("what is overridden", re.findall(r"(?m)^O: swordd: (\S+)", said), ["unstripped-binary-or-object"])
    return ""


def fitted(path):
    """Where a file that deploy/install puts stands in the package."""
    return path.replace("usr/local/bin/", "usr/bin/").replace("etc/systemd/", "usr/lib/systemd/")


def contents(package, place):
    """It has what deploy/install installs; what a unit or a script names is there; the program is the one that was built."""
    source, unpacked = place / "source", place / "unpacked"
    run(0, ROOT / "deploy/install", "--built", "--root", source, env={**os.environ, "SWORDD": str(built_program("swordd"))})
    run(0, "dpkg-deb", "--extract", package, unpacked)
    for it in source.rglob("*"):
        path = unpacked / fitted(str(it.relative_to(source)))
        if it.is_file():
            expect(f"the mode of {path}", path.exists() and path.stat().st_mode, it.stat().st_mode)
    for it in [*unpacked.glob("usr/bin/swordd-*"), *unpacked.glob("usr/lib/systemd/system/*")]:
        for named in re.findall(r"(?<!\w)/usr/(?:local/)?bin/swordd[\w-]*", it.read_text(encoding="utf-8")):
            find(f"{named}, which {it.name} names", (unpacked / named[1:]).exists())
    find("the program is the one that was built", (unpacked / "usr/bin/swordd").read_bytes() == built_program("swordd").read_bytes())
    expect("where swordd_host leads", os.readlink(unpacked / "usr/bin/swordd_host"), "swordd")
    expect("the conffiles", run(0, "dpkg-deb", "--info", package, "conffiles"), f"/{CONFIGURATION}\n")
    for name in ("README.md", "CHANGELOG.md", "copyright", "changelog.gz", "docs/DEPLOYING.md", "examples/nginx.conf",
                 "examples/shards.conf"):
        find(f"the document {name}", (unpacked / "usr/share/doc/swordd" / name).is_file())


class Debian:
    """A Debian in a folder, whose systemctl notes what it is called for."""

    def __init__(self, folder):
        self.folder, self.calls = folder, folder / "var/log/calls"
        suite = run(0, "sh", "-c", '. /etc/os-release; echo "$VERSION_CODENAME"').strip()
        run(0, "debootstrap", "--variant=minbase", "--include=python3", suite, folder)
        (folder / "run/systemd/system").mkdir(parents=True)
        (folder / "usr/bin/systemctl").write_text('#!/bin/sh\necho "$*" >>/var/log/calls\n', encoding="utf-8")
        (folder / "usr/bin/systemctl").chmod(0o755)

    def command(self, *words, user=None):
        return ["chroot", *([f"--userspec={user}:{user}"] if user else []), self.folder, *words]

    def run(self, status, *words):
        return run(status, *self.command(*words), env={"PATH": PATH, "LC_ALL": "C.UTF-8", "DEBIAN_FRONTEND": "noninteractive"})

    def apt(self, *words):
        """Returns what it said, and what systemctl was called for."""
        self.calls.write_text("", encoding="utf-8")
        said = self.run(0, "apt-get", "-y", "--no-install-recommends", *words)
        return said, self.calls.read_text(encoding="utf-8").splitlines()

    def install(self, package):
        shutil.copy(package, self.folder / "root")
        return self.apt("install", f"/root/{package.name}")

    def user(self, name="swordd"):
        """The number of a user, or None."""
        found = re.search(rf"(?m)^{name}:[^:]*:(\d+):", (self.folder / "etc/passwd").read_text(encoding="utf-8"))
        return found and int(found[1])

    def installed(self):
        return self.run(0, "dpkg-query", "--show", "--showformat=${db:Status-Status} ${Version}", "swordd")

    def configure(self):
        """An operator edits the configuration: another port. Returns it."""
        configuration = self.folder / CONFIGURATION
        told = {**json.loads(configuration.read_text(encoding="utf-8")), "port": free_port()}
        configuration.write_text(json.dumps(told), encoding="utf-8")
        return told

    def store(self):
        """The digests of the database's files."""
        return {it.name: hashlib.sha256(it.read_bytes()).hexdigest() for it in (self.folder / "var/lib/swordd").iterdir()}

    def end(self):
        """debootstrap may leave file systems behind."""
        for line in reversed(pathlib.Path("/proc/mounts").read_text(encoding="utf-8").splitlines()):
            if line.split()[1].startswith(f"{self.folder}/"):
                run(0, "umount", line.split()[1])


class Host(Served):
    """The server of a Debian, by its configuration and as its user."""

    def __init__(self, debian, place, port):
        super().__init__(place, port, 60)
        self.debian, self.log = debian, place / "log"
        with open(self.log, "wb") as log:
            words = debian.command("/usr/bin/swordd_host", f"/{CONFIGURATION}", user="swordd")
            self.process = subprocess.Popen(words, stdin=subprocess.DEVNULL, stdout=log, stderr=log)

    def said(self):
        return self.log.read_text(errors="replace")

    def stop(self):
        """By its stop file, as the unit does."""
        stop = self.debian.folder / "run/swordd/stop"
        stop.parent.mkdir(exist_ok=True)
        stop.touch()
        expect("the end of the server", self.process.wait(60), 0)
        stop.unlink()


def read(host, number, content):
    expect(f"file {number}", host.ask(200, "GET", f"/objects/{number}/files/{number}")[1], content)


def deposit(host, number, content):
    host.ask(201, "POST", "/service", content, as_file(f"{number}.txt"))
    read(host, number, content)


def first_installation(debian, package):
    """User and folders are there; nothing is started or enabled."""
    _, calls = debian.install(package)
    expect("what systemctl is called for by an installation", calls, ["daemon-reload"])
    expect("what is installed", debian.installed(), f"installed {version()}")
    for path, (mode, owner) in FOLDERS.items():
        about = (debian.folder / path).stat()
        expect(f"the mode and the owner of {path}", (oct(about.st_mode & 0o7777), about.st_uid), (oct(mode), debian.user(owner)))
    expect("links of units", list((debian.folder / "etc/systemd").rglob("*swordd*")), [])
    debian.run(0, "swordd_host", "--check", f"/{CONFIGURATION}")
    debian.run(0, "swordd-deposit", "--help")
    debian.run(0, "swordd-fetch-bag", "--help")


def upgrade(debian, place, later):
    """The server goes on through an upgrade; the next one, begun by hand, has what was deposited."""
    told = debian.configure()
    with Host(debian, place, told["port"]) as host:
        expect("the version that the program tells", json.loads(host.said().splitlines()[0])["version"], version())
        deposit(host, 1, b"before the upgrade" * 1000)
        said, calls = debian.install(later)
        expect("what systemctl is called for by an upgrade", set(calls), {"daemon-reload"})
        find("an upgrade says how its server begins", "systemctl restart swordd-host" in said)
        read(host, 1, b"before the upgrade" * 1000)
        host.stop()
    expect("what is installed behind the upgrade", debian.installed(), f"installed {version()}.1")
    expect("the configuration behind the upgrade", json.loads((debian.folder / CONFIGURATION).read_text(encoding="utf-8")), told)
    with Host(debian, place, told["port"]) as host:
        read(host, 1, b"before the upgrade" * 1000)
        deposit(host, 2, b"behind the upgrade")
        host.stop()
    expect("the audit", debian.run(0, "swordd", "audit", "/var/lib/swordd/deposits.db"), "files 2 damaged 0\n")


def removal(debian):
    """The data stays through a removal and a purge; the configuration and the user through the first alone."""
    kept, number = debian.store(), debian.user()
    find("there is a store to keep", "deposits.db" in kept)
    _, calls = debian.apt("remove", "swordd")
    expect("what systemctl is called for by a removal", calls,
           ["disable --now swordd-host.service swordd-backup.timer swordd-audit.timer", "daemon-reload"])
    expect("what a removal leaves", (debian.store(), debian.user(), (debian.folder / CONFIGURATION).exists()), (kept, number, True))
    left = list((debian.folder / "usr").rglob("*swordd*"))
    expect("what of the package a removal leaves", left, [])
    said, _ = debian.apt("purge", "swordd")
    expect("what a purge leaves", (debian.store(), debian.user(), (debian.folder / "etc/swordd").exists()), (kept, None, False))
    for path in FOLDERS:
        find(f"a purge says that /{path} stays", f"swordd: /{path} stays" in said and (debian.folder / path).is_dir())


def installed_again(debian, place, package):
    """Behind a purge, after which somebody else got the user's number: the deposits are there once they are owned anew, as the
    purge said."""
    debian.run(0, "useradd", "--system", "other")
    debian.install(package)
    debian.run(0, "chown", "-R", "swordd:swordd", "/var/lib/swordd")
    with Host(debian, place, debian.configure()["port"]) as host:
        read(host, 2, b"behind the upgrade")
        host.stop()


def operator(place, first, later):
    """Returns what was left out."""
    if not shutil.which("debootstrap") or os.geteuid():
        return ", nothing installed: debootstrap isn't there, or no root"
    with contextlib.ExitStack() as ends:
        debian = Debian(place / "debian")
        ends.callback(debian.end)
        work = place / "work"
        work.mkdir()
        first_installation(debian, first)
        upgrade(debian, work, later)
        removal(debian)
        installed_again(debian, work, later)
    return ""


def main():
    with tempfile.TemporaryDirectory() as name:
        place = pathlib.Path(name)
        place.chmod(0o755)
        first, later = packages(place)
        contents(first, place)
        left_out = lint(first) + operator(place, first, later)
        size = first.stat().st_size
    return status_of(f"package: {size} bytes twice, installed, upgraded, removed and purged{left_out}")


if __name__ == "__main__":
    sys.exit(main())
