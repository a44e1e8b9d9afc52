#!/usr/bin/env python3
"""Plays an operator on a Debian with a systemd of its own, which systemd-nspawn starts: installs the package, goes through the
lines of docs/DEPLOYING.md as they stand there, upgrades under load, backs up, audits, restores, removes and purges.

    checks/machine.py

The status is 0 where all came as it should. It runs by hand: it needs root, `swordd` built, dpkg-dev, mmdebstrap, systemd-container
and Debian's registry, and a few minutes. The machine has no network but its own, and its folder goes with it.
"""

import sys
sys.path.insert(0, f"{sys.path[0]}/lib")

import pathlib
import re
import shutil
import subprocess
import tempfile
import time

from crates import ROOT
from expectations import expect, find, status_of
from hosted import until
from package import PATH, copy_tree, make, run, version

PACKAGES = "systemd-sysv,dbus,python3,curl,nginx,openssl,apache2-utils,sqlite3"
CONFIGURATION = "/etc/swordd/configuration.json"
# Seconds of the load, of which the upgrade takes a part.
LOAD_SECONDS = 25
# Bytes of a file that no socket holds.
LARGE = 12_000_000
# In place of what asks a person, or the world. A reload of nginx returns before it listens.
FITTED = {
    "apt-get install nginx openssl apache2-utils\n": "",
    "htpasswd -B -c /etc/nginx/deposit.users kim": "htpasswd -bB -c /etc/nginx/deposit.users kim sesame",
    "curl --user kim ": "curl --silent --retry 9 --retry-connrefused --user kim:sesame --cacert /etc/nginx/deposit.crt"
                        " --resolve deposit.example.org:443:127.0.0.1 ",
}
# Clients, each over a connection that it keeps, who read slowly. A reply that began and isn't whole is cut; what was answered 201
# has to be there.
LOAD = '''
import http.client, sys, threading, time
ends, told, seen, lock = time.time() + float(sys.argv[1]), [], set(), threading.Lock()
def client(method, path):
    connection = None
    while time.time() < ends:
        began = False
        connection = connection or http.client.HTTPConnection("127.0.0.1", 8080, timeout=60)
        try:
            content = b"x" * 100000 if method == "POST" else None
            connection.request(method, path, content, {"Content-Disposition": "attachment; filename=f"})
            reply = connection.getresponse()
            began, left = True, int(reply.getheader("Content-Length"))
            while block := reply.read(min(left, 65536)):
                left -= len(block)
                time.sleep(0.02)
            if left:
                raise OSError
            with lock:
                seen.add(reply.status)
                told.extend([reply.getheader("Location")] if reply.status == 201 else [])
        except (OSError, http.client.HTTPException):
            connection = None
            seen.update(["cut"] if began else [])
            time.sleep(0.05)
threads = [threading.Thread(target=client, args=it) for it in [("GET", "/objects/2/files/2"), ("POST", "/service")] * 3]
[it.start() for it in threads]; [it.join() for it in threads]
for url in told:
    connection = http.client.HTTPConnection("127.0.0.1", 8080, timeout=60)
    connection.request("GET", "/" + url.split("/", 3)[3])
    seen.update(["lost"] if connection.getresponse().status != 200 else [])
print(len(told) > 20, sorted(map(str, seen)))
'''


class Machine:
    """A Debian in a folder, which is started here and ended with this object."""

    def __init__(self, folder):
        self.folder, self.log = folder, folder.with_suffix(".log")
        suite = run(0, "sh", "-c", '. /etc/os-release; echo "$VERSION_CODENAME"').strip()
        run(0, "mmdebstrap", "--quiet", "--mode=root", "--variant=minbase", f"--include={PACKAGES}", suite, folder)
        with open(self.log, "wb") as log:
            words = ["systemd-nspawn", "--quiet", "--register=no", "--keep-unit", "--private-network", "--machine=archive",
                     "--console=read-only", f"--directory={folder}", "--boot"]
            self.process = subprocess.Popen(words, stdin=subprocess.DEVNULL, stdout=log, stderr=log)

    def __enter__(self):
        find("the machine boots", until(lambda: b"login:" in self.log.read_bytes()))
        return self

    def __exit__(self, *_):
        self.process.terminate()
        self.process.wait()

    def run(self, command, status=0):
        """As root, in the folder /root."""
        pid = self.process.pid
        leader = pathlib.Path(f"/proc/{pid}/task/{pid}/children").read_text(encoding="ascii").split()[0]
        return run(status, "nsenter", "-t", leader, "-m", "-u", "-i", "-n", "-p", "-r", "-w", "env", "-i", f"PATH={PATH}",
                   "HOME=/root", "LC_ALL=C.UTF-8", "DEBIAN_FRONTEND=noninteractive", "sh", "-ec", f"cd /root\n{command}")

    def install(self, package):
        shutil.copy(package, self.folder / "root")
        return self.run(f"dpkg --install ./{package.name}")

    def status(self, path):
        return self.run(f"curl --silent --output /dev/null --write-out '%{{http_code}}' http://127.0.0.1:8080{path}")


def lines_of(part, number):
    """A block of commands of a part of docs/DEPLOYING.md, fitted where it asks somebody."""
    text = (ROOT / "docs/DEPLOYING.md").read_text(encoding="utf-8").partition(f"\n## {part}\n")[2].partition("\n## ")[0]
    block = re.findall(r"(?s)```sh\n(.*?)```", text)[number]
    for old, new in FITTED.items():
        block = block.replace(old, new)
    return block


def first_deposit(machine):
    said = machine.run(lines_of("Install", -1))
    find("the service document", '"version":"http://purl.org/net/sword/3.0"' in said)
    machine.run(lines_of("In front of it", 0))
    said = machine.run(lines_of("In front of it", 1))
    find("a deposit through nginx in the name of its user", "201 Created" in said and '"depositedOnBehalfOf":"kim"' in said)
    expect("the object", machine.status("/objects/1"), "200")


def starts_that_fail(machine):
    """A wrong field, and a port where another answers: systemctl says so, and the alert has the server's words."""
    machine.run(f"systemctl stop swordd-host; sed -i 's/: 8080/: \"8080\"/' {CONFIGURATION}")
    machine.run("systemctl start swordd-host", 1)
    expect("whether it is tried again", machine.run("systemctl is-active swordd-host", 3), "failed\n")
    alert = "journalctl --quiet -o cat -t swordd-alert"
    find("the alert names the field", until(lambda: "port: a whole number" in machine.run(alert)))
    machine.run(f"sed -i 's/: \"8080\"/: 8080/' {CONFIGURATION}; mkdir -p /tmp/web; touch /tmp/web/service")
    machine.run("systemd-run --quiet --unit=another python3 -m http.server 8080 --bind 127.0.0.1 --directory /tmp/web; sleep 2")
    machine.run("systemctl start swordd-host", 1)
    machine.run("systemctl stop another swordd-host; systemctl reset-failed; systemctl start swordd-host")


def upgrade(machine, later):
    """Under load no reply is cut, and nothing lost that was answered."""
    (machine.folder / "root/load.py").write_text(LOAD, encoding="utf-8")
    (machine.folder / "root/large").write_bytes(bytes(LARGE))
    machine.run("curl --silent --data-binary @large -H 'Content-Disposition: attachment; filename=large' "
                "http://127.0.0.1:8080/service")
    machine.run(f"python3 load.py {LOAD_SECONDS} >load.out 2>&1 &")
    time.sleep(LOAD_SECONDS / 5)
    machine.install(later)
    machine.run("systemctl restart swordd-host")
    until(lambda: (machine.folder / "root/load.out").stat().st_size)
    said = (machine.folder / "root/load.out").read_text(encoding="utf-8")
    expect("whether there were deposits, and what clients saw of the upgrade", said, "True ['200', '201']\n")
    expect("what is installed", machine.run("dpkg-query --show --showformat='${Version}' swordd"), f"{version()}.1")


def copies(machine):
    """The units of the copy and of its audit; and the copy in the place of the store, as docs/DEPLOYING.md has it."""
    machine.run("systemctl start swordd-backup && systemctl start swordd-audit")
    copy = sorted((machine.folder / "var/backups/swordd").iterdir())[-1].name
    said = machine.run(lines_of("A copy, and back", 0).replace("20261127T020312Z", copy))
    find("the audit of the copy", " damaged 0\n" in said)
    expect("the object in what was restored", machine.status("/objects/1"), "200")


def removal(machine):
    machine.run("apt-get remove --yes swordd")
    machine.run("systemctl is-active swordd-host", 3)
    machine.run("apt-get purge --yes swordd && test -s /var/lib/swordd/deposits.db")
    left = machine.run("find / -xdev -name '*swordd*' -not -path '/root/*' -not -path '/var/cache/*' | sort").split()
    expect("what a purge leaves", left, ["/var/backups/swordd", "/var/lib/swordd", "/var/spool/swordd"])


def main():
    with tempfile.TemporaryDirectory() as name:
        place = pathlib.Path(name)
        place.chmod(0o755)
        moment = run(0, "git", "-C", ROOT, "log", "-1", "--format=%ct").strip()
        first = make(ROOT, place / "first")
        later = make(copy_tree(place / "next", f"{version()}.1"), place / "later", SOURCE_DATE_EPOCH=moment)
        with Machine(place / "debian") as machine:
            machine.install(first)
            first_deposit(machine)
            starts_that_fail(machine)
            upgrade(machine, later)
            copies(machine)
            removal(machine)
    return status_of("machine: installed, served, upgraded under load, restored, removed and purged under systemd")


if __name__ == "__main__":
    sys.exit(main())
