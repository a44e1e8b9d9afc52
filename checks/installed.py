#!/usr/bin/env python3
"""Installs the server into a folder by deploy/install, starts it by the configuration that stands there, deposits, backs up,
loses the store, restores the copy, opens and audits it; and has systemd look at the units.

    checks/installed.py

The status is 0 where all came as it should. It needs `swordd` built, Python's sqlite3, and systemd for the units; where
there is no systemd-analyze, or no strace to see what the server asks of the system, it says so. It takes two processor seconds.
"""

import sys
sys.path.insert(0, f"{sys.path[0]}/lib")

import json
import os
import pathlib
import re
import shutil
import signal
import sqlite3
import subprocess
import tempfile

from crates import ROOT, built_program
from expectations import expect, status_of
from hosted import Host

FILES = {
    "etc/swordd/configuration.json": 0o644, "etc/systemd/system/swordd-alert@.service": 0o644,
    "etc/systemd/system/swordd-audit.service": 0o644, "etc/systemd/system/swordd-audit.timer": 0o644,
    "etc/systemd/system/swordd-backup.service": 0o644, "etc/systemd/system/swordd-backup.timer": 0o644,
    "etc/systemd/system/swordd-host.service": 0o644, "etc/systemd/system/swordd-room.service": 0o644,
    "usr/local/bin/swordd": 0o755, "usr/local/bin/swordd-alert": 0o755, "usr/local/bin/swordd-ready": 0o755,
    "usr/local/bin/swordd-backup": 0o755, "usr/local/bin/swordd_host": 0o755, "var/backups/swordd": 0o700,
    "var/lib/swordd": 0o750, "var/spool/swordd": 0o750,
    **{f"usr/share/swordd/page/{it.name}": 0o644 for it in (ROOT / "deploy/page").iterdir()}}
# What systemd makes of a unit, from 0 (safe) to 10.
MOST_EXPOSURE = 2.0


def run(status, *words, **how):
    """A command, which has to end with this status. Returns what it printed."""
    ran = subprocess.run([str(it) for it in words], capture_output=True, text=True, check=False, **how)
    if not expect(f"the end of {pathlib.Path(words[0]).name} {' '.join(map(str, words[1:]))}", ran.returncode, status):
        print(ran.stdout, ran.stderr)
    return ran.stdout


def install(root):
    told = {**os.environ, "SWORDD": str(built_program("swordd"))}
    for _ in range(2):
        run(0, ROOT / "deploy/install", "--built", "--root", root, env=told)
    for path, mode in FILES.items():
        expect(f"the mode of {path}", oct((root / path).stat().st_mode & 0o777), oct(mode))
    ends = {str(it.relative_to(root)) for it in root.rglob("*") if it.is_file() or not any(it.iterdir())}
    expect("what was installed", ends | set(FILES), set(FILES))


def units(root):
    """systemd finds nothing in them, and the server is little exposed. Returns what was left out."""
    if not shutil.which("systemd-analyze"):
        return ", systemd-analyze isn't there"
    own = root / "etc/systemd/system"
    shutil.copytree("/usr/lib/systemd/system", root / "usr/lib/systemd/system", symlinks=True)
    ran = subprocess.run(["systemd-analyze", "verify", "--man=no", f"--root={root}", *sorted(own.glob("*.*"))], capture_output=True,
                         text=True, check=False)
    said = "".join(line for line in ran.stderr.splitlines(keepends=True) if "swordd" in line)
    expect("what systemd-analyze verify says", said, "")
    shutil.rmtree(root / "usr/lib")
    told = run(0, "systemd-analyze", "security", "--offline=true", "--no-pager", own / "swordd-host.service")
    exposure = float(re.search(r"exposure level for swordd-host.service: ([0-9.]+)", told)[1])
    expect(f"whether {exposure} is at most {MOST_EXPOSURE}", exposure <= MOST_EXPOSURE, True)
    return ""


def members(group):
    """The system calls of a group of systemd's, as @system-service."""
    told = run(0, "systemd-analyze", "syscall-filter", "--no-pager", group)
    lines = [it.strip() for it in told.splitlines()[1:] if it.strip() and not it.strip().startswith("#")]
    return {one for it in lines for one in (members(it) if it.startswith("@") else (it,))}


def allowed(unit):
    """The system calls that a unit allows: each line of its filter adds some, or takes some away."""
    calls = members("@default")
    for words in re.findall(r"(?m)^SystemCallFilter=(.*)$", unit.read_text(encoding="utf-8")):
        named = {one for it in words.lstrip("~").split() for one in (members(it) if it.startswith("@") else (it,))}
        calls = calls - named if words.startswith("~") else calls | named
    return calls


def system_calls(root, work):
    """What the host asks of the system, from its start over deposits to the GET of a file, is allowed by its unit. Returns what
    was left out."""
    if not shutil.which("systemd-analyze") or not shutil.which("strace"):
        return ", strace isn't there"
    traced, trace = work / "traced", work / "calls"
    work.mkdir(exist_ok=True)
    traced.write_text(f'#!/bin/sh\nexec strace -f -o {trace} {root}/usr/local/bin/swordd_host "$@"\n', encoding="utf-8")
    traced.chmod(0o755)
    os.environ["SWORDD_HOST"] = str(traced)
    with Host(work / "host") as host:
        deposits(host)
        host.ask(200, "GET", "/objects/3/files/3")
        os.kill(int(trace.read_text().split()[0]), signal.SIGTERM)
        host.process.wait()
    calls = set(re.findall(r"(?m)^\d+ +(\w+)\(", trace.read_text(errors="replace")))
    expect("the system calls that the unit refuses", sorted(calls - allowed(root / "etc/systemd/system/swordd-host.service")), [])
    expect("whether calls were seen", len(calls) > 20, True)
    return ""


def settings(root):
    """The installed configuration, with its folders under the root."""
    told = json.loads((root / "etc/swordd/configuration.json").read_text(encoding="utf-8"))
    return {**told, **{name: f"{root}{told[name]}" for name in ("database", "spool_folder")}, "connections": 1_000_000}


def hosted(root, work):
    """A host by the installed program and configuration, at a port of its own."""
    os.environ["SWORDD_HOST"] = str(root / "usr/local/bin/swordd_host")
    told = settings(root)
    return Host(work, **{name: value for name, value in told.items() if name != "port"})


def deposits(host):
    for number in range(3):
        fields = {"Content-Disposition": f"attachment; filename=f{number}.txt"}
        host.ask(201, "POST", "/service", bytes([65 + number]) * (100_000 * number + 3), fields)


def still_there(host):
    for number in range(3):
        _, content = host.ask(200, "GET", f"/objects/{number + 1}/files/{number + 1}")
        expect(f"file {number + 1} after the restore", content == bytes([65 + number]) * (100_000 * number + 3), True)
    host.ask(404, "GET", "/objects/4")


def back_up(root, work, folder):
    """A copy while the host runs, and one for which it is ended and started; then a deposit that they haven't."""
    tool, store = root / "usr/local/bin/swordd-backup", settings(root)["database"]
    with hosted(root, work) as host:
        deposits(host)
        pid = host.process.pid
        first = run(0, tool, "--pid", pid, store, folder / "copies").strip()
        host.ask(200, "GET", "/objects/1")
        end = f'kill {pid}; until [ "$(cut -d" " -f3 /proc/{pid}/stat)" = Z ]; do sleep 0.01; done'
        copy = run(0, tool, "--ended", "--stop", end, "--start", f"touch {folder}/started", store, folder / "copies").strip()
    expect("whether the server was started", (folder / "started").exists(), True)
    expect("the audit of the copy of a host that runs", run(0, root / "usr/local/bin/swordd", "audit", f"{first}/deposits.db"),
           "files 3 damaged 0\n")
    with hosted(root, work) as host:
        host.ask(201, "POST", "/service", b"later", {"Content-Disposition": "attachment; filename=later"})
    return tool, pathlib.Path(store), pathlib.Path(copy)


def as_units_have_it(root, work, folder):
    """The commands of the units, in the root, over a systemctl that tells the host's process and its memory."""
    commands = folder / "systemctl-of-host"
    commands.mkdir()
    (commands / "systemctl").write_text('#!/bin/sh\ncase $* in *MainPID*) echo "$MAINPID" ;; *) echo infinity ;; esac\n', encoding="utf-8")
    (commands / "systemctl").chmod(0o755)
    with hosted(root, work) as host:
        told = {**os.environ, "PATH": f"{commands}:{os.environ['PATH']}", "MAINPID": str(host.process.pid),
                "SWORDD": str(root / "usr/local/bin/swordd"), "CONFIGURATION": str(host.folder / "configuration.json")}
        for unit, field in (("host", "ExecStartPost=+"), ("room", "ExecStart="), ("backup", "ExecStart="),
                            ("audit", "ExecStart=")):
            run(0, *words_of(root, unit, field, told), env=told)
        copies = list((root / "var/backups/swordd").iterdir())
        expect("the copy of the unit", [it.name for it in copies[0].iterdir()][:1], ["deposits.db"])
        shutil.rmtree(copies[0])
        another = subprocess.Popen(["sleep", "1"])
        run(1, *words_of(root, "host", "ExecStartPost=+", {**told, "MAINPID": str(another.pid)}), env=told)
        another.wait()
        host.kill()
        run(1, *words_of(root, "host", "ExecStartPost=+", told), env=told)


def words_of(root, unit, field, told):
    """The words of a unit's command, with the paths of the root, and what systemd puts in."""
    text = (root / f"etc/systemd/system/swordd-{unit}.service").read_text(encoding="utf-8")
    line = re.search(rf"(?m)^{re.escape(field)}(.*)$", text)[1].replace("$MAINPID", told["MAINPID"])
    line = line.replace("/etc/swordd/configuration.json", told["CONFIGURATION"])
    return [f"{root}{it}" if it.startswith(("/usr/local/", "/var/")) else it for it in line.split()]


def restore(root, work, tool, store, copy):
    """The store is lost, and the copy put in its place."""
    run(1, tool, "--restore", copy, store)
    for it in store.parent.glob("deposits.db*"):
        it.unlink()
    run(0, tool, "--restore", copy, store)
    with hosted(root, work) as host:
        still_there(host)
    told = run(0, root / "usr/local/bin/swordd", "audit", store)
    expect("the audit of what was restored", told, "files 3 damaged 0\n")


def audits(root, tool, copy):
    """The newest copy, which is sound, and then isn't."""
    told = {**os.environ, "SWORDD": str(root / "usr/local/bin/swordd")}
    expect("the audit of the copy", run(0, tool, "--audit", copy.parent, env=told), f"{copy}\nfiles 3 damaged 0\n")
    database = sqlite3.connect(copy / "deposits.db")
    database.execute("UPDATE blocks SET bytes = X'00' WHERE kind = 0 AND owner = 1")
    database.commit()
    database.close()
    expect("the audit of a damaged one", run(4, tool, "--audit", copy.parent, env=told), f"{copy}\ndamaged 1 1\nfiles 3 damaged 1\n")
    run(1, tool, "--audit", root / "var/backups/swordd", env=told)


def copies_are_kept(tool, store, folder):
    """The newest ones, and no more; what is no whole copy isn't counted, and what was begun is removed."""
    for number in range(4):
        copy = folder / f"2026010{number}T000000Z"
        copy.mkdir(parents=True)
        (copy / "deposits.db").write_bytes(b"x")
    (folder / "20260104T000000Z").mkdir()
    (folder / "20260105T000000Z.new").mkdir()
    for keep in ("0", "x"):
        run(1, tool, "--keep", keep, store, folder)
    copy = run(0, tool, "--keep", "2", store, folder).strip()
    names = sorted(it.name for it in folder.iterdir())
    expect("the copies that are kept", names, ["20260103T000000Z", "20260104T000000Z", pathlib.Path(copy).name])


def room_is_looked_at(tool, folder):
    """A store that fits, one that is too large for the memory of its unit, and one that will be in a week."""
    commands, store, copies = folder / "commands", folder / "large.db", folder / "of-large"
    commands.mkdir()
    (commands / "systemctl").write_text('#!/bin/sh\necho "$MOST"\n', encoding="utf-8")
    (commands / "systemctl").chmod(0o755)
    (folder / "meminfo").write_text("MemTotal: 1000 kB\nMemFree: 1 kB\nSwapTotal: 500 kB\n", encoding="utf-8")
    old = copies / "20260101T000000Z"
    old.mkdir(parents=True)
    (old / "deposits.db").write_bytes(bytes(400 * 1024))
    told = {**os.environ, "PATH": f"{commands}:{os.environ['PATH']}", "MEMINFO": str(folder / "meminfo")}
    for kib, most, status in ((600, "infinity", 0), (600, "716800", 0), (600, "204800", 1), (1000, "infinity", 1), (1000, "1024000", 1)):
        store.write_bytes(bytes(kib * 1024))
        run(status, tool, "--room", "swordd-host", store, copies, env={**told, "MOST": most})
    (old / "deposits.db").write_bytes(bytes(950 * 1024))
    run(0, tool, "--room", "swordd-host", store, copies, env={**told, "MOST": "infinity"})


def main():
    with tempfile.TemporaryDirectory() as name:
        place = pathlib.Path(name)
        root, work, folder = place / "root", place / "work", place / "folder"
        folder.mkdir()
        install(root)
        left_out = units(root) + system_calls(root, place / "strace")
        tool, store, copy = back_up(root, work, folder)
        restore(root, work, tool, store, copy)
        as_units_have_it(root, work, folder)
        audits(root, tool, copy)
        copies_are_kept(tool, store, folder / "kept")
        room_is_looked_at(tool, folder)
    return status_of(f"installed: {len(FILES)} files and folders, a backup and its restore{left_out}")


if __name__ == "__main__":
    sys.exit(main())
