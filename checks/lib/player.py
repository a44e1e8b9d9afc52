"""The player of example files, a program that is built unproved: it is a test and promises nothing, so the gate knows nothing
of it.

Its crates stand in checks/player, under names that the gate doesn't take for sources. `rt try` makes the program of these
and of the product's crates as they stand, without a look at any proof, but would then compile it slowly, for its own checks.
So it is given a copy of the kit's folder, by links, whose clang keeps what rt try made and stops it. The kit's own tools then
make the program of that, without the checks that rt try put into it. The wrong bodies of checks/bodies are in the same build,
where no example file can meet them (checks/bodies.py), so that one build serves all checks.

It is kept in checks/player/out, and made anew once anything that it is made of has changed; a check that wants it meanwhile
waits.
"""

import contextlib
import fcntl
import hashlib
import os
import re
import shutil
import subprocess
import tempfile
from pathlib import Path

from crates import BODIES, PLAYER, ROOT, begin_room, libraries_below, listed_crates
from edits import Failure, edited_texts

NAME = "examples"
HIDDEN = ".txt"
OUT = PLAYER / "out"
# No wrong body: a hub tells its abstract to those that serve a connection by it.
TOLD_ABSTRACT = BODIES / "told_abstract.edit"
# rt try calls clang in a folder with the program as module.bc, in the end with a sanitizer. It clears the environment.
SANITIZED = "-fsanitize=address"
KEEPING = """#!/bin/sh
case " $* " in *{sanitized}*) printf '%s\\n' "$@" >'{kept}/words'; mv module.bc '{kept}'; exit 1;; esac
exec '{clang}' "$@"
"""
# How it is compiled instead: with the least sum of seconds for the build and for all that is played. A function with large
# variables goes into no other, since LLVM takes minutes where many of these meet.
BRIEFLY = ["-O1", "-mllvm", "-inline-max-stacksize=500", "-mllvm", "-inline-threshold=60"]
# What rt try puts in beside the program's own: a pattern in each new variable, checks of what is undefined in Rust, and a mark
# for the sanitizer. The gate proves that none is needed, and a proved program has none.
CHECKS = rb'\n  call void @"rattle-llvm-checks::(?!Unreachable)[^\n]*'
PATTERNS = rb"(\n  (\S+) = alloca [^\n]*)\n  call void @llvm\.memset\.p0\.i64\(ptr (?:align \d+ )?\2, i8 -86, [^\n]*"
MARK = b" sanitize_address"


def kit_folder():
    """Returns the folder of the kit, in which its first page stands."""
    return Path(subprocess.run(["rt", "doc"], capture_output=True, text=True, check=True).stdout.strip()).parent


def shared_edits():
    """Returns the edits of the wrong bodies that all checks share a build with."""
    return sorted(BODIES.glob("*/*.edit"))


def lay_out(room, edits):
    """Makes the folder a repository of the player and of all that it stands on, with the edits made."""
    lines = {**listed_crates(), **listed_crates(PLAYER / "libraries.txt")}
    names = [it for it in lines if it == NAME or it in libraries_below(NAME, lines)]
    begin_room(room, names, lines)
    for name in names:
        if (PLAYER / name).is_dir():
            copy_hidden(PLAYER / name, room / "crates" / name)
        else:
            shutil.copytree(ROOT / "crates" / name / "src", room / "crates" / name / "src")
    apply(TOLD_ABSTRACT, room / "crates/dep_hub")
    for edit in edits:
        folder = edit.parent if edit.parent.parent == BODIES else edit.parent.parent
        apply(edit, room / "crates" / folder.name)


def copy_hidden(source, to):
    """Copies the sources of a crate of the player under the names that they have for rt."""
    for file in sorted(source.rglob(f"*{HIDDEN}")):
        copy = to / file.relative_to(source).with_suffix("")
        copy.parent.mkdir(parents=True, exist_ok=True)
        shutil.copy(file, copy)


def apply(edit, crate):
    """Makes the changes of an edit in a copy of its crate, which earlier edits may have changed."""
    for path, text in edited_texts(edit, crate).items():
        (crate / path).write_text(text, encoding="utf-8")


def sum_of(room):
    """Returns a checksum of all that the program is made of: the sources, the kit, and the way in which this makes it."""
    found = hashlib.sha256((kit_folder() / "KIT-ID").read_bytes() + Path(__file__).read_bytes())
    for file in sorted(it for it in room.rglob("*") if it.is_file()):
        text = file.read_bytes()
        found.update(f"{file.relative_to(room)} {len(text)}\n".encode() + text)
    return found.hexdigest()


def link_kit(to, kit, clang):
    """Makes the folder a copy of the kit, by links, with this text for its clang. What rt itself reads is copied, since it
    looks for the kit where its own file is; and the prover, which rt try asks for hints alone, is left out."""
    made = {"toolchain/bin/clang": clang, "bin/rattle": "#!/bin/sh\nexit 1\n"}
    for folder in ("bin", "toolchain/bin"):
        (to / folder).mkdir(parents=True)
    for folder in ("", "bin", "toolchain", "toolchain/bin"):
        for file in (kit / folder).iterdir():
            path = to / folder / file.name
            if file.name in ("rt", "rtlib.py"):
                shutil.copy(file, path)
            elif not path.exists() and str(path.relative_to(to)) not in made:
                path.symlink_to(file)
    for name, text in made.items():
        (to / name).write_text(text, encoding="utf-8")
        (to / name).chmod(0o755)


def build(room, folder):
    """Makes the program of such a repository, in this folder, and returns its path."""
    make_bitcode(room, folder)
    return compiled(folder)


def make_bitcode(room, folder):
    """Puts what rt try makes of such a repository into this folder: the program, and the words by which it would compile it."""
    kit = kit_folder()
    link_kit(folder / "kit", kit, KEEPING.format(sanitized=SANITIZED, kept=folder, clang=kit / "toolchain/bin/clang"))
    words = [folder / "kit/bin/rt", "try", "--steps", "1", "--seconds", "1"]
    how = {"stdin": subprocess.DEVNULL, "capture_output": True, "text": True, "errors": "replace"}
    tried = subprocess.run(words, cwd=room / "crates" / NAME, **how)
    if not (folder / "module.bc").exists():
        raise Failure("NOT BUILT", f"rt try ended with {tried.returncode}\n{tried.stdout}{tried.stderr}")


def compiled(folder):
    """Compiles and links what rt try made. Returns the program's path."""
    kit, made, program = kit_folder(), folder / "module.ll", folder / NAME
    clang, linked = kit / "toolchain/bin/clang", [kit / "c/libos_c.a", kit / "c/liblibc_c.a"]
    run(clang, "--no-default-config", "-x", "ir", "-S", "-emit-llvm", "-O0", folder / "module.bc", "-o", made)
    made.write_bytes(without_checks(made.read_bytes()))
    others = {"module.bc": [made], "module.o": [folder / "module.o"], "-O0": BRIEFLY, SANITIZED: []}
    words = (folder / "words").read_text(encoding="utf-8").splitlines()
    run(clang, *(it for word in words for it in others.get(word, [word])))
    target = ["--target", "x86_64-unknown-linux-gnu", "--toolchain", kit / "toolchain"]
    run(kit / "bin/rattle-link", *target, "-o", program, folder / "module.o", *linked)
    return program


def run(*words):
    made = subprocess.run(words, stdin=subprocess.DEVNULL, capture_output=True, text=True, errors="replace", check=False)
    if made.returncode:
        raise Failure("NOT BUILT", f"{words[0]} ended with {made.returncode}\n{made.stdout}{made.stderr}")


def without_checks(text):
    """Returns a program, as LLVM's text, without what rt try put into it."""
    return re.sub(PATTERNS, rb"\1", re.sub(CHECKS, b"", text)).replace(MARK, b"")


@contextlib.contextmanager
def alone():
    """Holds others up that want the program too."""
    OUT.mkdir(parents=True, exist_ok=True)
    with open(OUT / "lock", "w", encoding="utf-8") as lock:
        fcntl.flock(lock, fcntl.LOCK_EX)
        yield


def built_player():
    """Returns the whole path of the program, which is built where it has to be, or of the one that the environment names as
    EXAMPLES."""
    if "EXAMPLES" in os.environ:
        return Path(os.environ["EXAMPLES"]).absolute()
    program, built_of = OUT / NAME, OUT / "built-of"
    with alone(), tempfile.TemporaryDirectory(prefix="player-") as folder:
        room = Path(folder, "room")
        lay_out(room, shared_edits())
        wanted = sum_of(room)
        if not program.exists() or not built_of.exists() or built_of.read_text(encoding="utf-8") != wanted:
            built_of.unlink(missing_ok=True)
            put(build(room, Path(folder)), program)
            built_of.write_text(wanted, encoding="utf-8")
    return program


def put(file, to):
    """Puts a file in the place of another one, which may run."""
    part = to.with_name(f"{to.name}.part")
    shutil.copy(file, part)
    os.replace(part, to)


@contextlib.contextmanager
def player_of(edit):
    """Builds the program with one wrong body alone, and has its path meanwhile."""
    with tempfile.TemporaryDirectory(prefix="player-") as folder:
        lay_out(Path(folder, "room"), [edit])
        yield build(Path(folder, "room"), Path(folder))


def play(program, files, **how):
    """Plays files by the program. Returns its status and what it printed."""
    said = {"stdout": subprocess.PIPE, "stderr": subprocess.STDOUT, "text": True, "errors": "replace"}
    ran = subprocess.run([program, *files], stdin=subprocess.DEVNULL, check=False, **said, **how)
    return ran.returncode, ran.stdout
