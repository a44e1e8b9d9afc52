"""Runs the commands of `swordd`, and compares what they say on standard error and how they end."""

import os
import subprocess

from crates import built_program
from expectations import expect

USAGE = "usage: swordd replay MOMENT BASE | serve PORT DB COUNT | export DB ID DIR | audit DB\n"
NO_SUCH_OBJECT = "swordd: no such object\n"
STORE_FAULT = "swordd: store fault\n"
TRANSFER_FAULT = "swordd: input or output fault\n"


def start(*words, front=(), **how):
    """Starts the program with these words, under the command `front` if there is one, and with what `subprocess.Popen` takes
    besides."""
    return subprocess.Popen([*front, built_program("swordd"), *words], **how)


def ends(status, line, *words, given=b"", **how):
    """The program, which is given these bytes, or has another standard input by `stdin`, has to end with this status, and
    with this line alone on standard error. Returns what it printed."""
    how = {"stdin": subprocess.PIPE, "stdout": subprocess.PIPE, "stderr": subprocess.PIPE, **how}
    with start(*words, **how) as program:
        try:
            printed, said = program.communicate(given if program.stdin else None, timeout=60)
        except subprocess.TimeoutExpired:
            program.kill()
            printed, said = program.communicate()
    words = " ".join(os.fsdecode(it) for it in words)
    expect(f"the end of {words}", (program.returncode, said.decode(errors="replace")), (status, line))
    return printed
