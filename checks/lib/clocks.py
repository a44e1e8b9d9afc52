"""A library that sets the clock of a program: it stands before the C library (LD_PRELOAD), and is compiled by the kit's clang
without any header. The time is the moment, in seconds since 1970, that stands in the file MOMENT as eight bytes; whoever writes
another one there moves the clock. What measures how long something takes goes on as it is."""

import pathlib
import struct

from allocations import compile_library

SOURCE = r"""
enum { real_time = 0, call_clock_gettime = 228, read_only = 0, may_read = 1, is_shared = 1 };
struct time { long seconds, nanoseconds; };

char *getenv(const char *name);
int open(const char *path, int flags, ...);
void *mmap(void *at, __SIZE_TYPE__ size, int may, int how, int file, long place);
long syscall(long number, ...);

static const volatile long *moment;

int clock_gettime(int clock, struct time *time) {
    if (clock != real_time) return (int)syscall(call_clock_gettime, clock, time);
    if (!moment) moment = mmap(0, sizeof *moment, may_read, is_shared, open(getenv("MOMENT"), read_only), 0);
    time->seconds = *moment;
    time->nanoseconds = 0;
    return 0;
}
"""


def build_clock(folder):
    """Compiles the library into the folder. Returns its path."""
    return compile_library(SOURCE, pathlib.Path(folder) / "clock.so")


def set_moment(file, moment):
    """Moves the clock that the file is read for, which may be open."""
    with open(file, "r+b" if pathlib.Path(file).exists() else "wb") as written:
        written.write(struct.pack("<q", moment))
