"""A library that has calls of the system fail: it stands before the C library (LD_PRELOAD), and is compiled by the kit's clang
without any header. Once a file of these names is in the folder FAULTS, each call fails that it is of:

sync    fsync and fdatasync, with EIO
write   pwrite and ftruncate, and those of sync, with EIO: the server writes files by these alone
disk    pread, and those of write, with EIO
poll    epoll_wait, with EBADF

A file `synced` there gets a line for each fsync: how far the file was written, and its path. The disk isn't asked then.
"""

import os

from allocations import compile_library

SOURCE = r"""
enum { call_pread = 17, call_pwrite = 18, call_fsync = 74, call_fdatasync = 75, call_ftruncate = 77, call_epoll_wait = 232,
       no_descriptor = 9, no_input_or_output = 5, write_at_end = 02001, from_here = 1, most = 8192 };

int *__errno_location(void);
char *getenv(const char *name);
int access(const char *path, int mode);
int snprintf(char *text, __SIZE_TYPE__ size, const char *format, ...);
long syscall(long number, ...);
int open(const char *path, int flags, ...);
int close(int file);
long lseek(int file, long offset, int whence);
long readlink(const char *path, char *text, __SIZE_TYPE__ size);
long write(int file, const void *bytes, __SIZE_TYPE__ size);

/* Whether calls of this name fail, by this error. */
static int fails(const char *name, int error) {
    char path[4096];
    snprintf(path, sizeof path, "%s/%s", getenv("FAULTS"), name);
    if (access(path, 0)) return 0;
    *__errno_location() = error;
    return 1;
}

/* Writes a line on a file that is synchronized, if there is a file for that. */
static int is_told(int file) {
    char link[64], path[most], line[most + 64];
    snprintf(path, sizeof path, "%s/synced", getenv("FAULTS"));
    int told = open(path, write_at_end);
    if (told < 0) return 0;
    snprintf(link, sizeof link, "/proc/self/fd/%d", file);
    long length = readlink(link, path, sizeof path);
    (void)!write(told, line, snprintf(line, sizeof line, "%ld %.*s\n", lseek(file, 0, from_here), (int)length, path));
    close(told);
    return 1;
}

static int is_gone(void) { return fails("disk", no_input_or_output); }

static int is_unwritable(void) { return is_gone() || fails("write", no_input_or_output); }

static int is_unsynced(void) { return is_unwritable() || fails("sync", no_input_or_output); }

long pread(int file, void *bytes, __SIZE_TYPE__ size, long place) {
    return is_gone() ? -1 : syscall(call_pread, file, bytes, size, place);
}

long pwrite(int file, const void *bytes, __SIZE_TYPE__ size, long place) {
    return is_unwritable() ? -1 : syscall(call_pwrite, file, bytes, size, place);
}

int ftruncate(int file, long length) { return is_unwritable() ? -1 : (int)syscall(call_ftruncate, file, length); }

int fsync(int file) {
    if (is_unsynced()) return -1;
    return is_told(file) ? 0 : (int)syscall(call_fsync, file);
}

int fdatasync(int file) { return is_unsynced() ? -1 : (int)syscall(call_fdatasync, file); }

int epoll_wait(int poll, void *events, int most, int timeout) {
    return fails("poll", no_descriptor) ? -1 : (int)syscall(call_epoll_wait, poll, events, most, timeout);
}
"""


class Faults:
    """The library, and the folder by which its calls fail, in this one."""

    def __init__(self, folder):
        self.folder = folder / "faults"
        self.folder.mkdir()
        self.library = compile_library(SOURCE, folder / "faults.so")

    def environment(self):
        """Of a program whose calls may fail."""
        return {**os.environ, "LD_PRELOAD": str(self.library), "FAULTS": str(self.folder)}

    def fail(self, name):
        """From now on these calls fail."""
        (self.folder / name).touch()

    def mend(self, name):
        """They do no more."""
        (self.folder / name).unlink()

    def synced(self):
        """What was synchronized since this was asked last: how far each file was written then, by its path."""
        file = self.folder / "synced"
        lines = file.read_text(encoding="utf-8").splitlines() if file.exists() else []
        file.write_text("")
        return {path: int(length) for length, _, path in (line.partition(" ") for line in lines)}
