"""A library that refuses allocations of a program: it stands before the C library (LD_PRELOAD), is compiled by the kit's
clang without any header, and does what the environment says.

REFUSED=N    the Nth allocation is refused, and no other.
SWEEP=K      before each Kth allocation the program is copied (fork), and in the copy that allocation is refused. The copy
             prints nothing and goes on to its own end, which has a minute. The program itself goes on as if nothing had
             been: so what one run does before an allocation isn't done again for each. At most COPIES of them run at once.
             At the program's end the file that is open as TOLD has a line `N STATUS` for each copy, STATUS being what
             waitpid tells, and a last line `N` with the number of all allocations.
"""

import pathlib
import subprocess

SOURCE = r"""
typedef __SIZE_TYPE__ size_t;
enum { most_copies = 64, write_only = 1, a_minute = 60 };

void *__libc_malloc(size_t size);
void *__libc_calloc(size_t count, size_t size);
void *__libc_realloc(void *old, size_t size);
int *__errno_location(void);
char *getenv(const char *name);
unsigned long strtoul(const char *text, char **end, int base);
int snprintf(char *text, size_t size, const char *format, ...);
long write(int file, const void *bytes, size_t size);
int open(const char *path, int flags, ...);
int dup2(int from, int to);
int fork(void);
int waitpid(int process, int *status, int options);
unsigned alarm(unsigned seconds);

static unsigned long count, refused, every, most, running;
static int told = -1, is_ready, is_copying;
static struct { int process; unsigned long number; } copies[most_copies];

static unsigned long number_of(const char *name) {
    const char *text = getenv(name);
    return text ? strtoul(text, 0, 10) : 0;
}

static void begin(void) {
    is_ready = 1;
    refused = number_of("REFUSED");
    every = number_of("SWEEP");
    most = number_of("COPIES");
    if (most < 1 || most > most_copies) most = 1;
    if (every) told = number_of("TOLD");
}

static void tell(const char *format, unsigned long first, int second) {
    char text[64];
    int length = snprintf(text, sizeof text, format, first, second);
    (void)!write(told, text, length);
}

/* Waits for a copy to end, and tells of it. */
static void end_copy(void) {
    int status, process = waitpid(-1, &status, 0);
    for (unsigned long i = 0; i < running; i++) {
        if (copies[i].process != process) continue;
        tell("%lu %d\n", copies[i].number, status);
        copies[i] = copies[--running];
        return;
    }
    running = 0;
}

/* Whether this is a new copy, which prints nothing and makes no copies of its own. */
static int is_copy(void) {
    while (running >= most) end_copy();
    int process = fork();
    if (process) {
        copies[running].process = process;
        copies[running++].number = count;
        return 0;
    }
    every = 0;
    told = -1;
    int nowhere = open("/dev/null", write_only);
    dup2(nowhere, 1);
    dup2(nowhere, 2);
    alarm(a_minute);
    return 1;
}

static int is_refused(void) {
    if (is_copying) return 0;
    is_copying = 1;
    if (!is_ready) begin();
    count += 1;
    int is_now = count == refused || (every && count % every == 0 && is_copy());
    is_copying = 0;
    if (is_now) *__errno_location() = 12; /* ENOMEM */
    return is_now;
}

void *malloc(size_t size) { return is_refused() ? 0 : __libc_malloc(size); }

void *calloc(size_t items, size_t size) { return is_refused() ? 0 : __libc_calloc(items, size); }

void *realloc(void *old, size_t size) { return is_refused() ? 0 : __libc_realloc(old, size); }

__attribute__((destructor)) static void end(void) {
    if (told < 0) return;
    while (running) end_copy();
    tell("%lu\n", count, 0);
}
"""


def compile_library(source, made):
    """Compiles this source, as a library of this path, which it returns."""
    page = subprocess.run(["rt", "doc"], capture_output=True, text=True, check=True).stdout.strip()
    clang = pathlib.Path(page).parent / "toolchain/bin/clang"
    words = ["--no-default-config", "-O2", "-shared", "-fPIC", "-nostdinc", "-nostdlib", "-fuse-ld=lld", "-Wall", "-Werror"]
    subprocess.run([clang, *words, "-x", "c", "-", "-o", made], input=source, text=True, check=True)
    return made


def build_refuser(folder):
    """Compiles the library into the folder. Returns its path."""
    return compile_library(SOURCE, pathlib.Path(folder) / "refuser.so")
