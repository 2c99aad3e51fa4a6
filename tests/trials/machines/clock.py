"""A clock of one's own for the processes of a machine: a library before the C library adds to the time of the day."""
import os
import shutil
import struct
import subprocess
from typing import Optional

COMPILER = "cc"
SOURCE = """\
#define _GNU_SOURCE
#include <dlfcn.h>
#include <fcntl.h>
#include <stdlib.h>
#include <sys/mman.h>
#include <sys/syscall.h>
#include <sys/time.h>
#include <time.h>
#include <unistd.h>

static const volatile long long *offset;

__attribute__((constructor)) static void begin(void) {
    const char *path = getenv("CLOCK_OFFSET");
    int file = path ? open(path, O_RDONLY | O_CLOEXEC) : -1;
    void *at = file < 0 ? MAP_FAILED : mmap(0, sizeof *offset, PROT_READ, MAP_SHARED, file, 0);
    if (file >= 0) close(file);
    if (at != MAP_FAILED) offset = at;
}

int clock_gettime(clockid_t clock, struct timespec *to) {
    int done = syscall(SYS_clock_gettime, clock, to);
    if (!done && offset && (clock == CLOCK_REALTIME || clock == CLOCK_REALTIME_COARSE)) to->tv_sec += *offset;
    return done;
}

int gettimeofday(struct timeval *to, void *zone) {
    struct timespec now;
    (void)zone;
    clock_gettime(CLOCK_REALTIME, &now);
    to->tv_sec = now.tv_sec;
    to->tv_usec = now.tv_nsec / 1000;
    return 0;
}

time_t time(time_t *to) {
    struct timespec now;
    clock_gettime(CLOCK_REALTIME, &now);
    if (to) *to = now.tv_sec;
    return now.tv_sec;
}
"""


class ClockFault(Exception):
    """No clock can be set here, and why."""


def build(folder: str) -> str:
    """Compiles the library, and returns its path."""
    if shutil.which(COMPILER) is None:
        raise ClockFault(f"a clock can't be set: there is no {COMPILER}")
    library = os.path.join(folder, "clock.so")
    command = [COMPILER, "-shared", "-fPIC", "-O1", "-x", "c", "-", "-o", library]
    done = subprocess.run(command, input=SOURCE, capture_output=True, text=True, check=False)
    if done.returncode:
        raise ClockFault(f"a clock can't be set: {done.stderr.strip()}")
    return library


class Clock:
    """The clock of a machine: so many seconds before the others'."""

    def __init__(self, path: str, library: Optional[str]) -> None:
        self.path = path
        self.library = library
        with open(path, "wb") as to:
            to.write(struct.pack("=q", 0))

    def environment(self) -> dict[str, str]:
        return {"LD_PRELOAD": self.library, "CLOCK_OFFSET": self.path} if self.library else {}

    def set(self, seconds: int) -> None:
        # (in place: who has mapped the file sees it)
        with open(self.path, "r+b", buffering=0) as to:
            to.write(struct.pack("=q", seconds))
