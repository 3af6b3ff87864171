"""A clock that tells servers what a script says: a library that is loaded before the C library has the system's time from a file. So a
server lives through years in seconds. It needs a C compiler."""
import mmap
import sys

from built import compile_c

DAY = 86_400
SHIM_C = r"""
#define _GNU_SOURCE
#include <dlfcn.h>
#include <fcntl.h>
#include <stdlib.h>
#include <sys/mman.h>
#include <sys/time.h>
#include <time.h>
static volatile long *moment;
__attribute__((constructor)) static void begin(void) {
    int file = open(getenv("MOMENT"), O_RDONLY);
    if (file < 0) abort();
    moment = mmap(0, sizeof *moment, PROT_READ, MAP_SHARED, file, 0);
    if (moment == MAP_FAILED) abort();
}
int clock_gettime(clockid_t clock, struct timespec *now) {
    int (*real)(clockid_t, struct timespec *) = dlsym(RTLD_NEXT, "clock_gettime");
    int status = real(clock, now);
    if (!status && clock == CLOCK_REALTIME) { now->tv_sec = *moment; now->tv_nsec = 0; }
    return status;
}
int gettimeofday(struct timeval *restrict now, void *restrict zone) {
    now->tv_sec = *moment;
    now->tv_usec = 0;
    return 0;
}
time_t time(time_t *now) {
    if (now) *now = *moment;
    return *moment;
}
"""


class Clock:
    """The time, in seconds since 1970, that programs are told which run in this environment. It stands still unless it is set."""

    def __init__(self, folder, moment):
        source, file = folder / "clock.c", folder / "moment"
        source.write_text(SHIM_C)
        file.write_bytes(bytes(8))
        with file.open("r+b") as opened:
            self.map = mmap.mmap(opened.fileno(), 8)
        self.environment = {"LD_PRELOAD": compile_c(source, folder / "clock.so", "-shared", "-fPIC"), "MOMENT": str(file)}
        self.set(moment)

    def set(self, moment):
        self.moment = moment
        self.map[:] = moment.to_bytes(8, sys.byteorder)

    def go_on(self, seconds):
        self.set(self.moment + seconds)
