/* Counts the syncs of a program into which it is loaded before the C library (LD_PRELOAD), and makes
   each of them take longer. It is for bench/syncs, which builds it.

   The file SYNCS_TOLD gets a byte for each sync. Where SYNC_TAKES is set, each takes that many
   microseconds more. */
#define _GNU_SOURCE
#include <dlfcn.h>
#include <errno.h>
#include <fcntl.h>
#include <stdio.h>
#include <stdlib.h>
#include <time.h>
#include <unistd.h>

static int told = -1;
static struct timespec takes;

__attribute__((constructor)) static void begin(void) {
    const char *file = getenv("SYNCS_TOLD"), *micros = getenv("SYNC_TAKES");
    told = file ? open(file, O_WRONLY | O_CREAT | O_APPEND | O_CLOEXEC, 0666) : -1;
    if (told < 0) {
        dprintf(STDERR_FILENO, "syncs: no SYNCS_TOLD\n");
        _exit(99);
    }
    long each = micros ? atol(micros) : 0;
    takes = (struct timespec){.tv_sec = each / 1000000, .tv_nsec = each % 1000000 * 1000};
}

/* Counts a sync, waits, and makes the C library's own. */
static int sync_by(const char *name, int file) {
    int (*own)(int) = dlsym(RTLD_NEXT, name);
    if (!own || write(told, ".", 1) != 1) {
        dprintf(STDERR_FILENO, "syncs: a sync is not counted\n");
        _exit(99);
    }
    if (takes.tv_sec || takes.tv_nsec) {
        struct timespec left = takes;
        while (clock_nanosleep(CLOCK_MONOTONIC, 0, &left, &left) == EINTR)
            ;
    }
    return own(file);
}

int fsync(int file) {
    return sync_by("fsync", file);
}

int fdatasync(int file) {
    return sync_by("fdatasync", file);
}
