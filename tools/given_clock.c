/* Gives a program the clock that a file says, in Unix seconds, once it is loaded before the C library
   (LD_PRELOAD). It is for tools/clocked_desk.py, which builds it. The file is CLOCK_FILE. It is read at
   each look at the clock, so that a program can be given another moment while it runs. What measures
   how long something takes stays as it is. */
#define _GNU_SOURCE
#include <fcntl.h>
#include <stdio.h>
#include <stdlib.h>
#include <sys/syscall.h>
#include <time.h>
#include <unistd.h>

static time_t given(void) {
    const char *path = getenv("CLOCK_FILE");
    int file = path ? open(path, O_RDONLY | O_CLOEXEC) : -1;
    char text[32] = {0};
    if (file < 0 || read(file, text, sizeof text - 1) <= 0) {
        dprintf(STDERR_FILENO, "given_clock: no CLOCK_FILE\n");
        _exit(99);
    }
    close(file);
    return atoll(text);
}

int clock_gettime(clockid_t clock, struct timespec *now) {
    if (clock != CLOCK_REALTIME)
        return syscall(SYS_clock_gettime, clock, now);
    now->tv_sec = given();
    now->tv_nsec = 0;
    return 0;
}
