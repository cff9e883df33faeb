/* Refuses memory to a program into which it is loaded before the C library (LD_PRELOAD). It is for
   tools/check_memory, which builds it.

   It counts from 1 each call of malloc, calloc, realloc, posix_memalign and aligned_alloc that asks
   for memory, from the start of the program's own code on. The file REFUSE_RECORDS has a record for
   each run, which tells the counts from each call on, however the run ends.

   Without REFUSE_RUNS, those from REFUSE_FIRST to REFUSE_LAST are refused to the program itself,
   whose record is the file's first. It has also how many there were before the program's first
   socket.

   With REFUSE_RUNS, a folder, the program is forked at each of them: into a run that is refused this
   one alone, and into one that is refused all from this one on. Where the first asks for nothing
   more, the second would be the same, and is not made. A run goes on in a folder of its own there,
   in copies of the files of the program's folder, those among them that it has open. The program
   waits for its end, writes its status into its record, and goes on itself as if nothing had been;
   after the last of them it ends. So each run is one of the whole program, but what comes before its
   refusal is done once for all of them. This goes for a program of one thread that names its files
   by their names alone and has no socket yet. */
#define _GNU_SOURCE
#include <dirent.h>
#include <errno.h>
#include <fcntl.h>
#include <limits.h>
#include <stdint.h>
#include <stdio.h>
#include <stdlib.h>
#include <string.h>
#include <sys/mman.h>
#include <sys/socket.h>
#include <sys/stat.h>
#include <sys/syscall.h>
#include <sys/wait.h>
#include <unistd.h>

/* The C library's own, before which these stand. */
extern void *__libc_malloc(size_t size);
extern void *__libc_calloc(size_t count, size_t size);
extern void *__libc_realloc(void *block, size_t size);
extern void *__libc_memalign(size_t align, size_t size);
extern void __libc_free(void *block);

struct record {
    uint64_t asked;
    uint64_t refused;
    uint64_t status;     /* of a run that was forked: as waitpid gives it */
    uint64_t unsocketed; /* how many allocations came before the first socket */
};

enum { MOST_FILES = 64, SECONDS_OF_A_RUN = 20 };

/* All records; that of this run, or none while nothing is to be counted. */
static struct record *records, *own;
static uint64_t first, last;
/* Where runs are forked: the folder of their folders. Whether this is one of them. */
static const char *runs;
static int is_run;

static void fail(const char *what) {
    dprintf(STDERR_FILENO, "refuse_memory: %s: %s\n", what, strerror(errno));
    _exit(125);
}

static uint64_t number_of(const char *name) {
    const char *text = getenv(name);
    return text ? strtoull(text, NULL, 10) : 0;
}

__attribute__((constructor)) static void begin(void) {
    const char *path = getenv("REFUSE_RECORDS");
    int file = path ? open(path, O_RDWR | O_CLOEXEC) : -1;
    struct stat is;
    if (file < 0 || fstat(file, &is))
        fail("REFUSE_RECORDS");
    void *room = mmap(NULL, is.st_size, PROT_READ | PROT_WRITE, MAP_SHARED, file, 0);
    if (room == MAP_FAILED)
        fail("REFUSE_RECORDS");
    close(file);
    first = number_of("REFUSE_FIRST");
    last = number_of("REFUSE_LAST");
    runs = getenv("REFUSE_RUNS");
    own = records = room;
}

/* Copies an open file, whose place it leaves alone, to a new one of a folder. */
static void copy(int from, int folder, const char *name) {
    static char block[1 << 16];
    int to = openat(folder, name, O_WRONLY | O_CREAT | O_EXCL | O_CLOEXEC, 0600);
    if (to < 0 && errno == EEXIST)
        return;
    off_t at = 0;
    ssize_t got = 0;
    while (to >= 0 && (got = pread(from, block, sizeof block, at)) > 0)
        if (write(to, block, got) == got)
            at += got;
        else
            fail(name);
    if (to < 0 || got < 0)
        fail(name);
    close(to);
}

/* Has an open file stand for its copy in a folder, at the same place in it. */
static void reopen(int file, int folder) {
    char link[64], path[PATH_MAX] = "";
    snprintf(link, sizeof link, "/proc/self/fd/%d", file);
    if (readlink(link, path, sizeof path - 1) < 0)
        fail(link);
    const char *name = strrchr(path, '/') + 1;
    int again = open(link, O_RDONLY | O_CLOEXEC);
    if (again < 0)
        fail(path);
    copy(again, folder, name);
    close(again);
    int copied = openat(folder, name, fcntl(file, F_GETFL));
    if (copied < 0 || lseek(copied, lseek(file, 0, SEEK_CUR), SEEK_SET) < 0 ||
        dup3(copied, file, fcntl(file, F_GETFD) & FD_CLOEXEC ? O_CLOEXEC : 0) < 0)
        fail(path);
    close(copied);
}

/* Goes on in a new folder, with copies of the files of the present one and of all that are open. */
static void move_to(const char *path) {
    struct stat is;
    int folder = mkdir(path, 0700) ? -1 : open(path, O_RDONLY | O_DIRECTORY | O_CLOEXEC);
    DIR *here = opendir(".");
    if (folder < 0 || !here)
        fail(path);
    for (struct dirent *entry; (entry = readdir(here));) {
        if (entry->d_type != DT_REG)
            continue;
        int from = open(entry->d_name, O_RDONLY | O_CLOEXEC);
        if (from < 0)
            fail(entry->d_name);
        copy(from, folder, entry->d_name);
        close(from);
    }
    closedir(here);
    for (int file = 0; file < MOST_FILES; file++)
        if (file != folder && !fstat(file, &is) && S_ISREG(is.st_mode))
            reopen(file, folder);
    if (fchdir(folder))
        fail(path);
    close(folder);
}

/* Forks a run that is refused the allocations from one number to another; in it, gives 1. */
static int is_forked(uint64_t from, uint64_t to, const char *kind, struct record *record) {
    char path[PATH_MAX];
    int kept = errno, status = 0;
    snprintf(path, sizeof path, "%s/%lu-%s", runs, (unsigned long)from, kind);
    pid_t run = fork();
    if (run < 0)
        fail("fork");
    if (run == 0) {
        own = NULL;
        move_to(path);
        alarm(SECONDS_OF_A_RUN);
        runs = NULL;
        is_run = 1;
        first = from;
        last = to;
        record->asked = from;
        own = record;
        return 1;
    }
    if (waitpid(run, &status, 0) != run)
        fail("waitpid");
    record->status = status;
    errno = kept;
    return 0;
}

/* Whether this is a run that is refused this allocation: makes both runs before it says that the
   program is not. */
static int is_a_run(uint64_t number) {
    struct record *record = records + 1 + 2 * (number - first);
    if (is_forked(number, number, "alone", record))
        return 1;
    if (record->asked > number && is_forked(number, UINT64_MAX, "all", record + 1))
        return 1;
    if (number == last)
        _exit(0);
    return 0;
}

static int is_refused(void) {
    if (!own)
        return 0;
    uint64_t number = __atomic_add_fetch(&own->asked, 1, __ATOMIC_RELAXED);
    if (number < first || number > last || (runs && !is_a_run(number)))
        return 0;
    __atomic_add_fetch(&own->refused, 1, __ATOMIC_RELAXED);
    return 1;
}

static void *refused(void) {
    errno = ENOMEM;
    return NULL;
}

void *malloc(size_t size) {
    return is_refused() ? refused() : __libc_malloc(size);
}

void *calloc(size_t count, size_t size) {
    return is_refused() ? refused() : __libc_calloc(count, size);
}

/* A run that was forked gives nothing back: the pages that this touches, which are all that it has,
   would be copied for it. */
void free(void *block) {
    if (!is_run)
        __libc_free(block);
}

/* For no bytes it frees, which is never refused. */
void *realloc(void *block, size_t size) {
    return size && is_refused() ? refused() : __libc_realloc(block, size);
}

void *aligned_alloc(size_t align, size_t size) {
    return is_refused() ? refused() : __libc_memalign(align, size);
}

int posix_memalign(void **block, size_t align, size_t size) {
    if (align % sizeof(void *) || align & (align - 1) || !align)
        return EINVAL;
    void *made = is_refused() ? NULL : __libc_memalign(align, size);
    if (!made)
        return ENOMEM;
    *block = made;
    return 0;
}

/* No machine stops here, so what was written is there, also where no disk has it yet; and to wait for
   a disk would take most of the time. */
int fsync(int file) {
    (void)file;
    return 0;
}

int fdatasync(int file) {
    (void)file;
    return 0;
}

int socket(int domain, int type, int protocol) {
    if (own && !own->unsocketed)
        own->unsocketed = own->asked;
    return syscall(SYS_socket, domain, type, protocol);
}
