/* Tells what a program asks of the system, into which it is loaded before the C library
   (LD_PRELOAD). It is for tools/machine_calls.py, which builds it.

   The file CALLS_TOLD gets a line for each call in turn: `open` with the path, `remove` and `rename`
   with the path that is removed or gets another name, `draw` where random bytes are drawn, `sync` where
   a file is synced, `sleep` for a pause, and the name of each call that has to do with a socket, `bind` and `connect` with the
   address. The bytes that are drawn are those that CALLS_DRAWN has as hexadecimal digits, with the
   first one raised by 1 at each draw after the first. */
#define _GNU_SOURCE
#include <arpa/inet.h>
#include <dlfcn.h>
#include <fcntl.h>
#include <netinet/in.h>
#include <stdarg.h>
#include <stdio.h>
#include <stdlib.h>
#include <string.h>
#include <sys/socket.h>
#include <time.h>
#include <unistd.h>

enum { MOST_DRAWN = 64 };

static int told = -1;

/* The C library's own call of this name, before which ours stands. */
static void *own(const char *name) {
    void *call = dlsym(RTLD_NEXT, name);
    if (!call) {
        dprintf(STDERR_FILENO, "watch_calls: no %s\n", name);
        _exit(99);
    }
    return call;
}

static int own_open(const char *path, int flags, mode_t mode) {
    int (*call)(const char *, int, ...) = own("open");
    return call(path, flags, mode);
}

static void tell(const char *name, const char *path) {
    if (told < 0) {
        const char *file = getenv("CALLS_TOLD");
        told = file ? own_open(file, O_WRONLY | O_CREAT | O_APPEND | O_CLOEXEC, 0666) : -1;
        if (told < 0) {
            dprintf(STDERR_FILENO, "watch_calls: no CALLS_TOLD\n");
            _exit(99);
        }
    }
    dprintf(told, path ? "%s %s\n" : "%s\n", name, path);
}

static void tell_address(const char *name, const struct sockaddr *address) {
    char text[INET_ADDRSTRLEN + sizeof ":65535"] = "no IPv4";
    if (address->sa_family == AF_INET) {
        const struct sockaddr_in *in = (const struct sockaddr_in *)address;
        inet_ntop(AF_INET, &in->sin_addr, text, INET_ADDRSTRLEN);
        snprintf(text + strlen(text), sizeof ":65535", ":%u", (unsigned)ntohs(in->sin_port));
    }
    tell(name, text);
}

int open(const char *path, int flags, ...) {
    va_list more;
    va_start(more, flags);
    mode_t mode = flags & O_CREAT ? va_arg(more, mode_t) : 0;
    va_end(more);
    tell("open", path);
    return own_open(path, flags, mode);
}

int open64(const char *path, int flags, ...) {
    va_list more;
    va_start(more, flags);
    mode_t mode = flags & O_CREAT ? va_arg(more, mode_t) : 0;
    va_end(more);
    tell("open", path);
    return own_open(path, flags, mode);
}

int openat(int folder, const char *path, int flags, ...) {
    int (*call)(int, const char *, int, ...) = own("openat");
    va_list more;
    va_start(more, flags);
    mode_t mode = flags & O_CREAT ? va_arg(more, mode_t) : 0;
    va_end(more);
    tell("open", path);
    return call(folder, path, flags, mode);
}

int unlink(const char *path) {
    int (*call)(const char *) = own("unlink");
    tell("remove", path);
    return call(path);
}

int unlinkat(int folder, const char *path, int flags) {
    int (*call)(int, const char *, int) = own("unlinkat");
    tell("remove", path);
    return call(folder, path, flags);
}

int rmdir(const char *path) {
    int (*call)(const char *) = own("rmdir");
    tell("remove", path);
    return call(path);
}

int remove(const char *path) {
    int (*call)(const char *) = own("remove");
    tell("remove", path);
    return call(path);
}

int rename(const char *path, const char *other) {
    int (*call)(const char *, const char *) = own("rename");
    tell("rename", path);
    return call(path, other);
}

int renameat(int folder, const char *path, int other_folder, const char *other) {
    int (*call)(int, const char *, int, const char *) = own("renameat");
    tell("rename", path);
    return call(folder, path, other_folder, other);
}

int renameat2(int folder, const char *path, int other_folder, const char *other, unsigned flags) {
    int (*call)(int, const char *, int, const char *, unsigned) = own("renameat2");
    tell("rename", path);
    return call(folder, path, other_folder, other, flags);
}

int fsync(int file) {
    int (*call)(int) = own("fsync");
    tell("sync", NULL);
    return call(file);
}

int fdatasync(int file) {
    int (*call)(int) = own("fdatasync");
    tell("sync", NULL);
    return call(file);
}

int getentropy(void *buffer, size_t length) {
    static unsigned drawn = 0;
    unsigned char bytes[MOST_DRAWN];
    const char *digits = getenv("CALLS_DRAWN");
    tell("draw", NULL);
    size_t given = 0;
    for (; given < MOST_DRAWN && digits && sscanf(digits + 2 * given, "%2hhx", bytes + given) == 1;)
        given++;
    if (given == 0 || length > given) {
        dprintf(STDERR_FILENO, "watch_calls: %zu bytes are drawn, and there are %zu\n", length, given);
        _exit(99);
    }
    bytes[0] += drawn++;
    memcpy(buffer, bytes, length);
    return 0;
}

int socket(int domain, int type, int protocol) {
    int (*call)(int, int, int) = own("socket");
    tell("socket", NULL);
    return call(domain, type, protocol);
}

int bind(int socket, const struct sockaddr *address, socklen_t length) {
    int (*call)(int, const struct sockaddr *, socklen_t) = own("bind");
    tell_address("bind", address);
    return call(socket, address, length);
}

int listen(int socket, int waiting) {
    int (*call)(int, int) = own("listen");
    tell("listen", NULL);
    return call(socket, waiting);
}

int accept4(int socket, struct sockaddr *address, socklen_t *length, int flags) {
    int (*call)(int, struct sockaddr *, socklen_t *, int) = own("accept4");
    tell("accept", NULL);
    return call(socket, address, length, flags);
}

int connect(int socket, const struct sockaddr *address, socklen_t length) {
    int (*call)(int, const struct sockaddr *, socklen_t) = own("connect");
    tell_address("connect", address);
    return call(socket, address, length);
}

int nanosleep(const struct timespec *asked, struct timespec *left) {
    int (*call)(const struct timespec *, struct timespec *) = own("nanosleep");
    tell("sleep", NULL);
    return call(asked, left);
}
