// Writes down what the program does with its files, a line for each call, in the order of the calls: into the file
// TRACE, "write PATH", "sync PATH", "lock PATH", "unlock PATH", "link FROM TO", "rename FROM TO" or "remove PATH". With
// COPY_GATE it is held up once before it empties the log of a copy to write another log into it: it makes that file, and
// waits until that is taken away. It is preloaded into the built program, for the check what-reaches-the-disk.
#define _GNU_SOURCE
#include <dlfcn.h>
#include <errno.h>
#include <fcntl.h>
#include <limits.h>
#include <stdarg.h>
#include <stdio.h>
#include <stdlib.h>
#include <string.h>
#include <sys/socket.h>
#include <sys/uio.h>
#include <unistd.h>

#define NEXT(name) static __typeof__(name) *next; if (next == NULL) next = (__typeof__(name) *)dlsym(RTLD_NEXT, #name)

static int trace = -1;
static char locked[1024];

static void tell(const char *what, const char *path, const char *more) {
    int before = errno;
    char line[3 * PATH_MAX];
    const char *name = getenv("TRACE");
    NEXT(open);
    if (name == NULL || path == NULL) return;
    if (trace < 0) trace = next(name, O_CREAT | O_WRONLY | O_APPEND | O_CLOEXEC, 0600);
    int length = snprintf(line, sizeof line, more == NULL ? "%s %s\n" : "%s %s %s\n", what, path, more);
    __typeof__(write) *put = (__typeof__(write) *)dlsym(RTLD_NEXT, "write");
    if (put(trace, line, length) != length) abort();
    errno = before;
}

// the path of an open file
static const char *path_of(int file) {
    static char path[PATH_MAX + 1];
    char link[64];
    int before = errno;
    snprintf(link, sizeof link, "/proc/self/fd/%d", file);
    ssize_t length = readlink(link, path, PATH_MAX);
    errno = before;
    if (length < 0) return NULL;
    path[length] = 0;
    return path;
}

static void hold_up(const char *path) {
    static int was_held_up;
    const char *gate = getenv("COPY_GATE");
    size_t length = path == NULL ? 0 : strlen(path);
    if (gate == NULL || was_held_up || length < 4 || strcmp(path + length - 4, "-wal") != 0) return;
    was_held_up = 1;
    NEXT(open);
    close(next(gate, O_CREAT | O_WRONLY, 0600));
    // a minute at most
    for (int turn = 0; turn < 6000 && access(gate, F_OK) == 0; turn++) usleep(10000);
}

int open(const char *path, int flags, ...) {
    NEXT(open);
    va_list rest;
    va_start(rest, flags);
    mode_t mode = flags & (O_CREAT | O_TMPFILE) ? va_arg(rest, mode_t) : 0;
    va_end(rest);
    return next(path, flags, mode);
}

int openat(int folder, const char *path, int flags, ...) {
    NEXT(openat);
    va_list rest;
    va_start(rest, flags);
    mode_t mode = flags & (O_CREAT | O_TMPFILE) ? va_arg(rest, mode_t) : 0;
    va_end(rest);
    return next(folder, path, flags, mode);
}

ssize_t write(int file, const void *bytes, size_t count) {
    NEXT(write);
    tell("write", path_of(file), NULL);
    return next(file, bytes, count);
}

ssize_t writev(int file, const struct iovec *pieces, int count) {
    NEXT(writev);
    tell("write", path_of(file), NULL);
    return next(file, pieces, count);
}

ssize_t send(int file, const void *bytes, size_t count, int flags) {
    NEXT(send);
    tell("write", path_of(file), NULL);
    return next(file, bytes, count, flags);
}

ssize_t sendmsg(int file, const struct msghdr *message, int flags) {
    NEXT(sendmsg);
    tell("write", path_of(file), NULL);
    return next(file, message, flags);
}

ssize_t pwrite(int file, const void *bytes, size_t count, off_t place) {
    NEXT(pwrite);
    tell("write", path_of(file), NULL);
    return next(file, bytes, count, place);
}

ssize_t pwrite64(int file, const void *bytes, size_t count, off64_t place) {
    NEXT(pwrite64);
    tell("write", path_of(file), NULL);
    return next(file, bytes, count, place);
}

int ftruncate(int file, off_t length) {
    NEXT(ftruncate);
    if (length == 0) hold_up(path_of(file));
    tell("write", path_of(file), NULL);
    return next(file, length);
}

int fsync(int file) {
    NEXT(fsync);
    int done = next(file);
    if (done == 0) tell("sync", path_of(file), NULL);
    return done;
}

int fdatasync(int file) {
    NEXT(fdatasync);
    int done = next(file);
    if (done == 0) tell("sync", path_of(file), NULL);
    return done;
}

int fcntl(int file, int command, ...) {
    NEXT(fcntl);
    va_list rest;
    va_start(rest, command);
    void *argument = va_arg(rest, void *);
    va_end(rest);
    int done = next(file, command, argument);
    if (command == F_OFD_SETLK && done == 0 && ((struct flock *)argument)->l_type == F_WRLCK) {
        if (file >= 0 && file < (int)sizeof locked) locked[file] = 1;
        tell("lock", path_of(file), NULL);
    }
    return done;
}

int close(int file) {
    NEXT(close);
    if (file >= 0 && file < (int)sizeof locked && locked[file]) {
        locked[file] = 0;
        tell("unlock", path_of(file), NULL);
    }
    return next(file);
}

int link(const char *from, const char *to) {
    NEXT(link);
    int done = next(from, to);
    if (done == 0) tell("link", from, to);
    return done;
}

int rename(const char *from, const char *to) {
    NEXT(rename);
    int done = next(from, to);
    if (done == 0) tell("rename", from, to);
    return done;
}

int unlink(const char *path) {
    NEXT(unlink);
    int done = next(path);
    if (done == 0) tell("remove", path, NULL);
    return done;
}
