// A file that isn't there for a moment: of the calls that open LOST_FILE, the one behind the first LOST_PLACE fails as
// open(2) says of a missing file, and makes the file LOST_MARK. It is preloaded into the built program, for the check
// names-and-owners-of-files.
#define _GNU_SOURCE
#include <dlfcn.h>
#include <errno.h>
#include <fcntl.h>
#include <stdarg.h>
#include <stdlib.h>
#include <string.h>
#include <sys/syscall.h>
#include <unistd.h>

static int is_lost(const char *path) {
    static int opened = 0;
    const char *file = getenv("LOST_FILE"), *place = getenv("LOST_PLACE"), *mark = getenv("LOST_MARK");
    if (file == NULL || place == NULL || mark == NULL || strcmp(path, file) != 0 || opened++ != atoi(place)) return 0;
    close((int)syscall(SYS_openat, AT_FDCWD, mark, O_CREAT | O_WRONLY, 0600));
    errno = ENOENT;
    return 1;
}

int open(const char *path, int flags, ...) {
    int (*next)(const char *, int, ...) = dlsym(RTLD_NEXT, "open");
    va_list rest;
    va_start(rest, flags);
    mode_t mode = flags & (O_CREAT | O_TMPFILE) ? va_arg(rest, mode_t) : 0;
    va_end(rest);
    return is_lost(path) ? -1 : next(path, flags, mode);
}

int openat(int folder, const char *path, int flags, ...) {
    int (*next)(int, const char *, int, ...) = dlsym(RTLD_NEXT, "openat");
    va_list rest;
    va_start(rest, flags);
    mode_t mode = flags & (O_CREAT | O_TMPFILE) ? va_arg(rest, mode_t) : 0;
    va_end(rest);
    return is_lost(path) ? -1 : next(folder, path, flags, mode);
}
