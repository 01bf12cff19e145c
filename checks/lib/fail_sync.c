// Fails the program's writes of its files to the disk with an input/output error, while the file FAIL is there. It is
// preloaded into the built program, for the check program-with-a-file.
#define _GNU_SOURCE
#include <dlfcn.h>
#include <errno.h>
#include <stddef.h>
#include <stdlib.h>
#include <unistd.h>

static int fails(void) {
    const char *mark = getenv("FAIL");
    if (mark == NULL || access(mark, F_OK) != 0) return 0;
    errno = EIO;
    return 1;
}

int fsync(int file) {
    static int (*next)(int);
    if (next == NULL) next = (int (*)(int))dlsym(RTLD_NEXT, "fsync");
    return fails() ? -1 : next(file);
}

int fdatasync(int file) {
    static int (*next)(int);
    if (next == NULL) next = (int (*)(int))dlsym(RTLD_NEXT, "fdatasync");
    return fails() ? -1 : next(file);
}
