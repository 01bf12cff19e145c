// Stands between the program and its standard input and output: each read gives one byte, and each write takes one.
// FAIL_READ and FAIL_WRITE are each PLACE:ERROR: the read that would give the byte at that place, or the write that would
// take it, fails once, with the error of that number. It is preloaded into the built program, for the check
// scripts-and-their-faults.
#define _GNU_SOURCE
#include <dlfcn.h>
#include <errno.h>
#include <stddef.h>
#include <stdlib.h>
#include <unistd.h>

static int fails(const char *fault, long place, int *has_failed) {
    char *error;
    if (fault == NULL || *has_failed || strtol(fault, &error, 10) != place) return 0;
    *has_failed = 1;
    errno = (int)strtol(error + 1, NULL, 10);
    return 1;
}

ssize_t read(int file, void *bytes, size_t size) {
    static ssize_t (*next)(int, void *, size_t);
    static long place;
    static int has_failed;
    if (next == NULL) next = (ssize_t (*)(int, void *, size_t))dlsym(RTLD_NEXT, "read");
    if (file != STDIN_FILENO || size == 0) return next(file, bytes, size);
    if (fails(getenv("FAIL_READ"), place, &has_failed)) return -1;
    ssize_t count = next(file, bytes, 1);
    if (count > 0) place += count;
    return count;
}

ssize_t write(int file, const void *bytes, size_t size) {
    static ssize_t (*next)(int, const void *, size_t);
    static long place;
    static int has_failed;
    if (next == NULL) next = (ssize_t (*)(int, const void *, size_t))dlsym(RTLD_NEXT, "write");
    if (file != STDOUT_FILENO || size == 0) return next(file, bytes, size);
    if (fails(getenv("FAIL_WRITE"), place, &has_failed)) return -1;
    ssize_t count = next(file, bytes, 1);
    if (count > 0) place += count;
    return count;
}
