// Holds the program up before its first lock of a file, or before the one that LOCK_TURN counts: it makes the file
// LOCK_GATE, and waits until that is taken away. With FLOCK_GATE it does so before it first locks a whole file
// (flock(2)), with REMOVE_GATE before it first takes a file away.
// It is preloaded into the built program, for the check names-and-owners-of-files.
#define _GNU_SOURCE
#include <dlfcn.h>
#include <fcntl.h>
#include <stdarg.h>
#include <stdlib.h>
#include <unistd.h>

// Makes a file, and waits until it is taken away: a minute at most.
static void wait_at(const char *gate) {
    close(open(gate, O_CREAT | O_WRONLY, 0600));
    for (int turn = 0; turn < 6000 && access(gate, F_OK) == 0; turn++) usleep(10000);
}

int fcntl(int file, int command, ...) {
    static int (*next)(int, int, void *);
    static int locks;
    va_list rest;
    va_start(rest, command);
    void *argument = va_arg(rest, void *);
    va_end(rest);
    if (next == NULL) next = (int (*)(int, int, void *))dlsym(RTLD_NEXT, "fcntl");
    const char *gate = getenv("LOCK_GATE"), *turn = getenv("LOCK_TURN");
    if (command == F_OFD_SETLK && gate != NULL && ++locks == (turn != NULL ? atoi(turn) : 1)) wait_at(gate);
    return next(file, command, argument);
}

int flock(int file, int operation) {
    static int (*next)(int, int);
    static int was_held_up;
    if (next == NULL) next = (int (*)(int, int))dlsym(RTLD_NEXT, "flock");
    const char *gate = getenv("FLOCK_GATE");
    if (gate != NULL && !was_held_up++) wait_at(gate);
    return next(file, operation);
}

int unlink(const char *path) {
    static int (*next)(const char *);
    static int was_held_up;
    if (next == NULL) next = (int (*)(const char *))dlsym(RTLD_NEXT, "unlink");
    const char *gate = getenv("REMOVE_GATE");
    if (gate != NULL && !was_held_up++) wait_at(gate);
    return next(path);
}
