// Shows the number in the file CLOCK as the seconds since 1970. It is preloaded into the built program, for the checks
// every-action, accounts-apart, cases-of-requests, each-growth-refused, damaged-rows, lives-of-a-file, turned-bits,
// what-is-logged and whole-and-damaged-files. It takes no memory, so that each growth is one of the program's own.
#define _GNU_SOURCE
#include <fcntl.h>
#include <stdlib.h>
#include <sys/syscall.h>
#include <time.h>
#include <unistd.h>

int clock_gettime(clockid_t clock, struct timespec *now) {
    int result = (int)syscall(SYS_clock_gettime, clock, now);
    const char *path = getenv("CLOCK");
    int file = result == 0 && clock == CLOCK_REALTIME && path != NULL ? open(path, O_RDONLY) : -1;
    if (file >= 0) {
        char text[24] = "", *end = text;
        long seconds = read(file, text, sizeof text - 1) > 0 ? strtol(text, &end, 10) : 0;
        if (end != text) now->tv_sec = seconds;
        close(file);
    }
    return result;
}
