// Stands between the program and epoll_wait: where STOP_POLL names a file that is there, a call that has waited for
// nothing stops the process behind it, and removes the file. It is preloaded into the built program, for the check
// orders-while-serving.
#define _GNU_SOURCE
#include <dlfcn.h>
#include <signal.h>
#include <stdlib.h>
#include <sys/epoll.h>
#include <unistd.h>

int epoll_wait(int poll, struct epoll_event *events, int most, int timeout) {
    static int (*next)(int, struct epoll_event *, int, int);
    static const char *file;
    if (next == NULL) {
        next = (int (*)(int, struct epoll_event *, int, int))dlsym(RTLD_NEXT, "epoll_wait");
        file = getenv("STOP_POLL");
    }
    int count = next(poll, events, most, timeout);
    if (count == 0 && file != NULL && unlink(file) == 0) raise(SIGSTOP);
    return count;
}
