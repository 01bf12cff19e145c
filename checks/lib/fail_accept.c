// Stands between the program and accept4: the first calls that would take a connection of the Internet fail with the
// errors whose numbers FAIL_ACCEPT lists, one after another. It is preloaded into the built program, for the check
// orders-while-serving.
#define _GNU_SOURCE
#include <dlfcn.h>
#include <errno.h>
#include <stdlib.h>
#include <sys/socket.h>

int accept4(int listening, struct sockaddr *address, socklen_t *size, int flags) {
    static int (*next)(int, struct sockaddr *, socklen_t *, int);
    static char *left;
    if (next == NULL) {
        next = (int (*)(int, struct sockaddr *, socklen_t *, int))dlsym(RTLD_NEXT, "accept4");
        left = getenv("FAIL_ACCEPT");
    }
    int domain = 0;
    socklen_t length = sizeof domain;
    getsockopt(listening, SOL_SOCKET, SO_DOMAIN, &domain, &length);
    if (domain == AF_INET && left != NULL && *left != 0) {
        errno = (int)strtol(left, &left, 10);
        if (*left == ',') left++;
        return -1;
    }
    return next(listening, address, size, flags);
}
