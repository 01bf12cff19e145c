// Stands between the program and malloc: refuses the growth whose number REFUSE_AT gives, and then writes into the
// file REFUSED how many bytes of standard output are written, where that is a file. It is preloaded into the built
// program, for the check each-growth-refused.
#define _GNU_SOURCE
#include <dlfcn.h>
#include <errno.h>
#include <fcntl.h>
#include <stddef.h>
#include <stdio.h>
#include <stdlib.h>
#include <unistd.h>

static long grown;

static int is_refused(void) {
    const char *at = getenv("REFUSE_AT");
    if (at == NULL || ++grown != atol(at)) return 0;
    const char *mark = getenv("REFUSED");
    if (mark != NULL) {
        int file = open(mark, O_CREAT | O_WRONLY | O_TRUNC, 0600);
        if (file >= 0) {
            dprintf(file, "%ld\n", (long)lseek(STDOUT_FILENO, 0, SEEK_CUR));
            close(file);
        }
    }
    errno = ENOMEM;
    return 1;
}

void *malloc(size_t size) {
    static void *(*next)(size_t);
    if (next == NULL) next = (void *(*)(size_t))dlsym(RTLD_NEXT, "malloc");
    return is_refused() ? NULL : next(size);
}

void *realloc(void *old, size_t size) {
    static void *(*next)(void *, size_t);
    if (next == NULL) next = (void *(*)(void *, size_t))dlsym(RTLD_NEXT, "realloc");
    return is_refused() ? NULL : next(old, size);
}

void *aligned_alloc(size_t alignment, size_t size) {
    static void *(*next)(size_t, size_t);
    if (next == NULL) next = (void *(*)(size_t, size_t))dlsym(RTLD_NEXT, "aligned_alloc");
    return is_refused() ? NULL : next(alignment, size);
}

int posix_memalign(void **out, size_t alignment, size_t size) {
    static int (*next)(void **, size_t, size_t);
    if (next == NULL) next = (int (*)(void **, size_t, size_t))dlsym(RTLD_NEXT, "posix_memalign");
    return is_refused() ? ENOMEM : next(out, alignment, size);
}
