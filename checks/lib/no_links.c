// A file system without second names: link fails as link(2) says of one, with the error whose number NO_LINKS is. It is
// preloaded into the built program, for the check names-and-owners-of-files.
#include <errno.h>
#include <stdlib.h>

int link(const char *file, const char *name) {
    (void)file;
    (void)name;
    const char *number = getenv("NO_LINKS");
    errno = number == NULL ? EPERM : atoi(number);
    return -1;
}
