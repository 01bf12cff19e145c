// A disk that fails once: of the calls by which the program writes to files that are open, gives them names and access
// and brings them to the disk, the one behind the first FAIL_PLACE fails with an input/output error, and its name is
// written to the file FAIL_MARK. Pipes, terminals and sockets don't fail, nor does an open. It is preloaded into the
// built program, for the check what-reaches-the-disk.
#define _GNU_SOURCE
#include <dlfcn.h>
#include <errno.h>
#include <fcntl.h>
#include <stdlib.h>
#include <string.h>
#include <sys/stat.h>
#include <sys/syscall.h>
#include <sys/types.h>
#include <unistd.h>

static int fails(const char *name) {
    static int done = 0;
    const char *place = getenv("FAIL_PLACE"), *mark = getenv("FAIL_MARK");
    if (place == NULL || mark == NULL || done++ != atoi(place)) return 0;
    int file = (int)syscall(SYS_openat, AT_FDCWD, mark, O_CREAT | O_WRONLY, 0600);
    if (syscall(SYS_write, file, name, strlen(name)) < 0) abort();
    close(file);
    errno = EIO;
    return 1;
}

static int is_file(int file) {
    struct stat there;
    return fstat(file, &there) == 0 && S_ISREG(there.st_mode);
}

#define NEXT(name) __typeof__(&name) next = (__typeof__(&name))dlsym(RTLD_NEXT, #name)

ssize_t write(int file, const void *bytes, size_t count) {
    NEXT(write);
    return is_file(file) && fails("write") ? -1 : next(file, bytes, count);
}

ssize_t pwrite(int file, const void *bytes, size_t count, off_t place) {
    NEXT(pwrite);
    return fails("pwrite") ? -1 : next(file, bytes, count, place);
}

ssize_t pwrite64(int file, const void *bytes, size_t count, off64_t place) {
    NEXT(pwrite64);
    return fails("pwrite64") ? -1 : next(file, bytes, count, place);
}

int ftruncate(int file, off_t length) {
    NEXT(ftruncate);
    return fails("ftruncate") ? -1 : next(file, length);
}

int fsync(int file) {
    NEXT(fsync);
    return fails("fsync") ? -1 : next(file);
}

int fdatasync(int file) {
    NEXT(fdatasync);
    return fails("fdatasync") ? -1 : next(file);
}

int fchmod(int file, mode_t mode) {
    NEXT(fchmod);
    return fails("fchmod") ? -1 : next(file, mode);
}

int fchown(int file, uid_t owner, gid_t group) {
    NEXT(fchown);
    return fails("fchown") ? -1 : next(file, owner, group);
}

int link(const char *from, const char *to) {
    NEXT(link);
    return fails("link") ? -1 : next(from, to);
}

int rename(const char *from, const char *to) {
    NEXT(rename);
    return fails("rename") ? -1 : next(from, to);
}

int unlink(const char *path) {
    NEXT(unlink);
    return fails("unlink") ? -1 : next(path);
}
