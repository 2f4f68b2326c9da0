/* What the proved program print1525 calls of its system, on Linux: the C library's own functions. The kit's own start of a program, which
 * is for x86-64, does the same. */
#define _GNU_SOURCE
#include "system.h"
#include <errno.h>
#include <fcntl.h>
#include <signal.h>
#include <stdio.h>
#include <stdlib.h>
#include <sys/file.h>
#include <sys/stat.h>
#include <time.h>
#include <unistd.h>
_Static_assert(sizeof(struct known) == sizeof(struct statx) && O_CREAT == 0100 && O_EXCL == 0200 && O_NOCTTY == 0400 && O_TRUNC == 01000 &&
               O_APPEND == 02000 && O_CLOEXEC == 02000000 && EXDEV == 18 && ELOOP == 40 && sizeof(time_t) == 8, "Linux's numbers");
extern char **environ;
static char **words;
static int count;
int main(int argc, char **argv) {
    words = argv, count = argc;
    signal(SIGPIPE, SIG_IGN);
    return print1525_program();
}
intptr_t rattle_arg(size_t i, uint8_t *buffer, size_t size) { return put(i < (size_t)count ? words[i] : NULL, buffer, size); }
intptr_t rattle_env(const char *name, uint8_t *buffer, size_t size) { return put(getenv(name), buffer, size); }
intptr_t rattle_env_at(size_t i, uint8_t *buffer, size_t size) {
    size_t n = 0;
    while (environ && environ[n] && n < i) n++;
    return put(environ ? environ[n] : NULL, buffer, size);
}
int rattle_errno(void) { return errno; }
void rattle_set_errno(int error) { errno = error; }
int OS(open)(const char *path, int flags, unsigned mode) { return open(path, flags, mode); }
intptr_t OS(read)(int fd, void *to, size_t size) { return read(fd, to, size); }
intptr_t OS(write)(int fd, const void *from, size_t size) { return write(fd, from, size); }
int OS(close)(int fd) { return close(fd); }
int64_t OS(lseek)(int fd, int64_t to, int whence) { return lseek(fd, to, whence); }
int OS(isatty)(int fd) { return isatty(fd); }
int OS(clock_gettime)(int clock, struct timespec *now) { return clock_gettime(clock, now); }
int OS(statx)(int fd, const char *path, int flags, unsigned mask, struct statx *found) { return statx(fd, path, flags, mask, found); }
intptr_t OS(readlink)(const char *path, char *to, size_t size) { return readlink(path, to, size); }
int OS(ftruncate)(int fd, int64_t size) { return ftruncate(fd, size); }
int OS(fchmod)(int fd, unsigned mode) { return fchmod(fd, mode); }
int OS(fsync)(int fd) { return fsync(fd); }
int OS(fdatasync)(int fd) { return fdatasync(fd); }
int OS(flock)(int fd, int how) { return flock(fd, how); }
int OS(unlink)(const char *path) { return unlink(path); }
int OS(rename)(const char *from, const char *to) { return rename(from, to); }
int __xpg_strerror_r(int, char *, size_t);
int OS(__xpg_strerror_r)(int error, char *to, size_t size) { return __xpg_strerror_r(error, to, size); }
