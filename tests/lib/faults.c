/* Faults of the outside, for tests: loaded before the C library by LD_PRELOAD.
 *
 * FAULT_ALLOC=N  the Nth allocation is refused
 * FAULT_READ=N   the Nth read fails
 * FAULT_WRITE=N  the Nth write fails, but of writes to standard error
 * FAULT_FULL=N   the same, and every write after it, with the error of a full disk
 * FAULT_OPEN=N   the Nth file cannot be opened
 * FAULT_MODE=N   the Nth change of a file's mode fails
 * FAULT_LINK=N   the Nth link cannot be read
 * FAULT_SYNC=N   the Nth sync fails
 * FAULT_RENAME=N the Nth file cannot be renamed
 * FAULT_REMOVE=N the Nth file cannot be removed
 * FAULT_SLOW=1   each read and write moves one byte
 * FAULT_SIGNAL=1 a signal interrupts each read and write, and each moves bytes when it is made again
 * FAULT_MARK=F   the file F is made when a fault happens
 * FAULT_CALLS=F  the file F gets a line for each call by which a file is written, with the names that it has: open, create, link,
 *                mode, write, sync, rename and remove; also of one that fails. The standard streams and files that are only read do
 *                not count
 */
#define _GNU_SOURCE
#include <errno.h>
#include <fcntl.h>
#include <stdarg.h>
#include <stdio.h>
#include <stdlib.h>
#include <sys/stat.h>
#include <sys/syscall.h>
#include <unistd.h>

extern void *__libc_malloc(size_t);
extern void *__libc_calloc(size_t, size_t);
extern void *__libc_realloc(void *, size_t);
extern void *__libc_memalign(size_t, size_t);

static long number(const char *name)
{
    const char *text = getenv(name);
    return text ? atol(text) : 0;
}

/* Whether this call is the one to fail. */
static int fails(const char *name, long *count)
{
    long wanted = number(name);
    if (wanted == 0 || ++*count != wanted)
        return 0;
    const char *mark = getenv("FAULT_MARK");
    if (mark)
        syscall(SYS_close, syscall(SYS_openat, AT_FDCWD, mark, O_CREAT | O_WRONLY, 0600));
    return 1;
}

/* Adds a call to the file of FAULT_CALLS. */
static void told(const char *call, const char *name, const char *other)
{
    const char *calls = getenv("FAULT_CALLS");
    if (!calls)
        return;
    char line[1000];
    int size = snprintf(line, sizeof line, "%s%s%s%s%s\n", call, *name ? " " : "", name, *other ? " " : "", other);
    if (size >= (int)sizeof line)
        size = sizeof line - 1;
    long file = syscall(SYS_openat, AT_FDCWD, calls, O_CREAT | O_WRONLY | O_APPEND, 0600);
    syscall(SYS_write, file, line, size);
    syscall(SYS_close, file);
}

static long allocations, reads, writes, fulls, opens, modes, links, syncs, renames, removals;

static int refused(void)
{
    if (!fails("FAULT_ALLOC", &allocations))
        return 0;
    errno = ENOMEM;
    return 1;
}

void *malloc(size_t size)
{
    return refused() ? NULL : __libc_malloc(size);
}

void *calloc(size_t count, size_t size)
{
    return refused() ? NULL : __libc_calloc(count, size);
}

void *realloc(void *old, size_t size)
{
    return refused() ? NULL : __libc_realloc(old, size);
}

void *aligned_alloc(size_t alignment, size_t size)
{
    return refused() ? NULL : __libc_memalign(alignment, size);
}

int posix_memalign(void **place, size_t alignment, size_t size)
{
    if (refused())
        return ENOMEM;
    *place = __libc_memalign(alignment, size);
    return *place ? 0 : ENOMEM;
}

static size_t moved(size_t size)
{
    return size > 1 && number("FAULT_SLOW") ? 1 : size;
}

/* Whether a signal interrupts this call: every other one. */
static int interrupted(int *before)
{
    *before = !*before && number("FAULT_SIGNAL");
    if (*before)
        errno = EINTR;
    return *before;
}

static int read_interrupted, write_interrupted;

ssize_t read(int file, void *place, size_t size)
{
    if (interrupted(&read_interrupted))
        return -1;
    if (fails("FAULT_READ", &reads)) {
        errno = EIO;
        return -1;
    }
    size = moved(size);
    return syscall(SYS_read, file, place, size);
}

ssize_t write(int file, const void *bytes, size_t size)
{
    if (file > 2)
        told("write", "", "");
    if (file != 2) {
        if (interrupted(&write_interrupted))
            return -1;
        if (fails("FAULT_WRITE", &writes)) {
            errno = EIO;
            return -1;
        }
        if (fails("FAULT_FULL", &fulls) || (number("FAULT_FULL") && fulls > number("FAULT_FULL"))) {
            errno = ENOSPC;
            return -1;
        }
        size = moved(size);
    }
    return syscall(SYS_write, file, bytes, size);
}

int open(const char *name, int flags, ...)
{
    mode_t mode = 0;
    if (flags & O_CREAT) {
        va_list rest;
        va_start(rest, flags);
        mode = va_arg(rest, mode_t);
        va_end(rest);
    }
    if ((flags & O_ACCMODE) != O_RDONLY)
        told(flags & O_EXCL ? "create" : "open", name, "");
    if (fails("FAULT_OPEN", &opens)) {
        errno = EACCES;
        return -1;
    }
    return syscall(SYS_openat, AT_FDCWD, name, flags, mode);
}

int fchmod(int file, mode_t mode)
{
    told("mode", "", "");
    if (fails("FAULT_MODE", &modes)) {
        errno = EPERM;
        return -1;
    }
    return syscall(SYS_fchmod, file, mode);
}

ssize_t readlink(const char *restrict name, char *restrict place, size_t size)
{
    told("link", name, "");
    if (fails("FAULT_LINK", &links)) {
        errno = EIO;
        return -1;
    }
    return syscall(SYS_readlinkat, AT_FDCWD, name, place, size);
}

int fsync(int file)
{
    told("sync", "", "");
    if (fails("FAULT_SYNC", &syncs)) {
        errno = EIO;
        return -1;
    }
    return syscall(SYS_fsync, file);
}

int rename(const char *from, const char *to)
{
    told("rename", from, to);
    if (fails("FAULT_RENAME", &renames)) {
        errno = EXDEV;
        return -1;
    }
    return syscall(SYS_renameat2, AT_FDCWD, from, AT_FDCWD, to, 0);
}

int unlink(const char *name)
{
    told("remove", name, "");
    if (fails("FAULT_REMOVE", &removals)) {
        errno = EPERM;
        return -1;
    }
    return syscall(SYS_unlinkat, AT_FDCWD, name, 0);
}
