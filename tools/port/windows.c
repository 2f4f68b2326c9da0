/* What the proved program print1525 calls of its system, on Windows: with the numbers of Linux and the meanings that the kit's contracts
 * assume. The C compiler's run-time library has most of it; names of files are UTF-8 here and UTF-16 there. */
#define WIN32_LEAN_AND_MEAN
#include "system.h"
#include <windows.h>
#include <shellapi.h>
#include <errno.h>
#include <fcntl.h>
#include <io.h>
#include <stdlib.h>
#include <sys/stat.h>
#include <wchar.h>

static char **words, **entries;
static int count, entry_count;
static int last; /* the last error, with Linux's number */

/* The most bytes of a path, with the 0 that ends it. */
#define PATH_SIZE 4096
/* The most bytes of one write: Windows gives a larger one no part of the room that a pipe has. */
#define PART_SIZE 65536

/* Errors by their numbers here and on Linux, with Linux's words, which the program says on every system. */
static const struct { int here, number; const char *text; } errors[] = {
    {EPERM, 1, "Operation not permitted"}, {ENOENT, 2, "No such file or directory"}, {EIO, 5, "Input/output error"},
    {EBADF, 9, "Bad file descriptor"}, {EAGAIN, 11, "Resource temporarily unavailable"}, {ENOMEM, 12, "Cannot allocate memory"},
    {EACCES, 13, "Permission denied"}, {EBUSY, 16, "Device or resource busy"}, {EEXIST, 17, "File exists"}, {EXDEV, 18, "Invalid cross-device link"},
    {ENOTDIR, 20, "Not a directory"}, {EISDIR, 21, "Is a directory"}, {EINVAL, 22, "Invalid argument"}, {ENFILE, 23, "Too many open files in system"},
    {EMFILE, 24, "Too many open files"}, {EFBIG, 27, "File too large"}, {ENOSPC, 28, "No space left on device"}, {ESPIPE, 29, "Illegal seek"},
    {EROFS, 30, "Read-only file system"}, {EPIPE, 32, "Broken pipe"}, {ENAMETOOLONG, 36, "File name too long"}, {ENOSYS, 38, "Function not implemented"},
    {ENOTEMPTY, 39, "Directory not empty"},
};
/* Notes an error of the run-time library: -1. */
static int fail(int here) {
    size_t i;
    for (i = 0; i < sizeof errors / sizeof *errors && errors[i].here != here; i++) {}
    last = i < sizeof errors / sizeof *errors ? errors[i].number : 5;
    return -1;
}
/* Notes an error of the system: -1. */
static int fail_of(DWORD error) {
    switch (error) {
    case ERROR_FILE_NOT_FOUND: case ERROR_PATH_NOT_FOUND: case ERROR_INVALID_NAME: case ERROR_BAD_PATHNAME: case ERROR_INVALID_DRIVE: return fail(ENOENT);
    case ERROR_ACCESS_DENIED: case ERROR_SHARING_VIOLATION: case ERROR_LOCK_VIOLATION: return fail(EACCES);
    case ERROR_FILE_EXISTS: case ERROR_ALREADY_EXISTS: return fail(EEXIST);
    case ERROR_NOT_SAME_DEVICE: return fail(EXDEV);
    case ERROR_DISK_FULL: case ERROR_HANDLE_DISK_FULL: return fail(ENOSPC);
    case ERROR_WRITE_PROTECT: return fail(EROFS);
    case ERROR_BROKEN_PIPE: case ERROR_NO_DATA: return fail(EPIPE);
    case ERROR_DIRECTORY: return fail(ENOTDIR);
    case ERROR_FILENAME_EXCED_RANGE: return fail(ENAMETOOLONG);
    case ERROR_NOT_ENOUGH_MEMORY: case ERROR_OUTOFMEMORY: return fail(ENOMEM);
    default: return fail(EIO);
    }
}
/* What was taken of memory; without any the program ends as it does where it is refused some itself. */
static void *taken(void *memory) {
    static const char text[] = "print1525: out of memory\n";
    if (memory) return memory;
    _write(2, text, sizeof text - 1);
    _exit(3);
}
/* UTF-16 as UTF-8; a half of a pair alone as three bytes, which are no UTF-8, so that the program refuses the word. */
static char *narrow(const wchar_t *wide) {
    const size_t length = wcslen(wide);
    unsigned char *text = taken(malloc(3 * length + 1)), *at = text;
    size_t i;
    for (i = 0; i < length; i++) {
        uint32_t c = wide[i];
        if (c >= 0xD800 && c < 0xDC00 && wide[i + 1] >= 0xDC00 && wide[i + 1] < 0xE000) c = 0x10000 + ((c - 0xD800) << 10) + (wide[++i] - 0xDC00u);
        if (c < 0x80) *at++ = (unsigned char)c;
        else if (c < 0x800) *at++ = (unsigned char)(0xC0 | c >> 6), *at++ = (unsigned char)(0x80 | (c & 63));
        else if (c < 0x10000) *at++ = (unsigned char)(0xE0 | c >> 12), *at++ = (unsigned char)(0x80 | (c >> 6 & 63)), *at++ = (unsigned char)(0x80 | (c & 63));
        else *at++ = (unsigned char)(0xF0 | c >> 18), *at++ = (unsigned char)(0x80 | (c >> 12 & 63)), *at++ = (unsigned char)(0x80 | (c >> 6 & 63)), *at++ = (unsigned char)(0x80 | (c & 63));
    }
    *at = 0;
    return (char *)text;
}
/* A path of UTF-8 as UTF-16, and whether it is one. */
static int widen(const char *path, wchar_t wide[PATH_SIZE]) {
    if (MultiByteToWideChar(CP_UTF8, MB_ERR_INVALID_CHARS, path, -1, wide, PATH_SIZE)) return 1;
    fail(ENOENT);
    return 0;
}
/* The program knows / alone between the folders of a name, which Windows takes too; a name that begins with \\?\ stays as it is. */
static void turn_round(char *word) {
    if (strncmp(word, "\\\\?\\", 4))
        for (; *word; word++)
            if (*word == '\\') *word = '/';
}
/* Whether a word has the names of signals, which may have a \\ of their own. */
static int is_names(int i) { return !strncmp(words[i], "--names=", 8) || (i > 0 && !strcmp(words[i - 1], "--names")); }
/* The entries of the environment, one after another up to an empty one. */
static void read_environment(void) {
    wchar_t *all = taken(GetEnvironmentStringsW()), *at;
    int i = 0;
    for (at = all; *at; at += wcslen(at) + 1) entry_count++;
    entries = taken(calloc((size_t)entry_count + 1, sizeof *entries));
    for (at = all; *at; at += wcslen(at) + 1) entries[i++] = narrow(at);
    FreeEnvironmentStringsW(all);
}
/* Ctrl-C, and what else a console interrupts by, ends the program with the status that shells have for it on Linux. */
static BOOL WINAPI interrupted(DWORD event) {
    (void)event;
    TerminateProcess(GetCurrentProcess(), 130);
    return TRUE;
}
/* A console takes the sequences by which the program clears a line and shows reverse (ENABLE_VIRTUAL_TERMINAL_PROCESSING). */
static void take_sequences(int fd) {
    const HANDLE console = (HANDLE)_get_osfhandle(fd);
    DWORD mode;
    if (GetConsoleMode(console, &mode)) SetConsoleMode(console, mode | 4);
}
/* Standard streams are bytes. */
int main(void) {
    wchar_t **given;
    int i;
    for (i = 0; i < 3; i++) _setmode(i, _O_BINARY);
    given = taken(CommandLineToArgvW(GetCommandLineW(), &count));
    read_environment();
    words = taken(calloc((size_t)count + 1, sizeof *words));
    for (i = 0; i < count; i++) {
        words[i] = narrow(given[i]);
        if (!is_names(i)) turn_round(words[i]);
    }
    SetConsoleOutputCP(CP_UTF8);
    take_sequences(1);
    take_sequences(2);
    SetConsoleCtrlHandler(interrupted, TRUE);
    return print1525_program();
}
intptr_t rattle_arg(size_t i, uint8_t *buffer, size_t size) { return put(i < (size_t)count ? words[i] : NULL, buffer, size); }
intptr_t rattle_env_at(size_t i, uint8_t *buffer, size_t size) { return put(i < (size_t)entry_count ? entries[i] : NULL, buffer, size); }
intptr_t rattle_env(const char *name, uint8_t *buffer, size_t size) {
    const size_t length = strlen(name);
    int i;
    for (i = 0; i < entry_count; i++)
        if (!_strnicmp(entries[i], name, length) && entries[i][length] == '=') return put(entries[i] + length + 1, buffer, size);
    return -1;
}
int rattle_errno(void) { return last; }
void rattle_set_errno(int error) { last = error; }

/* What opening does with a file that is there or not, by Linux's flags. */
static DWORD disposition(int flags) {
    if (flags & 0100 && flags & 0200) return CREATE_NEW;
    if (flags & 0100) return flags & 01000 ? CREATE_ALWAYS : OPEN_ALWAYS;
    return flags & 01000 ? TRUNCATE_EXISTING : OPEN_EXISTING;
}
/* (A file may be renamed and removed while it is open, as on Linux: the program renames what it has written before it closes it.) */
int OS(open)(const char *path, int flags, unsigned mode) {
    static const DWORD accesses[] = {GENERIC_READ, GENERIC_WRITE, GENERIC_READ | GENERIC_WRITE, 0};
    const DWORD shared = FILE_SHARE_READ | FILE_SHARE_WRITE | FILE_SHARE_DELETE;
    wchar_t wide[PATH_SIZE];
    DWORD attributes;
    HANDLE handle;
    int fd;
    if (!widen(path, wide)) return -1;
    attributes = GetFileAttributesW(wide);
    if (attributes != INVALID_FILE_ATTRIBUTES && attributes & FILE_ATTRIBUTE_DIRECTORY) return fail(flags & 0200 ? EEXIST : EISDIR);
    if (flags & 3 && attributes != INVALID_FILE_ATTRIBUTES && attributes & FILE_ATTRIBUTE_READONLY) return fail(EACCES);
    attributes = mode & 0200 || !(flags & 0100) ? FILE_ATTRIBUTE_NORMAL : FILE_ATTRIBUTE_READONLY;
    handle = CreateFileW(wide, accesses[flags & 3], shared, NULL, disposition(flags), attributes, NULL);
    if (handle == INVALID_HANDLE_VALUE) return fail_of(GetLastError());
    fd = _open_osfhandle((intptr_t)handle, (flags & 3 ? 0 : _O_RDONLY) | (flags & 02000 ? _O_APPEND : 0) | _O_BINARY | _O_NOINHERIT);
    if (fd >= 0) return fd;
    CloseHandle(handle);
    return fail(EMFILE);
}
/* (The run-time library takes at most 2^31 - 1 bytes at once.) */
intptr_t OS(read)(int fd, void *to, size_t size) {
    const int n = _read(fd, to, size < 1 << 20 ? (unsigned)size : 1 << 20);
    return n < 0 ? fail(errno) : n;
}
intptr_t OS(write)(int fd, const void *from, size_t size) {
    int n;
    SetLastError(0);
    n = _write(fd, from, size < PART_SIZE ? (unsigned)size : PART_SIZE);
    if (n >= 0) return n;
    return GetLastError() == ERROR_NO_DATA || GetLastError() == ERROR_BROKEN_PIPE ? fail(EPIPE) : fail(errno);
}
int OS(close)(int fd) { return _close(fd) ? fail(errno) : 0; }
int64_t OS(lseek)(int fd, int64_t to, int whence) {
    const HANDLE handle = (HANDLE)_get_osfhandle(fd);
    int64_t at;
    if (handle == INVALID_HANDLE_VALUE) return fail(EBADF);
    if (GetFileType(handle) != FILE_TYPE_DISK) return fail(ESPIPE);
    at = _lseeki64(fd, to, whence);
    return at < 0 ? fail(errno) : at;
}
int OS(isatty)(int fd) {
    DWORD mode;
    if (GetConsoleMode((HANDLE)_get_osfhandle(fd), &mode)) return 1;
    fail(EINVAL);
    return 0;
}
int OS(clock_gettime)(int clock, int64_t now[2]) {
    LARGE_INTEGER ticks, rate;
    FILETIME time;
    if (clock == 0) {
        uint64_t t;
        GetSystemTimeAsFileTime(&time);
        t = ((uint64_t)time.dwHighDateTime << 32 | time.dwLowDateTime) - 116444736000000000u;
        now[0] = (int64_t)(t / 10000000), now[1] = (int64_t)(t % 10000000 * 100);
        return 0;
    }
    if (clock != 1 || !QueryPerformanceFrequency(&rate) || !QueryPerformanceCounter(&ticks)) return fail(EINVAL);
    now[0] = ticks.QuadPart / rate.QuadPart, now[1] = ticks.QuadPart % rate.QuadPart * 1000000000 / rate.QuadPart;
    return 0;
}
/* A folder's name without the slash at its end, of which the run-time library makes no file; that of a drive keeps it. */
static void trim(wchar_t *wide) {
    const size_t length = wcslen(wide);
    if (length > 1 && wide[length - 1] == L'/' && wide[length - 2] != L':') wide[length - 1] = 0;
}
int OS(statx)(int fd, const char *path, int flags, unsigned mask, struct known *found) {
    struct __stat64 known;
    wchar_t wide[PATH_SIZE];
    (void)mask;
    if (flags & 0x1000 && !*path) {
        if (_fstat64(fd, &known)) return fail(errno);
    } else {
        if (!widen(path, wide)) return -1;
        trim(wide);
        if (_wstat64(wide, &known)) return fail(errno);
    }
    memset(found, 0, sizeof *found);
    found->mask = 0x7ff, found->mode = known.st_mode, found->nlink = 1, found->size = (uint64_t)known.st_size;
    found->accessed.seconds = known.st_atime, found->modified.seconds = known.st_mtime, found->changed.seconds = known.st_ctime;
    return 0;
}
intptr_t OS(readlink)(const char *path, char *to, size_t size) {
    wchar_t wide[PATH_SIZE];
    (void)to, (void)size;
    if (!widen(path, wide)) return -1;
    return GetFileAttributesW(wide) == INVALID_FILE_ATTRIBUTES ? fail_of(GetLastError()) : fail(EINVAL); /* no link that the program follows */
}
int OS(ftruncate)(int fd, int64_t size) { return _chsize_s(fd, size) ? fail(errno) : 0; }
int OS(fchmod)(int fd, unsigned mode) { (void)fd, (void)mode; return 0; }
int OS(fsync)(int fd) { return _commit(fd) ? fail(errno) : 0; }
int OS(fdatasync)(int fd) { return OS(fsync)(fd); }
int OS(flock)(int fd, int how) { (void)fd, (void)how; return 0; }
int OS(unlink)(const char *path) {
    wchar_t wide[PATH_SIZE];
    if (!widen(path, wide)) return -1;
    return DeleteFileW(wide) ? 0 : fail_of(GetLastError());
}
int OS(rename)(const char *from, const char *to) {
    wchar_t one[PATH_SIZE], two[PATH_SIZE];
    if (!widen(from, one) || !widen(to, two)) return -1;
    return MoveFileExW(one, two, MOVEFILE_REPLACE_EXISTING | MOVEFILE_COPY_ALLOWED) ? 0 : fail_of(GetLastError());
}
int OS(__xpg_strerror_r)(int error, char *to, size_t size) {
    const char *text = "Unknown error";
    size_t i, length;
    for (i = 0; i < sizeof errors / sizeof *errors; i++)
        if (errors[i].number == error) text = errors[i].text;
    length = strlen(text);
    if (size) {
        memcpy(to, text, length < size ? length : size - 1);
        to[length < size ? length : size - 1] = 0;
    }
    return length < size ? 0 : 34;
}
