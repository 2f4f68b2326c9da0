/* What the proved program calls of its system has names of its own here, so that no declaration of a C library is in the way. */
#include <stddef.h>
#include <stdint.h>
#include <string.h>

/* The program: its exit status. */
int print1525_program(void);
#define OS(name) print1525_os_##name

/* C's statx of Linux, which is laid out alike on all its processors. */
struct stamp { int64_t seconds; uint32_t nanos; int32_t reserved; };
struct known {
    uint32_t mask, blksize;
    uint64_t attributes;
    uint32_t nlink, uid, gid;
    uint16_t mode, spare0;
    uint64_t ino, size, blocks, attributes_mask;
    struct stamp accessed, born, changed, modified;
    uint32_t rdev_major, rdev_minor, dev_major, dev_minor;
    uint64_t mnt_id;
    uint32_t dio_mem_align, dio_offset_align;
    uint64_t spare3[12];
};

/* Puts a text at the start of a buffer: its length, -1 where there is none, -2 where it does not fit. */
static intptr_t put(const char *text, uint8_t *buffer, size_t size) {
    size_t length = text ? strlen(text) : 0;
    if (!text) return -1;
    memcpy(buffer, text, length < size ? length : size);
    return length <= size ? (intptr_t)length : -2;
}
