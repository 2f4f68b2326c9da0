/* Faults of the outside in a program of tools/port, linked with -Wl,--wrap= of main, malloc, calloc, realloc, print1525_os_read and
 * print1525_os_write: FAULT_ALLOC=N, FAULT_READ=N or FAULT_WRITE=N in the environment has the Nth such call fail (a write to
 * standard error does not count, nor what comes before main), and FAULT_MARK=F makes the file F then. tests/lib/faults.c does the same
 * for the program of this system. */
#include <stdint.h>
#include <stdio.h>
#include <stdlib.h>

int __real_main(int count, char **words);
void *__real_malloc(size_t size);
void *__real_calloc(size_t count, size_t size);
void *__real_realloc(void *old, size_t size);
intptr_t __real_print1525_os_read(int file, void *to, size_t size);
intptr_t __real_print1525_os_write(int file, const void *from, size_t size);
void rattle_set_errno(int error);

static int has_begun;

int __wrap_main(int count, char **words) {
    has_begun = 1;
    return __real_main(count, words);
}

static int fails(const char *name, long *count, int error) {
    const char *text = has_begun ? getenv(name) : NULL, *mark = has_begun ? getenv("FAULT_MARK") : NULL;
    FILE *made;
    if (!text || ++*count != atol(text)) return 0;
    if (mark && (made = fopen(mark, "w"))) fclose(made);
    rattle_set_errno(error);
    return 1;
}

static long allocations, reads, writes;

void *__wrap_malloc(size_t size) { return fails("FAULT_ALLOC", &allocations, 12) ? NULL : __real_malloc(size); }

void *__wrap_calloc(size_t count, size_t size) {
    return fails("FAULT_ALLOC", &allocations, 12) ? NULL : __real_calloc(count, size);
}

void *__wrap_realloc(void *old, size_t size) { return fails("FAULT_ALLOC", &allocations, 12) ? NULL : __real_realloc(old, size); }

intptr_t __wrap_print1525_os_read(int file, void *to, size_t size) {
    return fails("FAULT_READ", &reads, 5) ? -1 : __real_print1525_os_read(file, to, size);
}

intptr_t __wrap_print1525_os_write(int file, const void *from, size_t size) {
    return file != 2 && fails("FAULT_WRITE", &writes, 5) ? -1 : __real_print1525_os_write(file, from, size);
}
