/* What library/ and the library as one C file need of C's library for strings where none is here. */
#ifndef MINI_STRING_H
#define MINI_STRING_H
#include <stddef.h>
void *memcpy(void *to, const void *from, size_t size);
void *memmove(void *to, const void *from, size_t size);
void *memset(void *to, int byte, size_t size);
size_t strlen(const char *text);
int strcmp(const char *one, const char *other);
char *strchr(const char *text, int byte);
#endif
