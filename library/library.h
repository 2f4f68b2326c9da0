/* What the files of the library share. It is not installed. */
#ifndef PRINT1525_LIBRARY_H
#define PRINT1525_LIBRARY_H

#include "plain.h"
#include <string.h>

/* The size of each structure, on the one kind of machine that the library is for. */
#define HAS_SIZE(type, bytes) typedef char type##_has_its_size[sizeof(type) == (bytes) ? 1 : -1]
HAS_SIZE(print1525_details, 24);
HAS_SIZE(print1525_edge, 16);
HAS_SIZE(print1525_received, 3);
HAS_SIZE(print1525_timing, 12);
HAS_SIZE(print1525_device, 64);
HAS_SIZE(print1525_step, 16);
HAS_SIZE(print1525_mark, 16);
HAS_SIZE(print1525_printer, 24);
HAS_SIZE(print1525_characters, 1536);
HAS_SIZE(print1525_speed, 8);
HAS_SIZE(print1525_region, 48);
HAS_SIZE(print1525_byte, 88);
HAS_SIZE(print1525_reading, 104);
HAS_SIZE(print1525_decoder, 192);
HAS_SIZE(print1525_receiver, 200);
HAS_SIZE(print1525_settings, 104);
HAS_SIZE(print1525_plain_region, 32);

/* Writes the details, if they are wanted, and gives the status. */
static inline int tell(print1525_details *details, int status, int fault, size_t place, size_t column) {
    if (details != NULL) {
        details->status = status;
        details->fault = fault;
        details->place = place;
        details->column = column;
    }
    return status;
}

static inline int done(print1525_details *details) { return tell(details, PRINT1525_DONE, PRINT1525_FAULT_NONE, 0, 0); }

static inline int refuse(print1525_details *details, int fault) {
    return tell(details, PRINT1525_REFUSED, fault, 0, 0);
}

static inline int refuse_setting(print1525_details *details, size_t number) {
    return tell(details, PRINT1525_REFUSED, PRINT1525_FAULT_BAD_SETTING, number, 0);
}

/* Writes a length, if it is wanted. */
static inline void tell_length(size_t *length, size_t count) {
    if (length != NULL) *length = count;
}

/* Reports what a proved call answered. */
static inline int report(print1525_details *details, const print1525_plain_numbers *answer) {
    int fault, is_column;
    if (answer->code == 0) return done(details); /* most calls */
    fault = (int)answer->fault;
    is_column = fault == PRINT1525_FAULT_UNKNOWN_NAME || fault == PRINT1525_FAULT_BAD_CHARACTER;
    switch (answer->code) {
    case 1: return tell(details, PRINT1525_STOPPED, fault, answer->place, 0);
    case 2: return tell(details, PRINT1525_REFUSED, fault, answer->place, is_column ? answer->length : 0);
    case 4: return tell(details, PRINT1525_FAILED, PRINT1525_FAULT_TOO_SMALL, 0, 0);
    default: return tell(details, PRINT1525_FAILED, PRINT1525_FAULT_NO_MEMORY, 0, 0);
    }
}

/* The size of `count` items in bytes, or SIZE_MAX if it does not fit. */
static inline size_t room(size_t count, size_t size) { return count > SIZE_MAX / size ? SIZE_MAX : count * size; }

/* Whether two pieces of memory have a byte in common. */
static inline int overlap(const void *a, size_t a_size, const void *b, size_t b_size) {
    const uintptr_t from_a = (uintptr_t)a, from_b = (uintptr_t)b;
    if (a_size == 0 || b_size == 0) return 0;
    return from_a < from_b ? from_b - from_a < a_size : from_a - from_b < b_size;
}

/* Why a call may not read this memory and write this buffer, or 0. */
static inline int why_not(const void *input, size_t size, const void *buffer, size_t capacity) {
    if ((input == NULL && size > 0) || (buffer == NULL && capacity > 0)) return PRINT1525_FAULT_NULL_POINTER;
    return overlap(input, size, buffer, capacity) ? PRINT1525_FAULT_OVERLAP : PRINT1525_FAULT_NONE;
}

/* A text that is written with no more bytes than there is room for, and its whole length. */
typedef struct {
    char *text;
    size_t capacity, length;
} growing;

static inline void add(growing *to, const char *words) {
    for (; *words; words++, to->length++)
        if (to->length + 1 < to->capacity) to->text[to->length] = *words;
}

static inline void add_number(growing *to, uint64_t number) {
    char digits[24];
    size_t at = sizeof digits - 1;
    digits[at] = '\0';
    do digits[--at] = "0123456789"[number % 10];
    while (number /= 10);
    add(to, digits + at);
}

#endif
