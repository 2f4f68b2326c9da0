/* Characters of a file, and the dots that draw marks in them. */
#include "library.h"

size_t print1525_characters_size(void) { return sizeof(print1525_characters); }

int print1525_characters_read(const void *text, size_t length, print1525_characters *characters,
                              print1525_details *details) {
    const uint8_t nothing = 0;
    const int fault = why_not(text, length, characters, sizeof *characters);
    print1525_plain_numbers answer;
    if (fault != PRINT1525_FAULT_NONE) return refuse(details, fault);
    print1525_plain_characters_read(text == NULL ? &nothing : (const uint8_t *)text, length, characters, &answer);
    return report(details, &answer);
}

int print1525_characters_dots(const print1525_characters *characters, const print1525_mark *mark, print1525_mark *dots,
                              size_t capacity, size_t *length, print1525_details *details) {
    const size_t size = room(capacity, sizeof *dots);
    int fault = why_not(mark, sizeof *mark, dots, size);
    print1525_plain_numbers answer = {0, 0, 0, 0};
    print1525_mark nothing[1];
    if (characters == NULL) fault = PRINT1525_FAULT_NULL_POINTER;
    if (fault == PRINT1525_FAULT_NONE) fault = why_not(characters, sizeof *characters, dots, size);
    if (fault == PRINT1525_FAULT_NONE)
        print1525_plain_characters_dots(characters, mark, dots == NULL ? nothing : dots, capacity, &answer);
    tell_length(length, answer.length);
    return fault == PRINT1525_FAULT_NONE ? report(details, &answer) : refuse(details, fault);
}
