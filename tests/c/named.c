/* The names of the files that words name, for a caller who reads and writes them: named WORD.. writes that of the file that
 * is read, of the file that is written, and of the file of characters, a line each: `=` and the name, or an empty line
 * where there is none. The words are the program's, its name first. Where they ask for nothing the status is 2. */
#include "../../library/plain.h"
#include <stdio.h>
#include <string.h>

/* (The page in a browser alone calls it: it is in no library for C.) */
#ifdef __cplusplus
extern "C"
#endif
void print1525_names(const uint8_t *words, size_t words_length, uint8_t *names, size_t capacity, uint8_t *messages,
                     size_t messages_capacity, print1525_plain_end *end);

int main(int count, char **word) {
    uint8_t words[1000], names[1000], messages[1000];
    print1525_plain_end end;
    size_t length = 0, place;
    int index;
    for (index = 1; index < count; index++) {
        const size_t size = strlen(word[index]);
        if (length + size + 1 > sizeof words) return 98;
        if (index > 1) words[length++] = 0;
        memcpy(words + length, word[index], size);
        length += size;
    }
    print1525_names(words, length, names, sizeof names, messages, sizeof messages, &end);
    for (place = 0; place < end.output; place++) putchar(names[place] ? names[place] : '\n');
    return end.fault ? 2 : 0;
}
