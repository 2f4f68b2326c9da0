/* The program over the library's two calls for texts: which files words name, and what is answered to words and an input in
 * memory. It takes the program's words and input, and gives its output, messages and exit status (tests/c/answered compares them).
 * Files are read and written here in the plainest way. */
#include "../../library/plain.h"
#include <errno.h>
#include <stdio.h>
#include <stdlib.h>
#include <string.h>

/* (The page in a browser alone calls it: it is in no library for C.) */
void print1525_names(const uint8_t *words, size_t words_length, uint8_t *names, size_t capacity, uint8_t *messages,
                     size_t messages_capacity, print1525_plain_end *end);

typedef struct {
    uint8_t *bytes;
    size_t length;
} text;

static void *memory(void *old, size_t size) {
    void *const given = realloc(old, size > 0 ? size : 1);
    if (given == NULL) fputs("print1525: out of memory\n", stderr), exit(3);
    return given;
}

static void no_file(const char *name) {
    fprintf(stderr, "print1525: %s: %s (os error %d)\n", name, strerror(errno), errno);
    exit(3);
}

/* All that a file has, or standard input where it has no name. */
static text read_all(const char *name) {
    FILE *const file = name == NULL ? stdin : fopen(name, "rb");
    text all = {NULL, 0};
    size_t count;
    if (file == NULL) no_file(name);
    do {
        all.bytes = (uint8_t *)memory(all.bytes, all.length + 65536);
        count = fread(all.bytes + all.length, 1, 65536, file);
        all.length += count;
    } while (count > 0);
    if (ferror(file) && name != NULL) no_file(name);
    if (ferror(file)) fputs("print1525: read failed\n", stderr), exit(3);
    if (name != NULL) fclose(file);
    return all;
}

/* The words of the command line with a byte 0 between each two. */
static text words_of(int count, char **word) {
    text all = {NULL, 0};
    int index;
    for (index = 0; index < count; index++) {
        const char *const one = index == 0 ? "print1525" : word[index];
        const size_t length = strlen(one);
        all.bytes = (uint8_t *)memory(all.bytes, all.length + length + 1);
        if (index > 0) all.bytes[all.length++] = 0;
        memcpy(all.bytes + all.length, one, length);
        all.length += length;
    }
    return all;
}

/* The name at a place of the list of names; NULL where it is empty. Each name has one byte in front and a byte 0 behind. */
static const char *name_at(const uint8_t *names, size_t length, int index) {
    size_t at = 0;
    for (; index > 0 && at < length; at++) index -= names[at] == 0;
    return at < length && names[at] != 0 ? (const char *)names + at + 1 : NULL;
}

int main(int count, char **word) {
    const text words = words_of(count, word);
    const char *const environment = getenv("PRINT1525_EXPLAIN");
    const uint8_t explained = environment != NULL && strcmp(environment, "1") == 0;
    uint8_t names[65536] = {0}, messages[65536], *output = NULL;
    const char *file, *place, *characters;
    text input = {NULL, 0}, shapes = {NULL, 0};
    size_t capacity = 0;
    print1525_plain_end end;
    FILE *to = stdout;
    print1525_names(words.bytes, words.length, names, sizeof names - 1, messages, sizeof messages, &end);
    file = name_at(names, end.output, 0), place = name_at(names, end.output, 1), characters = name_at(names, end.output, 2);
    if (characters != NULL) shapes = read_all(characters);
    if (end.status == PRINT1525_DONE) input = read_all(file);
    if (input.bytes == NULL) input.bytes = (uint8_t *)memory(NULL, 1);
    if (shapes.bytes == NULL) shapes.bytes = (uint8_t *)memory(NULL, 1);
    do {
        output = (uint8_t *)memory(output, capacity);
        print1525_plain_answer(words.bytes, words.length, explained, 3, input.bytes, input.length, shapes.bytes, shapes.length,
                               output, capacity, messages, sizeof messages, &end);
        if (end.status != 4) break;
        capacity = end.output;
    } while (1);
    if (place != NULL && end.status <= 1 && (to = fopen(place, "wb")) == NULL) no_file(place);
    if (place == NULL || end.status <= 1) fwrite(output, 1, end.output, to);
    fflush(to);
    fwrite(messages, 1, end.messages, stderr);
    return (int)end.status;
}
