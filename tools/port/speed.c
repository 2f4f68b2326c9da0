/* speed CALL FILE [FORMAT]: one call over a file, for tools/port/speed to count its instructions. */
#include "print1525.h"
#include <stdio.h>
#include <stdlib.h>
#include <string.h>

int main(int count, char **words) {
    const size_t room = 64u << 20;
    print1525_settings settings = PRINT1525_SETTINGS_INIT;
    print1525_details details;
    char *in = malloc(room), *out = malloc(room);
    FILE *file = count > 2 ? fopen(words[2], "rb") : NULL;
    size_t length, made = 0;
    int status = PRINT1525_FAILED;
    if (!file || !in || !out) return status;
    length = fread(in, 1, room, file);
    if (count > 3) settings.as = (uint8_t)atoi(words[3]);
    if (!strcmp(words[1], "pages")) status = print1525_pages(in, length, &settings, out, room, &made, &details);
    if (!strcmp(words[1], "bus")) status = print1525_bus(in, length, &settings, out, room, &made, &details);
    if (!strcmp(words[1], "raw")) status = print1525_raw(in, length, &settings, out, room, &made, &details);
    if (!strcmp(words[1], "check")) status = print1525_check(in, length, &settings, out, room, &made, &details);
    if (!strcmp(words[1], "decode")) status = print1525_decode(in, length, &settings, out, room, &made, &details);
    fwrite(out, 1, status <= PRINT1525_STOPPED ? made : 0, stdout);
    return status;
}
