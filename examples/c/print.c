/* A printer as an emulator has it: bytes in, and an SVG picture of each sheet of 11 inches out, once the sheet is full.
 *     print PREFIX [upper|lower] < BYTES          writes PREFIX1.svg, PREFIX2.svg ..
 * Between two bytes a printer and the marks of one sheet are kept. */
#include "print1525.h"
#include <stdio.h>
#include <stdlib.h>
#include <string.h>

/* The marks of the sheet, and for how many more there is memory. */
static print1525_mark *marks;
static size_t count, room;

/* Memory for the marks of one more byte and a further mark; 0 where there is none. */
static int has_room(void) {
    print1525_mark *more;
    if (room - count > PRINT1525_MARKS_OF_A_BYTE) return 1;
    more = (print1525_mark *)realloc(marks, (2 * room + 4096) * sizeof *marks);
    if (more == NULL) return 0;
    marks = more;
    room = 2 * room + 4096;
    return 1;
}

/* Takes a part of a picture; anything but 0 ends the picture. */
static int to_file(void *file, const void *bytes, size_t length) {
    return fwrite(bytes, 1, length, (FILE *)file) != length;
}

/* Writes a sheet, from 1, of so many marks. */
static int write_sheet(const char *prefix, uint64_t sheet, size_t length) {
    print1525_settings settings = PRINT1525_SETTINGS_INIT;
    char name[4096];
    FILE *file;
    int status;
    settings.as = PRINT1525_AS_SVG;
    settings.top = PRINT1525_TOP_EDGE; /* marks have their distance from the paper's edge */
    settings.sheet = sheet;
    snprintf(name, sizeof name, "%s%lu.svg", prefix, (unsigned long)sheet);
    file = fopen(name, "wb");
    if (file == NULL) return PRINT1525_FAILED;
    status = print1525_printer_picture(marks, length, &settings, to_file, file, NULL);
    if (fclose(file) != 0) status = PRINT1525_FAILED;
    if (status != PRINT1525_DONE) remove(name);
    return status;
}

/* Writes a sheet, below which the paper goes on at y, and forgets its marks but those that reach below it. */
static int end_sheet(const char *prefix, uint64_t sheet, uint64_t y) {
    const print1525_mark no_dots = {y, 0, PRINT1525_DOTS, 0, 0, 0, 0};
    size_t at, kept = 0;
    int status;
    marks[count] = no_dots; /* a mark further down, without which a sheet without marks would be none */
    status = write_sheet(prefix, sheet, count + 1);
    for (at = 0; at < count; at++)
        if (marks[at].y + 13 >= sheet * PRINT1525_SHEET) marks[kept++] = marks[at];
    count = kept;
    return status;
}

int main(int words, char **word) {
    const int is_lower = words == 3 && strcmp(word[2], "lower") == 0;
    print1525_printer printer;
    uint64_t sheet = 1, line, last = 0; /* the last line that has ended */
    size_t length;
    int byte, status = PRINT1525_DONE;
    if (words != 2 && !is_lower && !(words == 3 && strcmp(word[2], "upper") == 0)) {
        fprintf(stderr, "usage: print PREFIX [upper|lower] < BYTES\n");
        return PRINT1525_REFUSED;
    }
    print1525_printer_begin(&printer, NULL);
    print1525_printer_select(&printer, is_lower ? PRINT1525_SET_LOWER : PRINT1525_SET_UPPER, NULL);
    printer.y = 3 * 21; /* the paper is put in with its first line three lines below the edge */
    while (status == PRINT1525_DONE && (byte = getchar()) != EOF) {
        if (!has_room()) return PRINT1525_FAILED;
        line = printer.y;
        print1525_printer_byte(&printer, (uint8_t)byte, marks + count, PRINT1525_MARKS_OF_A_BYTE, &length, NULL);
        count += length;
        if (printer.y != line) last = line;
        for (; status == PRINT1525_DONE && printer.y >= sheet * PRINT1525_SHEET; sheet++)
            status = end_sheet(word[1], sheet, printer.y);
    }
    /* A line that has not ended is not on the paper yet. */
    while (count > 0 && marks[count - 1].y == printer.y) count--;
    if (status == PRINT1525_DONE && (sheet == 1 || last + 13 >= (sheet - 1) * PRINT1525_SHEET))
        status = has_room() ? end_sheet(word[1], sheet, sheet * PRINT1525_SHEET) : PRINT1525_FAILED;
    free(marks);
    return status;
}
