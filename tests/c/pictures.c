/* Pictures of marks (include/print1525.h): pictures OPTION..: of a printer's inputs, a number in each line as
 * print1525_print takes them, it writes the picture of their marks to standard output, with the program's options as
 * settings, and a line to standard error where it is refused; the status is that of the call. Where the options name a
 * sheet, only its marks make the same picture. `pictures refusals` tries what is refused, `pictures marks` the dots of
 * marks in characters; `pictures drawn FILE` draws the marks in the characters of a file, and writes the first sheet as
 * a PGM file. On the way it tries the calls in other ways; a line beginning with WRONG, and status 99, say
 * what differs. */
#include "options.h"
#include <stdio.h>

#define MANY 100000
#define LARGE (1 << 24)

static print1525_mark all[MANY], part_of_all[MANY];
static uint8_t picture[LARGE], again[LARGE];

#define WANT(condition)                                                    \
    do {                                                                   \
        if (!(condition)) {                                                \
            fprintf(stderr, "WRONG: line %d: %s\n", __LINE__, #condition); \
            return 99;                                                     \
        }                                                                  \
    } while (0)

/* The parts of a picture as they come, until one is not wanted. */
typedef struct {
    uint8_t *bytes;
    size_t length, parts, wanted; /* wanted: how many parts, or 0 for all */
    int is_wrong;
} gathered;

static int gather(void *context, const void *bytes, size_t length) {
    gathered *const to = (gathered *)context;
    if (length == 0 || length > PRINT1525_PART || to->length + length > LARGE) to->is_wrong = 1;
    /* all parts but the last are whole */
    if (to->length != to->parts * PRINT1525_PART) to->is_wrong = 1;
    if (!to->is_wrong) memcpy(to->bytes + to->length, bytes, length);
    to->length += length;
    to->parts++;
    return to->parts == to->wanted ? -7 : 0;
}

static int make(const print1525_mark *marks, size_t length, const print1525_settings *settings, gathered *to,
                uint8_t *bytes, size_t wanted, print1525_details *details) {
    memset(to, 0, sizeof *to);
    to->bytes = bytes;
    to->wanted = wanted;
    return print1525_printer_picture(marks, length, settings, gather, to, details);
}

/* Whether a call is refused with this fault and place, and gives no part. */
#define REFUSES(it, why, where)                                                                          \
    do {                                                                                                 \
        WANT((it) == PRINT1525_REFUSED && details.status == PRINT1525_REFUSED && to.parts == 0);         \
        WANT(details.fault == PRINT1525_FAULT_##why && details.place == (where) && details.column == 0); \
    } while (0)

static int refusals(void) {
    static const print1525_mark marks[] = {{14, 0, PRINT1525_CELL, 65, 0, 0, 0},
                                           {14, 6, PRINT1525_DOTS, 7, 0, 0, 0},
                                           {2000, 0, 9, 66, 7, 1, 9},
                                           {1999, 0, 0, 0, 0, 0, 0}};
    static const size_t no_settings[] = {2, 3, 4, 5, 6, 11, 12, 13, 14, 15, 16, 18, 19, 20, 21, 23};
    print1525_details details;
    gathered to;
    print1525_settings s = PRINT1525_SETTINGS_INIT;
    size_t n;
    to.parts = 0;
    REFUSES(print1525_printer_picture(marks, 3, NULL, NULL, NULL, &details), NULL_POINTER, 0);
    REFUSES(make(NULL, 1, NULL, &to, again, 0, &details), NULL_POINTER, 0);
    WANT(make(NULL, 0, NULL, &to, again, 0, &details) == PRINT1525_DONE && to.length > 0 &&
         details.status == PRINT1525_DONE);
    WANT(print1525_printer_picture(marks, 3, NULL, gather, &to, NULL) == PRINT1525_DONE);
    REFUSES(make(marks, 4, NULL, &to, again, 0, &details), MARK_ABOVE, 3);
    REFUSES(make(marks + 1, 3, NULL, &to, again, 0, &details), MARK_ABOVE, 2);
    /* Settings are refused first, then characters, then marks. */
    s.characters = "upper 33\n";
    s.characters_length = 9;
    REFUSES(make(marks, 4, &s, &to, again, 0, &details), BAD_CHARACTER_LINE, 1);
    s.characters = NULL;
    REFUSES(make(marks, 4, &s, &to, again, 0, &details), NULL_POINTER, 0);
    s.characters_length = 0;
    for (n = 0; n < sizeof no_settings / sizeof *no_settings; n++) {
        memset(&s, 0, sizeof s);
        s.from = no_settings[n] == 2;
        s.present = no_settings[n] == 3;
        s.status = no_settings[n] == 4;
        s.set = no_settings[n] == 5;
        s.device = no_settings[n] == 6 ? 4 : 0;
        s.bounds = no_settings[n] == 11;
        s.intervals = no_settings[n] == 12;
        s.invert = no_settings[n] == 13;
        s.listening = no_settings[n] == 14;
        s.strict = no_settings[n] == 15;
        s.explain = no_settings[n] == 16;
        s.from_time = no_settings[n] == 18;
        s.rate = no_settings[n] == 19;
        s.delays = no_settings[n] == 20 ? "" : NULL;
        s.names = no_settings[n] == 21 ? "A,B,C" : NULL;
        s.reserved[2] = no_settings[n] == 23;
        REFUSES(make(marks, 4, &s, &to, again, 0, &details), BAD_SETTING, no_settings[n]);
    }
    memset(&s, 0, sizeof s);
    for (n = 1; n < 12; n++) {
        s.as = (uint8_t)n;
        if (n < PRINT1525_AS_SVG || n > PRINT1525_AS_PDF)
            REFUSES(make(marks, 3, &s, &to, again, 0, &details), BAD_SETTING, PRINT1525_SETTING_AS);
        else WANT(make(marks, 3, &s, &to, again, 0, &details) == PRINT1525_DONE);
    }
    /* Settings of other pictures. */
    s.as = PRINT1525_AS_PDF;
    s.sheet = 1;
    REFUSES(make(marks, 3, &s, &to, again, 0, &details), BAD_SETTING, PRINT1525_SETTING_SHEET);
    s.as = PRINT1525_AS_USUAL;
    s.sheet = 3;
    REFUSES(make(marks, 3, &s, &to, again, 0, &details), NO_SUCH_SHEET, 2);
    s.sheet = 0;
    s.holes = 1;
    REFUSES(make(marks, 3, &s, &to, again, 0, &details), BAD_SETTING, PRINT1525_SETTING_HOLES);
    s.holes = 0;
    s.scale = 1;
    REFUSES(make(marks, 3, &s, &to, again, 0, &details), BAD_SETTING, PRINT1525_SETTING_SCALE);
    s.as = PRINT1525_AS_PNG;
    s.scale = 9;
    REFUSES(make(marks, 3, &s, &to, again, 0, &details), BAD_SETTING, PRINT1525_SETTING_SCALE);
    s.scale = 0;
    s.paper = PRINT1525_PAPER_A4;
    REFUSES(make(marks, 3, &s, &to, again, 0, &details), BAD_SETTING, PRINT1525_SETTING_PAPER);
    s.paper = 0;
    s.top = 66;
    REFUSES(make(marks, 3, &s, &to, again, 0, &details), BAD_SETTING, PRINT1525_SETTING_TOP);
    s.top = 0;
    /* Paper that is too high for a PNG file, but not for one of its sheets. */
    memcpy(all, marks, sizeof marks);
    all[2].y = (uint64_t)1 << 40;
    REFUSES(make(all, 3, &s, &to, again, 0, &details), DOCUMENT_TOO_LARGE, 0);
    s.sheet = 1;
    WANT(make(all, 3, &s, &to, again, 0, &details) == PRINT1525_DONE);
    /* A mark beside the columns is in a document, and not in a PNG file. No marks are one empty sheet. */
    all[1] = marks[0];
    all[1].x = 480;
    for (n = PRINT1525_AS_SVG; n <= PRINT1525_AS_PNG; n++) {
        gathered less;
        s.as = (uint8_t)n;
        WANT(make(all, 2, &s, &to, picture, 0, &details) == PRINT1525_DONE &&
             make(all, 1, &s, &less, again, 0, &details) == PRINT1525_DONE);
        WANT((to.length == less.length && memcmp(picture, again, to.length) == 0) == (n == PRINT1525_AS_PNG));
        WANT(make(NULL, 0, &s, &to, again, 0, &details) == PRINT1525_DONE);
    }
    s.sheet = 2;
    REFUSES(make(NULL, 0, &s, &to, again, 0, &details), NO_SUCH_SHEET, 1);
    return 0;
}

/* The marks that the inputs of standard input make. */
static size_t read_marks(void) {
    print1525_printer printer;
    size_t count = 0, made;
    unsigned input;
    print1525_printer_begin(&printer, NULL);
    while (scanf("%u", &input) == 1 && count + PRINT1525_MARKS_OF_A_BYTE < MANY) {
        made = 0;
        if (input > 255) print1525_printer_select(&printer, (uint8_t)(input - 256), NULL);
        else print1525_printer_byte(&printer, (uint8_t)input, all + count, PRINT1525_MARKS_OF_A_BYTE, &made, NULL);
        count += made;
    }
    return count;
}

/* The marks that are on a sheet, from 1, where the first row is some lines below the paper's edge: how many they are.
 */
static size_t only_on(uint64_t sheet, uint64_t lines, size_t count) {
    size_t n, kept = 0;
    for (n = 0; n < count; n++) {
        const uint64_t y = all[n].y + 21 * lines;
        if (y + 13 >= (sheet - 1) * PRINT1525_SHEET && y < sheet * PRINT1525_SHEET) part_of_all[kept++] = all[n];
    }
    return kept;
}

static int pictures(const print1525_settings *settings) {
    const size_t count = read_marks();
    print1525_details details, other;
    char message[99];
    gathered to, less;
    size_t parts;
    const int status = make(all, count, settings, &to, picture, 0, &details);
    WANT(!to.is_wrong && status == details.status && (status == PRINT1525_DONE) == (to.length > 0));
    for (parts = 1; parts <= to.parts; parts++) {
        WANT(make(all, count, settings, &less, again, parts, &other) == PRINT1525_FAILED &&
             other.fault == PRINT1525_FAULT_NOT_WRITTEN && other.place == 0);
        WANT(!less.is_wrong && less.parts == parts && memcmp(picture, again, less.length) == 0);
    }
    if (settings->sheet > 0 && status == PRINT1525_DONE) {
        const uint64_t top = settings->top == 0 ? 3 : settings->top == PRINT1525_TOP_EDGE ? 0 : settings->top;
        const size_t kept = only_on(settings->sheet, top, count);
        if (kept > 0)
            WANT(make(part_of_all, kept, settings, &less, again, 0, &other) == PRINT1525_DONE &&
                 less.length == to.length && memcmp(picture, again, to.length) == 0);
    }
    fwrite(picture, 1, to.length, stdout);
    if (print1525_message(&details, message, sizeof message) > 0) fprintf(stderr, "print1525: %s\n", message);
    return status;
}

/* The dots of marks in the project's characters draw what the marks draw, whatever numbers they have. */
static int dots(void) {
    static const uint8_t nothing = 0;
    const size_t count = read_marks();
    print1525_characters own;
    print1525_mark made[PRINT1525_DOTS_OF_A_MARK], twice[PRINT1525_DOTS_OF_A_MARK];
    print1525_details details;
    size_t n, m, length = 77, same;
    WANT(print1525_characters_size() == sizeof own);
    WANT(print1525_characters_read(NULL, 1, &own, &details) == PRINT1525_REFUSED &&
         details.fault == PRINT1525_FAULT_NULL_POINTER);
    WANT(print1525_characters_read(&nothing, 1, NULL, &details) == PRINT1525_REFUSED &&
         details.fault == PRINT1525_FAULT_NULL_POINTER);
    WANT(print1525_characters_read(&own, sizeof own, &own, &details) == PRINT1525_REFUSED &&
         details.fault == PRINT1525_FAULT_OVERLAP);
    WANT(print1525_characters_read(&nothing, 1, &own, &details) == PRINT1525_REFUSED &&
         details.fault == PRINT1525_FAULT_BAD_CHARACTER_LINE && details.place == 1);
    WANT(print1525_characters_read(NULL, 0, &own, &details) == PRINT1525_DONE && details.status == PRINT1525_DONE);
    WANT(print1525_characters_dots(NULL, all, made, 12, &length, &details) == PRINT1525_REFUSED &&
         details.fault == PRINT1525_FAULT_NULL_POINTER && length == 0);
    WANT(print1525_characters_dots(&own, NULL, made, 12, &length, &details) == PRINT1525_REFUSED &&
         details.fault == PRINT1525_FAULT_NULL_POINTER);
    WANT(print1525_characters_dots(&own, all, NULL, 12, &length, &details) == PRINT1525_REFUSED &&
         details.fault == PRINT1525_FAULT_NULL_POINTER);
    WANT(print1525_characters_dots(&own, made, made, 12, &length, &details) == PRINT1525_REFUSED &&
         details.fault == PRINT1525_FAULT_OVERLAP);
    WANT(print1525_characters_dots(&own, all, (print1525_mark *)(void *)&own, 1, &length, &details) ==
             PRINT1525_REFUSED &&
         details.fault == PRINT1525_FAULT_OVERLAP);
    WANT(count == 0 || (print1525_characters_dots(&own, all, NULL, 0, &length, &details) == PRINT1525_FAILED &&
                        details.fault == PRINT1525_FAULT_TOO_SMALL && length > 0));
    for (n = 0; n < count; n++) {
        const print1525_region region = {2 * (uint64_t)all[n].x, all[n].y, 24, 14, 0, PRINT1525_GRAY};
        uint8_t one[24 * 14], other[24 * 14];
        WANT(print1525_characters_dots(&own, all + n, made, PRINT1525_DOTS_OF_A_MARK, &length, &details) ==
             PRINT1525_DONE);
        WANT(length == (all[n].kind == PRINT1525_DOTS ? 1 : all[n].wide == 1 ? 12 : 6));
        WANT(print1525_printer_page(all + n, 1, &region, one, sizeof one, NULL) == PRINT1525_DONE);
        WANT(print1525_printer_page(made, length, &region, other, sizeof other, NULL) == PRINT1525_DONE);
        WANT(memcmp(one, other, sizeof one) == 0);
        for (m = 0; m < length; m++) {
            WANT(print1525_characters_dots(&own, made + m, twice, 1, &same, NULL) == PRINT1525_DONE && same == 1);
            WANT(twice[0].x == made[m].x && twice[0].value == made[m].value && twice[0].kind == PRINT1525_DOTS &&
                 twice[0].y == all[n].y);
        }
    }
    return 0;
}

/* The first sheet, its marks in the characters of a file. */
static int drawn(const char *name) {
    static const print1525_region sheet = {0, 0, 960, PRINT1525_SHEET, 0, PRINT1525_GRAY};
    static uint8_t paper[960 * PRINT1525_SHEET];
    const size_t count = read_marks();
    print1525_characters characters;
    print1525_mark dots[PRINT1525_DOTS_OF_A_MARK];
    FILE *const file = fopen(name, "rb");
    size_t n, length = file == NULL ? 0 : fread(again, 1, LARGE, file);
    if (file == NULL) return 97;
    fclose(file);
    WANT(print1525_characters_read(again, length, &characters, NULL) == PRINT1525_DONE);
    memset(paper, 255, sizeof paper);
    for (n = 0; n < count; n++) {
        WANT(print1525_characters_dots(&characters, all + n, dots, PRINT1525_DOTS_OF_A_MARK, &length, NULL) ==
             PRINT1525_DONE);
        WANT(print1525_printer_draw(dots, length, &sheet, paper, sizeof paper, NULL) == PRINT1525_DONE);
    }
    printf("P5\n960 %d\n255\n", PRINT1525_SHEET);
    return fwrite(paper, 1, sizeof paper, stdout) == sizeof paper ? 0 : 99;
}

int main(int words, char **word) {
    print1525_settings settings = PRINT1525_SETTINGS_INIT;
    int at = 1, used;
    if (words > 1 && strcmp(word[1], "refusals") == 0) return refusals();
    if (words > 1 && strcmp(word[1], "marks") == 0) return dots();
    if (words == 3 && strcmp(word[1], "drawn") == 0) return drawn(word[2]);
    for (; at < words; at += used)
        if ((used = set_option(&settings, word[at], word[at + 1])) == 0) return 97;
    return pictures(&settings);
}
