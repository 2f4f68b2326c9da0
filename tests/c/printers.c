/* The printer that is watched (include/print1525.h): of a printer's inputs, a number in each line as print1525_print takes
 * them, it writes each mark: `Y X cell 65 lower reverse wide` or `Y X dots 42`, with `held` for the Y of a line that has
 * not ended. tests/c/library compares that with the program's list. On the way it tries the calls in other ways, and ends
 * with status 1 where they differ. */
#include "print1525.h"
#include <stdio.h>
#include <string.h>

#define WIDTH 960
#define HEIGHT 400
#define MANY 100000

static print1525_mark all[MANY], again[MANY];
static uint8_t inputs[MANY], drawn[HEIGHT][WIDTH], page[HEIGHT][WIDTH], part[HEIGHT * WIDTH];

#define WANT(condition)                                                    \
    do {                                                                   \
        if (!(condition)) {                                                \
            fprintf(stderr, "WRONG: line %d: %s\n", __LINE__, #condition); \
            return 1;                                                      \
        }                                                                  \
    } while (0)

static void show(const print1525_mark *mark, uint64_t held) {
    if (mark->y == held) printf("held");
    else printf("%lu", (unsigned long)mark->y);
    printf(" %u ", (unsigned)mark->x);
    if (mark->kind == PRINT1525_DOTS) printf("dots %u", (unsigned)mark->value);
    else printf("cell %u%s%s%s", (unsigned)mark->value, mark->lower ? " lower" : "", mark->reverse ? " reverse" : "", mark->wide ? " wide" : "");
    putchar('\n');
}

/* A byte, in a buffer that is too small and in one that is not: how many marks it makes, or -1. */
static long print_byte(print1525_printer *printer, uint8_t byte, print1525_mark *marks) {
    const print1525_printer before = *printer;
    print1525_details details;
    size_t n = 0, length = 77;
    int status = print1525_printer_byte(printer, byte, NULL, 0, &length, &details);
    if (status != PRINT1525_DONE) {
        if (status != PRINT1525_FAILED || details.fault != PRINT1525_FAULT_TOO_SMALL) return -1;
        if (length == 0 || length > PRINT1525_MARKS_OF_A_BYTE) return -1;
        n = length;
        if (memcmp(&before, printer, offsetof(print1525_printer, parameter) + 1) != 0) return -1;
        if (print1525_printer_byte(printer, byte, marks, n - 1, NULL, NULL) != PRINT1525_FAILED) return -1;
        if (print1525_printer_byte(printer, byte, marks, n, &length, &details) != PRINT1525_DONE) return -1;
    }
    return length == n ? (long)n : -1;
}

/* Whether a call refuses with a fault. */
#define REFUSES(it, why) WANT((it) == PRINT1525_REFUSED && details.status == PRINT1525_REFUSED && details.fault == PRINT1525_FAULT_##why)

static int refusals(void) {
    print1525_printer printer, begun;
    print1525_region region = {0, 0, 4, 4, 0, PRINT1525_GRAY}, kept;
    print1525_details details;
    print1525_mark mark[2];
    uint8_t pixels[16];
    uint64_t sheets = 77;
    size_t n, taken = 1, length = 77;
    memset(&printer, 0, sizeof printer);
    REFUSES(print1525_printer_begin(NULL, &details), NULL_POINTER);
    WANT(print1525_printer_begin(&printer, &details) == PRINT1525_DONE && details.status == PRINT1525_DONE);
    begun = printer;
    for (n = 2; n < 256; n++) REFUSES(print1525_printer_select(&printer, (uint8_t)n, &details), NO_SUCH_SET);
    WANT(memcmp(&begun, &printer, sizeof printer) == 0);
    REFUSES(print1525_printer_select(NULL, 0, &details), NULL_POINTER);
    REFUSES(print1525_printer_byte(NULL, 65, mark, 2, &length, &details), NULL_POINTER);
    WANT(length == 0);
    REFUSES(print1525_printer_byte(&printer, 65, NULL, 2, NULL, &details), NULL_POINTER);
    REFUSES(print1525_printer_bytes(NULL, "A", &taken, mark, 2, NULL, &details), NULL_POINTER);
    REFUSES(print1525_printer_bytes(&printer, "A", NULL, mark, 2, NULL, &details), NULL_POINTER);
    REFUSES(print1525_printer_bytes(&printer, NULL, &taken, mark, 2, NULL, &details), NULL_POINTER);
    REFUSES(print1525_printer_bytes(&printer, "A", &taken, NULL, 2, NULL, &details), NULL_POINTER);
    REFUSES(print1525_printer_bytes(&printer, mark, &taken, mark, 2, NULL, &details), OVERLAP);
    print1525_mark *const itself = (print1525_mark *)(void *)&printer;
    REFUSES(print1525_printer_byte(&printer, 65, itself, 1, NULL, &details), OVERLAP);
    REFUSES(print1525_printer_bytes(&printer, "A", &taken, itself, 1, NULL, &details), OVERLAP);
    REFUSES(print1525_printer_form_feed(NULL, &details), NULL_POINTER);
    REFUSES(print1525_printer_tear_off(NULL, &sheets, &details), NULL_POINTER);
    REFUSES(print1525_printer_tear_off(&printer, NULL, &details), NULL_POINTER);
    WANT(taken == 1 && sheets == 77);
    // (more items than a size_t has bytes for)
    const size_t many = SIZE_MAX / 16 + 1;
    REFUSES(print1525_printer_bytes(&printer, "A", &taken, NULL, many, NULL, &details), NULL_POINTER);
    REFUSES(print1525_printer_page(NULL, many, NULL, NULL, 0, &details), NULL_POINTER);
    taken = 2;
    WANT(print1525_printer_bytes(&printer, "AB", &taken, NULL, 0, &length, &details) == PRINT1525_DONE && taken == 0 && length == 0);
    WANT(print1525_printer_bytes(&printer, NULL, &taken, NULL, 0, &length, &details) == PRINT1525_DONE && taken == 0 && length == 0);
    WANT(memcmp(&begun, &printer, sizeof printer) == 0);
    /* Without details: the bytes are taken all the same. */
    taken = 2;
    WANT(print1525_printer_bytes(&begun, "AB", &taken, mark, 2, NULL, NULL) == PRINT1525_DONE && begun.x == 12 && mark[1].value == 66);
    taken = 3;
    WANT(print1525_printer_bytes(&printer, "ABC", &taken, mark, 2, &length, &details) == PRINT1525_DONE && taken == 2 && length == 2 && printer.x == 12);
    memset(mark, 0, sizeof mark);
    memset(pixels, 7, sizeof pixels);
    REFUSES(print1525_printer_page(mark, 1, NULL, pixels, 16, &details), NULL_POINTER);
    REFUSES(print1525_printer_page(NULL, 1, &region, pixels, 16, &details), NULL_POINTER);
    REFUSES(print1525_printer_draw(mark, 1, &region, mark, 16, &details), OVERLAP);
    REFUSES(print1525_printer_changed(mark, 1, NULL, &details), NULL_POINTER);
    kept = region;
    REFUSES(print1525_printer_changed(NULL, 1, &region, &details), NULL_POINTER);
    WANT(memcmp(&kept, &region, offsetof(print1525_region, pixels)) == 0);
    WANT(print1525_printer_page(mark, 1, &region, pixels, 15, &details) == PRINT1525_FAILED && details.fault == PRINT1525_FAULT_TOO_SMALL);
    region.stride = 3;
    REFUSES(print1525_printer_page(mark, 1, &region, pixels, 16, &details), NO_SUCH_PIXELS);
    region.stride = 5;
    WANT(print1525_printer_page(mark, 1, &region, pixels, 16, &details) == PRINT1525_FAILED && details.fault == PRINT1525_FAULT_TOO_SMALL);
    region.stride = 0;
    region.pixels = 3;
    REFUSES(print1525_printer_draw(mark, 1, &region, pixels, 16, &details), NO_SUCH_PIXELS);
    for (region.pixels = 0; region.pixels < 3; region.pixels++) {
        region.width = region.height = (size_t)1 << 34;
        REFUSES(print1525_printer_draw(mark, 1, &region, pixels, 16, &details), TOO_LARGE);
        region.width = 1;
        region.stride = SIZE_MAX;
        REFUSES(print1525_printer_draw(mark, 1, &region, pixels, 16, &details), TOO_LARGE);
        region.stride = 0;
        region.width = 0;
        WANT(print1525_printer_page(mark, 1, &region, NULL, 0, &details) == PRINT1525_DONE);
    }
    for (n = 0; n < 16; n++) WANT(pixels[n] == 7);
    return 0;
}

/* Paper that is fed and torn off: sheets begin at multiples of their height. */
static int sheets(void) {
    static const uint64_t rows[][4] = {{0, 1386, 0, 0}, {1, 1386, 0, 1}, {1385, 1386, 0, 1385}, {1386, 2772, 1, 0}, {1400, 2772, 1, 14}, {20000, 20790, 14, 596}};
    print1525_details details;
    size_t row;
    for (row = 0; row < sizeof rows / sizeof *rows; row++) {
        print1525_printer printer;
        uint64_t count = 77;
        print1525_printer_begin(&printer, NULL);
        printer.y = rows[row][0];
        printer.x = 6;
        WANT(print1525_printer_tear_off(&printer, &count, &details) == PRINT1525_DONE && details.status == PRINT1525_DONE);
        WANT(count == rows[row][2] && printer.y == rows[row][3] && printer.x == 6);
        printer.y = rows[row][0];
        WANT(print1525_printer_form_feed(&printer, &details) == PRINT1525_DONE && printer.y == rows[row][1] && printer.x == 6);
        printer.y = UINT64_MAX;
        WANT(print1525_printer_form_feed(&printer, NULL) == PRINT1525_DONE && printer.y == (uint64_t)1 << 63);
        WANT(print1525_printer_tear_off(&printer, &count, NULL) == PRINT1525_DONE && count == ((uint64_t)1 << 63) / 1386 && printer.y == ((uint64_t)1 << 63) % 1386);
    }
    return 0;
}

/* The same pixels in each form, with lines apart or not: those of gray without. */
static int forms(const print1525_mark *marks, size_t length, const print1525_region *place) {
    static uint8_t gray[HEIGHT * WIDTH], made[4 * HEIGHT * WIDTH + 99 * HEIGHT];
    static const size_t apart[] = {0, 1, 13};
    print1525_region region = *place;
    print1525_details details;
    size_t x, y, way;
    int is_over;
    region.stride = 0;
    region.pixels = PRINT1525_GRAY;
    WANT(print1525_printer_page(marks, length, &region, gray, sizeof gray, &details) == PRINT1525_DONE);
    for (region.pixels = 0; region.pixels <= PRINT1525_BITS; region.pixels++)
        for (way = 0; way < 3; way++)
            for (is_over = 0; is_over < 2; is_over++) {
                const size_t line = region.pixels == PRINT1525_BITS ? (place->width + 7) / 8 : region.pixels == PRINT1525_RGBA ? 4 * place->width : place->width;
                const size_t stride = line + apart[way], size = stride * (place->height - 1) + line;
                region.stride = way ? stride : 0;
                memset(made, is_over ? (region.pixels == PRINT1525_BITS ? 0 : 255) : 77, sizeof made);
                if (is_over) WANT(print1525_printer_draw(marks, length, &region, made, size, &details) == PRINT1525_DONE);
                else WANT(print1525_printer_page(marks, length, &region, made, size, &details) == PRINT1525_DONE);
                WANT(print1525_printer_page(marks, length, &region, made, size - 1, &details) == PRINT1525_FAILED);
                for (y = 0; y < place->height; y++) {
                    const uint8_t *const begin = made + y * stride;
                    for (x = 0; x < place->width; x++) {
                        const uint8_t dark = gray[y * place->width + x];
                        if (region.pixels == PRINT1525_GRAY) WANT(begin[x] == dark);
                        else if (region.pixels == PRINT1525_BITS) WANT((begin[x / 8] >> (7 - x % 8) & 1) == (dark == 0));
                        else WANT(begin[4 * x] == dark && begin[4 * x + 1] == dark && begin[4 * x + 2] == dark && begin[4 * x + 3] == 255);
                    }
                    if (!is_over && way && y + 1 < place->height) for (x = line; x < stride; x++) WANT(begin[x] == 77);
                    if (!is_over && region.pixels == PRINT1525_BITS && place->width % 8) WANT((begin[line - 1] & 255 >> place->width % 8) == (77 & 255 >> place->width % 8));
                }
                WANT(made[size] == (is_over ? (region.pixels == PRINT1525_BITS ? 0 : 255) : 77));
            }
    return 0;
}

/* The region that marks change has all their pixels. */
static int changed(const print1525_mark *marks, size_t length) {
    static const print1525_region whole = {0, 0, WIDTH, HEIGHT, 0, PRINT1525_GRAY};
    print1525_region region = {7, 7, 7, 7, 5, PRINT1525_BITS};
    print1525_details details;
    size_t x, y;
    WANT(print1525_printer_changed(marks, length, &region, &details) == PRINT1525_DONE && region.stride == 5 && region.pixels == PRINT1525_BITS);
    WANT(length > 0 ? region.width > 0 && region.height >= 14 && region.x + region.width <= WIDTH : region.width == 0 && region.height == 0);
    if (region.y + region.height > HEIGHT) return 0;
    WANT(print1525_printer_page(marks, length, &whole, part, sizeof part, &details) == PRINT1525_DONE);
    for (y = 0; y < HEIGHT; y++)
        for (x = 0; x < WIDTH; x++)
            WANT(part[y * WIDTH + x] || (x >= region.x && x < region.x + region.width && y >= region.y && y < region.y + region.height));
    return 0;
}

/* Whatever numbers a printer has, they mean some printer. */
static int any_numbers(void) {
    uint32_t random = 1;
    unsigned tries, n;
    for (tries = 0; tries < 20000; tries++) {
        print1525_printer printer;
        uint8_t bytes[sizeof printer];
        print1525_details details;
        size_t length;
        for (n = 0; n < sizeof printer; n++) {
            random = random * 1664525 + 1013904223;
            bytes[n] = (uint8_t)(tries % 2 ? random >> 24 : random >> 24 & 3);
        }
        memcpy(&printer, bytes, sizeof printer);
        random = random * 1664525 + 1013904223;
        WANT(print1525_printer_byte(&printer, (uint8_t)(random >> 24), again, PRINT1525_MARKS_OF_A_BYTE, &length, &details) == PRINT1525_DONE);
        WANT(length <= PRINT1525_MARKS_OF_A_BYTE && printer.x <= 480);
    }
    return 0;
}

int main(void) {
    print1525_printer printer, other;
    print1525_region window = {0, 0, WIDTH, HEIGHT, 0, PRINT1525_GRAY}, place = window;
    print1525_details details;
    size_t marks = 0, bytes = 0, n, x, y, taken, length;
    unsigned input;

    if (refusals() || sheets() || any_numbers()) return 1;
    memset(drawn, 255, sizeof drawn);
    print1525_printer_begin(&printer, NULL);
    while (scanf("%u", &input) == 1) {
        long made = 0;
        if (input > 255) WANT(print1525_printer_select(&printer, (uint8_t)(input - 256), NULL) == PRINT1525_DONE);
        else made = print_byte(&printer, (uint8_t)input, all + marks);
        WANT(made >= 0 && marks + (size_t)made + 255 < MANY && bytes + 1 < MANY);
        WANT(print1525_printer_draw(all + marks, (size_t)made, &window, drawn[0], sizeof drawn, &details) == PRINT1525_DONE);
        if (marks < 300 && made < 20 && changed(all + marks, (size_t)made)) return 1;
        marks += (size_t)made;
        if (input <= 255) inputs[bytes++] = (uint8_t)input;
    }
    for (n = 0; n < marks; n++) show(all + n, printer.y);
    /* The pixels of all marks at once, and of parts of the page. */
    WANT(print1525_printer_page(all, marks, &window, page[0], sizeof page, &details) == PRINT1525_DONE);
    WANT(memcmp(page, drawn, sizeof page) == 0);
    for (n = 0; n < 40; n++) {
        place.x = n * 37 % 900, place.y = n * 13 % 380, place.width = 1 + n * 7 % 59, place.height = 1 + n * 5 % 19;
        memset(part, 7, sizeof part);
        WANT(print1525_printer_page(all, marks, &place, part, sizeof part, &details) == PRINT1525_DONE);
        WANT(part[place.width * place.height] == 7);
        for (y = 0; y < place.height; y++)
            for (x = 0; x < place.width; x++)
                WANT(part[y * place.width + x] == page[place.y + y][place.x + x]);
        if (forms(all, marks, &place)) return 1;
    }
    if (changed(all, marks)) return 1;
    /* The bytes without selections, one by one and in runs. */
    print1525_printer_begin(&printer, NULL);
    for (n = marks = 0; n < bytes; n++) {
        long made = print_byte(&printer, inputs[n], all + marks);
        WANT(made >= 0);
        marks += (size_t)made;
    }
    for (x = PRINT1525_MARKS_OF_A_BYTE; x < 2000; x += 311) {
        print1525_printer_begin(&other, NULL);
        for (n = y = 0; n < bytes; n += taken, y += length) {
            taken = bytes - n;
            WANT(print1525_printer_bytes(&other, inputs + n, &taken, again + y, x, &length, &details) == PRINT1525_DONE);
            WANT(taken > 0 && taken <= bytes - n && length <= x);
        }
        WANT(y == marks && other.y == printer.y && other.x == printer.x && other.pending == printer.pending);
        for (n = 0; n < marks; n++)
            WANT(all[n].y == again[n].y && all[n].x == again[n].x && all[n].kind == again[n].kind && all[n].value == again[n].value
                 && all[n].lower == again[n].lower && all[n].reverse == again[n].reverse && all[n].wide == again[n].wide);
    }
    return 0;
}
