/* Printers that are watched, and their paper. */
#include "library.h"

/* The size of the paper in pixels across, of a mark down, and of a wide character across. */
#define ACROSS 960
#define DOWN 14
#define WIDE 24

int print1525_printer_begin(print1525_printer *printer, print1525_details *details) {
    if (printer == NULL) return refuse(details, PRINT1525_FAULT_NULL_POINTER);
    print1525_plain_printer_begin(printer);
    return done(details);
}

int print1525_printer_select(print1525_printer *printer, uint8_t set, print1525_details *details) {
    print1525_plain_numbers answer;
    if (printer == NULL) return refuse(details, PRINT1525_FAULT_NULL_POINTER);
    print1525_plain_printer_select(printer, set, &answer);
    return report(details, &answer);
}

int print1525_printer_byte(print1525_printer *printer, uint8_t byte, print1525_mark *marks, size_t capacity,
                           size_t *length, print1525_details *details) {
    print1525_mark nothing[1];
    print1525_plain_numbers answer;
    int fault = PRINT1525_FAULT_NONE;
    if (printer == NULL || (marks == NULL && capacity > 0)) fault = PRINT1525_FAULT_NULL_POINTER;
    else if (marks == NULL) marks = nothing;
    else if (overlap(printer, sizeof *printer, marks, room(capacity, sizeof *marks))) fault = PRINT1525_FAULT_OVERLAP;
    if (fault != PRINT1525_FAULT_NONE) {
        tell_length(length, 0);
        return refuse(details, fault);
    }
    print1525_plain_printer_byte(printer, byte, marks, capacity, &answer);
    tell_length(length, answer.length);
    return report(details, &answer);
}

int print1525_printer_bytes(print1525_printer *printer, const void *bytes, size_t *taken, print1525_mark *marks,
                            size_t capacity, size_t *length, print1525_details *details) {
    const size_t size = room(capacity, sizeof *marks), count = taken == NULL ? 0 : *taken;
    int fault = why_not(bytes, count, marks, size);
    print1525_printer kept;
    print1525_mark nothing[1];
    const uint8_t no_byte = 0;
    print1525_plain_run run = {0, 0};
    if (printer == NULL || taken == NULL) fault = PRINT1525_FAULT_NULL_POINTER;
    if (fault == PRINT1525_FAULT_NONE && overlap(printer, sizeof *printer, marks, size))
        fault = PRINT1525_FAULT_OVERLAP;
    if (fault == PRINT1525_FAULT_NONE) {
        kept = *printer;
        print1525_plain_printer_bytes(&kept, bytes == NULL ? &no_byte : (const uint8_t *)bytes, count,
                                      marks == NULL ? nothing : marks, capacity, &run);
        *printer = kept;
        *taken = run.taken;
    }
    tell_length(length, run.marks);
    return fault == PRINT1525_FAULT_NONE ? done(details) : refuse(details, fault);
}

/* A printer's line, as the library reads it. */
static uint64_t line_of(const print1525_printer *printer) {
    const uint64_t most = (uint64_t)1 << 63;
    return printer->y < most ? printer->y : most;
}

int print1525_printer_form_feed(print1525_printer *printer, print1525_details *details) {
    if (printer == NULL) return refuse(details, PRINT1525_FAULT_NULL_POINTER);
    printer->y = (line_of(printer) / PRINT1525_SHEET + 1) * PRINT1525_SHEET;
    printer->y = line_of(printer);
    return done(details);
}

int print1525_printer_tear_off(print1525_printer *printer, uint64_t *sheets, print1525_details *details) {
    uint64_t count;
    if (printer == NULL || sheets == NULL) return refuse(details, PRINT1525_FAULT_NULL_POINTER);
    count = line_of(printer) / PRINT1525_SHEET;
    printer->y = line_of(printer) - count * PRINT1525_SHEET;
    *sheets = count;
    return done(details);
}

/* How many pixels a mark has across. */
static unsigned across(const print1525_mark *mark) {
    if (mark->kind == PRINT1525_DOTS) return 2;
    return mark->wide == 1 ? WIDE : WIDE / 2;
}

int print1525_printer_changed(const print1525_mark *marks, size_t length, print1525_region *region,
                              print1525_details *details) {
    uint64_t left = ACROSS, right = 0, top = UINT64_MAX, bottom = 0;
    size_t index;
    if (region == NULL || (marks == NULL && length > 0)) return refuse(details, PRINT1525_FAULT_NULL_POINTER);
    for (index = 0; index < length; index++) {
        const print1525_mark *const mark = &marks[index];
        const uint64_t begin = 2 * (uint64_t)mark->x, end = begin + across(mark);
        const uint64_t last = mark->y < UINT64_MAX - DOWN ? mark->y + DOWN : UINT64_MAX;
        if (begin >= ACROSS) continue;
        if (begin < left) left = begin;
        if (end > right) right = end < ACROSS ? end : ACROSS;
        if (mark->y < top) top = mark->y;
        if (last > bottom) bottom = last;
    }
    region->x = right > 0 ? left : 0;
    region->y = right > 0 ? top : 0;
    region->width = right > 0 ? (size_t)(right - left) : 0;
    region->height = right > 0 ? (size_t)(bottom - top) : 0;
    return done(details);
}

/* The bytes that a line of pixels needs, or SIZE_MAX. */
static size_t line_size(const print1525_region *region) {
    if (region->pixels == PRINT1525_RGBA) return room(region->width, 4);
    if (region->pixels == PRINT1525_BITS) return region->width / 8 + (region->width % 8 > 0);
    return region->width;
}

/* The bytes from a region's first pixel to its last, or SIZE_MAX if it has too many. */
static size_t region_size(const print1525_region *region) {
    const size_t most = SIZE_MAX / 2, line = line_size(region);
    if (region->width == 0 || region->height == 0) return 0;
    if (line > most || (region->height - 1) > (most - line) / region->stride) return SIZE_MAX;
    return (region->height - 1) * region->stride + line;
}

/* Makes a pixel black. */
static void blacken(const print1525_region *region, uint8_t *pixels, size_t column, size_t line) {
    uint8_t *const begin = pixels + line * region->stride;
    if (region->pixels == PRINT1525_GRAY)
        begin[column] = 0;
    else if (region->pixels == PRINT1525_RGBA)
        memcpy(begin + 4 * column, "\0\0\0\377", 4);
    else
        begin[column / 8] = (uint8_t)(begin[column / 8] | 128 >> column % 8);
}

/* Makes all pixels white. */
static void clear(const print1525_region *region, uint8_t *pixels) {
    const size_t size = line_size(region), bits = region->width % 8;
    size_t line;
    for (line = 0; line < region->height; line++) {
        uint8_t *const begin = pixels + line * region->stride;
        if (region->pixels != PRINT1525_BITS) {
            memset(begin, 255, size);
        } else {
            memset(begin, 0, region->width / 8);
            if (bits > 0) begin[size - 1] = (uint8_t)(begin[size - 1] & 255 >> bits);
        }
    }
}

/* Draws a mark: all its pixels, as proved code draws it alone, and of them those that are in the region. */
static void draw(const print1525_mark *mark, const print1525_region *region, uint8_t *pixels) {
    uint8_t drawn[WIDE * DOWN];
    const print1525_plain_region its = {2 * (uint64_t)mark->x, mark->y, across(mark), DOWN};
    print1525_plain_numbers answer;
    size_t line, column;
    if (its.y > UINT64_MAX - DOWN || its.x + its.width <= region->x || its.y + DOWN <= region->y) return;
    if ((its.x > region->x && its.x - region->x >= region->width) ||
        (its.y > region->y && its.y - region->y >= region->height))
        return;
    memset(drawn, 255, sizeof drawn);
    print1525_plain_printer_draw(mark, 1, &its, drawn, its.width * its.height, &answer);
    for (line = 0; line < its.height; line++)
        for (column = 0; column < its.width; column++) {
            const uint64_t x = its.x + column, y = its.y + line;
            if (drawn[line * its.width + column] != 0 || x < region->x || y < region->y) continue;
            if (x - region->x < region->width && y - region->y < region->height)
                blacken(region, pixels, (size_t)(x - region->x), (size_t)(y - region->y));
        }
}

/* Marks as pixels, over those of the buffer or over paper. */
static int draw_all(int is_over, const print1525_mark *marks, size_t length, const print1525_region *region,
                    void *pixels, size_t capacity, print1525_details *details) {
    const int fault = why_not(marks, room(length, sizeof *marks), pixels, capacity);
    print1525_region read;
    size_t size, index;
    if (region == NULL) return refuse(details, PRINT1525_FAULT_NULL_POINTER);
    if (fault != PRINT1525_FAULT_NONE) return refuse(details, fault);
    read = *region;
    if (read.stride == 0) read.stride = line_size(&read);
    if (read.pixels > PRINT1525_BITS || read.stride < line_size(&read))
        return refuse(details, PRINT1525_FAULT_NO_SUCH_PIXELS);
    size = region_size(&read);
    if (size == SIZE_MAX) return refuse(details, PRINT1525_FAULT_TOO_LARGE);
    if (size > capacity) return tell(details, PRINT1525_FAILED, PRINT1525_FAULT_TOO_SMALL, 0, 0);
    if (size == 0) return done(details);
    if (read.pixels == PRINT1525_GRAY && read.stride == read.width) {
        const print1525_plain_region packed = {read.x, read.y, read.width, read.height};
        const print1525_mark no_mark = {0, 0, 0, 0, 0, 0, 0};
        print1525_plain_numbers answer;
        if (marks == NULL) marks = &no_mark;
        if (is_over)
            print1525_plain_printer_draw(marks, length, &packed, (uint8_t *)pixels, size, &answer);
        else
            print1525_plain_printer_page(marks, length, &packed, (uint8_t *)pixels, size, &answer);
        return report(details, &answer);
    }
    if (!is_over) clear(&read, (uint8_t *)pixels);
    for (index = 0; index < length; index++) draw(&marks[index], &read, (uint8_t *)pixels);
    return done(details);
}

int print1525_printer_page(const print1525_mark *marks, size_t length, const print1525_region *region, void *pixels,
                           size_t capacity, print1525_details *details) {
    return draw_all(0, marks, length, region, pixels, capacity, details);
}

int print1525_printer_draw(const print1525_mark *marks, size_t length, const print1525_region *region, void *pixels,
                           size_t capacity, print1525_details *details) {
    return draw_all(1, marks, length, region, pixels, capacity, details);
}
