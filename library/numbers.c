/* Calls with settings that pass them as numbers: the page of inputs, the picture of marks, listings and edges. */
#include "settings.h"
#include <stdlib.h>

/* Reports what a proved call with numbers answered, with its length; after a fault of the recording, how much comes
 * before it. */
static int report_length(size_t *length, print1525_details *details, print1525_plain_numbers answer, size_t unit) {
    const int is_column = answer.code == 2 && (answer.fault == PRINT1525_FAULT_UNKNOWN_NAME ||
                                               answer.fault == PRINT1525_FAULT_BAD_CHARACTER);
    tell_length(length, answer.code == 3 || is_column ? 0 : answer.length / unit);
    return report(details, &answer);
}

/* The numbers of a format and of its settings, as proved calls have them. */
typedef struct {
    uint8_t format, top, paper, scale;
} shown;

static shown shown_of(const task *t) {
    const print1525_settings *const s = &t->settings;
    shown it;
    it.format = t->as == AS(TEXT);
    if (t->as == AS(SVG)) it.format = 2;
    if (t->as == AS(PNG)) it.format = 3;
    if (t->as == AS(PDF)) it.format = 4;
    it.top = s->top == 0 ? 3 : s->top == PRINT1525_TOP_EDGE ? 0 : s->top;
    it.paper = s->holes ? 1 : s->paper == PRINT1525_PAPER_CONTINUOUS ? 0 : (uint8_t)(s->paper + 1);
    it.scale = s->scale == 0 ? 2 : s->scale;
    return it;
}

int print1525_print(const uint16_t *inputs, size_t inputs_length, const print1525_settings *settings, void *text,
                    size_t capacity, size_t *length, print1525_details *details) {
    task t;
    const print1525_settings *const s = &t.settings;
    print1525_plain_numbers answer;
    shown it;
    int status = unpack(&t, PRINT, inputs, inputs_length, 1, settings, text, capacity, details);
    if (status == 0 && inputs_length > (size_t)1 << 32) status = refuse(details, PRINT1525_FAULT_TOO_LARGE);
    if (status != 0) {
        tell_length(length, 0);
        return status;
    }
    it = shown_of(&t);
    print1525_plain_print((const uint16_t *)t.input, inputs_length, it.format, s->device, s->sheet, it.top, it.paper,
                          it.scale, (const uint8_t *)t.characters, s->characters_length, (uint8_t *)t.buffer,
                          capacity, &answer);
    return report_length(length, details, answer, 1);
}

/* The picture in a buffer. */
static void make_picture(const task *t, uint8_t *picture, size_t capacity, print1525_plain_numbers *answer) {
    const print1525_settings *const s = &t->settings;
    const shown it = shown_of(t);
    print1525_plain_printer_picture((const print1525_mark *)t->input, t->length, it.format, s->sheet, it.top, it.paper,
                                    it.scale, (const uint8_t *)t->characters, s->characters_length, picture, capacity,
                                    answer);
}

/* A picture in memory that is taken for it, or NULL. Where 64 bytes for each mark and those of a part are too few, it
 * is made once more. Without memory marks are refused all the same. */
static uint8_t *picture_of(const task *t, print1525_plain_numbers *answer) {
    size_t capacity = room(t->length, 64);
    int tries;
    if (capacity < SIZE_MAX - PRINT1525_PART) capacity += PRINT1525_PART;
    for (tries = 0; tries < 2; tries++) {
        uint8_t nothing, *const picture = (uint8_t *)malloc(capacity);
        make_picture(t, picture == NULL ? &nothing : picture, picture == NULL ? 0 : capacity, answer);
        if (picture == NULL && answer->code == 4) answer->code = 3;
        if (picture == NULL || answer->code == 0) return picture;
        free(picture);
        if (answer->code != 4) return NULL;
        capacity = answer->length;
    }
    return NULL;
}

int print1525_printer_picture(const print1525_mark *marks, size_t length, const print1525_settings *settings,
                              print1525_write write, void *context, print1525_details *details) {
    task t;
    print1525_plain_numbers answer = {3, 0, 0, 0};
    uint8_t *picture;
    size_t at;
    int other = 0;
    int status;
    if (write == NULL) return refuse(details, PRINT1525_FAULT_NULL_POINTER);
    status = unpack(&t, PICTURE, marks, length, 1, settings, NULL, 0, details);
    if (status != 0) return status;
    picture = picture_of(&t, &answer);
    if (picture == NULL) return report(details, &answer);
    for (at = 0; at < answer.length && other == 0; at += PRINT1525_PART) {
        const size_t left = answer.length - at;
        other = write(context, picture + at, left < PRINT1525_PART ? left : PRINT1525_PART);
    }
    free(picture);
    return other == 0 ? done(details) : tell(details, PRINT1525_FAILED, PRINT1525_FAULT_NOT_WRITTEN, 0, 0);
}

int print1525_listing(const void *listing, size_t listing_length, const print1525_settings *settings, void *text,
                      size_t capacity, size_t *length, print1525_details *details) {
    task t;
    print1525_plain_numbers answer;
    const int status = unpack(&t, LISTING, listing, listing_length, 1, settings, text, capacity, details);
    uint8_t form;
    if (status != 0) {
        tell_length(length, 0);
        return status;
    }
    form = t.settings.from <= PRINT1525_FROM_AUTO ? 4 : (uint8_t)(t.settings.from - PRINT1525_FROM_TEXT);
    print1525_plain_listing((const uint8_t *)t.input, listing_length, form, (uint8_t *)t.buffer, capacity, &answer);
    return report_length(length, details, answer, 1);
}

/* The part of a list of three names up to the next comma, or of the last one to its end; NULL where there is none. */
static const uint8_t *name_of(const char **names, size_t *length, int is_last) {
    const char *const begin = *names, *const comma = strchr(begin, ',');
    if ((comma == NULL) != is_last) return NULL;
    *length = comma == NULL ? strlen(begin) : (size_t)(comma - begin);
    *names = begin + *length + !is_last;
    return (const uint8_t *)begin;
}

int print1525_edges(const void *recording, size_t recording_length, const print1525_settings *settings,
                    print1525_edge *edges, size_t capacity, size_t *length, print1525_details *details) {
    task t;
    const print1525_settings *const s = &t.settings;
    print1525_plain_numbers answer;
    const uint8_t *atn, *clock, *data;
    const char *names;
    size_t a = 0, c = 0, d = 0, index, count;
    uint8_t source = 3;
    int status = unpack(&t, EDGES, recording, recording_length, sizeof *edges, settings, edges, capacity, details);
    names = s->names == NULL ? "ATN,CLOCK,DATA" : s->names;
    atn = name_of(&names, &a, 0);
    clock = atn == NULL ? NULL : name_of(&names, &c, 0);
    data = clock == NULL ? NULL : name_of(&names, &d, 1);
    if (status == 0 && data == NULL) status = refuse_setting(details, PRINT1525_SETTING_NAMES);
    if (status != 0) {
        tell_length(length, 0);
        return status;
    }
    if (s->names != NULL || s->invert || s->from_time || s->rate) source = 4;
    if (s->from == PRINT1525_FROM_TEXT) source = 0;
    if (s->from == PRINT1525_FROM_VCD) source = 1;
    if (s->from == PRINT1525_FROM_CSV) source = 2;
    /* (No buffer has more edges than fit into memory.) */
    print1525_plain_edges((const uint8_t *)t.input, recording_length, source, atn, a, clock, c, data, d, s->invert,
                          s->from_time, s->rate, (uint64_t *)t.buffer, 2 * capacity, &answer);
    count = answer.code == 0 || answer.code == 2 ? answer.length / 2 : 0;
    /* Each edge holds two numbers here: its time, and its three levels in one number, where its first level goes. */
    for (index = 0; index < count; index++) {
        const unsigned levels = edges[index].atn;
        edges[index].atn = levels >> 2 & 1;
        edges[index].clock = levels >> 1 & 1;
        edges[index].data = levels & 1;
    }
    return report_length(length, details, answer, 2);
}
