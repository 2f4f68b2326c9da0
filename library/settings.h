/* The settings that calls read, for the files of the library that have such calls. It is not installed. */
#ifndef PRINT1525_SETTINGS_H
#define PRINT1525_SETTINGS_H

#include "library.h"

/* The calls that read settings, and sets of them. */
enum call { PAGES = 1, BUS = 2, CHECK = 4, DECODE = 8, RAW = 16, PRINT = 32, LISTING = 64, EDGES = 128, PICTURE = 256 };
#define RUNS (PAGES | BUS)
#define DRAWS (PAGES | DECODE | RAW | PRINT)
#define PAPERS (DRAWS | PICTURE)
#define RECORDINGS (CHECK | DECODE | EDGES)

/* Sets of formats, and of what an input is. */
#define AS(format) (1u << PRINT1525_AS_##format)
#define PICTURES (AS(SVG) | AS(PNG) | AS(PDF))
#define FROM(form) (1u << PRINT1525_FROM_##form)
#define PROGRAMS (FROM(BASIC) | FROM(BAS))

/* What a call is passed. */
typedef struct {
    const void *input, *characters;
    size_t length;
    void *buffer;
    size_t capacity;
    print1525_settings settings;
    unsigned as, from; /* the format and the form that the settings mean, as sets of one */
    int is_given; /* words are the caller's, and not those of settings */
    uint64_t nothing[2]; /* what NULL points to */
} task;

/* The formats and the forms of input that a call has; those that 0 means. */
static inline unsigned formats_of(unsigned call) {
    switch (call) {
    case PAGES: return AS(LIST) | AS(TEXT) | PICTURES | AS(BYTES) | AS(SCRIPT);
    case BUS: return AS(TEXT) | AS(VCD) | AS(SCRIPT);
    case CHECK: return AS(FRAMES) | AS(STORY) | AS(JSON);
    case DECODE: return AS(LIST) | AS(JSON) | AS(TEXT) | PICTURES | AS(BYTES);
    case RAW:
    case PRINT: return AS(LIST) | AS(TEXT) | PICTURES;
    case PICTURE: return PICTURES;
    default: return 0;
    }
}

static inline unsigned forms_of(unsigned call) {
    const unsigned listings = FROM(AUTO) | FROM(TEXT) | FROM(PRG) | FROM(PETCAT) | FROM(MAGAZINE);
    if (call & RUNS) return listings | PROGRAMS;
    if (call & LISTING) return listings;
    if (call & RECORDINGS) return FROM(AUTO) | FROM(TEXT) | FROM(VCD) | FROM(CSV);
    return 0;
}

static inline unsigned usual_format(unsigned call) {
    if (call == BUS) return AS(TEXT);
    if (call == CHECK) return AS(FRAMES);
    if (call == PICTURE) return AS(SVG);
    return formats_of(call) & AS(LIST);
}

static inline unsigned usual_form(unsigned call) {
    return call & (RUNS | CHECK) ? FROM(TEXT) : forms_of(call) & FROM(AUTO);
}

/* Which calls read a setting, its greatest number, and with which formats and forms they do; 0 means with all. */
typedef struct {
    unsigned calls, as, from;
    uint64_t most;
} rule;

static inline rule rule_of(size_t setting) {
    static const rule rules[PRINT1525_SETTING_STEPS + 1] = {
        {0, 0, 0, 0},
        {RUNS | CHECK | PAPERS, 0, 0, PRINT1525_AS_SCRIPT},
        {RUNS | RECORDINGS | LISTING, 0, 0, PRINT1525_FROM_BAS},
        {RUNS, 0, 0, PRINT1525_PRESENT_NONE},
        {RUNS, 0, 0, PRINT1525_MODE_KEPT},
        {RAW | DECODE, AS(LIST) | AS(TEXT) | PICTURES | AS(BYTES), 0, PRINT1525_SET_LOWER},
        {DRAWS, PICTURES | AS(BYTES), 0, 5},
        {PAPERS, AS(PDF), 0, PRINT1525_PAPER_LETTER},
        {PAPERS, AS(PNG) | AS(PDF), 0, 1},
        {PAPERS, PICTURES, 0, PRINT1525_TOP_EDGE},
        {PAPERS, AS(PNG), 0, 8},
        {DECODE, AS(LIST), 0, PRINT1525_BOUNDS_GUIDE},
        {DECODE, AS(LIST), 0, 1},
        {RECORDINGS, 0, FROM(AUTO) | FROM(VCD) | FROM(CSV), 1},
        {DECODE, AS(TEXT) | PICTURES | AS(BYTES), 0, PRINT1525_LISTENING_BOTH},
        {DECODE, AS(TEXT) | PICTURES | AS(BYTES), 0, 1},
        {RUNS | CHECK | DECODE | RAW, 0, 0, 1},
        {PAPERS, AS(SVG) | AS(PNG), 0, UINT64_MAX},
        {RECORDINGS, 0, FROM(AUTO) | FROM(VCD) | FROM(CSV), UINT64_MAX},
        {RECORDINGS, 0, FROM(AUTO) | FROM(CSV), UINT64_MAX},
        {RUNS, 0, 0, 1},
        {RECORDINGS, 0, FROM(AUTO) | FROM(VCD) | FROM(CSV), 1},
        {PAPERS, PICTURES, 0, 1},
        {0, 0, 0, 0},
        {RUNS, 0, PROGRAMS, UINT64_MAX},
    };
    return rules[setting];
}

/* The first setting that a call does not read, or that means nothing to it; or 0. */
static inline size_t bad_setting(task *t, unsigned call) {
    const print1525_settings *const s = &t->settings;
    const uint64_t values[] = {
        0, s->as, s->from, s->present, s->status, s->set, s->device, s->paper, s->holes, s->top, s->scale, s->bounds,
        s->intervals, s->invert, s->listening, s->strict, s->explain, s->sheet, s->from_time, s->rate,
        s->delays != NULL, s->names != NULL, s->characters_length > 0,
        s->reserved[0] | s->reserved[1] | s->reserved[2], s->steps,
    };
    size_t setting;
    t->as = usual_format(call);
    t->from = usual_form(call);
    for (setting = 1; setting <= PRINT1525_SETTING_STEPS; setting++) {
        const rule its = rule_of(setting);
        if (values[setting] == 0) continue;
        if (!(its.calls & call) || values[setting] > its.most) return setting;
        if (setting == PRINT1525_SETTING_AS) t->as = 1u << s->as;
        if (setting == PRINT1525_SETTING_FROM) t->from = 1u << s->from;
        if (its.as && !(its.as & t->as)) return setting;
        if (its.from && !(its.from & t->from)) return setting;
    }
    if (t->as & ~formats_of(call)) return PRINT1525_SETTING_AS;
    if (t->from & ~forms_of(call)) return PRINT1525_SETTING_FROM;
    /* (a character set is selected at first of a printer that listens then) */
    if (call == DECODE && s->set && !s->listening) return PRINT1525_SETTING_SET;
    if (s->device != 0 && s->device != 4 && s->device != 5) return PRINT1525_SETTING_DEVICE;
    if (s->holes && s->paper != PRINT1525_PAPER_CONTINUOUS) return PRINT1525_SETTING_HOLES;
    if (s->top > 65 && s->top != PRINT1525_TOP_EDGE) return PRINT1525_SETTING_TOP;
    return 0;
}

/* Unpacks what a call is passed. Gives 0, or refuses and gives the status. */
static inline int unpack(task *t, unsigned call, const void *input, size_t length, size_t size,
                         const print1525_settings *settings, void *buffer, size_t capacity,
                         print1525_details *details) {
    const size_t item = call == PRINT ? sizeof(uint16_t) : call == PICTURE ? sizeof(print1525_mark) : 1;
    int fault = why_not(input, room(length, item), buffer, room(capacity, size));
    size_t setting;
    memset(t, 0, sizeof *t);
    if (settings != NULL) t->settings = *settings;
    t->input = input == NULL ? t->nothing : input;
    t->length = length;
    t->buffer = buffer == NULL ? t->nothing : buffer;
    t->capacity = capacity;
    t->characters = t->settings.characters == NULL ? t->nothing : t->settings.characters;
    if (fault == PRINT1525_FAULT_NONE)
        fault = why_not(t->settings.characters, t->settings.characters_length, buffer, room(capacity, size));
    if (fault != PRINT1525_FAULT_NONE) return refuse(details, fault);
    setting = bad_setting(t, call);
    if (setting > 0) return refuse_setting(details, setting);
    if ((t->settings.delays != NULL &&
         overlap(t->settings.delays, strlen(t->settings.delays) + 1, buffer, room(capacity, size))) ||
        (t->settings.names != NULL &&
         overlap(t->settings.names, strlen(t->settings.names) + 1, buffer, room(capacity, size))))
        return refuse(details, PRINT1525_FAULT_OVERLAP);
    return 0;
}

#endif
