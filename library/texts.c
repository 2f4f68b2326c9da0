/* Calls for texts that pass their settings as words of a command line of the program. */
#include "settings.h"
#include <stdlib.h>

/* Adds a word to a command line. */
static void word(growing *to, const char *text) {
    if (to->length > 0 && to->length + 1 < to->capacity) to->text[to->length] = '\0';
    if (to->length > 0) to->length++;
    add(to, text);
}

static void option(growing *to, const char *name, const char *value) {
    word(to, name);
    word(to, value);
}

/* An option whose value may begin as an option does. */
static void option_text(growing *to, const char *name, const char *value) {
    word(to, name);
    add(to, value);
}

static void option_number(growing *to, const char *name, uint64_t value) {
    option(to, name, "");
    add_number(to, value);
}

static const char *command_of(unsigned call) {
    switch (call) {
    case PAGES: return "pages";
    case BUS: return "bus";
    case CHECK: return "check";
    case DECODE: return "decode";
    default: return "raw";
    }
}

/* Adds the words of a command line that say the settings of a call. */
static void words_of(growing *to, unsigned call, const print1525_settings *s) {
    static const char formats[][7] = {"",    "list", "text", "frames", "story", "json",
                                      "vcd", "svg",  "png",  "pdf",    "bytes", "script"};
    static const char forms[][9] = {"",         "auto", "text", "prg",   "petcat",
                                    "magazine", "vcd",  "csv",  "basic", "bas"};
    static const char printers[][5] = {"", "4", "5", "none"}, papers[][7] = {"", "a4", "letter"};
    static const char listening[][4] = {"", "4", "5", "4,5"};
    word(to, "print1525");
    word(to, command_of(call));
    if (s->as) option(to, "--as", formats[s->as]);
    if (s->from) option(to, "--from", forms[s->from]);
    if (s->present) option(to, "--present", printers[s->present]);
    if (s->status) option(to, "--status", "kept");
    if (s->set) option(to, "--set", "lower");
    if (s->device) option_number(to, "--device", s->device);
    if (s->paper) option(to, "--paper", papers[s->paper]);
    if (s->holes) word(to, "--holes");
    if (s->top) option_number(to, "--top", s->top == PRINT1525_TOP_EDGE ? 0 : s->top);
    if (s->scale) option_number(to, "--scale", s->scale);
    if (s->bounds) option(to, "--bounds", "guide");
    if (s->intervals) word(to, "--intervals");
    if (s->invert) option(to, "--invert", "ATN,CLOCK,DATA");
    if (s->listening) option(to, "--listening", listening[s->listening]);
    if (s->strict) word(to, "--strict");
    if (s->explain) word(to, "--explain");
    if (s->sheet) option_number(to, "--sheet", s->sheet);
    if (s->from_time) option_number(to, "--from-time", s->from_time);
    if (s->rate) option_number(to, "--rate", s->rate);
    if (s->steps) option_number(to, "--steps", s->steps);
    if (s->delays) option_text(to, "--delays=", s->delays);
    if (s->names) option_text(to, "--names=", s->names);
    if (s->characters_length > 0) option(to, "--characters", "given");
}

/* Does what the program does with these words: what it writes goes into the first buffer, or what it says into the
 * second. */
static print1525_plain_end run(const growing *words, const task *t, void *output, size_t capacity, void *said,
                               size_t said_capacity) {
    /* (No file of characters of more bytes is good, and its first bad line is in front of them.) */
    const size_t most = 65536, shapes = t->settings.characters_length;
    uint8_t nothing[1];
    print1525_plain_end end;
    print1525_plain_answer((const uint8_t *)words->text, words->length, 0,
                           output == NULL ? PRINT1525_DONE : PRINT1525_REFUSED, (const uint8_t *)t->input, t->length,
                           (const uint8_t *)t->characters, shapes < most ? shapes : most,
                           output == NULL ? nothing : (uint8_t *)output, capacity,
                           said == NULL ? nothing : (uint8_t *)said, said_capacity, &end);
    return end;
}

/* Gives what the program writes for these words; where it explains, what it says on standard error. */
static int ask(const growing *words, int explains, const task *t, size_t *length, print1525_details *details) {
    print1525_plain_end end = run(words, t, explains ? NULL : t->buffer, explains ? 0 : t->capacity, NULL, 0);
    size_t made = explains ? end.messages : end.output;
    /* (what is said of words that nobody wrote is not given) */
    if (end.fault == PRINT1525_FAULT_BAD_WORDS && !t->is_given) return refuse(details, PRINT1525_FAULT_BAD_WORDS);
    if (explains && end.status != PRINT1525_FAILED && made > 0 && made <= t->capacity) {
        /* (It says something also where it has no memory, which is no explanation: the buffer stays as it was then.) */
        uint8_t *const said = (uint8_t *)malloc(made);
        end.status = PRINT1525_FAILED;
        end.messages = 0;
        if (said != NULL) end = run(words, t, NULL, 0, said, made);
        if (said != NULL && end.status != PRINT1525_FAILED && end.messages <= made)
            memcpy(t->buffer, said, end.messages);
        made = end.messages;
        free(said);
    }
    if (explains && end.status == 4) end.status = PRINT1525_DONE;
    if (end.status == PRINT1525_FAILED) made = 0;
    tell_length(length, made);
    if (end.status == PRINT1525_FAILED) return tell(details, PRINT1525_FAILED, PRINT1525_FAULT_NO_MEMORY, 0, 0);
    if (end.status == 4 || made > t->capacity)
        return tell(details, PRINT1525_FAILED, PRINT1525_FAULT_TOO_SMALL, 0, 0);
    return tell(details, (int)end.status, (int)end.fault, end.place, end.column);
}

/* Which setting is to blame for words that ask for nothing: one whose text or number no option has. */
static int blame(const print1525_settings *s, int status, print1525_details *details) {
    size_t setting = 0;
    if (s->sheet) setting = PRINT1525_SETTING_SHEET;
    if (s->from_time) setting = PRINT1525_SETTING_FROM_TIME;
    if (s->rate) setting = PRINT1525_SETTING_RATE;
    if (s->names) setting = PRINT1525_SETTING_NAMES;
    if (s->delays) setting = PRINT1525_SETTING_DELAYS;
    return details->fault == PRINT1525_FAULT_BAD_WORDS ? refuse_setting(details, setting) : status;
}

/* The most bytes of an input that a call reads; of a listing any number, since its text may be shorter. */
static size_t limit(const task *t, unsigned call) {
    if (call & RUNS) return t->from == FROM(TEXT) ? 16777216u : SIZE_MAX;
    if (call == RAW) return UINT32_MAX;
    if (call == DECODE && t->as & (AS(TEXT) | PICTURES)) return 4000000000u;
    return (size_t)1 << 40;
}

/* Says the settings as words, and does what the program does with them. */
static int ask_as(unsigned call, const void *input, size_t input_length, const print1525_settings *settings, void *text,
                  size_t capacity, size_t *length, print1525_details *details) {
    task t;
    char few[512], *many = NULL;
    growing words = {few, sizeof few, 0};
    print1525_details own;
    int status = unpack(&t, call, input, input_length, 1, settings, text, capacity, &own);
    size_t made = 0;
    if (status == 0 && input_length > limit(&t, call)) status = refuse(&own, PRINT1525_FAULT_TOO_LARGE);
    if (status == 0) {
        words_of(&words, call, &t.settings);
        if (words.length >= sizeof few) {
            words.capacity = words.length + 1;
            words.text = many = (char *)malloc(words.capacity);
            words.length = 0;
            if (many != NULL) words_of(&words, call, &t.settings);
        }
        if (words.text == NULL)
            status = tell(&own, PRINT1525_FAILED, PRINT1525_FAULT_NO_MEMORY, 0, 0);
        else
            status = blame(&t.settings, ask(&words, t.settings.explain, &t, &made, &own), &own);
        free(many);
    }
    tell_length(length, made);
    if (details != NULL) *details = own;
    return status;
}

int print1525_pages(const void *script, size_t script_length, const print1525_settings *settings, void *text,
                    size_t capacity, size_t *length, print1525_details *details) {
    return ask_as(PAGES, script, script_length, settings, text, capacity, length, details);
}

int print1525_bus(const void *script, size_t script_length, const print1525_settings *settings, void *text,
                  size_t capacity, size_t *length, print1525_details *details) {
    return ask_as(BUS, script, script_length, settings, text, capacity, length, details);
}

int print1525_check(const void *trace, size_t trace_length, const print1525_settings *settings, void *text,
                    size_t capacity, size_t *length, print1525_details *details) {
    return ask_as(CHECK, trace, trace_length, settings, text, capacity, length, details);
}

int print1525_decode(const void *recording, size_t recording_length, const print1525_settings *settings, void *text,
                     size_t capacity, size_t *length, print1525_details *details) {
    return ask_as(DECODE, recording, recording_length, settings, text, capacity, length, details);
}

int print1525_raw(const void *bytes, size_t bytes_length, const print1525_settings *settings, void *text,
                  size_t capacity, size_t *length, print1525_details *details) {
    return ask_as(RAW, bytes, bytes_length, settings, text, capacity, length, details);
}

/* Whether a word is this one. */
static int is_word(const char *text, const char *name) { return strcmp(text, name) == 0; }

/* Adds the words of a caller; the text after --characters becomes a name. */
static void words_given(growing *to, const char *const *words) {
    size_t index;
    word(to, "print1525");
    for (index = 0; words[index] != NULL; index++)
        word(to, index > 0 && is_word(words[index - 1], "--characters") ? "given" : words[index]);
}

int print1525_answer(const char *const *words, const void *input, size_t input_length, void *text, size_t capacity,
                     size_t *length, print1525_details *details) {
    static const char *const none[] = {NULL};
    task t;
    growing line = {NULL, 0, 0};
    int fault = why_not(input, input_length, text, capacity), explains = 0, status;
    size_t index, made = 0;
    memset(&t, 0, sizeof t);
    t.input = input == NULL ? t.nothing : input;
    t.length = input_length;
    t.buffer = text == NULL ? t.nothing : text;
    t.capacity = capacity;
    t.characters = t.nothing;
    t.is_given = 1;
    if (words == NULL) words = none, fault = PRINT1525_FAULT_NULL_POINTER;
    for (index = 0; fault == PRINT1525_FAULT_NONE && words[index] != NULL; index++) {
        if (is_word(words[index], "--explain")) explains = 1;
        if (overlap(words[index], strlen(words[index]) + 1, text, capacity)) fault = PRINT1525_FAULT_OVERLAP;
        if (index > 0 && is_word(words[index - 1], "--characters")) {
            t.characters = words[index];
            t.settings.characters_length = strlen(words[index]);
        }
    }
    if (fault == PRINT1525_FAULT_NONE && overlap(words, (index + 1) * sizeof *words, text, capacity))
        fault = PRINT1525_FAULT_OVERLAP;
    if (fault != PRINT1525_FAULT_NONE) {
        tell_length(length, 0);
        return refuse(details, fault);
    }
    words_given(&line, words);
    line.capacity = line.length + 1;
    line.text = (char *)malloc(line.capacity);
    line.length = 0;
    if (line.text == NULL) {
        tell_length(length, 0);
        return tell(details, PRINT1525_FAILED, PRINT1525_FAULT_NO_MEMORY, 0, 0);
    }
    words_given(&line, words);
    status = ask(&line, explains, &t, &made, details);
    free(line.text);
    tell_length(length, made);
    return status;
}
