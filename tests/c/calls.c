/* The calls for texts, and others, of include/print1525.h over standard input, as a test of them: calls CALL WORD..
 *
 *     calls pages OPTION..        (bus, check, decode, raw, listing: the program's own options, as settings)
 *     calls answer WORD..         (print1525_answer with the program's words; `--characters FILE` is given that file's text)
 *     calls print OPTION..        (inputs, a number each line)
 *     calls edges OPTION..        (the edges of a recording, a line each)
 *     calls receiver DEVICE       (a trace text; the inputs that the device receives, a number each line)
 *     calls readings              (a trace text; each reading with all that is known of it, a line each)
 *     calls settings              (settings that are refused; no input)
 *     calls pointers              (pointers that are NULL, and memory that overlaps; no input)
 *     calls words                 (the number and the words of each fault, and messages; no input)
 *     calls decoder               (a decoder's answers and refusals; no input)
 *
 * Writes the text to standard output, and a line to standard error as print1525 does, and ends with the
 * status. Before that the call is made with buffers of all sizes from 0 to what is needed, and with each allocation
 * refused in turn. Some are left out above MOST_SIZES and MOST_REFUSALS; with CALLS=all in the environment only above
 * MOST_OF_ALL sizes, as of a PNG file; CALLS=once leaves all of them out. (So are edges above MOST_PLACES of those at
 * which numbers are changed.) FEW, for processors that are slow, makes those numbers FEW_OF times smaller, and `all` as
 * nothing. A value of an option that the header has no number for is 200.
 * Input and buffer end where memory ends, so a byte read or written beyond them is a fault. Each answer has to be as the
 * header says, all memory has to be given back, and a refusal may change nothing; else a line beginning with WRONG is
 * written, and the status is 99. Linked with -Wl,--wrap=malloc,--wrap=realloc,--wrap=free. */
#define _DEFAULT_SOURCE
#include "options.h"
#include <stddef.h>
#include <stdio.h>
#include <stdlib.h>
#include <string.h>
#include <sys/mman.h>
#include <unistd.h>

#define MOST_SIZES 8192
#define MOST_OF_ALL 65536
#define MOST_REFUSALS 400
#define MOST_PLACES 200
#define FEW_OF 32
#define UNTOUCHED 0xA5

/* malloc, realloc and free as the library calls them: counted, and one of them refused. */
static long live, taken, refused_one;

#ifdef __cplusplus
extern "C" {
#endif
void *__real_malloc(size_t size);
void *__real_realloc(void *old, size_t size);
void __real_free(void *old);
void *__wrap_malloc(size_t size);
void *__wrap_realloc(void *old, size_t size);
void __wrap_free(void *old);

void *__wrap_malloc(size_t size) {
    void *block;
    if (++taken == refused_one) return NULL;
    block = __real_malloc(size);
    live += block != NULL;
    return block;
}

void *__wrap_realloc(void *old, size_t size) {
    if (++taken == refused_one) return NULL;
    live += old == NULL;
    return __real_realloc(old, size);
}

void __wrap_free(void *old) {
    live -= old != NULL;
    __real_free(old);
}
#ifdef __cplusplus
}
#endif

static int wrong, is_all;
/* By what the numbers above are divided. */
static size_t parts = 1;

static void is_wrong(const char *what, size_t number) {
    if (wrong++ < 5) fprintf(stderr, "WRONG: %s, %lu\n", what, (unsigned long)number);
}

/* Bytes that end where memory ends. */
typedef struct {
    uint8_t *bytes;
    size_t size;
} guarded;

static guarded guard(size_t size) {
    const size_t page = (size_t)sysconf(_SC_PAGESIZE), whole = (size + page) / page * page;
    uint8_t *start = (uint8_t *)mmap(NULL, whole + page, PROT_READ | PROT_WRITE, MAP_PRIVATE | MAP_ANONYMOUS, -1, 0);
    guarded made;
    if (start == (uint8_t *)MAP_FAILED || mprotect(start + whole, page, PROT_NONE) != 0) exit(98);
    made.bytes = start + whole - size;
    made.size = size;
    return made;
}

/* All of a file, ending where memory ends. */
static guarded read_all(FILE *file) {
    size_t room = 1 << 20, count = 0, got;
    uint8_t *bytes = (uint8_t *)malloc(room);
    guarded made;
    while (bytes && (got = fread(bytes + count, 1, room - count, file)) > 0)
        if ((count += got) == room) bytes = (uint8_t *)realloc(bytes, room *= 2);
    if (!bytes) exit(98);
    made = guard(count);
    memcpy(made.bytes, bytes, count);
    free(bytes);
    return made;
}

/* What a call tells: its details, and the length beside them. */
typedef struct {
    int status, fault;
    size_t place, column, length;
} answered;

static answered told_of(print1525_details details, size_t length) {
    answered made;
    made.status = details.status;
    made.fault = details.fault;
    made.place = details.place;
    made.column = details.column;
    made.length = length;
    return made;
}

/* One call with all that it is passed but the buffer. */
typedef struct {
    const char *name;
    print1525_settings settings;
    const uint8_t *input;
    size_t length;
    const uint16_t *numbers;
    size_t count;
    const char *words[64];
} job;

/* A printer's inputs, a number each line, ending where memory ends. 256 and 257 have names in the header. */
static void read_numbers(job *j) {
    static const uint16_t selections[] = {PRINT1525_SELECT_UPPER, PRINT1525_SELECT_LOWER};
    size_t index, lines = 0;
    uint16_t *number;
    for (index = 0; index < j->length; index++) lines += j->input[index] == '\n';
    number = (uint16_t *)(void *)guard(lines * sizeof *number).bytes;
    j->numbers = number;
    j->count = lines;
    for (index = 0; lines > 0; lines--, index++, number++) {
        unsigned value = 0;
        for (; j->input[index] != '\n'; index++) value = value * 10 + (unsigned)(j->input[index] - '0');
        *number = value / 2 == 128 ? selections[value % 2] : (uint16_t)value;
    }
}

/* The calls that take bytes and settings and give a text. */
typedef int text_call(const void *, size_t, const print1525_settings *, void *, size_t, size_t *, print1525_details *);
static const struct {
    const char *name;
    text_call *call;
} text_calls[] = {
    {"pages", print1525_pages}, {"bus", print1525_bus}, {"check", print1525_check},
    {"decode", print1525_decode}, {"raw", print1525_raw}, {"listing", print1525_listing},
};
#define TEXT_CALLS (sizeof text_calls / sizeof *text_calls)

static int make(const job *j, const print1525_settings *settings, uint8_t *buffer, size_t capacity, size_t *length, print1525_details *details) {
    size_t index;
    if (strcmp(j->name, "print") == 0) return print1525_print(j->numbers, j->count, settings, buffer, capacity, length, details);
    if (strcmp(j->name, "answer") == 0) return print1525_answer(j->words, j->input, j->length, buffer, capacity, length, details);
    for (index = 0; index < TEXT_CALLS; index++)
        if (strcmp(j->name, text_calls[index].name) == 0) return text_calls[index].call(j->input, j->length, settings, buffer, capacity, length, details);
    exit(98);
}

/* Makes the call. No more memory may be taken after it than before. */
static answered call(const job *j, uint8_t *buffer, size_t capacity) {
    print1525_details details;
    const print1525_settings settings = j->settings;
    const long before = live;
    size_t length = 77;
    int status;
    memset(&details, UNTOUCHED, sizeof details);
    status = make(j, &j->settings, buffer, capacity, &length, &details);
    if (status != details.status) is_wrong("another status than the details have", (size_t)status);
    if (live != before) is_wrong("memory is not given back", (size_t)(live - before));
    if (memcmp(&settings, &j->settings, sizeof settings) != 0) is_wrong("the settings are changed", 0);
    return told_of(details, length);
}

/* Whether an answer comes with a text, as also what a recording says before its fault. */
static int has_text(answered answer) {
    return answer.status <= PRINT1525_STOPPED || (answer.status == PRINT1525_REFUSED && answer.length > 0);
}

static int is_untouched(const uint8_t *bytes, size_t count) {
    size_t index;
    for (index = 0; index < count; index++)
        if (bytes[index] != UNTOUCHED) return 0;
    return 1;
}

static int is_answer(answered answer, int status, int fault, size_t place, size_t length) {
    return answer.status == status && answer.fault == fault && answer.place == place && answer.length == length &&
           (answer.column > 0) == (fault == PRINT1525_FAULT_UNKNOWN_NAME || fault == PRINT1525_FAULT_BAD_CHARACTER);
}

static int are_details(answered a, answered b) {
    return is_answer(a, b.status, b.fault, b.place, b.length) && a.column == b.column;
}

/* The answer to a call with this capacity is the same text, or that it has no room, or the same refusal. */
static void try_size(const job *j, guarded buffer, size_t capacity, answered true_answer, const uint8_t *text) {
    uint8_t *const front = buffer.bytes + buffer.size - capacity;
    answered answer;
    memset(buffer.bytes, UNTOUCHED, buffer.size);
    answer = call(j, front, capacity);
    if (!is_untouched(buffer.bytes, buffer.size - capacity)) is_wrong("bytes before the buffer are written", capacity);
    if (has_text(true_answer) && true_answer.length <= capacity) {
        if (!are_details(answer, true_answer) || memcmp(front, text, answer.length) != 0)
            is_wrong("another text in a buffer of size", capacity);
        if (!is_untouched(front + true_answer.length, capacity - true_answer.length))
            is_wrong("bytes after the text are written, size", capacity);
        return;
    }
    if (!is_untouched(front, capacity)) is_wrong("the buffer is written, size", capacity);
    if (has_text(true_answer)
            ? !is_answer(answer, PRINT1525_FAILED, PRINT1525_FAULT_TOO_SMALL, 0, true_answer.length)
            : !are_details(answer, true_answer))
        is_wrong("another answer to a buffer of size", capacity);
}

/* Whether a call explains: it may say less with a refused allocation. */
static int explains(const job *j) {
    size_t index;
    for (index = 0; j->words[index] != NULL; index++)
        if (strcmp(j->words[index], "--explain") == 0) return 1;
    return j->settings.explain;
}

/* With an allocation refused the call reports that there is no memory, and the buffer is untouched; or, where the C
 * library's refusal does not matter, the answer is the same as ever. */
static size_t try_refusals(const job *j, guarded buffer, size_t capacity, answered true_answer, const uint8_t *text) {
    uint8_t *const front = buffer.bytes + buffer.size - capacity;
    size_t refused = 0;
    long all, step, number;
    taken = 0;
    call(j, front, capacity);
    all = taken;
    step = is_all ? 1 : all / (long)(MOST_REFUSALS / parts) + 1;
    for (number = 1; number <= all; number += step) {
        answered answer;
        memset(buffer.bytes, UNTOUCHED, buffer.size);
        taken = 0;
        refused_one = number;
        answer = call(j, front, capacity);
        refused_one = 0;
        if (answer.status == PRINT1525_FAILED) {
            refused++;
            if (!is_answer(answer, PRINT1525_FAILED, PRINT1525_FAULT_NO_MEMORY, 0, 0) || !is_untouched(front, capacity))
                is_wrong("what a refused allocation leaves", (size_t)number);
        } else if (explains(j) ? answer.status != true_answer.status || answer.fault != true_answer.fault : !are_details(answer, true_answer) || (has_text(true_answer) && memcmp(front, text, true_answer.length) != 0))
            is_wrong("another answer with a refused allocation", (size_t)number);
    }
    if (all > 0 && refused == 0) is_wrong("no refused allocation is reported", (size_t)all);
    if (all > 0 && true_answer.fault == PRINT1525_FAULT_NO_SUCH_INPUT) is_wrong("memory is taken of a number that is no input", (size_t)all);
    return refused;
}

/* The call with sizes from 0 to what is needed and beyond. */
static void try_sizes(const job *j, guarded buffer, answered true_answer, const uint8_t *text) {
    const size_t needed = true_answer.length, most = (is_all ? MOST_OF_ALL : MOST_SIZES) / parts;
    const size_t step = needed <= most ? 1 : needed / 50;
    size_t capacity;
    for (capacity = 0; capacity < needed + 2; capacity += step) try_size(j, buffer, capacity, true_answer, text);
    for (capacity = needed < 8 ? 0 : needed - 8; capacity <= needed + 16; capacity++)
        try_size(j, buffer, capacity, true_answer, text);
}

/* The edges of a trace text, each with one digit for each line of the bus. */
static size_t read_edges(const guarded text, print1525_edge *edges) {
    size_t index = 0, count = 0;
    while (index < text.size) {
        uint64_t time = 0;
        while (index < text.size && text.bytes[index] >= '0' && text.bytes[index] <= '9')
            time = time * 10 + (uint64_t)(text.bytes[index++] - '0');
        if (index + 5 > text.size || text.bytes[index] != ' ' || text.bytes[index + 4] != '\n') exit(97);
        edges[count].time = time;
        edges[count].atn = text.bytes[index + 1] != '0';
        edges[count].clock = text.bytes[index + 2] != '0';
        edges[count].data = text.bytes[index + 3] != '0';
        count++;
        index += 5;
    }
    return count;
}

/* A number of a struct. */
typedef struct {
    size_t at, size;
} field;

#define FIELD(type, name) {offsetof(type, name), sizeof(((type *)0)->name)}

static uint64_t number_at(const void *numbers, field f) {
    const uint8_t *const bytes = (const uint8_t *)numbers + f.at;
    uint64_t number = 0;
    size_t index;
    for (index = f.size; index > 0; index--) number = number << 8 | bytes[index - 1];
    return number;
}

static int are_same(const void *a, const void *b, const field *fields, size_t count) {
    size_t index;
    for (index = 0; index < count; index++)
        if (number_at(a, fields[index]) != number_at(b, fields[index])) return 0;
    return 1;
}

/* After how many of the edges numbers are changed. */
static size_t step_of(size_t count) { return is_all ? 1 : count / (MOST_PLACES / parts) + 1; }

/* What a device receives on a bus: LISTEN selects the one set, secondary address 7 the other. No other number is a device. */
static answered receive(uint8_t device, guarded text) {
    print1525_receiver *const receiver = (print1525_receiver *)(void *)guard(sizeof *receiver).bytes;
    print1525_received *const came = (print1525_received *)(void *)guard(sizeof *came).bytes;
    const guarded place = guard((text.size / 6 + 1) * sizeof(print1525_edge));
    print1525_edge *const edges = (print1525_edge *)(void *)(place.bytes - (size_t)place.bytes % sizeof(uint64_t));
    const size_t count = read_edges(text, edges);
    print1525_details details;
    size_t index;
    taken = 0;
    memset(receiver, UNTOUCHED, sizeof *receiver);
    memset(&details, UNTOUCHED, sizeof details);
    print1525_receiver_begin(receiver, device, &details);
    if ((details.status == PRINT1525_DONE) != (device >= 4 && device <= 30)) is_wrong("a device's receiver", device);
    if (details.status != PRINT1525_DONE && !is_untouched((const uint8_t *)(const void *)receiver, sizeof *receiver)) is_wrong("the receiver of no device", device);
    for (index = 0; index < count && details.status == PRINT1525_DONE; index++) {
        memset(came, UNTOUCHED, sizeof *came);
        print1525_receiver_edge(receiver, &edges[index], came, &details);
        if (came->kind > PRINT1525_RECEIVED_UNLISTEN || came->eoi > 1) is_wrong("what came with edge", index);
        if (came->kind == PRINT1525_RECEIVED_BYTE) printf("%u\n", (unsigned)came->byte);
        if (came->kind == PRINT1525_RECEIVED_LISTEN) printf("%u\n", (unsigned)PRINT1525_SELECT_UPPER);
        if (came->kind == PRINT1525_RECEIVED_SELECT && came->byte == 7) printf("%u\n", (unsigned)PRINT1525_SELECT_LOWER);
    }
    if (taken != 0) is_wrong("a receiver takes memory", (size_t)taken);
    return told_of(details, 0);
}

/* The line that the program writes on standard error; after a stop the last line of its page text. */
static void tell(answered answer) {
    print1525_details details;
    char message[99];
    details.status = answer.status;
    details.fault = answer.fault;
    details.place = answer.place;
    details.column = answer.column;
    if (answer.status == PRINT1525_STOPPED && answer.fault) fprintf(stderr, "stop %d at %lu\n", answer.fault - 100, (unsigned long)answer.place);
    else if (print1525_message(&details, message, sizeof message)) fprintf(stderr, "print1525: %s\n", message);
}

/* Puts a number into a setting. */
static void put_setting(print1525_settings *s, size_t setting, uint64_t number) {
    static const char text[] = "1";
    const uint8_t small = (uint8_t)number;
    switch (setting) {
    case PRINT1525_SETTING_AS: s->as = small; break;
    case PRINT1525_SETTING_FROM: s->from = small; break;
    case PRINT1525_SETTING_PRESENT: s->present = small; break;
    case PRINT1525_SETTING_STATUS: s->status = small; break;
    case PRINT1525_SETTING_SET: s->set = small; break;
    case PRINT1525_SETTING_DEVICE: s->device = small; break;
    case PRINT1525_SETTING_PAPER: s->paper = small; break;
    case PRINT1525_SETTING_HOLES: s->holes = small; break;
    case PRINT1525_SETTING_TOP: s->top = small; break;
    case PRINT1525_SETTING_SCALE: s->scale = small; break;
    case PRINT1525_SETTING_BOUNDS: s->bounds = small; break;
    case PRINT1525_SETTING_INTERVALS: s->intervals = small; break;
    case PRINT1525_SETTING_INVERT: s->invert = small; break;
    case PRINT1525_SETTING_LISTENING: s->listening = small; break;
    case PRINT1525_SETTING_STRICT: s->strict = small; break;
    case PRINT1525_SETTING_EXPLAIN: s->explain = small; break;
    case PRINT1525_SETTING_SHEET: s->sheet = number; break;
    case PRINT1525_SETTING_FROM_TIME: s->from_time = number; break;
    case PRINT1525_SETTING_RATE: s->rate = number; break;
    case PRINT1525_SETTING_DELAYS: s->delays = number ? text : NULL; break;
    case PRINT1525_SETTING_NAMES: s->names = number ? text : NULL; break;
    case PRINT1525_SETTING_CHARACTERS: s->characters = text, s->characters_length = number ? 1 : 0; break;
    case PRINT1525_SETTING_STEPS: s->steps = number; break;
    default: s->reserved[number % 3] = number; break;
    }
}

/* The edges call as the others are. */
static answered call_edges(const job *j, print1525_edge *edges, size_t capacity) {
    print1525_details details;
    size_t length = 77;
    print1525_edges(j->input, j->length, &j->settings, edges, capacity, &length, &details);
    return told_of(details, length);
}

static const char *const all_calls[] = {"pages", "bus", "check", "decode", "raw", "print", "listing", "edges"};
#define ALL_CALLS (sizeof all_calls / sizeof *all_calls)

static answered any_call(job *j, size_t name, guarded buffer) {
    j->name = all_calls[name];
    return strcmp(j->name, "edges") == 0 ? call_edges(j, (print1525_edge *)(void *)buffer.bytes, buffer.size / sizeof(print1525_edge)) : call(j, buffer.bytes, buffer.size);
}

/* A setting that a call does not read is refused by its number, and so is a number that its option does not have, before the input is looked
 * at, with nothing written. */
static void try_settings(void) {
    /* Which calls read a setting, in the order above, with the formats' default, and a number that each refuses. */
    static const struct {
        const char *calls;
        uint64_t none;
    } rows[] = {
        {"11111100", 12}, {"11110011", 10}, {"11000000", 4}, {"11000000", 2}, {"00001000", 2}, {"00000000", 6}, {"00000000", 3}, {"00000000", 2},
        {"00000000", 66}, {"00000000", 9}, {"00010000", 2}, {"00010000", 2}, {"00010001", 2}, {"00000000", 4}, {"00000000", 2}, {"11111000", 2},
        {"00000000", 1}, {"00010001", 0}, {"00010001", 0}, {"11000000", 0}, {"00010001", 0}, {"00000000", 0}, {"00000000", 1},
        {"00000000", 1},
    };
    /* Settings that go with others, or do not: a call, and numbers of settings; the last of them is refused where `refused` is so. */
    static const struct {
        size_t name, settings[4];
        uint64_t numbers[4];
        int refused;
    } pairs[] = {
        {0, {1, 6, 0, 0}, {PRINT1525_AS_SVG, 4, 0, 0}, 0}, {0, {1, 6, 0, 0}, {PRINT1525_AS_SVG, 3, 0, 0}, 1},
        {0, {1, 6, 0, 0}, {PRINT1525_AS_TEXT, 4, 0, 0}, 1}, {0, {1, 17, 0, 0}, {PRINT1525_AS_PDF, 1, 0, 0}, 1},
        {4, {1, 9, 0, 0}, {PRINT1525_AS_SVG, 65, 0, 0}, 0}, {4, {1, 9, 0, 0}, {PRINT1525_AS_SVG, PRINT1525_TOP_EDGE, 0, 0}, 0},
        {4, {1, 9, 0, 0}, {PRINT1525_AS_SVG, 66, 0, 0}, 1}, {4, {1, 10, 0, 0}, {PRINT1525_AS_PNG, 8, 0, 0}, 0},
        {5, {1, 10, 0, 0}, {PRINT1525_AS_SVG, 2, 0, 0}, 1}, {5, {1, 7, 0, 0}, {PRINT1525_AS_PDF, PRINT1525_PAPER_A4, 0, 0}, 0},
        {5, {1, 7, 8, 0}, {PRINT1525_AS_PDF, PRINT1525_PAPER_A4, 1, 0}, 1}, {5, {1, 8, 0, 0}, {PRINT1525_AS_PDF, 1, 0, 0}, 0},
        {5, {1, 8, 0, 0}, {PRINT1525_AS_SVG, 1, 0, 0}, 1}, {0, {1, 0, 0, 0}, {PRINT1525_AS_VCD, 0, 0, 0}, 1},
        {1, {1, 0, 0, 0}, {PRINT1525_AS_LIST, 0, 0, 0}, 1}, {2, {1, 0, 0, 0}, {PRINT1525_AS_STORY, 0, 0, 0}, 0},
        {3, {1, 0, 0, 0}, {PRINT1525_AS_STORY, 0, 0, 0}, 1}, {3, {1, 12, 0, 0}, {PRINT1525_AS_JSON, 1, 0, 0}, 1},
        {3, {1, 14, 5, 0}, {PRINT1525_AS_TEXT, 2, 1, 0}, 0}, {3, {1, 5, 0, 0}, {PRINT1525_AS_TEXT, 1, 0, 0}, 1},
        {3, {1, 15, 0, 0}, {PRINT1525_AS_BYTES, 1, 0, 0}, 0}, {5, {1, 0, 0, 0}, {PRINT1525_AS_BYTES, 0, 0, 0}, 1},
        {0, {2, 0, 0, 0}, {PRINT1525_FROM_VCD, 0, 0, 0}, 1}, {2, {2, 0, 0, 0}, {PRINT1525_FROM_PRG, 0, 0, 0}, 1},
        {2, {2, 13, 0, 0}, {PRINT1525_FROM_CSV, 1, 0, 0}, 0}, {2, {2, 13, 0, 0}, {PRINT1525_FROM_TEXT, 1, 0, 0}, 1},
        {3, {2, 19, 0, 0}, {PRINT1525_FROM_VCD, 9, 0, 0}, 1}, {7, {2, 18, 0, 0}, {PRINT1525_FROM_VCD, 9, 0, 0}, 0},
        {6, {2, 0, 0, 0}, {PRINT1525_FROM_CSV, 0, 0, 0}, 1}, {7, {21, 0, 0, 0}, {1, 0, 0, 0}, 1},
        {0, {2, 24, 0, 0}, {PRINT1525_FROM_BASIC, 9, 0, 0}, 0}, {1, {2, 24, 0, 0}, {PRINT1525_FROM_BAS, 9, 0, 0}, 0},
        {0, {2, 24, 0, 0}, {PRINT1525_FROM_PRG, 9, 0, 0}, 1}, {3, {2, 0, 0, 0}, {PRINT1525_FROM_BASIC, 0, 0, 0}, 1},
        {1, {1, 0, 0, 0}, {PRINT1525_AS_SCRIPT, 0, 0, 0}, 0}, {4, {1, 0, 0, 0}, {PRINT1525_AS_SCRIPT, 0, 0, 0}, 1},
    };
    static const print1525_settings defaults = PRINT1525_SETTINGS_INIT;
    static job j;
    const guarded buffer = guard(96);
    size_t name, setting, row;
    answered answer;
    memset(buffer.bytes, UNTOUCHED, buffer.size);
    for (name = 0; name < ALL_CALLS; name++)
        for (setting = 1; setting <= PRINT1525_SETTING_STEPS; setting++) {
            const int is_read = rows[setting - 1].calls[name] == '1';
            int times;
            for (times = 0; times < 2; times++) {
                const uint64_t number = times && rows[setting - 1].none ? rows[setting - 1].none : 1;
                const int may_be = times == 0 && is_read;
                j.settings = defaults;
                put_setting(&j.settings, setting, number);
                if (setting == PRINT1525_SETTING_AS && times == 0 && name > 0 && name < 3) continue; /* (no LIST) */
                if (times && is_read && rows[setting - 1].none == 0) continue;
                answer = any_call(&j, name, buffer);
                if (may_be ? answer.fault == PRINT1525_FAULT_BAD_SETTING && setting < PRINT1525_SETTING_DELAYS : !is_answer(answer, PRINT1525_REFUSED, PRINT1525_FAULT_BAD_SETTING, setting, 0))
                    is_wrong("a setting, by call and number", 100 * name + setting);
                if (!may_be && !is_untouched(buffer.bytes, buffer.size)) is_wrong("a refused setting writes, by call and number", 100 * name + setting);
                memset(buffer.bytes, UNTOUCHED, buffer.size);
            }
        }
    for (row = 0; row < sizeof pairs / sizeof *pairs; row++) {
        size_t last = 0;
        j.settings = defaults;
        for (setting = 0; setting < 4 && pairs[row].settings[setting]; setting++)
            put_setting(&j.settings, last = pairs[row].settings[setting], pairs[row].numbers[setting]);
        answer = any_call(&j, pairs[row].name, buffer);
        if (pairs[row].refused ? !is_answer(answer, PRINT1525_REFUSED, PRINT1525_FAULT_BAD_SETTING, last, 0) : answer.fault == PRINT1525_FAULT_BAD_SETTING)
            is_wrong("settings that go together, row", row);
    }
    /* Texts that the options do not have, whatever is explained; and the limit of an input, which is not read. */
    for (row = 0; row < 4; row++) {
        j.settings = defaults;
        j.settings.explain = row % 2;
        if (row < 2) j.settings.delays = "1,2,x";
        else j.settings.names = "A,A,B";
        answer = any_call(&j, row < 2 ? 0 : 3, buffer);
        if (!is_answer(answer, PRINT1525_REFUSED, PRINT1525_FAULT_BAD_SETTING, row < 2 ? PRINT1525_SETTING_DELAYS : PRINT1525_SETTING_NAMES, 0)) is_wrong("a text that is none, row", row);
    }
    memset(buffer.bytes, UNTOUCHED, buffer.size);
    for (name = 0; name < 6; name++) {
        static const size_t most[] = {16777216, 16777216, (size_t)1 << 40, (size_t)1 << 40, 4294967295u, (size_t)1 << 32};
        j.settings = defaults;
        j.input = buffer.bytes + buffer.size; /* (nothing is there) */
        j.numbers = (const uint16_t *)(const void *)j.input;
        j.length = j.count = most[name] + 1;
        if (!is_answer(any_call(&j, name, buffer), PRINT1525_REFUSED, PRINT1525_FAULT_TOO_LARGE, 0, 0) || !is_untouched(buffer.bytes, buffer.size)) is_wrong("an input that is too large, call", name);
    }
}

/* A call without settings gives what those of 0 give, with length and details or without. */
static void try_defaults(const job *j, uint8_t *buffer, size_t capacity) {
    static const print1525_settings defaults = PRINT1525_SETTINGS_INIT;
    answered given;
    int status;
    uint8_t *other;
    if (memcmp(&j->settings, &defaults, sizeof defaults) != 0) return;
    other = (uint8_t *)malloc(capacity + 1);
    if (other == NULL) exit(98);
    given = call(j, buffer, capacity);
    memset(other, UNTOUCHED, capacity + 1);
    status = make(j, NULL, other, capacity, NULL, NULL);
    if (status != given.status || (has_text(given) && memcmp(other, buffer, given.length) != 0)) is_wrong("another text without settings", (size_t)status);
    free(other);
}

/* NULL pointers are accepted with a length of 0; with another length they are refused, and so is memory that
 * overlaps, with nothing changed. */
static void try_pointers(void) {
    static const char *const names[] = {"pages", "bus", "check", "decode", "raw", "print", "listing", "answer"};
    static const print1525_settings defaults = PRINT1525_SETTINGS_INIT;
    static char shared[128];
    static const char *const no_words[] = {"raw", NULL};
    static job j;
    const guarded empty = guard(0), buffer = guard(4096);
    uint8_t *const bytes = (uint8_t *)(void *)shared;
    size_t name, at, length = 77;
    print1525_details details;
    j.words[0] = "pages";
    for (name = 0; name < sizeof names / sizeof *names; name++) {
        answered given, other;
        j.name = names[name];
        j.settings = defaults;
        j.input = empty.bytes;
        j.numbers = (const uint16_t *)(const void *)empty.bytes;
        j.length = j.count = 0;
        given = call(&j, buffer.bytes, buffer.size);
        other = call(&j, NULL, 0);
        if (given.length > 0 ? !is_answer(other, PRINT1525_FAILED, PRINT1525_FAULT_TOO_SMALL, 0, given.length) : !are_details(given, other))
            is_wrong("no buffer, call", name);
        j.input = NULL;
        j.numbers = NULL;
        if (!are_details(given, call(&j, buffer.bytes, buffer.size))) is_wrong("no input, call", name);
        memset(buffer.bytes, UNTOUCHED, buffer.size);
        /* NULL that has a length: the input, the buffer, the characters. */
        for (at = 0; at < (name < 6 ? 3u : 2u); at++) {
            j.settings = defaults;
            j.length = j.count = at == 0;
            if (at == 2) j.settings.as = PRINT1525_AS_SVG, j.settings.characters_length = 1;
            if (!is_answer(call(&j, at == 1 ? NULL : buffer.bytes, buffer.size), PRINT1525_REFUSED, PRINT1525_FAULT_NULL_POINTER, 0, 0))
                is_wrong("a NULL pointer, call", 10 * name + at);
        }
        if (!is_untouched(buffer.bytes, buffer.size)) is_wrong("a buffer beside a NULL pointer, call", name);
        /* A buffer of ten bytes from byte 20 on overlaps what reaches into it at its beginning, at its end, or whole: the input, the
         * characters, and texts, which end with a zero byte. */
        for (at = 0; at < 32; at++) {
            static const size_t begins[] = {0, 12, 18, 20, 24, 28, 30, 40}, sizes[] = {20, 8, 4, 10, 2, 8, 8, 2};
            const size_t row = at % 8, begin = begins[row], size = sizes[row], place = at / 8;
            const int overlaps = begin < 30 && begin + size > 20;
            uint8_t before[sizeof shared];
            memset(shared, 'a', sizeof shared);
            shared[begin + size - 1] = '\0';
            memcpy(before, shared, sizeof shared);
            j.settings = defaults;
            j.input = place == 0 ? bytes + begin : NULL;
            j.length = place == 0 ? size : 0;
            j.numbers = place == 0 ? (const uint16_t *)(const void *)(bytes + begin) : NULL;
            j.count = place == 0 ? size / 2 : 0;
            j.words[1] = NULL;
            if (place > 0 && strcmp(j.name, "answer") == 0) j.words[1] = shared + begin;
            else if (place == 1 && (name > 1 && name < 6) && name != 2) j.settings.as = PRINT1525_AS_SVG, j.settings.characters = bytes + begin, j.settings.characters_length = size;
            else if (place == 2 && name < 2) j.settings.delays = shared + begin;
            else if (place == 3 && name == 3) j.settings.names = shared + begin;
            else if (place > 0) continue;
            given = call(&j, bytes + 20, 10);
            if ((given.fault == PRINT1525_FAULT_OVERLAP) != overlaps || (overlaps && (!is_answer(given, PRINT1525_REFUSED, PRINT1525_FAULT_OVERLAP, 0, 0) || memcmp(before, shared, sizeof shared) != 0)))
                is_wrong("memory that overlaps, call and row", 100 * name + at);
        }
        j.words[1] = NULL;
    }
    if (print1525_answer(NULL, NULL, 0, buffer.bytes, buffer.size, &length, &details) != PRINT1525_REFUSED || details.fault != PRINT1525_FAULT_NULL_POINTER || length != 0) is_wrong("no words", 0);
    if (print1525_answer(no_words, NULL, 0, buffer.bytes, buffer.size, NULL, NULL) != PRINT1525_DONE) is_wrong("neither length nor details", 0);
}

/* Each fault with its words, and messages in buffers of all sizes. */
static void try_words(void) {
    static const print1525_details rows[] = {
        {PRINT1525_DONE, PRINT1525_FAULT_NONE, 0, 0},
        {PRINT1525_STOPPED, PRINT1525_STOP_FILE_NOT_OPEN, 3, 0},
        {PRINT1525_REFUSED, PRINT1525_FAULT_UNKNOWN_WORD, 12, 0},
        {PRINT1525_REFUSED, PRINT1525_FAULT_TRUNCATED, 0, 0},
        {PRINT1525_REFUSED, PRINT1525_FAULT_UNKNOWN_NAME, 2, 14},
        {PRINT1525_REFUSED, PRINT1525_FAULT_NO_SUCH_INPUT, SIZE_MAX, 0},
        {PRINT1525_REFUSED, PRINT1525_FAULT_ANOTHER_CLOCK, 5, 0},
        {PRINT1525_REFUSED, PRINT1525_FAULT_UTF_16, 1, 0},
        {PRINT1525_FAILED, PRINT1525_FAULT_TOO_SMALL, 0, 0},
        {PRINT1525_REFUSED, 12345, 0, 0},
        {PRINT1525_REFUSED, PRINT1525_FAULT_BAD_SETTING, PRINT1525_SETTING_FROM_TIME, 0},
        {PRINT1525_REFUSED, PRINT1525_FAULT_BAD_SETTING, 99, 0},
        {PRINT1525_STOPPED, PRINT1525_FAULT_NONE, 0, 0},
    };
    char text[99];
    int fault;
    size_t row, capacity, length;
    for (fault = -9; fault < 300; fault++)
        if (strcmp(print1525_strerror(fault), "no fault") != 0) printf("%d %s\n", fault, print1525_strerror(fault));
    for (row = 0; row < sizeof rows / sizeof *rows; row++) {
        char all[99];
        length = print1525_message(&rows[row], all, sizeof all);
        if (strlen(all) != length || print1525_message(&rows[row], NULL, 9) != length) is_wrong("a message's length", length);
        for (capacity = 0; capacity < sizeof text; capacity++) {
            memset(text, UNTOUCHED, sizeof text);
            if (print1525_message(&rows[row], text, capacity) != length) is_wrong("a message's length, capacity", capacity);
            if (!is_untouched((const uint8_t *)(const void *)text + capacity, sizeof text - capacity)) is_wrong("after a message", capacity);
            if (capacity > 0 && (strlen(text) != (length < capacity ? length : capacity - 1) || strncmp(all, text, capacity - 1) != 0))
                is_wrong("a message in little room", capacity);
        }
        printf("%s\n", all);
    }
    if (print1525_message(NULL, text, sizeof text) != 0 || text[0] != '\0') is_wrong("a message of nothing", 0);
}

static const field byte_fields[] = {
    FIELD(print1525_byte, look), FIELD(print1525_byte, ready), FIELD(print1525_byte, answered), FIELD(print1525_byte, answer_ended),
    FIELD(print1525_byte, pull), FIELD(print1525_byte, shortest_low), FIELD(print1525_byte, longest_low), FIELD(print1525_byte, shortest_high),
    FIELD(print1525_byte, longest_high), FIELD(print1525_byte, last_pull), FIELD(print1525_byte, command), FIELD(print1525_byte, eoi),
    FIELD(print1525_byte, bits), FIELD(print1525_byte, byte),
};
#define BYTE_FIELDS (sizeof byte_fields / sizeof *byte_fields)

static const print1525_byte no_byte = {0, 0, 0, 0, 0, 0, 0, 0, 0, 0, 0, 0, 0, 0};

/* A reading that a decoder can give of a recording. */
static int is_lawful(const print1525_reading *reading) {
    return (reading->byte.bits == 8) == (reading->kind <= PRINT1525_BYTE_LAST) && reading->byte.bits <= 8 && reading->byte.byte < 1 << reading->byte.bits;
}

/* A reading that a decoder can give, whatever its numbers are. */
static int may_be_read(const print1525_reading *reading, print1525_details answer) {
    if (!is_answer(told_of(answer, 0), PRINT1525_DONE, 0, 0, 0)) return 0;
    if (reading->kind == PRINT1525_NO_READING) return !reading->end && are_same(&reading->byte, &no_byte, byte_fields, BYTE_FIELDS);
    return reading->kind <= PRINT1525_INCOMPLETE_END && reading->byte.command <= 1 && reading->byte.eoi <= 1;
}

static int is_refused(const print1525_reading *reading, print1525_details answer, int fault) {
    return is_answer(told_of(answer, 0), PRINT1525_REFUSED, fault, 0, 0) && reading->kind == PRINT1525_NO_READING && !reading->end &&
           are_same(&reading->byte, &no_byte, byte_fields, BYTE_FIELDS);
}

/* A decoder, a reading and an answer, each ending where memory ends. */
typedef struct {
    print1525_decoder *decoder;
    print1525_reading *reading;
    print1525_details *answer;
} placed_decoder;

static placed_decoder place_decoder(void) {
    placed_decoder made;
    made.decoder = (print1525_decoder *)(void *)guard(sizeof *made.decoder).bytes;
    made.reading = (print1525_reading *)(void *)guard(sizeof *made.reading).bytes;
    made.answer = (print1525_details *)(void *)guard(sizeof *made.answer).bytes;
    return made;
}

/* Whatever numbers a decoder has, it refuses nothing but an edge that goes back, and then nothing is changed. */
static void try_decoder_numbers(placed_decoder at, const print1525_edge *edge, size_t number) {
    const print1525_decoder before = *at.decoder;
    print1525_decoder_end(at.decoder, at.reading, at.answer);
    if (!may_be_read(at.reading, *at.answer)) is_wrong("an end for a decoder's numbers, field", number);
    print1525_decoder_edge(at.decoder, edge, at.reading, at.answer);
    if (at.answer->status == PRINT1525_DONE ? !may_be_read(at.reading, *at.answer) : !is_refused(at.reading, *at.answer, PRINT1525_FAULT_GOES_BACK))
        is_wrong("an edge for a decoder's numbers, field", number);
    if (at.answer->status != PRINT1525_DONE && memcmp(&before, at.decoder, sizeof before) != 0) is_wrong("a refused decoder is changed, field", number);
}

/* Each byte of a decoder in turn is another. */
static void try_other_decoders(placed_decoder at, const print1525_decoder *decoder, const print1525_edge *edge) {
    static const uint8_t others[] = {0, 1, 2, 3, 4, 5, 77, 128, 255};
    size_t index, other;
    for (index = 0; index < sizeof *decoder; index++)
        for (other = 0; other < sizeof others; other++) {
            *at.decoder = *decoder;
            ((uint8_t *)(void *)at.decoder)[index] = others[other];
            try_decoder_numbers(at, edge, index);
        }
}

/* A copy of a decoder goes its own way. */
static void try_decoder_copy(placed_decoder at, const print1525_decoder *decoder, const print1525_edge *edge, size_t count) {
    const print1525_decoder before = *decoder;
    print1525_decoder other = *decoder;
    print1525_reading reading;
    print1525_details answer;
    *at.decoder = *decoder;
    print1525_decoder_edge(&other, edge, &reading, &answer);
    print1525_decoder_edge(at.decoder, edge, at.reading, at.answer);
    if (!are_details(told_of(answer, 0), told_of(*at.answer, 0)) || reading.kind != at.reading->kind || reading.end != at.reading->end ||
        !are_same(&reading.byte, &at.reading->byte, byte_fields, BYTE_FIELDS) || memcmp(&other, at.decoder, sizeof other) != 0)
        is_wrong("a copy of a decoder, after edges", count);
    if (memcmp(&before, decoder, sizeof before) != 0) is_wrong("a decoder changes with its copy, after edges", count);
}

/* Memory of zeros is a decoder just begun. A decoder refuses an edge that is before the one taken last, with nothing changed; a byte that the
 * recording's end cuts is given by the end alone, each time the end is asked for. */
static void try_decoder(void) {
    static const char levels[] = "100110111101111101";
    static const print1525_edge later = {9, 1, 0, 1}, earlier = {8, 1, 1, 1};
    print1525_decoder decoder, before;
    print1525_reading reading;
    print1525_details answer;
    size_t index;
    memset(&decoder, 0, sizeof decoder);
    print1525_decoder_begin(&before, NULL);
    print1525_decoder_edge(&decoder, &later, &reading, &answer);
    print1525_decoder_edge(&before, &later, &reading, &answer);
    if (memcmp(&before, &decoder, offsetof(print1525_edge, data)) != 0) is_wrong("a decoder of zeros", 0);
    print1525_decoder_begin(&decoder, &answer);
    if (!is_answer(told_of(answer, 0), PRINT1525_DONE, 0, 0, 0)) is_wrong("a decoder just begun", 0);
    print1525_decoder_edge(&decoder, &later, &reading, &answer);
    before = decoder;
    print1525_decoder_edge(&decoder, &earlier, &reading, &answer);
    if (!is_answer(told_of(answer, 0), PRINT1525_REFUSED, PRINT1525_FAULT_GOES_BACK, 0, 0) || memcmp(&before, &decoder, sizeof decoder) != 0)
        is_wrong("an edge that goes back", (size_t)answer.fault);
    print1525_decoder_begin(&decoder, NULL);
    for (index = 0; index < 6; index++) {
        const char *const level = levels + 3 * index;
        print1525_edge edge;
        edge.time = 100 * index;
        edge.atn = level[0] != '0';
        edge.clock = level[1] != '0';
        edge.data = level[2] != '0';
        print1525_decoder_edge(&decoder, &edge, &reading, &answer);
        if (!is_answer(told_of(answer, 0), PRINT1525_DONE, 0, 0, 0) || reading.kind != PRINT1525_NO_READING || reading.byte.look != 0)
            is_wrong("a reading at edge", index);
    }
    for (index = 0; index < 2; index++) {
        print1525_decoder_end(&decoder, &reading, &answer);
        if (!is_answer(told_of(answer, 0), PRINT1525_DONE, 0, 0, 0) || reading.kind != PRINT1525_INCOMPLETE_END || reading.end != 0 ||
            reading.byte.look != 100 || reading.byte.ready != 200 || reading.byte.pull != 300 || reading.byte.last_pull != 500 ||
            reading.byte.bits != 1 || reading.byte.byte != 1 || reading.byte.command != 0 || reading.byte.eoi != 0 ||
            reading.byte.shortest_low != 100 || reading.byte.longest_high != 100)
            is_wrong("the byte that is cut", index);
    }
}

/* The calls for edges refuse each pointer that is NULL, and take structures that overlap as copies of them. */
static void try_edge_pointers(void) {
    static const print1525_edge first = {0, 1, 1, 1};
    print1525_decoder decoder, decoder_before;
    print1525_receiver receiver;
    print1525_device device;
    print1525_step step = {77, 77, {77, 77, 77}};
    print1525_received came = {77, 77, 77};
    print1525_reading reading;
    print1525_details details;
    size_t length = 77;
    memset(&reading, UNTOUCHED, sizeof reading);
    memset(&decoder, 0, sizeof decoder);
    memset(&receiver, 0, sizeof receiver);
    if (print1525_device_size() != sizeof device || print1525_decoder_size() != sizeof decoder || print1525_receiver_size() != sizeof receiver) is_wrong("a size", 0);
    if (print1525_device_begin(&device, 4, NULL, NULL) != PRINT1525_DONE || print1525_decoder_begin(&decoder, NULL) != PRINT1525_DONE) is_wrong("a beginning", 0);
    decoder_before = decoder;
#define REFUSES(it)                                                                                                                      \
    do {                                                                                                                                 \
        memset(&details, UNTOUCHED, sizeof details);                                                                                     \
        if ((it) != PRINT1525_REFUSED || !is_answer(told_of(details, 0), PRINT1525_REFUSED, PRINT1525_FAULT_NULL_POINTER, 0, 0)) is_wrong(#it, 0); \
    } while (0)
    REFUSES(print1525_decoder_begin(NULL, &details));
    REFUSES(print1525_decoder_edge(NULL, &first, &reading, &details));
    REFUSES(print1525_decoder_edge(&decoder, NULL, &reading, &details));
    REFUSES(print1525_decoder_edge(&decoder, &first, NULL, &details));
    REFUSES(print1525_decoder_end(NULL, &reading, &details));
    REFUSES(print1525_decoder_end(&decoder, NULL, &details));
    REFUSES(print1525_receiver_begin(NULL, 4, &details));
    REFUSES(print1525_receiver_edge(NULL, &first, &came, &details));
    REFUSES(print1525_receiver_edge(&receiver, NULL, &came, &details));
    REFUSES(print1525_receiver_edge(&receiver, &first, NULL, &details));
    REFUSES(print1525_device_begin(NULL, 4, NULL, &details));
    REFUSES(print1525_device_step(NULL, &first, &step, &details));
    REFUSES(print1525_device_step(&device, NULL, &step, &details));
    REFUSES(print1525_device_step(&device, &first, NULL, &details));
    REFUSES(print1525_device_busy(NULL, 9, &details));
#undef REFUSES
    if (print1525_receiver_edge(NULL, NULL, NULL, NULL) != PRINT1525_REFUSED || print1525_decoder_edge(NULL, NULL, NULL, NULL) != PRINT1525_REFUSED) is_wrong("no details", 0);
    if (memcmp(&decoder, &decoder_before, sizeof decoder) != 0 || came.kind != 77 || step.wake != 77 || !is_untouched((const uint8_t *)(const void *)&reading, sizeof reading))
        is_wrong("something is changed beside a NULL pointer", 0);
    /* More edges than a size_t has bytes for. */
    print1525_edges("0 111\n", 6, NULL, NULL, SIZE_MAX / 16 + 1, &length, &details);
    if (!is_answer(told_of(details, length), PRINT1525_REFUSED, PRINT1525_FAULT_NULL_POINTER, 0, 0)) is_wrong("too many edges", 0);
}

/* A text that ends where memory ends. */
static const char *text_at_end(const char *text) {
    const guarded made = guard(strlen(text) + 1);
    memcpy(made.bytes, text, made.size);
    return (const char *)made.bytes;
}

static guarded file_of(const char *name) {
    FILE *const file = fopen(name, "rb");
    guarded made;
    if (!file) exit(98);
    made = read_all(file);
    fclose(file);
    return made;
}

/* The settings that the program's options say. */
static void set(job *j, int words, char **word) {
    int at, count;
    for (at = 2; at < words; at += count) {
        const char *const value = at + 1 < words ? text_at_end(word[at + 1]) : NULL;
        count = value != NULL && strcmp(word[at], "--characters") == 0 ? 2 : set_option(&j->settings, word[at], value);
        if (count == 0) exit(97);
        if (value != NULL && strcmp(word[at], "--characters") == 0) {
            const guarded file = file_of(value);
            j->settings.characters = file.bytes;
            j->settings.characters_length = file.size;
        }
    }
}

/* The words of print1525_answer, each ending where memory ends. */
static void set_words(job *j, int words, char **word) {
    int at;
    for (at = 2; at < words && at < 62; at++) {
        if (at > 2 && strcmp(word[at - 1], "--characters") == 0) {
            const guarded file = file_of(word[at]), text = guard(file.size + 1);
            memcpy(text.bytes, file.bytes, file.size);
            text.bytes[file.size] = 0;
            j->words[at - 2] = (const char *)text.bytes;
        } else j->words[at - 2] = text_at_end(word[at]);
    }
}

/* The edges of a recording: with room for all of them, for fewer, and with each allocation refused in turn. */
static answered edges_of(const job *j) {
    answered answer = call_edges(j, NULL, 0), other;
    print1525_edge *edges, *before;
    const size_t count = answer.length;
    size_t room;
    long number, all;
    edges = (print1525_edge *)(void *)guard(count * sizeof *edges).bytes;
    before = (print1525_edge *)(void *)guard(count * sizeof *edges).bytes;
    taken = 0;
    answer = call_edges(j, edges, count);
    all = taken;
    if (live != 0) is_wrong("memory of edges is not given back", (size_t)live);
    if (answer.length != count) is_wrong("other edges than were asked for", count);
    for (room = 0; room < count; room++) printf("%lu %u%u%u\n", (unsigned long)edges[room].time, edges[room].atn, edges[room].clock, edges[room].data);
    memcpy(before, edges, count * sizeof *edges);
    for (room = 0; room < count; room++) {
        other = call_edges(j, edges + count - room, room);
        if (!is_answer(other, PRINT1525_FAILED, PRINT1525_FAULT_TOO_SMALL, 0, count) || memcmp(edges, before, count * sizeof *edges) != 0)
            is_wrong("edges in little room", room);
        if (room > 200) room += count / 50;
    }
    for (number = 1; number <= all; number++) {
        taken = 0;
        refused_one = number;
        other = call_edges(j, edges, count);
        refused_one = 0;
        if (live != 0 || (other.status == PRINT1525_FAILED ? !is_answer(other, PRINT1525_FAILED, PRINT1525_FAULT_NO_MEMORY, 0, 0) : !are_details(other, answer)) ||
            memcmp(edges, before, count * sizeof *edges) != 0)
            is_wrong("edges with a refused allocation", (size_t)number);
    }
    return answer;
}

/* What a reading's kind is called. */
static const char *kind_of(uint8_t kind) {
    switch (kind) {
    case PRINT1525_BYTE_ACKNOWLEDGED: return "acknowledged";
    case PRINT1525_BYTE_UNACKNOWLEDGED: return "unacknowledged";
    case PRINT1525_BYTE_LAST: return "cut";
    case PRINT1525_INCOMPLETE_ATN: return "attention";
    case PRINT1525_INCOMPLETE_SILENCE: return "silence";
    case PRINT1525_INCOMPLETE_END: return "cut-within";
    default: return "nothing";
    }
}

/* A reading with all that is known of it, as tests/lib/readings.py --fields has it. */
static void tell_reading(const print1525_reading *reading) {
    const print1525_byte *const byte = &reading->byte;
    const uint64_t moments[] = {reading->end, byte->look, byte->ready, byte->answered, byte->answer_ended, byte->pull,
                                byte->shortest_low, byte->longest_low, byte->shortest_high, byte->longest_high, byte->last_pull};
    size_t index;
    printf("%s", kind_of(reading->kind));
    for (index = 0; index < sizeof moments / sizeof *moments; index++) printf(" %lu", (unsigned long)moments[index]);
    printf(" %u %u %u %u\n", byte->command, byte->eoi, byte->bits, byte->byte);
}

/* All readings of a recording; the numbers of the decoder and of its answer are where memory ends. */
static int readings(guarded text) {
    const guarded place = guard((text.size / 6 + 1) * sizeof(print1525_edge));
    const placed_decoder at = place_decoder(), others = place_decoder();
    print1525_edge *const edges = (print1525_edge *)(void *)(place.bytes - (size_t)place.bytes % sizeof(uint64_t));
    print1525_decoder *const decoder = at.decoder;
    print1525_reading *const reading = at.reading;
    print1525_details *const answer = at.answer;
    const size_t count = read_edges(text, edges);
    size_t index;
    taken = 0;
    print1525_decoder_begin(decoder, NULL);
    for (index = 0; index < count; index++) {
        if (index % step_of(count) == 0) try_other_decoders(others, decoder, &edges[index]);
        try_decoder_copy(others, decoder, &edges[index], index);
        print1525_decoder_edge(decoder, &edges[index], reading, answer);
        if (answer->status != PRINT1525_DONE) is_wrong("an answer of a decoder at edge", index);
        if (reading->kind != PRINT1525_NO_READING && !is_lawful(reading)) is_wrong("a reading at edge", index);
        if (reading->kind != PRINT1525_NO_READING) tell_reading(reading);
    }
    print1525_decoder_end(decoder, reading, answer);
    if (answer->status != PRINT1525_DONE) is_wrong("an answer of a decoder's end", (size_t)answer->status);
    if (reading->kind != PRINT1525_NO_READING) tell_reading(reading);
    if (taken != 0) is_wrong("a decoder takes memory", (size_t)taken);
    return wrong ? 99 : 0;
}

int main(int words, char **word) {
    static job j;
    const char *once = getenv("CALLS");
    answered answer;
    guarded input, buffer, empty = guard(0);
    /* What MinGW's start has taken for the words is its own. */
    live = 0;
    if (words < 2) return 98;
    if (getenv("FEW")) parts = FEW_OF;
    is_all = parts == 1 && once && strcmp(once, "all") == 0;
    j.name = word[1];
    if (strcmp(j.name, "settings") == 0) try_settings();
    else if (strcmp(j.name, "pointers") == 0) try_pointers(), try_edge_pointers();
    else if (strcmp(j.name, "words") == 0) try_words();
    else if (strcmp(j.name, "decoder") == 0) try_decoder();
    else if (strcmp(j.name, "readings") == 0) readings(read_all(stdin));
    else if (strcmp(j.name, "receiver") == 0) {
        answer = receive((uint8_t)(words > 2 ? atoi(word[2]) : 4), read_all(stdin));
        tell(answer);
        return wrong ? 99 : answer.status;
    } else {
        if (strcmp(j.name, "answer") == 0) set_words(&j, words, word);
        else set(&j, words, word);
        input = read_all(stdin);
        j.input = input.bytes;
        j.length = input.size;
        if (strcmp(j.name, "edges") == 0) {
            answer = edges_of(&j);
            tell(answer);
            return wrong ? 99 : answer.status;
        }
        if (strcmp(j.name, "print") == 0) read_numbers(&j);
        answer = call(&j, empty.bytes, 0);
        buffer = guard(answer.fault == PRINT1525_FAULT_TOO_SMALL ? answer.length + 16 : 99);
        if (answer.fault == PRINT1525_FAULT_TOO_SMALL) {
            uint8_t *const front = buffer.bytes + 16;
            const size_t needed = answer.length;
            answer = call(&j, front, needed);
            if (answer.length != needed) is_wrong("another text than was asked for", needed);
            fwrite(front, 1, answer.length, stdout);
        }
        if (!once || strcmp(once, "once") != 0) {
            guarded text = guard(answer.length);
            memcpy(text.bytes, buffer.bytes + 16, has_text(answer) ? answer.length : 0);
            if (strcmp(j.name, "answer") != 0) try_defaults(&j, buffer.bytes, buffer.size);
            try_sizes(&j, buffer, answer, text.bytes);
            try_refusals(&j, buffer, has_text(answer) ? answer.length : 9, answer, text.bytes);
        }
        tell(answer);
        return wrong ? 99 : answer.status;
    }
    return wrong ? 99 : 0;
}
