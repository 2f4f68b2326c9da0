/* Every call of include/print1525.h with made structures and buffers, many of them damaged: fuzz SEED ROUNDS
 *
 * Each input and buffer ends where memory ends. In each round a call, its settings, its input and its room are drawn; settings,
 * decoders, receivers and printers are mostly lawful, and sometimes bytes of nothing. What every call has to keep is tested: a status of
 * 0 to 3 with the details that belong to it, a buffer that stays as it was after the text and with every other status, inputs that stay,
 * and the same answer when it is asked again. Some allocations are refused. Status 0, else 1 and a line with the round. (tests/c/header.py
 * says which calls of the header are not here.) */
#define _DEFAULT_SOURCE
#include "codes.h"
#include "print1525.h"
#include <stdio.h>
#include <stdlib.h>
#include <string.h>
#include <sys/mman.h>
#include <unistd.h>

#define ROOM (1 << 18)
#define UNTOUCHED 0xA5
/* How many settings are numbers of a byte, from the first on. */
#define SETTINGS 16
/* Where a printer has no room for a line more: only one of damaged numbers comes there. */
#define LAST_LINE (((uint64_t)1 << 63) - 9999)

void *__real_malloc(size_t size);
void *__real_realloc(void *old, size_t size);
void __real_free(void *old);
void *__wrap_malloc(size_t size);
void *__wrap_realloc(void *old, size_t size);
void __wrap_free(void *old);

static long live, taken, refused_one;

void *__wrap_malloc(size_t size) {
    void *block;
    if (++taken == refused_one) return NULL;
    block = __real_malloc(size);
    live += block != NULL;
    return block;
}

void *__wrap_realloc(void *old, size_t size) {
    if (++taken == refused_one) return NULL;
    live += old == NULL;
    return __real_realloc(old, size);
}

void __wrap_free(void *old) {
    live -= old != NULL;
    __real_free(old);
}

static uint64_t state;
static unsigned long round_now;
static int wrong;

static uint64_t drawn(void) {
    state ^= state << 13;
    state ^= state >> 7;
    state ^= state << 17;
    return state;
}

static size_t below(size_t limit) { return (size_t)(drawn() >> 20) % limit; }

static void is_wrong(const char *call, const char *what) {
    if (wrong++ < 9) fprintf(stderr, "WRONG: round %lu, %s: %s\n", round_now, call, what);
}

/* Memory of ROOM bytes that ends where memory ends. */
static uint8_t *guard(void) {
    const size_t page = (size_t)sysconf(_SC_PAGESIZE);
    uint8_t *const start = (uint8_t *)mmap(NULL, ROOM + page, PROT_READ | PROT_WRITE, MAP_PRIVATE | MAP_ANONYMOUS, -1, 0);
    if (start == (uint8_t *)MAP_FAILED || mprotect(start + ROOM, page, PROT_NONE) != 0) exit(98);
    return start;
}

static const char *const pieces[] = {
    "OPEN 4,4\n", "OPEN 5,5,7\n", "OPEN 1,4,7\n", "CMD 4\n", "CMD 4,\"X\";\n", "PRINT#4,\"HELLO\"\n", "PRINT#5,CHR$(14)\"WIDE\"\n", "PRINT \"A\"\n", "CLOSE 4\n",
    "10 PRINT#4,CHR$(8)\"ABC\"CHR$(26)CHR$(9)\"X\"\n", "PRINT#9\n", "OPEN 4,4:OPEN 4,4\n", "REM\n", "\n", "10 open4,4\n", "20 print#4,\"{rvon}a{2 down}\"\n",
    "printer 4\n", "0 111\n", "100 011\n", "1100 001\n", "1110 000\n", "1300 010\n", "1310 011\n", "lawful\n", "upper 65\n#####.\n",
    "$timescale 1 us $end\n", "$var wire 1 ! ATN $end\n$var wire 1 \" CLOCK $end\n$var wire 1 # DATA $end\n$enddefinitions $end\n#0\n1!\n1\"\n1#\n",
    "#100\n0!\n", "#1100\n0\"\n0#\n", "time,ATN,CLOCK,DATA\n0,1,1,1\n", "100,0,1,1\n1100,0,0,1\n", "\001\010\010\010\012\000\231\"A\"\000",
};

/* An input at the end of its memory: pieces of scripts, listings and traces, with some bytes changed. */
static const uint8_t *made_input(uint8_t *memory, size_t *length) {
    size_t count = 0, piece, index, changed;
    uint8_t *front;
    static uint8_t text[4096];
    if (below(20) == 0) {
        *length = 0;
        return below(2) ? NULL : memory + ROOM;
    }
    for (piece = 1 + below(12); piece > 0; piece--) {
        const char *const it = pieces[below(sizeof pieces / sizeof *pieces)];
        const size_t size = it[0] == 1 ? 12 : strlen(it);
        memcpy(text + count, it, size);
        count += size;
    }
    if (below(3) == 0)
        for (changed = 1 + below(8); changed > 0; changed--) text[below(count)] = (uint8_t)drawn();
    if (below(8) == 0)
        for (index = 0; index < count; index++) text[index] = (uint8_t)drawn();
    if (below(5) == 0) count = below(count + 1);
    front = memory + ROOM - count;
    memcpy(front, text, count);
    *length = count;
    return front;
}

static const uint16_t *made_numbers(uint8_t *memory, size_t most, size_t *length) {
    size_t index;
    uint16_t *front;
    *length = below(most);
    if (*length == 0 && below(2)) return NULL;
    front = (uint16_t *)(void *)(memory + ROOM - *length * sizeof *front);
    for (index = 0; index < *length; index++) front[index] = (uint16_t)(below(20) ? below(258) : drawn());
    return front;
}

/* Numbers as of --delays, or what is none, at the end of its memory. */
static const char *made_text(uint8_t *memory, const char *signs) {
    const size_t length = below(30);
    char *const front = (char *)memory + ROOM - length - 1;
    size_t index;
    for (index = 0; index < length; index++) front[index] = below(9) ? signs[below(strlen(signs))] : (char)(1 + below(255));
    front[length] = '\0';
    return front;
}

/* Settings that a call mostly reads: `call` is its number. */
static print1525_settings made_settings(size_t call, uint8_t *memories[4]) {
    print1525_settings made = PRINT1525_SETTINGS_INIT;
    const size_t bad = below(12);
    const int runs = call == 1 || call == 2, draws = (call == 1 || call == 4 || call == 6 || call == 7), records = call == 0 || call == 5 || call == 6;
    if (bad == 0) {
        size_t index;
        uint8_t *const bytes = (uint8_t *)(void *)&made;
        for (index = 0; index < SETTINGS; index++) bytes[index] = (uint8_t)(below(2) ? below(4) : drawn());
    }
    if (below(4)) made.as = draws ? (uint8_t)(below(2) ? 1 + below(2) : 7 + below(4)) : (uint8_t)below(11);
    if (below(3) == 0) made.from = (uint8_t)(records ? (below(2) ? 1 + below(2) : 6 + below(2)) : below(6));
    if (runs && below(2)) {
        made.present = (uint8_t)below(4);
        made.status = (uint8_t)below(2);
        if (below(2)) made.delays = made_text(memories[0], "0123456789,,/");
    }
    if (call == 4) made.set = (uint8_t)below(2);
    if (draws && made.as >= PRINT1525_AS_SVG) {
        made.device = (uint8_t)(below(3) ? 0 : 4 + below(2));
        if (made.as <= PRINT1525_AS_PNG) made.sheet = below(4) ? 0 : below(3);
        if (made.as <= PRINT1525_AS_PDF && below(2)) made.top = (uint8_t)(below(8) ? below(66) : drawn());
        if (made.as == PRINT1525_AS_PNG) made.scale = (uint8_t)(below(8) ? below(9) : drawn());
        if (made.as == PRINT1525_AS_PDF) made.paper = (uint8_t)below(3), made.holes = made.paper == 0 && below(2);
        if (made.as <= PRINT1525_AS_PDF && below(6) == 0) made.characters = made_input(memories[3], &made.characters_length);
    }
    if (call == 6 && made.as <= PRINT1525_AS_LIST) made.intervals = (uint8_t)below(2), made.bounds = (uint8_t)below(2);
    if (call == 6 && made.as != PRINT1525_AS_JSON && made.as >= PRINT1525_AS_TEXT && below(3) == 0) made.listening = (uint8_t)below(4), made.set = made.listening && below(2), made.strict = (uint8_t)below(2);
    if (records && made.from != PRINT1525_FROM_TEXT && (call != 5 || made.from) && below(3) == 0) {
        made.invert = (uint8_t)below(2);
        made.from_time = below(4) ? 0 : below(2000);
        if (made.from != PRINT1525_FROM_VCD) made.rate = below(4) ? 0 : drawn() >> below(64);
        if (below(3) == 0) made.names = below(2) ? "ATN,CLK,DATA" : made_text(memories[1], "ABC,,");
    }
    if (call != 0 && call != 3 && call != 7 && below(8) == 0) made.explain = 1;
    if (bad == 1) made.reserved[below(3)] = drawn();
    return made;
}

static int is_untouched(const uint8_t *bytes, size_t count) {
    size_t index;
    for (index = 0; index < count; index++)
        if (bytes[index] != UNTOUCHED) return 0;
    return 1;
}

/* The details belong to the status, and the length to both; with a text before its fault they may be those of a recording. */
static void test_details(const char *call, int status, const print1525_details *details, size_t length, size_t capacity, int may_be_cut) {
    char message[99];
    const size_t said = print1525_message(details, message, sizeof message);
    const int is_told = status != PRINT1525_DONE && details->fault != PRINT1525_FAULT_NONE;
    if (status != details->status || status < 0 || status > 3) is_wrong(call, "the status");
    if (status == PRINT1525_DONE && details->fault != PRINT1525_FAULT_NONE) is_wrong(call, "a fault");
    if (status > PRINT1525_STOPPED && details->fault == PRINT1525_FAULT_NONE) is_wrong(call, "no fault");
    if (status != PRINT1525_STOPPED && details->fault > 100) is_wrong(call, "a BASIC error");
    if ((status == PRINT1525_FAILED) != (details->fault == PRINT1525_FAULT_NO_MEMORY || details->fault == PRINT1525_FAULT_TOO_SMALL)) is_wrong(call, "a failure");
    if ((length > capacity) != (details->fault == PRINT1525_FAULT_TOO_SMALL)) is_wrong(call, "the length");
    if (status == PRINT1525_REFUSED && length != 0 && !may_be_cut) is_wrong(call, "the length of nothing");
    if ((said != 0) != is_told || said >= sizeof message || strlen(message) != said) is_wrong(call, "the message");
    if (is_told && strcmp(print1525_strerror(details->fault), "no fault") == 0) is_wrong(call, "a fault without words");
}

/* The same of a call that fills no buffer. */
static void test_told(const char *call, int status, const print1525_details *details) { test_details(call, status, details, 0, 0, 0); }

/* The calls that take an input and settings, by their numbers. */
typedef int text_call(const void *, size_t, const print1525_settings *, void *, size_t, size_t *, print1525_details *);

/* Edges as items of sixteen bytes. */
static int edges(const void *input, size_t count, const print1525_settings *settings, void *buffer, size_t capacity, size_t *length, print1525_details *details) {
    const int status = print1525_edges(input, count, settings, (print1525_edge *)buffer, capacity / sizeof(print1525_edge), length, details);
    *length *= sizeof(print1525_edge);
    return status;
}

static int print(const void *input, size_t count, const print1525_settings *settings, void *buffer, size_t capacity, size_t *length, print1525_details *details) {
    return print1525_print((const uint16_t *)input, count, settings, buffer, capacity, length, details);
}

static const char *words_now[8];

static int answer(const void *input, size_t count, const print1525_settings *settings, void *buffer, size_t capacity, size_t *length, print1525_details *details) {
    (void)settings;
    return print1525_answer(words_now, input, count, buffer, capacity, length, details);
}

static const struct {
    const char *name;
    text_call *call;
    int may_be_cut;
} calls[] = {
    {"edges", edges, 1}, {"pages", print1525_pages, 0}, {"bus", print1525_bus, 0}, {"listing", print1525_listing, 0}, {"raw", print1525_raw, 0},
    {"check", print1525_check, 1}, {"decode", print1525_decode, 1}, {"print", print, 0}, {"answer", answer, 1},
};
#define CALLS (sizeof calls / sizeof *calls)
#define PRINT (CALLS - 2)

/* Words of a command line, some of them no word of any. */
static void make_words(void) {
    static const char *const some[] = {"pages", "bus", "check", "decode", "raw", "--as", "text", "svg", "json", "--from", "auto", "csv", "--explain", "--help", "--status", "kept", "--quiet", "--characters", "upper 32\n", "", "\377"};
    size_t index;
    words_now[0] = some[below(5)];
    for (index = 1; index < below(7); index++) words_now[index] = some[below(sizeof some / sizeof *some)];
    words_now[index] = NULL;
}

static void try_text(uint8_t *memories[6]) {
    static uint8_t before[8192], text[ROOM];
    const size_t call = below(CALLS);
    const char *const name = calls[call].name;
    const print1525_settings drawn_settings = made_settings(call, memories);
    print1525_settings settings = drawn_settings;
    const print1525_settings *const with = below(30) ? &settings : NULL;
    const int may_be_cut = calls[call].may_be_cut || (with != NULL && settings.explain);
    print1525_details details, again;
    size_t count, size, capacity, length = 77, other = 77, overlap = below(40);
    const void *input;
    uint8_t *buffer;
    int status;
    make_words();
    if (call == PRINT) input = made_numbers(memories[4], 300, &count);
    else input = made_input(memories[4], &count);
    size = call == PRINT ? 2 * count : count;
    if (size) memcpy(before, input, size);
    live = taken = 0;
    refused_one = below(6) ? 0 : 1 + (long)below(60);
    capacity = below(3) ? ROOM : below(3000);
    if (call == 0) capacity = capacity / sizeof(print1525_edge) * sizeof(print1525_edge);
    buffer = capacity || below(2) ? memories[5] + ROOM - capacity : NULL;
    memset(memories[5], UNTOUCHED, ROOM);
    if (overlap == 0 && size > 0 && capacity > 0 && call != 0) {
        /* The buffer begins within the input. */
        uint8_t *const inside = (uint8_t *)memories[4] + ROOM - size + below(size);
        capacity = 1 + below((size_t)(memories[4] + ROOM - inside));
        status = calls[call].call(input, count, &settings, inside, capacity, &length, &details);
        if (status != PRINT1525_REFUSED || details.fault != PRINT1525_FAULT_OVERLAP || length != 0) is_wrong(name, "an overlap");
        if (memcmp(before, input, size) != 0) is_wrong(name, "an input beside an overlap");
        return;
    }
    status = calls[call].call(input, count, with, buffer, capacity, &length, &details);
    test_details(name, status, &details, length, capacity, may_be_cut);
    if (live != 0) is_wrong(name, "memory");
    if (size && memcmp(before, input, size) != 0) is_wrong(name, "the input");
    if (memcmp(&settings, &drawn_settings, sizeof settings) != 0) is_wrong(name, "the settings");
    if (status > PRINT1525_REFUSED) length = 0;
    if (!is_untouched(memories[5], ROOM - capacity) || !is_untouched(memories[5] + ROOM - capacity + length, capacity - length)) is_wrong(name, "the buffer");
    if (refused_one || buffer == NULL) return;
    memcpy(text, buffer, length);
    if (calls[call].call(input, count, with, buffer, capacity, &other, &again) != status || memcmp(&again, &details, sizeof again) != 0 ||
        (status <= PRINT1525_REFUSED && other != length) || memcmp(text, buffer, length) != 0)
        is_wrong(name, "another answer");
}

/* An edge: mostly a little later than the last. */
static print1525_edge made_edge(uint64_t *time) {
    static const uint16_t steps[] = {0, 1, 20, 40, 60, 80, 200, 256, 1000, 2000};
    print1525_edge made;
    const uint64_t levels = drawn() >> 9;
    *time += steps[below(10)];
    made.time = below(50) ? *time : drawn() >> below(64);
    made.atn = levels & 1 ? (uint8_t)(levels >> 8) : 0;
    made.clock = levels & 2 ? 1 : 0;
    made.data = levels & 4 ? 1 : 0;
    return made;
}

/* A structure at the end of its memory, of bytes that nobody began or of one that was begun, and some bytes changed. */
static void damage(void *place, size_t size) {
    uint8_t *const bytes = (uint8_t *)place;
    size_t index;
    if (below(4) == 0)
        for (index = 0; index < size; index++) bytes[index] = (uint8_t)drawn();
    for (index = below(3); index > 0; index--) bytes[below(size)] = (uint8_t)(below(2) ? drawn() : below(12));
}

static void try_decoder(uint8_t *memories[6]) {
    print1525_decoder *const decoder = (print1525_decoder *)(void *)(memories[0] + ROOM - sizeof *decoder);
    print1525_reading *const reading = (print1525_reading *)(void *)(memories[1] + ROOM - sizeof *reading);
    print1525_details *const details = (print1525_details *)(void *)(memories[2] + ROOM - sizeof *details);
    print1525_edge *const edge = (print1525_edge *)(void *)(memories[3] + ROOM - sizeof *edge);
    uint64_t time = below(1000);
    size_t count;
    test_told("decoder_begin", print1525_decoder_begin(decoder, details), details);
    if (print1525_decoder_size() != sizeof *decoder || print1525_receiver_size() != sizeof(print1525_receiver)) is_wrong("decoder_size", "the size");
    for (count = below(40); count > 0; count--) {
        print1525_decoder before, other;
        print1525_reading settled;
        print1525_details told;
        if (below(30) == 0) damage(decoder, sizeof *decoder);
        *edge = made_edge(&time);
        before = other = *decoder;
        test_told("decoder_edge", print1525_decoder_edge(decoder, edge, reading, details), details);
        if (details->status != PRINT1525_DONE && memcmp(&before, decoder, sizeof before) != 0) is_wrong("decoder_edge", "a decoder that refuses");
        if (reading->kind > PRINT1525_INCOMPLETE_END || (details->status != PRINT1525_DONE && reading->kind != PRINT1525_NO_READING)) is_wrong("decoder_edge", "the reading");
        print1525_decoder_edge(&other, edge, &settled, &told);
        if (memcmp(&told, details, sizeof told) != 0 || settled.kind != reading->kind || settled.end != reading->end) is_wrong("decoder_edge", "another answer");
        test_told("decoder_end", print1525_decoder_end(decoder, reading, details), details);
    }
}

static void try_receiver(uint8_t *memories[6]) {
    print1525_receiver *const receiver = (print1525_receiver *)(void *)(memories[0] + ROOM - sizeof *receiver);
    print1525_received *const came = (print1525_received *)(void *)(memories[1] + ROOM - sizeof *came);
    print1525_details *const details = (print1525_details *)(void *)(memories[2] + ROOM - sizeof *details);
    print1525_edge *const edge = (print1525_edge *)(void *)(memories[3] + ROOM - sizeof *edge);
    const uint8_t device = (uint8_t)(below(9) ? 4 + below(2) : drawn());
    uint64_t time = below(1000);
    size_t count;
    if (print1525_receiver_begin(receiver, device, details) != (device >= 4 && device <= 30 ? PRINT1525_DONE : PRINT1525_REFUSED)) is_wrong("receiver_begin", "the device");
    test_told("receiver_begin", details->status, details);
    if (details->status != PRINT1525_DONE) memset(receiver, 0, sizeof *receiver);
    for (count = below(60); count > 0; count--) {
        print1525_receiver before, other;
        print1525_received again;
        print1525_details told;
        if (below(30) == 0) damage(receiver, sizeof *receiver);
        *edge = made_edge(&time);
        before = other = *receiver;
        test_told("receiver_edge", print1525_receiver_edge(receiver, edge, came, details), details);
        if (details->status != PRINT1525_DONE && memcmp(&before, receiver, sizeof before) != 0) is_wrong("receiver_edge", "a receiver that refuses");
        if ((details->status != PRINT1525_DONE && came->kind != PRINT1525_NOTHING_RECEIVED) || came->kind > PRINT1525_RECEIVED_UNLISTEN || came->eoi > 1) is_wrong("receiver_edge", "what came");
        print1525_receiver_edge(&other, edge, &again, &told);
        if (memcmp(&told, details, sizeof told) != 0 || memcmp(&again, came, sizeof again) != 0) is_wrong("receiver_edge", "another answer");
    }
}

static void try_device(uint8_t *memories[6]) {
    print1525_device *const device = (print1525_device *)(void *)(memories[0] + ROOM - sizeof *device);
    print1525_step *const step = (print1525_step *)(void *)(memories[1] + ROOM - sizeof *step);
    print1525_details *const details = (print1525_details *)(void *)(memories[2] + ROOM - sizeof *details);
    print1525_edge *const edge = (print1525_edge *)(void *)(memories[3] + ROOM - sizeof *edge);
    print1525_timing *const timing = (print1525_timing *)(void *)(memories[4] + ROOM - sizeof *timing);
    const uint8_t address = (uint8_t)(below(9) ? 4 + below(2) : drawn());
    uint64_t time = below(1000);
    size_t count;
    memset(timing, 0, sizeof *timing);
    if (below(3) == 0) timing->hold = (uint16_t)(below(9) ? 1 + below(10000) : drawn());
    test_told("device_begin", print1525_device_begin(device, address, below(3) ? timing : NULL, details), details);
    if (address < 4 || address > 30 ? details->fault != PRINT1525_FAULT_NO_SUCH_DEVICE : details->fault != PRINT1525_FAULT_NONE && timing->hold <= 10000)
        is_wrong("device_begin", "the address");
    if (details->status != PRINT1525_DONE) memset(device, 0, sizeof *device);
    if (print1525_device_size() != sizeof *device) is_wrong("device_size", "the size");
    for (count = below(60); count > 0; count--) {
        print1525_device kept, other;
        print1525_step again;
        print1525_details told;
        if (below(30) == 0) damage(device, sizeof *device);
        if (below(9) == 0 && print1525_device_busy(device, below(9) ? time + below(5000) : drawn(), details) != PRINT1525_DONE) is_wrong("device_busy", "the status");
        *edge = made_edge(&time);
        kept = other = *device;
        test_told("device_step", print1525_device_step(device, edge, step, details), details);
        if (details->status != PRINT1525_DONE && memcmp(&kept, device, sizeof kept) != 0) is_wrong("device_step", "a device that refuses");
        if (details->status != PRINT1525_DONE && (step->pulls_data != 0 || step->wake != PRINT1525_NO_WAKE || step->heard.kind != 0)) is_wrong("device_step", "a refusal");
        if (step->wake <= edge->time && details->status == PRINT1525_DONE) is_wrong("device_step", "the wake");
        if (step->pulls_data > 1 || step->heard.kind > PRINT1525_RECEIVED_CLOSE || step->heard.eoi > 1) is_wrong("device_step", "the step");
        print1525_device_step(&other, edge, &again, &told);
        if (memcmp(&told, details, sizeof told) != 0 || again.wake != step->wake || again.pulls_data != step->pulls_data || again.heard.kind != step->heard.kind || again.heard.byte != step->heard.byte)
            is_wrong("device_step", "another answer");
    }
}

/* Bytes that a printer gets, many of them the codes of its commands. */
static const uint8_t *made_bytes(uint8_t *memory, size_t *length) {
    static const uint8_t codes[] = {CODES, '0', '3', 0, 1, 200, 255, 129};
    size_t index;
    uint8_t *front;
    *length = below(3) ? below(40) : below(3);
    if (*length == 0 && below(2)) return NULL;
    front = memory + ROOM - *length;
    for (index = 0; index < *length; index++) front[index] = below(3) ? codes[below(sizeof codes)] : (uint8_t)drawn();
    return front;
}

static int is_same_printer(const print1525_printer *a, const print1525_printer *b) {
    return memcmp(a, b, offsetof(print1525_printer, parameter) + 1) == 0;
}

static int is_same_mark(const print1525_mark *a, const print1525_mark *b) {
    return memcmp(a, b, offsetof(print1525_mark, wide) + 1) == 0;
}

/* Marks that a printer made between two lines, each at its place and none above the one before it. */
static void test_marks(const char *call, const print1525_mark *marks, size_t length, uint64_t from, uint64_t to) {
    size_t index;
    for (index = 0; index < length; index++) {
        const print1525_mark *const it = marks + index;
        if (it->x > 479 || it->kind > PRINT1525_DOTS || it->lower > 1 || it->reverse > 1 || it->wide > 1) is_wrong(call, "a mark");
        if (from < LAST_LINE && (it->y < from || it->y > to || (index > 0 && it->y < marks[index - 1].y))) is_wrong(call, "the place of a mark");
    }
}

/* A printer as it was before some bytes, given them one by one: the same marks, and the same printer after them. */
static void test_one_by_one(print1525_printer *other, const uint8_t *bytes, size_t all, const print1525_mark *marks, size_t length, const print1525_printer *printer) {
    print1525_mark made[PRINT1525_MARKS_OF_A_BYTE];
    print1525_details details;
    size_t byte, index, got = 0, count = 0;
    for (byte = 0; byte < all; byte++) {
        if (print1525_printer_byte(other, bytes[byte], made, PRINT1525_MARKS_OF_A_BYTE, &got, &details) != PRINT1525_DONE) is_wrong("printer_byte", "a byte that was taken");
        for (index = 0; index < got; index++, count++)
            if (count >= length || !is_same_mark(made + index, marks + count)) is_wrong("printer_bytes", "another mark");
    }
    if (count != length) is_wrong("printer_bytes", "more marks");
    if (!is_same_printer(other, printer)) is_wrong("printer_bytes", "another printer");
}

/* Some bytes for a printer; how many marks they make. */
static size_t try_bytes(print1525_printer *printer, print1525_mark *marks, size_t room, print1525_details *details, uint8_t *memories[6]) {
    const print1525_printer before = *printer;
    print1525_printer other = before;
    size_t count, used = 0, length = 77;
    const uint8_t *const bytes = made_bytes(memories[4], &count);
    uint8_t copy[40];
    if (count) memcpy(copy, bytes, count);
    if (count && below(3) == 0) {
        const int status = print1525_printer_byte(printer, *bytes, marks, room, &length, details);
        test_details("printer_byte", status, details, length, room, 0);
        if (status != PRINT1525_DONE && (details->fault != PRINT1525_FAULT_TOO_SMALL || !is_same_printer(&before, printer))) is_wrong("printer_byte", "a printer that refuses");
        if (length > PRINT1525_MARKS_OF_A_BYTE) is_wrong("printer_byte", "too many marks");
        if (status != PRINT1525_DONE) return 0;
        used = 1;
    } else {
        int status;
        used = count;
        status = print1525_printer_bytes(printer, bytes, &used, marks, room, &length, details);
        test_details("printer_bytes", status, details, length, room, 0);
        if (details->status != PRINT1525_DONE || used > count) is_wrong("printer_bytes", "how many were used");
        if (count && room >= PRINT1525_MARKS_OF_A_BYTE && used == 0) is_wrong("printer_bytes", "no byte is used");
        if (used < count && length + PRINT1525_MARKS_OF_A_BYTE <= room) is_wrong("printer_bytes", "a byte that has room");
        if (count && memcmp(copy, bytes, count) != 0) is_wrong("printer_bytes", "the input");
    }
    if (used && printer->x > 480) is_wrong("printer_bytes", "the column");
    test_marks("printer_bytes", marks, length, before.y, printer->y);
    test_one_by_one(&other, bytes, used, marks, length, printer);
    return length;
}

/* The pixels of a region with some marks: once over paper, and once drawn over paper, where they are the same. */
static void try_pixels(const print1525_mark *marks, size_t length, print1525_details *details, uint8_t *memories[6]) {
    static uint8_t paper[64 * 64 * 4];
    print1525_region *const region = (print1525_region *)(void *)(memories[3] + ROOM - sizeof *region);
    print1525_region changes = {0, 0, 0, 0, 0, 0};
    const size_t kind = below(3), white = kind == PRINT1525_BITS ? 0 : 255;
    size_t line, size, room, index;
    uint8_t *pixels;
    int status, drawn_status;
    print1525_details drawn_details;
    test_told("printer_changed", print1525_printer_changed(marks, length, &changes, details), details);
    if (changes.x + changes.width > 960 || (changes.width == 0) != (changes.height == 0)) is_wrong("printer_changed", "the region");
    region->x = below(9) ? below(960) : drawn();
    region->y = length && below(9) ? marks[below(length)].y - below(20) : drawn() >> below(64);
    region->width = below(30) ? below(64) : (size_t)(drawn() >> below(64));
    region->height = below(30) ? below(64) : (size_t)(drawn() >> below(64));
    region->pixels = (uint8_t)(below(30) ? kind : 3 + below(253));
    region->stride = 0;
    line = kind == PRINT1525_BITS ? (region->width + 7) / 8 : kind == PRINT1525_RGBA ? 4 * region->width : region->width;
    if (below(3) == 0 && region->width < 64) region->stride = line + below(9);
    size = region->width < 64 && region->height < 64 ? line * region->height : 0;
    if (region->stride && size) size = region->stride * (region->height - 1) + line;
    room = below(5) ? size : below(64 * 64 * 4);
    if (room > sizeof paper) room = sizeof paper;
    pixels = memories[1] + ROOM - room;
    memset(memories[1], UNTOUCHED, ROOM);
    memset(paper, (int)white, sizeof paper);
    status = print1525_printer_page(marks, length, region, room ? pixels : NULL, room, details);
    drawn_status = print1525_printer_draw(marks, length, region, room ? paper : NULL, room, &drawn_details);
    if (details->fault != PRINT1525_FAULT_TOO_SMALL) test_told("printer_page", status, details);
    if (status != drawn_status || memcmp(details, &drawn_details, sizeof drawn_details) != 0) is_wrong("printer_draw", "another answer");
    if (status == PRINT1525_REFUSED && details->fault != PRINT1525_FAULT_TOO_LARGE && details->fault != PRINT1525_FAULT_NO_SUCH_PIXELS) is_wrong("printer_page", "the fault");
    if (status == PRINT1525_FAILED && size > 0 && region->pixels == kind && size <= room && region->width < 64) is_wrong("printer_page", "there is room");
    if (status == PRINT1525_DONE && (region->width >= 64 || region->height >= 64)) return;
    size = status == PRINT1525_DONE ? size : 0;
    if (!is_untouched(memories[1], ROOM - room) || !is_untouched(pixels + size, room - size)) is_wrong("printer_page", "the buffer");
    if (region->stride == 0 && kind != PRINT1525_BITS)
        for (index = 0; index < room; index++)
            if (paper[index] != (index < size ? pixels[index] : 255) || (index < size && pixels[index] != 0 && pixels[index] != 255)) is_wrong("printer_draw", "a pixel");
}

/* What comes of a picture, in parts of which some are not wanted. */
typedef struct {
    size_t length, parts, wanted;
    uint64_t sum;
} gathered;

static int gather(void *context, const void *bytes, size_t length) {
    gathered *const to = (gathered *)context;
    const uint8_t *const part = (const uint8_t *)bytes;
    size_t index;
    if (length == 0 || length > PRINT1525_PART || to->length != to->parts * PRINT1525_PART) is_wrong("printer_picture", "a part");
    for (index = 0; index < length; index++) to->sum = (to->sum ^ part[index]) * 0x100000001B3u;
    to->length += length;
    to->parts++;
    return to->parts == to->wanted;
}

/* A picture of marks, twice; they stay as they were. (Those of a damaged mark may have more sheets than there is time for.) */
static void try_picture(const print1525_mark *marks, size_t length, print1525_details *details) {
    print1525_settings made = PRINT1525_SETTINGS_INIT;
    print1525_details again;
    gathered one, other;
    size_t index, above = 0;
    int status;
    for (index = 1; index < length && above == 0; index++)
        if (marks[index].y < marks[index - 1].y) above = index;
    memset(&one, 0, sizeof one);
    made.as = (uint8_t)(below(9) ? PRINT1525_AS_SVG + below(2) : drawn());
    if (made.as == PRINT1525_AS_PDF) made.as = PRINT1525_AS_USUAL;
    made.top = (uint8_t)(below(5) ? below(66) : drawn());
    made.sheet = below(3) ? 0 : below(5) ? below(4) : drawn();
    if (made.as != PRINT1525_AS_PNG && length && marks[length - 1].y > 100000 && made.sheet == 0) made.sheet = 1;
    if (made.as == PRINT1525_AS_PNG) made.scale = (uint8_t)below(5), made.holes = (uint8_t)below(2);
    if (made.as == PRINT1525_AS_PNG && made.sheet == 0) made.scale = 1;
    if (below(9) == 0) made.reserved[below(3)] = drawn();
    one.wanted = other.wanted = below(2) ? 0 : 1 + below(3);
    other = one;
    refused_one = 0;
    status = print1525_printer_picture(marks, length, &made, gather, &one, details);
    if (print1525_printer_picture(marks, length, &made, gather, &other, &again) != status) is_wrong("printer_picture", "another status");
    if (memcmp(&one, &other, sizeof one) != 0 || memcmp(details, &again, sizeof again) != 0) is_wrong("printer_picture", "another answer");
    if (status != details->status || (status == PRINT1525_DONE) == (details->fault != PRINT1525_FAULT_NONE)) is_wrong("printer_picture", "the status");
    if (status == PRINT1525_FAILED ? one.parts != one.wanted || details->fault != PRINT1525_FAULT_NOT_WRITTEN : status == PRINT1525_REFUSED ? one.parts != 0 : one.length == 0)
        is_wrong("printer_picture", "its parts");
    if (details->fault == PRINT1525_FAULT_MARK_ABOVE ? details->place != above || above == 0 : status != PRINT1525_REFUSED && above != 0) is_wrong("printer_picture", "the mark");
}

/* The dots of marks in any characters: of those of the project they are the marks' own. */
static void try_dots(const print1525_mark *marks, size_t length) {
    static uint8_t one[24 * 14], two[24 * 14];
    print1525_characters characters;
    print1525_mark dots[PRINT1525_DOTS_OF_A_MARK];
    print1525_details details;
    const int is_damaged = below(2) == 0;
    size_t index, count, room;
    const print1525_speed speed = {(uint32_t)drawn(), (uint32_t)drawn()};
    const uint64_t time = print1525_printing_time((uint32_t)below(481), 1, &speed);
    if (print1525_characters_size() != sizeof characters) is_wrong("characters_size", "another size");
    if (time < (speed.feed ? speed.feed : 200000) || time > (uint64_t)480000000 + UINT32_MAX) is_wrong("printing_time", "the time");
    if (print1525_characters_read(NULL, 0, &characters, &details) != PRINT1525_DONE) is_wrong("characters_read", "no text");
    if (is_damaged) damage(&characters, sizeof characters);
    for (index = 0; index < length; index++) {
        const print1525_region region = {2 * (uint64_t)marks[index].x, marks[index].y, 24, 14, 0, PRINT1525_GRAY};
        const size_t wanted = marks[index].kind == PRINT1525_DOTS ? 1 : marks[index].wide == 1 ? 12 : 6, left = 65536 - (size_t)marks[index].x;
        room = below(13);
        if (print1525_characters_dots(&characters, &marks[index], dots, room, &count, &details) != (count > room ? PRINT1525_FAILED : PRINT1525_DONE)) is_wrong("characters_dots", "the status");
        if (count != (wanted < left ? wanted : left)) is_wrong("characters_dots", "how many");
        if (is_damaged || count > room) continue;
        print1525_printer_page(&marks[index], 1, &region, one, sizeof one, NULL);
        print1525_printer_page(dots, count, &region, two, sizeof two, NULL);
        if (count == wanted && memcmp(one, two, sizeof one) != 0) is_wrong("characters_dots", "another dot");
    }
}

static void try_printer(uint8_t *memories[6]) {
    print1525_printer *const printer = (print1525_printer *)(void *)(memories[0] + ROOM - sizeof *printer);
    print1525_details *const details = (print1525_details *)(void *)(memories[2] + ROOM - sizeof *details);
    const size_t room = below(4) ? PRINT1525_MARKS_OF_A_BYTE + below(300) : below(20);
    print1525_mark *const marks = (print1525_mark *)(void *)(memories[5] + ROOM - room * sizeof *marks);
    size_t count, length = 0;
    memset(memories[5], UNTOUCHED, ROOM);
    if (print1525_printer_begin(printer, NULL) != PRINT1525_DONE) is_wrong("printer_begin", "the status");
    for (count = below(20); count > 0; count--) {
        if (below(5) == 0) {
            const print1525_printer before = *printer;
            const uint8_t set = (uint8_t)(below(4) ? below(2) : drawn());
            if (print1525_printer_select(printer, set, details) != (set < 2 ? PRINT1525_DONE : PRINT1525_REFUSED)) is_wrong("printer_select", "the set");
            if (set < 2 ? printer->lower != set : !is_same_printer(&before, printer)) is_wrong("printer_select", "the printer");
        }
        if (below(9) == 0) damage(printer, sizeof *printer);
        if (below(9) == 0) {
            const uint64_t y = printer->y;
            uint64_t sheets = 0;
            if (print1525_printer_form_feed(printer, details) != PRINT1525_DONE || (y < LAST_LINE && (printer->y <= y || printer->y % PRINT1525_SHEET))) is_wrong("printer_form_feed", "the line");
            if (print1525_printer_tear_off(printer, &sheets, details) != PRINT1525_DONE || printer->y >= PRINT1525_SHEET || sheets == 0) is_wrong("printer_tear_off", "the line");
        }
        memset(memories[5], UNTOUCHED, ROOM);
        length = try_bytes(printer, room ? marks : NULL, room, details, memories);
        if (!is_untouched(memories[5], ROOM - room * sizeof *marks) || !is_untouched((uint8_t *)(void *)(marks + length), (room - length) * sizeof *marks))
            is_wrong("printer_bytes", "the buffer");
        /* (Marks may be bytes of nothing too.) */
        if (length && below(6) == 0) damage(marks, length * sizeof *marks);
        try_pixels(room ? marks : NULL, length, details, memories);
        try_dots(marks, length);
        if (below(5) == 0) try_picture(room ? marks : NULL, length, details);
    }
}

/* Words of any numbers, in any room. */
static void try_words(uint8_t *memories[6]) {
    print1525_details *const details = (print1525_details *)(void *)(memories[2] + ROOM - sizeof *details);
    const size_t room = below(3) ? below(100) : below(5);
    char *const text = (char *)memories[5] + ROOM - room;
    char all[200];
    size_t length;
    memset(memories[5], UNTOUCHED, ROOM);
    details->status = (int32_t)(below(9) ? below(4) : drawn() >> 40);
    details->fault = (int32_t)(below(9) ? below(110) : drawn() >> 33);
    details->place = (size_t)(drawn() >> below(64));
    details->column = below(2) ? 0 : (size_t)(drawn() >> below(64));
    length = print1525_message(details, room ? text : NULL, room);
    if (length >= sizeof all || print1525_message(details, all, sizeof all) != length || strlen(all) != length) is_wrong("message", "its length");
    if (details->status == PRINT1525_DONE || details->fault == PRINT1525_FAULT_NONE ? length != 0 : strstr(all, print1525_strerror(details->fault)) == NULL) is_wrong("message", "its words");
    if (room && (strlen(text) != (length < room ? length : room - 1) || strncmp(text, all, room - 1) != 0)) is_wrong("message", "the text");
    if (!is_untouched(memories[5], ROOM - room) || (room > length && !is_untouched(memories[5] + ROOM - room + length + 1, room - length - 1))) is_wrong("message", "the buffer");
    if (strcmp(print1525_version(), PRINT1525_VERSION) != 0) is_wrong("version", "its text");
}

int main(int words, char **word) {
    const unsigned long rounds = words > 2 ? strtoul(word[2], NULL, 10) : 1000;
    uint8_t *memories[6];
    size_t index;
    state = (words > 1 ? strtoul(word[1], NULL, 10) : 1) * 0x9E3779B97F4A7C15u | 1;
    for (index = 0; index < 6; index++) memories[index] = guard();
    for (round_now = 0; round_now < rounds; round_now++) {
        switch (below(12)) {
        case 0: try_decoder(memories); break;
        case 2: try_receiver(memories); break;
        case 3: try_printer(memories); break;
        case 4: try_words(memories); break;
        case 5: try_device(memories); break;
        default: try_text(memories); break;
        }
    }
    return wrong != 0;
}
