/* Each allocation of each call of include/print1525.h refused in turn, alone and with all that follow: refused CHARACTERS [tell]
 *
 * CHARACTERS is a file as of --characters. Every call that takes memory is made over small inputs with its settings in turn. Where an
 * allocation is refused, the call fails with PRINT1525_FAULT_NO_MEMORY and nothing else in the details, or it does without and answers as
 * ever. In both cases all memory is given back, each block once; the inputs and the settings stay as they were, and so does the whole
 * buffer of a call that fails. Calls for edges, words and watched printers take no memory at all. Nothing waits: a call that takes more
 * than MOST allocations, and a test that takes more than SECONDS (four times as many with FEW, under an emulator), is WRONG. Status 0, else
 * 1 and a line for each thing that is WRONG. With `tell` it writes how many allocations each call made. Linked with
 * -Wl,--wrap=malloc,--wrap=realloc,--wrap=free. */
#define _DEFAULT_SOURCE
#include "options.h"
#include <stdio.h>
#include <stdlib.h>
#include <string.h>
#include <unistd.h>

#define ROOM (1 << 18)
#define UNTOUCHED 0xA5
#define MOST 3000
#define SECONDS 300
#define BLOCK 0x0123456789ABCDEFu

void *__real_malloc(size_t size);
void __real_free(void *old);
void *__wrap_malloc(size_t size);
void *__wrap_realloc(void *old, size_t size);
void __wrap_free(void *old);

static int wrong;
static const char *name_now = "";

static void is_wrong(const char *what, long number) {
    if (wrong++ < 20) fprintf(stderr, "WRONG: %s: %s, %ld\n", name_now, what, number);
}

/* The number of blocks that are not given back, of allocations asked for, and the first that is refused. */
static long live, taken, refused_from, refused_to;

/* What a block begins with. */
typedef struct {
    uint64_t mark;
    size_t size;
} head;

static int is_refused(void) {
    taken++;
    return refused_from > 0 && taken >= refused_from && taken <= refused_to;
}

void *__wrap_malloc(size_t size) {
    head *block;
    if (is_refused()) return NULL;
    block = (head *)__real_malloc(size + sizeof *block);
    if (block == NULL) exit(98);
    block->mark = BLOCK;
    block->size = size;
    memset(block + 1, 0x5A, size);
    live++;
    return block + 1;
}

void __wrap_free(void *old) {
    head *block;
    if (old == NULL) return;
    block = (head *)old - 1;
    if (block->mark != BLOCK) is_wrong("memory is given back that nobody took", taken);
    block->mark = 0;
    live--;
    __real_free(block);
}

void *__wrap_realloc(void *old, size_t size) {
    void *made;
    if (is_refused()) return NULL;
    taken--;
    made = __wrap_malloc(size);
    if (made != NULL && old != NULL) {
        const size_t before = ((head *)old - 1)->size;
        memcpy(made, old, before < size ? before : size);
        __wrap_free(old);
    }
    return made;
}

/* Inputs. */
static const char script[] = "10 OPEN 4,4\nOPEN 5,5,7\nCMD 4,\"ON BOTH\";\nPRINT#5,CHR$(14)\"WIDE\"\nPRINT#4,CHR$(8)\"ABC\"CHR$(26)CHR$(9)\"X\"\nCLOSE 4\n";
static const char stopping[] = "OPEN 4,4\nPRINT#4,\"A\"\nPRINT#9\n";
static const char bad_script[] = "OPEN 4,4\nPRONT#4\n";
static const char petcat[] = "10 open4,4\n20 print#4,\"{rvon}hello{2 down}\"\n30 print#9\n";
static const char program[] = "\001\010\017\010\012\000\237 \064,\064\000\000\000";
static const char bytes[] = "DEAR READER,\r\022REVERSED\r\010ABC\017\016WIDE\r";
static const uint16_t inputs[] = {PRINT1525_SELECT_LOWER, 65, 66, 13, 8, 255, 13, 14, 67, 13};
static const uint16_t bad_inputs[] = {65, 258, 66};
static const print1525_mark few_marks[] = {{0, 0, PRINT1525_CELL, 65, 1, 0, 0}, {0, 6, PRINT1525_DOTS, 77, 0, 0, 0}, {21, 9, PRINT1525_CELL, 88, 0, 1, 1}};
static const print1525_mark bad_marks[] = {{21, 0, PRINT1525_CELL, 65, 1, 0, 0}, {20, 6, PRINT1525_DOTS, 77, 0, 0, 0}};
static print1525_mark many_marks[800];
static const char csv[] = "Time [s],ATN,CLK,DATA\n0,1,1,1\n0.0001,0,1,1\n0.0011,0,0,1\n0.0012,0,0,0\n";
static const char bad_csv[] = "Time [s],ATN,CLK,DATA\n0,1,1,1\n0.0001,0,1,1\n0.0011,0,0,1\n0.0012,0,?,0\n";
static char trace[ROOM], dump[ROOM], cut[ROOM], example[ROOM];
static size_t trace_length, dump_length, cut_length;
/* Two letters, as statements and as the bytes of a printer. */
static const char letters[] = "OPEN 4,4\nPRINT#4,\"HI\"\n";
static const char letters_bytes[] = "HI\r";
/* One attention to printer 4 alone: its trace, also as a table and as a dump. */
static const char one_attention[] =
    "0 111\n1000 001\n1010 000\n2999 010\n"
    "3049 011\n3089 000\n3159 010\n3179 000\n"
    "3249 010\n3269 001\n3339 011\n3359 000\n"
    "3429 010\n3449 000\n3519 010\n3539 001\n"
    "3609 011\n3629 000\n3699 010\n3719 000\n"
    "3789 010\n3809 001\n3829 000\n3929 100\n";
static const char one_table[] =
    "Time [s],ATN,CLK,DATA\n0.000000,1,1,1\n0.001000,0,0,1\n0.001010,0,0,0\n"
    "0.002999,0,1,0\n0.003049,0,1,1\n0.003089,0,0,0\n0.003159,0,1,0\n0.003179,0,0,0\n"
    "0.003249,0,1,0\n0.003269,0,0,1\n0.003339,0,1,1\n0.003359,0,0,0\n0.003429,0,1,0\n"
    "0.003449,0,0,0\n0.003519,0,1,0\n0.003539,0,0,1\n0.003609,0,1,1\n0.003629,0,0,0\n"
    "0.003699,0,1,0\n0.003719,0,0,0\n0.003789,0,1,0\n0.003809,0,0,1\n0.003829,0,0,0\n"
    "0.003929,1,0,0\n";
static const char one_dump[] =
    "$timescale 1 us $end\n$scope module bus $end\n$var wire 1 A ATN $end\n"
    "$var wire 1 C CLOCK $end\n$var wire 1 D DATA $end\n$upscope $end\n"
    "$enddefinitions $end\n#0\n1A\n1C\n1D\n#1000\n0A\n0C\n#1010\n0D\n#2999\n1C\n"
    "#3049\n1D\n#3089\n0C\n0D\n#3159\n1C\n#3179\n0C\n#3249\n1C\n#3269\n0C\n1D\n"
    "#3339\n1C\n#3359\n0C\n0D\n#3429\n1C\n#3449\n0C\n#3519\n1C\n#3539\n0C\n1D\n"
    "#3609\n1C\n#3629\n0C\n0D\n#3699\n1C\n#3719\n0C\n#3789\n1C\n#3809\n0C\n1D\n"
    "#3829\n0D\n#3929\n1A\n#4929\n";
static char characters[ROOM];
static size_t characters_length;

/* The words of print1525_answer. */
static const char *const *words_now;

/* A call with what it is passed. */
typedef struct {
    const char *name;
    const void *input;
    size_t length;
    print1525_settings settings;
} job;

/* The parts of a picture, one after another in a buffer. */
typedef struct {
    uint8_t *bytes;
    size_t capacity, length;
} gathered;

static int gather(void *context, const void *part, size_t length) {
    gathered *const to = (gathered *)context;
    if (length == 0 || length > PRINT1525_PART || to->capacity - to->length < length) return 1;
    memcpy(to->bytes + to->length, part, length);
    to->length += length;
    return 0;
}

/* A picture of marks. */
static int make_picture(const job *j, const print1525_settings *settings, uint8_t *buffer, size_t capacity, size_t *length, print1525_details *details) {
    gathered to = {NULL, 0, 0};
    int status;
    to.bytes = buffer;
    to.capacity = capacity;
    status = print1525_printer_picture((const print1525_mark *)j->input, j->length / sizeof(print1525_mark), settings, gather, &to, details);
    *length = to.length;
    return status;
}

static int make(const job *j, const print1525_settings *settings, uint8_t *buffer, size_t capacity, size_t *length, print1525_details *details) {
    const char *const it = j->name;
    int status;
    if (strcmp(it, "pages") == 0) return print1525_pages(j->input, j->length, settings, buffer, capacity, length, details);
    if (strcmp(it, "bus") == 0) return print1525_bus(j->input, j->length, settings, buffer, capacity, length, details);
    if (strcmp(it, "listing") == 0) return print1525_listing(j->input, j->length, settings, buffer, capacity, length, details);
    if (strcmp(it, "raw") == 0) return print1525_raw(j->input, j->length, settings, buffer, capacity, length, details);
    if (strcmp(it, "print") == 0) return print1525_print((const uint16_t *)j->input, j->length / 2, settings, buffer, capacity, length, details);
    if (strcmp(it, "picture") == 0) return make_picture(j, settings, buffer, capacity, length, details);
    if (strcmp(it, "check") == 0) return print1525_check(j->input, j->length, settings, buffer, capacity, length, details);
    if (strcmp(it, "decode") == 0) return print1525_decode(j->input, j->length, settings, buffer, capacity, length, details);
    if (strcmp(it, "answer") == 0) return print1525_answer(words_now, j->input, j->length, buffer, capacity, length, details);
    if (strcmp(it, "edges") != 0) exit(98);
    status = print1525_edges(j->input, j->length, settings, (print1525_edge *)(void *)buffer, capacity / sizeof(print1525_edge), length, details);
    *length *= sizeof(print1525_edge);
    return status;
}

static uint8_t true_text[ROOM], buffer[ROOM], before[ROOM];
static size_t true_length;

static int is_untouched(size_t from) {
    size_t index;
    for (index = from; index < ROOM; index++)
        if (buffer[index] != UNTOUCHED) return 0;
    return 1;
}

/* The call with these allocations refused. Gives whether it failed for them. */
static int refuse(const job *j, long from, long to, const print1525_details *truth) {
    const print1525_settings settings = j->settings;
    print1525_details details;
    size_t length = 77;
    int status;
    memset(buffer, UNTOUCHED, ROOM);
    memset(&details, UNTOUCHED, sizeof details);
    taken = 0;
    refused_from = from;
    refused_to = to;
    status = make(j, &settings, buffer, ROOM, &length, &details);
    refused_from = 0;
    if (status != details.status) is_wrong("another status than the details have", from);
    if (live != 0) is_wrong("memory is not given back after allocation", from);
    live = 0;
    if (taken > MOST) is_wrong("more allocations after a refused one", taken);
    if (memcmp(before, j->input, j->length) != 0) is_wrong("the input is changed by refused allocation", from);
    if (memcmp(&settings, &j->settings, sizeof settings) != 0) is_wrong("the settings are changed by refused allocation", from);
    if (status == PRINT1525_FAILED) {
        if (details.fault != PRINT1525_FAULT_NO_MEMORY || details.place || details.column || length) is_wrong("the details of refused allocation", from);
        if (!is_untouched(0)) is_wrong("the buffer is written by refused allocation", from);
        return 1;
    }
    if (settings.explain || (words_now != NULL && strcmp(j->name, "answer") == 0)) { /* (it may say less then) */
        if (details.status != truth->status || details.fault != truth->fault || !is_untouched(length)) is_wrong("another end with refused allocation", from);
    } else if (memcmp(&details, truth, sizeof details) != 0 || length != true_length || memcmp(buffer, true_text, length) != 0 || !is_untouched(length))
        is_wrong("another answer with refused allocation", from);
    return 0;
}

/* Each allocation of a call. */
static void try_call(const job *j, int tells) {
    print1525_details truth;
    long all, number, failed = 0;
    name_now = j->name;
    memcpy(before, j->input, j->length);
    memset(buffer, UNTOUCHED, ROOM);
    memset(&truth, UNTOUCHED, sizeof truth);
    taken = refused_from = 0;
    make(j, &j->settings, buffer, ROOM, &true_length, &truth);
    all = taken;
    if (truth.status == PRINT1525_FAILED) is_wrong("no answer", truth.fault);
    if (live != 0) is_wrong("memory is not given back", live);
    live = 0;
    if (all > MOST) is_wrong("too many allocations", all);
    memcpy(true_text, buffer, ROOM);
    for (number = 1; number <= all && wrong < 20; number++) {
        failed += refuse(j, number, number, &truth);
        refuse(j, number, MOST, &truth);
    }
    if (all > 0 && failed == 0) is_wrong("no refused allocation is reported", all);
    if (all > 0 && refuse(j, 1, MOST, &truth) == 0) is_wrong("an answer without any memory", all);
    if (refuse(j, 0, 0, &truth) != 0) is_wrong("no answer with memory again", all);
    if (tells) printf("%s: %ld allocations, %ld reported, status %d, %lu bytes\n", j->name, all, failed, truth.status, (unsigned long)true_length);
}

/* The settings that options say, with a blank between each two words. */
static print1525_settings settings_by(const char *options) {
    static char lines[16][256];
    static size_t line;
    print1525_settings made = PRINT1525_SETTINGS_INIT;
    char *words[33];
    int count = 0, at = 0, used;
    char *it = strcpy(lines[line = (line + 1) % 16], options);
    for (it = strtok(it, " "); it != NULL && count < 32; it = strtok(NULL, " ")) words[count++] = it;
    words[count] = NULL;
    for (; at < count; at += used)
        if ((used = set_option(&made, words[at], words[at + 1])) == 0) exit(97);
    return made;
}

static void try_one(const char *name, const void *input, size_t length, const char *options, int tells) {
    job j;
    j.name = name;
    j.input = input;
    j.length = length;
    j.settings = settings_by(options);
    try_call(&j, tells);
}

/* The calls that draw pages, in each format, of all sheets and of one, with characters of the project and of a file. */
static void try_pages(const char *name, const void *input, size_t length, const char *more, int tells) {
    static const char *const formats[] = {"list", "text", "svg", "png", "pdf"};
    const size_t first = strcmp(name, "decode") == 0;
    size_t index, way;
    for (index = first; index < sizeof formats / sizeof *formats; index++)
        for (way = 0; way < 3; way++) {
            char options[200];
            job j;
            if ((way == 1 && (index < 2 || index > 3)) || (way == 2 && index < 2)) continue;
            snprintf(options, sizeof options, "--as %s %s%s", formats[index], way == 1 ? "--sheet 1 --device 4 " : "", more);
            j.name = name;
            j.input = input;
            j.length = length;
            j.settings = settings_by(options);
            if (way == 2) j.settings.characters = characters, j.settings.characters_length = characters_length;
            try_call(&j, tells);
        }
}

/* Pictures of marks: of all sheets and of one, with characters of the project and of a file, and of more bytes than are
 * taken for them first. */
static void try_pictures(int tells) {
    static const char *const options[] = {"", "--as svg --sheet 1", "--as png", "--as png --sheet 1 --scale 1", "--as pdf --holes", "--as svg --sheet 2"};
    gathered to = {NULL, 0, 0};
    print1525_details details;
    size_t index;
    for (index = 0; index < sizeof options / sizeof *options; index++) {
        job j;
        try_one("picture", few_marks, sizeof few_marks, options[index], tells);
        j.name = "picture";
        j.input = few_marks;
        j.length = sizeof few_marks;
        j.settings = settings_by(options[index]);
        j.settings.characters = characters, j.settings.characters_length = characters_length;
        try_call(&j, tells);
    }
    try_one("picture", few_marks, 0, "--as png", tells);
    /* Marks are refused all the same where memory is: the first allocation, the second, or any. */
    for (index = 0; index < 4; index++) {
        const long kept = live;
        taken = 0, refused_from = index == 3 ? 1 : (long)index, refused_to = index == 3 ? MOST : (long)index;
        if (print1525_printer_picture(bad_marks, 2, NULL, gather, &to, &details) != PRINT1525_REFUSED ||
            details.fault != PRINT1525_FAULT_MARK_ABOVE || details.place != 1 || to.length > 0 || live != kept)
            is_wrong("a mark above, where memory is refused", (long)index);
    }
    refused_from = refused_to = 0;
    for (index = 0; index < sizeof many_marks / sizeof *many_marks; index++) many_marks[index].y = 14 * index, many_marks[index].value = 255, many_marks[index].reverse = 1;
    try_one("picture", many_marks, sizeof many_marks, "--as svg", tells);
}

/* The calls of a recording. */
static void try_recording(const void *input, size_t length, const char *from, int tells) {
    static const char *const rows[][2] = {
        {"check", ""}, {"check", "--as story"}, {"check", "--as json"}, {"check", "--explain"}, {"decode", "--intervals"}, {"decode", "--as json"}, {"decode", "--as text"},
        {"decode", "--as bytes"}, {"decode", "--explain"}, {"edges", ""},
    };
    size_t row;
    for (row = 0; row < sizeof rows / sizeof *rows; row++) {
        char options[99];
        snprintf(options, sizeof options, "%s --from %s", rows[row][1], from);
        try_one(rows[row][0], input, length, options, tells);
    }
}

/* What print1525_answer does with words, with a file of characters among them. */
static void try_answers(int tells) {
    static const char *const lists[][7] = {
        {"pages", "--as", "text", NULL}, {"raw", "--as", "svg", "--characters", characters, NULL}, {"raw", "--help", NULL}, {"nothing", "--explain", NULL}, {"check", "--as", "story", NULL},
    };
    size_t row;
    for (row = 0; row < sizeof lists / sizeof *lists; row++) {
        words_now = lists[row];
        try_one("answer", letters, sizeof letters - 1, "", tells);
    }
}

/* Two letters and one attention in each format, with what each call gives; of a picture and of a trace the front. */
typedef struct {
    const char *name, *input, *options, *text;
} row;

#define FRAMES "command 36\nlawful\n"
#define STORY "attention\n        2999         3829  $24  LISTEN 4\nlawful\n"
#define EXAMPLE_FRAMES "command 36\ndata 72\ndata 73\ndata 13 eoi\ncommand 63\nlawful\n"
#define EXAMPLE_STORY                                                                                                 \
    "attention\n        1100         1930  $24  LISTEN 4\ndata\n        2130         2960  $48  'H'\n"                 \
    "        3060         3890  $49  'I'\n        3990         5140  $0D  return, end-or-identify\n"                   \
    "attention\n        6240         7070  $3F  UNLISTEN\nlawful\n"

static const row rows[] = {
    {"pages", letters, "--as list", "printer 4\nrow 0\n 0 cell 72\n 6 cell 73\nprinter 5\nstatus 0 0\nscreen\n"},
    {"pages", letters, "--as text", "Printer 4\nHI\nPrinter 5\nStatuses: 0 0.\n"},
    {"pages", letters, "--as svg", "<svg "},
    {"raw", letters_bytes, "--as list", "printer 4\nrow 0\n 0 cell 72\n 6 cell 73\nprinter 5\nstatus\nscreen\n"},
    {"raw", letters_bytes, "--as text", "Printer 4\nHI\n"},
    {"raw", letters_bytes, "--as svg", "<svg "},
    {"bus", letters, "", "0 111\n100 001\n"},
    {"bus", letters, "--as vcd", "$timescale 1 us $end\n"},
    {"check", one_attention, "--from text", FRAMES},
    {"check", one_attention, "--from text --as story", STORY},
    {"check", example, "--from text", EXAMPLE_FRAMES},
    {"check", example, "--from text --as story", EXAMPLE_STORY},
    {"check", one_table, "--from csv", FRAMES},
    {"check", one_table, "--from csv --as story", STORY},
    {"check", one_dump, "--from vcd", FRAMES},
    {"check", one_dump, "--from vcd --as story", STORY},
};

static void try_row(const row *it, int tells) {
    const size_t length = strlen(it->text);
    const int is_front = strstr(it->options, "svg") != NULL || strcmp(it->name, "bus") == 0;
    try_one(it->name, it->input, strlen(it->input), it->options, tells);
    if (true_length < length || (true_length > length && !is_front) || memcmp(true_text, it->text, length) != 0)
        is_wrong("another text", (long)true_length);
}

/* Explanations, and how each ends: of the last one, no printer is there. Dumps and tables start a microsecond later. */
static const row explained_rows[] = {
    {"pages", "20 PRINT+", "", "write the result\n  --from basic runs a whole program, with variables and loops, or says why it does not\n"},
    {"check", "0 111\n0 001\n?\n", "--from text", "  it is not later than the edge before it\n"},
    {"check",
     "$timescale 1 us $end $var wire 1 a ATN $end $var wire 1 c CLK $end $var wire 1 d DATA $end\n"
     "$enddefinitions $end #1 1a 1c 1d #3 0a 0c #9 1a 0a q",
     "--from vcd --from-time 1", "too early\n"},
    {"check", "Time,ATN,CLOCK,DATA\n0.000001,1,1,1\n0.000003,0,0,1\n0.000009,1,0,0\n1,x,1,1",
     "--from csv --from-time 1", "too early\n"},
    {"pages", "10 OPEN 4,5\n20 PRINT#4,\"A\"", "--present none --status kept", "printers 4 and 5 are connected\n"},
};

static void try_explained(const row *it, int tells) {
    const size_t length = strlen(it->text);
    char options[99];
    snprintf(options, sizeof options, "--explain %s", it->options);
    try_one(it->name, it->input, strlen(it->input), options, tells);
    if (true_length < length || memcmp(true_text + true_length - length, it->text, length) != 0)
        is_wrong("another end of an explanation", (long)true_length);
}

/* What takes edges or words takes no memory. */
static void try_edges(void) {
    static const print1525_edge edges[] = {{0, 1, 1, 1}, {100, 0, 1, 1}, {1100, 0, 0, 1}, {1110, 0, 0, 0}, {1300, 0, 1, 0}, {1310, 0, 1, 1}};
    print1525_decoder decoder;
    print1525_receiver receiver;
    print1525_device device;
    print1525_step step;
    print1525_reading reading;
    print1525_received received;
    print1525_details details;
    char text[99];
    size_t index;
    name_now = "edges and words";
    taken = 0;
    refused_from = 1;
    refused_to = MOST;
    print1525_decoder_begin(&decoder, &details);
    print1525_receiver_begin(&receiver, 4, &details);
    if (print1525_device_begin(&device, 4, NULL, &details) != PRINT1525_DONE) is_wrong("a device that begins", details.fault);
    for (index = 0; index < sizeof edges / sizeof *edges; index++) {
        if (print1525_decoder_edge(&decoder, &edges[index], &reading, &details) != PRINT1525_DONE) is_wrong("a decoder", details.fault);
        if (print1525_receiver_edge(&receiver, &edges[index], &received, &details) != PRINT1525_DONE) is_wrong("a receiver", details.fault);
        if (print1525_device_step(&device, &edges[index], &step, &details) != PRINT1525_DONE) is_wrong("a device", details.fault);
        print1525_device_busy(&device, edges[index].time + 9, &details);
    }
    print1525_decoder_end(&decoder, &reading, &details);
    print1525_message(&details, text, sizeof text);
    if (print1525_strerror(PRINT1525_FAULT_NO_MEMORY)[0] != 'o' || print1525_version()[0] != '1') is_wrong("words", 0);
    refused_from = 0;
    if (taken != 0) is_wrong("memory is taken", taken);
}

/* Nor does a printer that is watched, whatever it prints, nor the pixels of its marks. */
static void try_printer(void) {
    static const char text[] = "AB\016C\r\022D\r\010\032\377\201\032\377\252\r\017\020" "12E\033\020\001\101F";
    print1525_mark marks[PRINT1525_MARKS_OF_A_BYTE];
    const print1525_region region = {0, 0, 20, 60, 0, PRINT1525_GRAY};
    print1525_region window = {0, 0, 0, 0, 0, PRINT1525_BITS};
    uint8_t pixels[20 * 60], paper[20 * 60], bits[120 * 200];
    print1525_printer printer, other;
    print1525_characters shapes;
    print1525_mark dots[PRINT1525_DOTS_OF_A_MARK];
    print1525_details details;
    size_t index, one_by_one = 0, together = 0, made = 0, some;
    name_now = "a watched printer";
    taken = 0;
    refused_from = 1;
    refused_to = MOST;
    memset(paper, 255, sizeof paper);
    if (print1525_printer_begin(&printer, NULL) != PRINT1525_DONE || print1525_printer_select(&printer, PRINT1525_SET_LOWER, NULL) != PRINT1525_DONE) is_wrong("no printer", 0);
    other = printer;
    if (print1525_characters_read(characters, characters_length, &shapes, &details) != PRINT1525_DONE) is_wrong("characters", details.fault);
    if (print1525_printing_time(480, 1, NULL) != 2866667) is_wrong("a time", 0);
    for (index = 0; index < sizeof text - 1; index++) {
        if (print1525_printer_byte(&printer, (uint8_t)text[index], marks, PRINT1525_MARKS_OF_A_BYTE, &made, &details) != PRINT1525_DONE) is_wrong("a byte", details.fault);
        one_by_one += made;
        if (made > 0 && print1525_characters_dots(&shapes, marks, dots, PRINT1525_DOTS_OF_A_MARK, &some, &details) != PRINT1525_DONE) is_wrong("dots", details.fault);
        if (print1525_printer_page(marks, made, &region, pixels, sizeof pixels, &details) != PRINT1525_DONE) is_wrong("a page", details.fault);
        if (print1525_printer_draw(marks, made, &region, paper, sizeof paper, &details) != PRINT1525_DONE) is_wrong("drawn marks", details.fault);
    }
    for (index = 0; index < sizeof text - 1; index += some, together += made) {
        some = sizeof text - 1 - index;
        if (print1525_printer_bytes(&other, text + index, &some, marks, PRINT1525_MARKS_OF_A_BYTE, &made, &details) != PRINT1525_DONE || some == 0) exit(98);
        if (print1525_printer_changed(marks, made, &window, &details) != PRINT1525_DONE) is_wrong("a change", details.fault);
        if (print1525_printer_page(marks, made, &window, bits, sizeof bits, &details) != PRINT1525_DONE) is_wrong("bits", details.fault);
    }
    if (one_by_one != 516 || together != one_by_one || other.y != printer.y || memchr(paper, 0, sizeof paper) == NULL) is_wrong("its marks", (long)one_by_one);
    refused_from = 0;
    if (taken != 0) is_wrong("memory is taken", taken);
}

int main(int words, char **word) {
    const int tells = words > 2;
    print1525_settings settings = PRINT1525_SETTINGS_INIT;
    print1525_details details;
    size_t index, length;
    FILE *const file = words > 1 ? fopen(word[1], "rb") : NULL;
    /* What MinGW's start has taken for the words is its own. */
    live = 0;
    if (file == NULL) return 98;
    characters_length = fread(characters, 1, sizeof characters - 1, file);
    fclose(file);
    alarm(getenv("FEW") ? 4 * SECONDS : SECONDS);
    print1525_bus("OPEN 4,4\nPRINT#4,\"A\"\n", 21, &settings, trace, sizeof trace, &trace_length, &details);
    settings.as = PRINT1525_AS_VCD;
    print1525_bus("OPEN 4,4\nPRINT#4,\"A\"\n", 21, &settings, dump, sizeof dump, &dump_length, &details);
    memcpy(cut, trace, trace_length / 2);
    memcpy(cut + trace_length / 2, "\n5 1111\n", 8);
    cut_length = trace_length / 2 + 8;
    print1525_bus(letters, sizeof letters - 1, NULL, example, sizeof example - 1, &length, &details);
    if (length >= sizeof example) return 98;
    example[length] = 0;

    for (index = 0; index < sizeof rows / sizeof *rows; index++) try_row(&rows[index], tells);
    for (index = 0; index < sizeof explained_rows / sizeof *explained_rows; index++) try_explained(&explained_rows[index], tells);
    try_pages("pages", script, sizeof script - 1, "--delays 7,9", tells);
    try_pages("pages", petcat, sizeof petcat - 1, "--from petcat", tells);
    try_pages("raw", bytes, sizeof bytes - 1, "", tells);
    try_pages("print", inputs, sizeof inputs, "", tells);
    try_pages("decode", trace, trace_length, "", tells);
    try_pictures(tells);
    try_one("pages", script, sizeof script - 1, "--as bytes --device 5", tells);
    try_one("pages", stopping, sizeof stopping - 1, "--delays /7,9,1", tells);
    try_one("pages", program, sizeof program - 1, "--from prg", tells);
    try_one("pages", bad_script, sizeof bad_script - 1, "", tells);
    try_one("pages", bad_script, sizeof bad_script - 1, "--explain", tells);
    try_one("pages", petcat, sizeof petcat - 1, "--from petcat --explain", tells);
    try_one("print", bad_inputs, sizeof bad_inputs, "", tells);
    try_one("bus", script, sizeof script - 1, "--delays /7,9,1", tells);
    try_one("bus", stopping, sizeof stopping - 1, "--as vcd", tells);
    try_one("bus", petcat, sizeof petcat - 1, "--from petcat", tells);
    try_one("listing", script, sizeof script - 1, "--from text", tells);
    try_one("listing", program, sizeof program - 1, "--from prg", tells);
    try_one("listing", petcat, sizeof petcat - 1, "--from petcat", tells);
    try_answers(tells);
    try_recording(trace, trace_length, "text", tells);
    try_recording(cut, cut_length, "text", tells);
    try_recording(dump, dump_length, "vcd", tells);
    try_recording(dump, dump_length / 2, "vcd", tells);
    try_recording(csv, sizeof csv - 1, "csv", tells);
    try_recording(bad_csv, sizeof bad_csv - 1, "csv", tells);
    try_edges();
    try_printer();
    return wrong != 0;
}
