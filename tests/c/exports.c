/* The proved exports of pr_exports over small inputs: what each answers, and what it leaves in its buffer. The functions
 * of the library call those that library/plain.h declares. The page in a browser alone calls the others, which are
 * in no library for C: the archive of the crate is linked beside it, or WITHOUT_PAGE is defined.
 *
 * Standard input is examples/hello.trace. Each buffer holds sevens before a call. What a call may not write still does
 * after it: all that is behind its answer, and the whole buffer where it answers nothing. Status 0, else 1 and a line
 * for each row that is WRONG. */
#include "../../library/plain.h"
#include <stdio.h>
#include <string.h>

#define COUNT(rows) (sizeof(rows) / sizeof *(rows))
#define ROOM 9999
#define SEVEN 7
/* A length of which nothing is said but that it is more than this. */
#define MORE_THAN(length) (length) + 1, SIZE_MAX
#define EXACTLY(length) (length), (length)
#define ANY 0, SIZE_MAX

static int wrong;
static const print1525_plain_numbers before = {SEVEN, SEVEN, SEVEN, SEVEN};

static const uint8_t *bytes(const char *text) { return (const uint8_t *)text; }

/* A recording's text and settings: the usual names of its signals, levels as they are, from its start, at no rate. */
#define RECORDING(row)                                                                                                \
    bytes((row)->input), strlen((row)->input), (row)->number, bytes("ATN"), 3, bytes("CLOCK"), 5, bytes("DATA"), 4,   \
        0, 0, 0

/* The trace of standard input, with a zero at its end. */
static char trace[ROOM];

/* Whether a buffer still holds sevens from this byte on. */
static int is_untouched(const uint8_t *buffer, size_t from) {
    for (; from < ROOM; from++)
        if (buffer[from] != SEVEN) return 0;
    return 1;
}

/* ---- Texts. ---- */

static uint8_t text[ROOM];

typedef struct text_row {
    const char *name;
    void (*call)(const struct text_row *row, print1525_plain_numbers *answer);
    const char *input;
    uint8_t number; /* the form of the listing */
    size_t room;
    size_t code, fault, place, least, most;
    const char *front; /* what the text begins with */
} text_row;

static void listing(const text_row *row, print1525_plain_numbers *answer) {
    print1525_plain_listing(bytes(row->input), strlen(row->input), row->number, text, row->room, answer);
}

/* A printer's inputs, each a character of `input`, but `s` the selection of the set of lower case and `x` the first
 * number that is no input; as a list, of all sheets, with this project's characters. */
static void print(const text_row *row, print1525_plain_numbers *answer) {
    uint16_t inputs[9];
    const size_t length = strlen(row->input);
    size_t n;
    for (n = 0; n < length; n++)
        inputs[n] = row->input[n] == 's' ? 257 : row->input[n] == 'x' ? 258 : bytes(row->input)[n];
    print1525_plain_print(inputs, length, 0, 0, 0, 3, 0, 2, bytes(""), 0, text, row->room, answer);
}

/* Marks, each an A in the row of its letter in `input`, which a is the first of; as a list. */
static void picture(const text_row *row, print1525_plain_numbers *answer) {
    print1525_mark marks[9];
    const size_t length = strlen(row->input);
    size_t n;
    memset(marks, 0, sizeof marks);
    for (n = 0; n < length; n++) {
        marks[n].y = 21 * (uint64_t)(row->input[n] - 'a');
        marks[n].x = (uint16_t)(6 * n);
        marks[n].value = 65;
        marks[n].wide = row->number;
    }
    print1525_plain_printer_picture(marks, length, row->number, 0, 3, 0, 2, bytes(""), 0, text, row->room, answer);
}

static const text_row text_rows[] = {
    {"marks of two rows", picture, "aab", 0, 999, 0, 0, 0, EXACTLY(81),
     "printer 4\nrow 0\n 0 cell 65\n 6 cell 65\nrow 21\n 12 cell 65\nprinter 5\nstatus\nscreen\n"},
    {"marks of rows apart", picture, "be", 0, 999, 0, 0, 0, MORE_THAN(9), "printer 4\nrow 21\n 0 cell 65\nrow 84\n"},
    {"no marks", picture, "", 0, 999, 0, 0, 0, EXACTLY(34), "printer 4\nprinter 5\nstatus\nscreen\n"},
    {"a mark above the one before it", picture, "bbca", 0, 999, 2, 18, 3, EXACTLY(0), ""},
    {"marks without room", picture, "aab", 0, 80, 4, 0, 0, EXACTLY(81), ""},
    {"marks in no format", picture, "a", 9, 999, 2, 24, 0, EXACTLY(0), ""},
    {"a letter", print, "sA\r", 0, 999, 0, 0, 0, MORE_THAN(9), "printer 4"},
    {"no input", print, "Ax", 0, 999, 2, 28, 1, EXACTLY(0), ""},
    {"no name of petcat's", listing, "10 print \"{nix}\"\n", 2, 999, 2, 63, 1, MORE_THAN(1), ""},
    {"no form of a listing", listing, "REM", 5, 999, 2, 60, 0, EXACTLY(0), ""},
};

static void try_text(const text_row *row) {
    print1525_plain_numbers answer = before;
    memset(text, SEVEN, sizeof text);
    row->call(row, &answer);
    if (answer.code != row->code || answer.fault != row->fault || answer.place != row->place ||
        answer.length < row->least || answer.length > row->most) {
        fprintf(stderr, "WRONG: %s: code %u, fault %u, place %u, length %u\n", row->name, (unsigned)answer.code,
                (unsigned)answer.fault, (unsigned)answer.place, (unsigned)answer.length);
        wrong = 1;
    } else if (memcmp(text, row->front, strlen(row->front)) != 0) {
        fprintf(stderr, "WRONG: %s: another text\n", row->name);
        wrong = 1;
    } else if (!is_untouched(text, answer.code == 0 ? answer.length : 0)) {
        fprintf(stderr, "WRONG: %s: more is written than the text\n", row->name);
        wrong = 1;
    }
}

/* ---- Numbers. ---- */

static uint64_t numbers[70];

typedef struct number_row {
    const char *name;
    void (*call)(const struct number_row *row, print1525_plain_numbers *answer);
    const char *input;
    uint8_t number; /* the format of the recording */
    size_t room;
    print1525_plain_numbers answer;
    size_t known; /* how many of the numbers are said here */
    uint64_t numbers[30];
} number_row;

static void edges(const number_row *row, print1525_plain_numbers *answer) {
    print1525_plain_edges(RECORDING(row), numbers, row->room, answer);
}

/* The first byte of a lawful trace: printer 4 is called, and nothing follows. */
#define CALL "0 111\n100 011\n200 010\n1000 000\n1100 010\n1150 011\n1190 001\n"

#ifndef WITHOUT_PAGE
#ifdef __cplusplus
extern "C" {
#endif
void print1525_edge_delays(const uint8_t *recording, size_t length, uint8_t source, const uint8_t *atn,
                           size_t atn_length, const uint8_t *clock, size_t clock_length, const uint8_t *line,
                           size_t line_length, uint8_t inverted, uint64_t start, uint64_t rate, uint64_t *buffer,
                           size_t capacity, print1525_plain_numbers *answer);
void print1525_reading_rows(const uint8_t *recording, size_t length, uint8_t source, const uint8_t *atn,
                            size_t atn_length, const uint8_t *clock, size_t clock_length, const uint8_t *line,
                            size_t line_length, uint8_t inverted, uint64_t start, uint64_t rate, uint8_t detail,
                            uint64_t *buffer, size_t capacity, print1525_plain_numbers *answer);
void print1525_intervals(const uint8_t *recording, size_t length, uint8_t source, const uint8_t *atn, size_t atn_length,
                         const uint8_t *clock, size_t clock_length, const uint8_t *line, size_t line_length,
                         uint8_t inverted, uint64_t start, uint64_t rate, uint64_t *buffer, size_t capacity,
                         print1525_plain_numbers *answer);
void print1525_bounds(uint64_t *buffer, size_t capacity, print1525_plain_numbers *answer);
void print1525_statement_lines(const uint8_t *script, size_t length, uint64_t *buffer, size_t capacity,
                               print1525_plain_numbers *answer);
void print1525_script_fault(const uint8_t *script, size_t length, uint64_t *buffer, size_t capacity,
                            print1525_plain_numbers *answer);
void print1525_names(const uint8_t *words, size_t words_length, uint8_t *names, size_t capacity, uint8_t *messages,
                     size_t messages_capacity, print1525_plain_end *end);
#ifdef __cplusplus
}
#endif

static void edge_delays(const number_row *row, print1525_plain_numbers *answer) {
    print1525_edge_delays(RECORDING(row), numbers, row->room, answer);
}

/* Of the lines that readings have with wording 0. */
static void reading_rows(const number_row *row, print1525_plain_numbers *answer) {
    print1525_reading_rows(RECORDING(row), 0, numbers, row->room, answer);
}

static void intervals(const number_row *row, print1525_plain_numbers *answer) {
    print1525_intervals(RECORDING(row), numbers, row->room, answer);
}

static void bounds(const number_row *row, print1525_plain_numbers *answer) {
    print1525_bounds(numbers, row->room, answer);
}

static void statement_lines(const number_row *row, print1525_plain_numbers *answer) {
    print1525_statement_lines(bytes(row->input), strlen(row->input), numbers, row->room, answer);
}

static void script_fault(const number_row *row, print1525_plain_numbers *answer) {
    print1525_script_fault(bytes(row->input), strlen(row->input), numbers, row->room, answer);
}

/* ATN after a rest, the printers' answer, the look, ready, the first pull, and both halves of a bit, of which the
 * second is 20 microseconds too long. After that edge nothing is known. */
#define LATE "0 111\n100 001\n200 000\n1100 010\n1150 011\n1190 000\n1260 010\n1480 000\n1550 010\n"
#endif

static const number_row number_rows[] = {
    {"two edges", edges, "0 111\n100 011\n", 0, 40, {0, 0, 0, 4}, 4, {0, 7, 100, 3}},
    {"no room for edges", edges, CALL, 0, 3, {4, 0, 0, 14}, 0, {0}},
#ifndef WITHOUT_PAGE
    /* CLOCK is released at 1100, DATA at 1150, CLOCK is pulled at 1190, and the recording ends: no bit comes. */
    {"a byte without a bit", reading_rows, CALL, 0, 40, {0, 0, 0, 18}, 17,
     {4, 0, 0, 0, 1, 1100, 1150, 0, 0, 0, 1190, 1190, 0, 0, 0, 0, 0}},
    /* bounds_of_each_kind; the typical delays are those of tests/rows/trace_of_two_letters.case. */
    {"the bounds of delays", bounds, "", 0, 40, {0, 0, 0, 30}, 30,
     {100, 1000, 1000, 2000, 1, 199, 1, 60, 20, 200, 20, 200, 100, 200, 100, 200,
      1, 1000, 1, 10000, 200, 250, 80, 200, 1, 80, 1, 60, 80, 250}},
    {"delays up to a late edge", edge_delays, LATE, 0, 20, {0, 0, 0, 18}, 18,
     {15, 0, 14, 0, 8, 100, 1, 100, 9, 1100, 2, 1150, 4, 1190, 5, 1260, 15, 0}},
    {"delays of no format", edge_delays, "0 111\n", 5, 20, {2, 29, 0, 0}, 0, {0}},
    /* One byte, ready after 50 microseconds, whose CLOCK is pulled 40 later: the recording ends before a bit. */
    {"intervals of a byte without a bit", intervals, CALL, 0, 70, {0, 0, 0, 70}, 21,
     {1, 50, 50, 50, 1, 10000, 0, 1, 40, 40, 40, 1, 199, 0, 0, 0, 0, 0, 200, 250, 0}},
    {"three statements", statement_lines, "OPEN 4,4:PRINT#4\n\n10 CLOSE 4", 0, 9, {0, 0, 0, 3}, 3, {1, 1, 3}},
    {"statements of a refused script", statement_lines, "\nPRUNT", 0, 9, {2, 1, 2, 0}, 0, {0}},
    {"a fault behind a line number", script_fault, "\n10 OPEN 256,4", 0, 9, {0, 0, 0, 4}, 4, {2, 9, 11, 3}},
    {"no fault", script_fault, "REM", 0, 9, {0, 0, 0, 0}, 0, {0}},
#endif
};

static void try_numbers(const number_row *row) {
    print1525_plain_numbers answer = before;
    const size_t written = row->answer.code == 0 ? row->answer.length : 0;
    size_t n;
    for (n = 0; n < COUNT(numbers); n++) numbers[n] = SEVEN;
    row->call(row, &answer);
    if (answer.code != row->answer.code || answer.fault != row->answer.fault || answer.place != row->answer.place ||
        answer.length != row->answer.length) {
        fprintf(stderr, "WRONG: %s: code %u, fault %u, place %u, length %u\n", row->name, (unsigned)answer.code,
                (unsigned)answer.fault, (unsigned)answer.place, (unsigned)answer.length);
        wrong = 1;
    }
    for (n = 0; n < COUNT(numbers); n++) {
        if (n < row->known ? numbers[n] != row->numbers[n] : n >= written && numbers[n] != SEVEN) {
            fprintf(stderr, "WRONG: %s: number %u is %lu\n", row->name, (unsigned)n, (unsigned long)numbers[n]);
            wrong = 1;
        }
    }
}

/* ---- The program as a function. ---- */

static uint8_t output[ROOM], messages[ROOM];

typedef struct {
    const char *words; /* with a blank for the byte 0 between each two */
    const char *input;
    uint8_t most;
    size_t output_room, messages_room;
    size_t status, fault, place, column;
    size_t output_least, output_most, messages_least, messages_most;
    const char *front; /* what the output begins with */
} program_row;

#define PRESENT_5 "print1525 pages --present 5"

static const program_row program_rows[] = {
    {"print1525 pages", "OPEN 4,4\nPRINT#4,\"A\"", 3, 999, 999, 0, 0, 0, 0, MORE_THAN(9), EXACTLY(0), "printer 4"},
    {"print1525 pages", "\nPRUNT", 3, 999, 999, 2, 1, 2, 0, EXACTLY(0), ANY, ""},
    {"print1525 pages", "OPEN 4,4", 3, 0, 999, 4, 0, 0, 0, MORE_THAN(9), ANY, ""},
    {"print1525 pages --from=prg", "\001", 3, 999, 999, 2, 61, 0, 0, ANY, ANY, ""},
    {"print1525 fly", "", 3, 999, 999, 2, 54, 0, 0, ANY, MORE_THAN(0), ""},
    {"print1525 fly", "", 3, 0, 9, 2, 54, 0, 0, ANY, MORE_THAN(9), ""}, /* messages without room */
    /* Printer 5 answers the LISTEN for printer 4, but no byte after it. */
    {PRESENT_5, "OPEN 4,4\nCMD 4\nPRINT#4", 1, 4096, 0, 1, 105, 3, 0, ANY, ANY, ""},
    {PRESENT_5, "OPEN 4,4\nPRINT#4\nPRINT#4", 1, 4096, 0, 0, 0, 0, 0, ANY, ANY, ""},
    {PRESENT_5 " --status kept", "OPEN 4,4\nPRINT#4\nPRINT#4", 1, 4096, 0, 1, 105, 3, 0, ANY, ANY, ""},
};

/* Words with a byte 0 between each two. */
static size_t zeros_between(const char *words, uint8_t *made) {
    const size_t length = strlen(words);
    size_t n;
    for (n = 0; n < length; n++) made[n] = words[n] == ' ' ? 0 : bytes(words)[n];
    return length;
}

static void is_wrong(const program_row *row, const char *what, const print1525_plain_end *end) {
    fprintf(stderr, "WRONG: %s, room for %u and %u bytes: %s: ", row->words, (unsigned)row->output_room,
            (unsigned)row->messages_room, what);
    fprintf(stderr, "status %u, fault %u, place %u, column %u, output %u, messages %u\n", (unsigned)end->status,
            (unsigned)end->fault, (unsigned)end->place, (unsigned)end->column, (unsigned)end->output,
            (unsigned)end->messages);
    wrong = 1;
}

/* How a call ends, and what it leaves in both buffers. */
static void compare(const program_row *row, const print1525_plain_end *end) {
    const size_t said = end->messages <= row->messages_room ? end->messages : 0;
    const size_t written = end->status <= row->most && end->output <= row->output_room ? end->output : 0;
    if (end->status != row->status || end->fault != row->fault || end->place != row->place ||
        end->column != row->column)
        is_wrong(row, "another end", end);
    else if (end->output < row->output_least || end->output > row->output_most)
        is_wrong(row, "another length of the output", end);
    else if (end->messages < row->messages_least || end->messages > row->messages_most)
        is_wrong(row, "another length of the messages", end);
    else if (memcmp(output, row->front, strlen(row->front)) != 0)
        is_wrong(row, "another output", end);
    else if (!is_untouched(output, written) || !is_untouched(messages, said))
        is_wrong(row, "more is written than the texts", end);
}

static void try_program(const program_row *row) {
    print1525_plain_end end = {SEVEN, SEVEN, SEVEN, SEVEN, SEVEN, SEVEN};
    uint8_t words[99];
    const size_t length = zeros_between(row->words, words);
    memset(output, SEVEN, sizeof output);
    memset(messages, SEVEN, sizeof messages);
    print1525_plain_answer(words, length, 0, row->most, bytes(row->input), strlen(row->input), bytes(""), 0, output,
                           row->output_room, messages, row->messages_room, &end);
    compare(row, &end);
}

/* A BASIC error stops a run, nothing does, and a script is refused, whatever the run's output is. */
static void try_runs(void) {
    static const char *const commands[] = {"print1525 pages", "print1525 pages --as text",
                                           "print1525 pages --as bytes --device 4", "print1525 bus",
                                           "print1525 bus --as vcd"};
    size_t n;
    for (n = 0; n < COUNT(commands); n++) {
        const program_row rows[] = {
            {commands[n], "OPEN 4,4\nPRINT#5", 1, 4096, 0, 1, 103, 2, 0, ANY, ANY, ""},
            {commands[n], "OPEN 4,4", 1, 4096, 0, 0, 0, 0, 0, ANY, ANY, ""},
            {commands[n], "OPEN 4,4\nPRUNT", 1, 4096, 0, 2, 1, 2, 0, ANY, ANY, ""},
        };
        size_t row;
        for (row = 0; row < COUNT(rows); row++) try_program(&rows[row]);
    }
}

#ifndef WITHOUT_PAGE
/* The names of the files that words name: one that is read, none that is written, and none of characters. */
static void try_names(void) {
    static const program_row row = {"print1525 pages a.bas", "", 3, 999, 999, 0, 0, 0, 0, EXACTLY(9), ANY, "=a.bas"};
    print1525_plain_end end = {SEVEN, SEVEN, SEVEN, SEVEN, SEVEN, SEVEN};
    uint8_t words[99];
    const size_t length = zeros_between(row.words, words);
    memset(output, SEVEN, sizeof output);
    memset(messages, SEVEN, sizeof messages);
    print1525_names(words, length, output, row.output_room, messages, row.messages_room, &end);
    compare(&row, &end);
    if (output[6] != 0 || output[7] != 0 || output[8] != 0) is_wrong(&row, "another end of the names", &end);
}
#endif

/* ---- A device on the bus. ---- */

/* A moment that a device is shown, and what it does then. At a moment with a byte, the byte's bits come: CLOCK is
 * pulled for 70 microseconds and released for 20, eight times, and then pulled. */
typedef struct {
    uint64_t now;
    uint8_t atn, clock, data;
    int byte; /* or -1 */
    uint8_t pulls_data;
    uint64_t wake;
    print1525_received heard;
} moment_row;

#define NO_BYTE -1
#define NOTHING {0, 0, 0}

/* Device 4 is called, prints until 5000 and hears an A with end-or-identify, at typical delays: AT 100, H 50, YE 250,
 * EI 80 and F 20 (docs/TIMING.md). */
static const moment_row moment_rows[] = {
    {0, 1, 1, 1, NO_BYTE, 0, PRINT1525_NO_WAKE, NOTHING},
    {1000, 0, 0, 1, NO_BYTE, 0, 1100, NOTHING}, /* ATN is pulled */
    {1100, 0, 0, 1, NO_BYTE, 1, PRINT1525_NO_WAKE, NOTHING},
    {1100, 0, 0, 0, NO_BYTE, 1, PRINT1525_NO_WAKE, NOTHING},
    {2000, 0, 1, 0, NO_BYTE, 1, 2050, NOTHING}, /* ready to send */
    {2050, 0, 1, 0, NO_BYTE, 0, PRINT1525_NO_WAKE, NOTHING},
    {2050, 0, 1, 1, NO_BYTE, 0, PRINT1525_NO_WAKE, NOTHING},
    {2090, 0, 0, 1, 36, 0, 2830, {PRINT1525_RECEIVED_LISTEN, 0, 0}},
    {2830, 0, 0, 1, NO_BYTE, 1, PRINT1525_NO_WAKE, NOTHING}, /* acknowledged */
    {2930, 1, 0, 0, NO_BYTE, 1, PRINT1525_NO_WAKE, NOTHING},
    {3030, 1, 1, 0, NO_BYTE, 1, 5000, NOTHING}, /* it prints until 5000 */
    {5000, 1, 1, 0, NO_BYTE, 0, PRINT1525_NO_WAKE, NOTHING},
    {5000, 1, 1, 1, NO_BYTE, 0, 5250, NOTHING},
    {5250, 1, 1, 1, NO_BYTE, 1, 5330, NOTHING}, /* the answer to end-or-identify */
    {5250, 1, 1, 0, NO_BYTE, 1, 5330, NOTHING},
    {5330, 1, 1, 0, NO_BYTE, 0, PRINT1525_NO_WAKE, NOTHING},
    {5330, 1, 1, 1, NO_BYTE, 0, PRINT1525_NO_WAKE, NOTHING},
    {5360, 1, 0, 1, 65, 0, 6100, {PRINT1525_RECEIVED_BYTE, 65, 1}},
    {6100, 1, 0, 1, NO_BYTE, 1, PRINT1525_NO_WAKE, NOTHING},
    {6100, 1, 0, 0, NO_BYTE, 1, PRINT1525_NO_WAKE, NOTHING},
};

static void device_is_wrong(const char *what, uint64_t now) {
    fprintf(stderr, "WRONG: a device, %s, at %lu\n", what, (unsigned long)now);
    wrong = 1;
}

static print1525_step shown(print1525_device *device, uint64_t now, uint8_t atn, uint8_t clock, uint8_t data) {
    print1525_step step = {SEVEN, SEVEN, {SEVEN, SEVEN, SEVEN}};
    print1525_plain_numbers answer = before;
    print1525_plain_device_step(device, now, atn, clock, data, &step, &answer);
    if (answer.code != 0 || answer.fault != 0 || answer.place != 0 || answer.length != 0)
        device_is_wrong("another answer", now);
    return step;
}

/* Whether a step is refused with this fault, with the device as it was and nothing done. */
static void is_refused(print1525_device *device, uint64_t now, size_t fault) {
    const print1525_device kept = *device;
    print1525_step step = {SEVEN, SEVEN, {SEVEN, SEVEN, SEVEN}};
    print1525_plain_numbers answer = before;
    print1525_plain_device_step(device, now, 1, 1, 1, &step, &answer);
    if (answer.code != 2 || answer.fault != fault || answer.place != 0 || answer.length != 0)
        device_is_wrong("another refusal", now);
    if (step.wake != PRINT1525_NO_WAKE || step.pulls_data != 0 || step.heard.kind != 0 || step.heard.byte != 0 ||
        step.heard.eoi != 0 || memcmp(&kept, device, sizeof kept) != 0)
        device_is_wrong("it does something with a refusal", now);
}

/* Whether a beginning is refused with this fault, with the device as it was. */
static void is_not_begun(uint8_t address, const print1525_timing *timing, size_t fault) {
    print1525_device device, kept;
    print1525_plain_numbers answer = before;
    memset(&device, SEVEN, sizeof device);
    kept = device;
    print1525_plain_device_begin(&device, address, timing, &answer);
    if (answer.code != 2 || answer.fault != fault || answer.place != 0 || answer.length != 0 ||
        memcmp(&kept, &device, sizeof kept) != 0)
        device_is_wrong("it is begun", address);
}

static void try_device(void) {
    static const print1525_timing typical = {0, 0, 0, 0, 0, 0}, least = {1, 1, 200, 80, 1, 1},
                                  greatest = {1000, 10000, 250, 200, 80, 60}, too_long = {0, 10001, 0, 0, 0, 0},
                                  too_short = {0, 0, 199, 0, 0, 0};
    print1525_device device, saved, other;
    print1525_plain_numbers answer = before;
    uint8_t bytes_of_it[sizeof device];
    size_t n, bit;
    is_not_begun(3, &typical, 21);
    is_not_begun(31, &too_long, 21);
    is_not_begun(4, &too_long, 26);
    is_not_begun(30, &too_short, 26);
    print1525_plain_device_begin(&device, 30, &least, &answer);
    if (answer.code != 0) device_is_wrong("the least delays", 30);
    print1525_plain_device_begin(&device, 30, &greatest, &answer);
    if (answer.code != 0) device_is_wrong("the greatest delays", 30);
    print1525_plain_device_begin(&device, 4, &typical, &answer);
    if (answer.code != 0 || answer.fault != 0) device_is_wrong("typical delays", 4);
    for (n = 0; n < COUNT(moment_rows); n++) {
        const moment_row *const row = &moment_rows[n];
        print1525_step step;
        uint64_t now = row->now;
        if (n == 10) print1525_plain_device_busy(&device, 5000);
        /* (It is saved, loaded, and goes on by itself.) */
        memcpy(bytes_of_it, &device, sizeof device);
        memcpy(&saved, bytes_of_it, sizeof saved);
        for (bit = 0; bit < 8 && row->byte != NO_BYTE; bit++, now += 90) {
            const uint8_t level = (uint8_t)(row->byte >> bit & 1);
            step = shown(&device, now, row->atn, 0, level);
            if (step.pulls_data != 0 || step.heard.kind != 0) device_is_wrong("a bit", now);
            step = shown(&device, now + 70, row->atn, 1, level);
            if (step.pulls_data != 0 || step.heard.kind != 0) device_is_wrong("a bit", now + 70);
        }
        step = shown(&device, now, row->atn, row->clock, row->data);
        if (step.pulls_data != row->pulls_data || step.wake != row->wake) device_is_wrong("what it does", now);
        if (memcmp(&step.heard, &row->heard, sizeof step.heard) != 0) device_is_wrong("what it hears", now);
        if (row->byte != NO_BYTE) continue;
        shown(&saved, now, row->atn, row->clock, row->data);
        if (memcmp(&saved, &device, sizeof saved) != 0) device_is_wrong("a copy", now);
    }
    is_refused(&device, 6099, 17);
    is_refused(&device, (uint64_t)1 << 63, 17);
    /* Memory of zeros is no device; nor is one of another version, of no address or of another delay. */
    memset(&other, 0, sizeof other);
    is_refused(&other, 9000, 21);
    for (n = 0; n < 3; n++) {
        uint8_t *const byte = (uint8_t *)(void *)&other + (n == 0 ? 52 : n == 1 ? 53 : 41);
        other = device;
        *byte = (uint8_t)(*byte + 40);
        is_refused(&other, 9000, 21);
    }
}

/* ---- Characters and printing time. ---- */

static void characters_are_wrong(const char *what) {
    fprintf(stderr, "WRONG: characters: %s\n", what);
    wrong = 1;
}

/* The columns of the project's A in the graphic/upper case set, each as its number, from this place on. */
static void try_dots(const print1525_characters *characters, const print1525_mark *mark, size_t length,
                     const uint8_t *columns) {
    print1525_mark dots[PRINT1525_DOTS_OF_A_MARK + 1];
    print1525_plain_numbers answer = before;
    size_t n;
    memset(dots, SEVEN, sizeof dots);
    print1525_plain_characters_dots(characters, mark, dots, COUNT(dots), &answer);
    if (answer.code != 0 || answer.fault != 0 || answer.length != length) characters_are_wrong("another answer");
    for (n = 0; n < COUNT(dots); n++) {
        const print1525_mark *const it = &dots[n];
        if (n >= length ? it->value != SEVEN || it->y != dots[COUNT(dots) - 1].y
                        : it->y != mark->y || it->x != mark->x + n || it->kind != PRINT1525_DOTS ||
                              it->value != columns[n] || it->lower || it->reverse || it->wide)
            characters_are_wrong("another column");
    }
    memset(dots, SEVEN, sizeof dots);
    if (length == 0) return;
    print1525_plain_characters_dots(characters, mark, dots, length - 1, &answer);
    if (answer.code != 4 || answer.length != length || dots[0].value != SEVEN)
        characters_are_wrong("columns without room");
}

static void try_characters(void) {
    static const uint8_t letter[] = {126, 9, 9, 9, 126, 0},
                         wide[] = {1, 1, 118, 118, 118, 118, 118, 118, 1, 1, 127, 127}, column[] = {200};
    static const print1525_mark marks[] = {{9, 5, PRINT1525_CELL, 65, 0, 0, 0},
                                           {1, 479, PRINT1525_CELL, 65, 0, 1, 1},
                                           {2, 7, PRINT1525_DOTS, 200, 1, 1, 1},
                                           {3, 65533, PRINT1525_CELL, 65, 0, 0, 0}};
    static const struct {
        uint32_t columns;
        uint16_t feeds;
        print1525_speed speed;
        uint64_t time;
    } times[] = {{480, 1, {0, 0}, 2866667}, {6, 0, {0, 0}, 33334}, {0, 2, {0, 0}, 400000}, {6, 3, {600, 5}, 10015},
                 {UINT32_MAX, UINT16_MAX, {1, UINT32_MAX}, 4576437976677825}};
    print1525_characters characters, kept;
    print1525_plain_numbers answer = before;
    uint64_t time = SEVEN;
    size_t n;
    memset(&characters, SEVEN, sizeof characters);
    kept = characters;
    print1525_plain_characters_read(bytes("upper 32\n"), 9, &characters, &answer);
    if (answer.code != 2 || answer.fault != 52 || answer.place != 2 || answer.length != 0 ||
        memcmp(&kept, &characters, sizeof kept) != 0)
        characters_are_wrong("a file that ends early");
    print1525_plain_characters_read(bytes(""), 0, &characters, &answer);
    if (answer.code != 0 || answer.fault != 0 || answer.length != 0) characters_are_wrong("the project's own");
    try_dots(&characters, &marks[0], 6, letter);
    try_dots(&characters, &marks[1], 12, wide);
    try_dots(&characters, &marks[2], 1, column);
    try_dots(&characters, &marks[3], 3, letter);
    for (n = 0; n < COUNT(times); n++) {
        print1525_plain_printing_time(times[n].columns, times[n].feeds, &times[n].speed, &time);
        if (time != times[n].time) fprintf(stderr, "WRONG: time %u: %lu\n", (unsigned)n, (unsigned long)time), wrong = 1;
    }
}

/* ---- Whole answers. ---- */

typedef struct {
    const char *name;
    const char *words; /* with a blank for the byte 0 between each two */
    uint8_t explained;
    const char *input;
    size_t status, fault, place;
    const char *output;
    const char *messages; /* what they begin with */
    size_t lines;         /* and how many lines they have, or SIZE_MAX where that is not said */
} answer_row;

#define HI "OPEN 4,4\nPRINT#4,\"HI\"\n"
#define PAGE "printer 4\nrow 0\n 0 cell 72\n 6 cell 73\nprinter 5\nstatus 0 0\nscreen\n"
#define BAD_BYTE "print1525: line 1: bad byte\n"

static const answer_row answer_rows[] = {
    {"answers_in_memory, the pages of a script; words_as_one_text", "print1525 pages", 0, HI, 0, 0, 0, PAGE, "", 0},
    {"answers_in_memory, a file that words name is the input", "print1525 pages hello.bas -o hello.page", 0, HI, 0, 0,
     0, PAGE, "", 0},
    {"answers_in_memory, a run that a BASIC error stops", "print1525 pages --present none", 0,
     "OPEN 4,4\nPRINT#4,\"A\"\n", 1, 105, 2, "printer 4\nprinter 5\nstatus 0 128\nscreen\nstop 5 at 2\n", "", 0},
    {"answers_in_memory, a refused script", "print1525 bus", 0, "OPEN 4,4\nPRINT#4,CHR$(256)\n", 2, 5, 2, "",
     "print1525: line 2: bad byte\n", 1},
    {"answers_in_memory, the frames of a trace", "print1525 check", 0, trace, 0, 0, 0,
     "command 36\ndata 72\ndata 73\ndata 13 eoi\ncommand 63\nlawful\n", "", 0},
    {"answers_in_memory, a bad value", "print1525 pages --present 6", 0, HI, 2, 54, 0, "", "print1525: bad --present\n",
     1},
    {"answers_in_memory, the version", "print1525 --version", 0, "", 0, 0, 0,
     "print1525 1.0.0 (rattle-kit-13f, logic dac8208d650f15bf)\n", "", 0},
    {"answers_in_memory, a file of characters without shapes", "print1525 raw --as svg --characters a.txt", 0, "HI", 2,
     52, 1, "", "print1525: a.txt: line 1: bad character line\n", 1},
    {"explained_in_memory, not", "print1525 pages", 0, "PRINT#4,CHR$(256)\n", 2, 5, 1, "", BAD_BYTE, 1},
    {"explained_in_memory, for the caller", "print1525 pages", 1, "PRINT#4,CHR$(256)\n", 2, 5, 1, "", BAD_BYTE, 4},
    {"explained_in_memory, by its words", "print1525 pages --explain", 0, "PRINT#4,CHR$(256)\n", 2, 5, 1, "", BAD_BYTE,
     4},
    {"words_that_are_not_utf_8", "print1525 \377", 0, "", 2, 54, 0, "", "print1525: \\xff: not UTF-8\n", SIZE_MAX},
    {"words_without_a_job, printers", "print1525 pages --present x --delays 65536", 0, HI, 2, 54, 0, "",
     "print1525: bad --present\n", 1},
    {"words_without_a_job, delays", "print1525 bus --delays 65536", 0, HI, 2, 54, 0, "", "print1525: bad --delays\n",
     1},
    {"words_without_a_job, a status", "print1525 bus --status x", 0, HI, 2, 54, 0, "", "print1525: bad --status\n", 1},
    {"words_without_a_job, a line", "print1525 check --delays 1", 0, HI, 2, 54, 0, "",
     "error: unexpected argument '--delays' found\n", SIZE_MAX},
    {"words_without_a_job, but this one", "print1525 check", 0, "0 111\n", 0, 0, 0, "lawful\n", "", 0},
};

static size_t lines_of(const uint8_t *said, size_t length) {
    size_t n, lines = 0;
    for (n = 0; n < length; n++) lines += said[n] == '\n';
    return lines;
}

/* The file of characters has no shapes. */
static void try_answer(const answer_row *row) {
    print1525_plain_end end = {SEVEN, SEVEN, SEVEN, SEVEN, SEVEN, SEVEN};
    const size_t written = strlen(row->output), front = strlen(row->messages);
    uint8_t words[99];
    const size_t length = zeros_between(row->words, words);
    memset(output, SEVEN, sizeof output);
    memset(messages, SEVEN, sizeof messages);
    print1525_plain_answer(words, length, row->explained, 3, bytes(row->input), strlen(row->input), bytes("?\n"), 2,
                           output, sizeof output, messages, sizeof messages, &end);
    if (end.status != row->status || end.fault != row->fault || end.place != row->place || end.column != 0 ||
        end.output != written || memcmp(output, row->output, written) != 0 || !is_untouched(output, written) ||
        end.messages < front || end.messages > sizeof messages || memcmp(messages, row->messages, front) != 0 ||
        (row->lines != SIZE_MAX && lines_of(messages, end.messages) != row->lines) ||
        (row->lines == lines_of(messages, front) && end.messages != front) || !is_untouched(messages, end.messages)) {
        fprintf(stderr, "WRONG: %s: status %u, fault %u, place %u, output %u, messages %u\n", row->name,
                (unsigned)end.status, (unsigned)end.fault, (unsigned)end.place, (unsigned)end.output,
                (unsigned)end.messages);
        wrong = 1;
    }
}

int main(void) {
    size_t n = fread(trace, 1, sizeof trace - 1, stdin);
    trace[n] = 0;
    for (n = 0; n < COUNT(text_rows); n++) try_text(&text_rows[n]);
    for (n = 0; n < COUNT(number_rows); n++) try_numbers(&number_rows[n]);
    for (n = 0; n < COUNT(program_rows); n++) try_program(&program_rows[n]);
    for (n = 0; n < COUNT(answer_rows); n++) try_answer(&answer_rows[n]);
    try_runs();
#ifndef WITHOUT_PAGE
    try_names();
#endif
    try_device();
    try_characters();
    return wrong;
}
