/* What a caller of include/print1525.h carries, as the header says: how much stack the calls take, and that they work on a thread with
 * no more; in a child of fork; in a signal handler (the calls for edges, words and watched printers) while the program is within a call; over a malloc
 * that aligns no better than C demands and gives memory full of rubbish; and into buffers full of rubbish. Status 0, else a line for
 * each thing that is WRONG and 1. With a word it writes the stack that each call takes. With PLAIN in the environment the library's
 * compiler does not optimise, and calls that take no memory may take twice the stack. Linked with
 * -Wl,--wrap=malloc,--wrap=realloc,--wrap=free. */
#define _GNU_SOURCE
#include "options.h"
#include <pthread.h>
#include <signal.h>
#include <stdio.h>
#include <stdlib.h>
#include <string.h>
#include <sys/mman.h>
#include <sys/time.h>
#include <sys/wait.h>
#include <unistd.h>

#define ROOM (1 << 20)
/* What the header says of calls that take no memory. */
#define SMALL_STACK 4096
#define CHARACTERS_STACK 20480
#define MARK 0xC7

void *__real_malloc(size_t size);
void __real_free(void *old);
void *__wrap_malloc(size_t size);
void *__wrap_realloc(void *old, size_t size);
void __wrap_free(void *old);

/* What a block begins with, in front of the caller's bytes. */
typedef struct {
    void *whole;
    size_t size;
} block;

/* Memory at 16 bytes after a multiple of 32, full of rubbish. */
void *__wrap_malloc(size_t size) {
    char *const whole = (char *)__real_malloc(size + 80);
    char *place;
    block head;
    if (whole == NULL) return NULL;
    place = whole + 64 - (uintptr_t)whole % 32 - 16;
    head.whole = whole;
    head.size = size;
    memcpy(place - sizeof head, &head, sizeof head);
    memset(place, 0xA5, size);
    return place;
}

static block head_of(void *place) {
    block head;
    memcpy(&head, (char *)place - sizeof head, sizeof head);
    return head;
}

void __wrap_free(void *old) {
    block head;
    if (old == NULL) return;
    head = head_of(old);
    memset(old, 0x5A, head.size);
    __real_free(head.whole);
}

void *__wrap_realloc(void *old, size_t size) {
    void *const made = __wrap_malloc(size);
    if (made == NULL || old == NULL) return made;
    memcpy(made, old, head_of(old).size < size ? head_of(old).size : size);
    __wrap_free(old);
    return made;
}

static int wrong;

static void is_wrong(const char *what, unsigned long number) {
    wrong = 1;
    fprintf(stderr, "WRONG: %s, %lu\n", what, number);
}

static const char script[] =
    "OPEN 4,4\nOPEN 5,5,7\nCMD 4,\"ON BOTH\";\nPRINT#5,CHR$(14)\"WIDE\"\nPRINT#4,CHR$(8)\"ABC\"CHR$(15)CHR$(26)CHR$(9)\"X\"\nPRINT \"MORE\"\nPRINT#9\n";
static const char petcat[] = "10 open4,4\n20 print#4,\"{rvon}hello{2 down}\"\n30 close4\n";
static char trace[65536];
static size_t trace_length;

static const print1525_edge edges[] = {{0, 1, 1, 1}, {100, 0, 1, 1}, {110, 0, 0, 1}, {111, 0, 0, 0}, {300, 0, 1, 0}, {400, 0, 1, 1}, {460, 0, 0, 1}};
#define COUNT (sizeof edges / sizeof *edges)

static const char bad[] = "REM\nOPEN 4,4:PRONT#4\n";
static char characters[16384];

/* Each call for a text with its options, and its input: a script if there is none. */
static const struct {
    const char *name, *options, *input;
} texts[] = {
    {"pages", "--as list", script}, {"pages", "--as text", script}, {"pages", "--as svg", script}, {"pages", "--as png", script}, {"pages", "--as pdf", script},
    {"pages", "--from petcat", petcat}, {"pages", "--as bytes", script}, {"pages", "--explain", bad}, {"pages", "--explain", script}, {"pages", "--as svg --sheet 1 --device 5", script},
    {"bus", "--as text", script}, {"bus", "--as vcd", script}, {"bus", "--from petcat", petcat}, {"listing", "--from petcat", petcat}, {"raw", "--as text", script},
    {"raw", "--as pdf", script}, {"print", "--as svg", NULL}, {"check", "", trace}, {"check", "--as story", trace}, {"check", "--as json", trace}, {"check", "--explain", script},
    {"decode", "--intervals", trace}, {"decode", "--as json", trace}, {"decode", "--as pdf", trace}, {"decode", "--explain", script}, {"edges", "", trace},
    {"pages", "--as svg", NULL}, {"raw", "--as svg", NULL}, {"answer", "", script},
    {"picture", "--as svg", NULL}, {"picture", "--as png", NULL}, {"picture", "--as pdf", NULL},
};
#define TEXTS ((int)(sizeof texts / sizeof *texts))

/* The calls that take no memory, after those. */
enum { DECODER = sizeof texts / sizeof *texts, RECEIVER, WORDS, BYTE, BYTES, PAGE, DRAW, BITS, DOTS, CALLS };
static const char *const others[] = {"decoder", "receiver and device", "words", "printer, byte by byte", "printer, bytes", "printer, page", "printer, draw", "printer, bits", "characters"};

static const char *name_of(int call) { return call < TEXTS ? texts[call].name : others[call - TEXTS]; }

/* How much stack a call takes at most. */
static size_t stack_most(int call) {
    if (call < TEXTS) return PRINT1525_STACK;
    return call == DOTS ? CHARACTERS_STACK : getenv("PLAIN") ? 2 * SMALL_STACK : SMALL_STACK;
}

/* What a call tells: its details, and the length beside them. */
typedef struct {
    print1525_details details;
    size_t length;
} answered;

/* Whether a call takes no memory, so that it may be made in a signal handler. */
static int is_for_handlers(int call) { return call >= TEXTS; }

/* What the watched printer prints: characters, a repeat over the end of a line, a position, codes. */
static const char printed[] = "AB\016C\r\022D\r\010\032\377\201\032\377\252\r\017\020" "12E\033\020\001\101F";
#define PRINTED (sizeof printed - 1)
/* Room in a handler's buffer for the marks of a byte. */
#define HANDLERS_ROOM (PRINT1525_MARKS_OF_A_BYTE * sizeof(print1525_mark))

/* The calls of a watched printer: its last marks are in the buffer, or pixels. */
static void make_printed(int call, uint8_t *buffer, size_t room, answered *told) {
    static const print1525_mark marks[] = {{0, 0, PRINT1525_CELL, 65, 1, 0, 0}, {7, 5, PRINT1525_DOTS, 77, 0, 0, 0}, {1, 9, PRINT1525_CELL, 88, 0, 1, 1}};
    print1525_region region = {0, 0, 40, 20, 0, PRINT1525_GRAY};
    print1525_mark *const made = (print1525_mark *)(void *)buffer;
    print1525_details *const details = &told->details;
    print1525_printer printer;
    uint64_t sheets;
    size_t index, taken;
    if (call == DOTS) {
        static print1525_characters shapes; /* (not on the stack, which is measured) */
        memset(buffer, 0, PRINT1525_DOTS_OF_A_MARK * sizeof *made);
        print1525_characters_read(characters, strlen(characters), &shapes, details);
        print1525_characters_dots(&shapes, &marks[2], made, PRINT1525_DOTS_OF_A_MARK, &told->length, details);
        for (index = 0; index < told->length; index++) buffer[index * sizeof *made + sizeof *made - 1] = 0;
        told->length *= sizeof *made;
        told->details.place += print1525_printing_time(480, 1, NULL) != 2866667;
    } else if (call == PAGE || call == BITS) {
        if (call == BITS) print1525_printer_changed(marks, 3, &region, details), region.pixels = PRINT1525_BITS, region.stride = 9;
        memset(buffer, 0, 40 * 20);
        print1525_printer_page(marks, 3, &region, buffer, room, details);
        told->length = 40 * 20;
    } else if (call == DRAW) {
        memset(buffer, 255, 40 * 20);
        print1525_printer_draw(marks, 3, &region, buffer, room, details);
        told->length = 40 * 20;
    } else {
        print1525_printer_begin(&printer, details);
        print1525_printer_select(&printer, PRINT1525_SET_LOWER, details);
        memset(buffer, 0, HANDLERS_ROOM);
        for (index = 0; call == BYTE && index < PRINTED; index++) print1525_printer_byte(&printer, (uint8_t)printed[index], made, PRINT1525_MARKS_OF_A_BYTE, &told->length, details);
        for (index = 0; call == BYTES && index < PRINTED; index += taken) {
            taken = PRINTED - index;
            print1525_printer_bytes(&printer, printed + index, &taken, made, PRINT1525_MARKS_OF_A_BYTE, &told->length, details);
        }
        /* (Nothing is said of the byte that no field has.) */
        for (index = 0; index < told->length; index++) buffer[index * sizeof *made + sizeof *made - 1] = 0;
        told->length *= sizeof *made;
        print1525_printer_form_feed(&printer, details);
        print1525_printer_tear_off(&printer, &sheets, details);
    }
}

/* Characters of a file, each of them blank: how many bytes. They are made once, since a handler reads them. */
static size_t make_characters(void) {
    static const char *const sets[] = {"upper", "lower"};
    static size_t length;
    size_t set, code;
    if (length > 0) return length;
    for (set = 0; set < 2; set++)
        for (code = 32; code < 224; code += code == 95 ? 65 : 1)
            length += (size_t)snprintf(characters + length, sizeof characters - length, "%s %lu\n......\n......\n......\n......\n......\n......\n......\n", sets[set], (unsigned long)code);
    return length;
}

/* The settings that options say, with a blank between each two words. */
static print1525_settings settings_by(char *options) {
    print1525_settings made = PRINT1525_SETTINGS_INIT;
    char *words[33], *it, *rest;
    int count = 0, at = 0, used;
    for (it = strtok_r(options, " ", &rest); it != NULL && count < 32; it = strtok_r(NULL, " ", &rest)) words[count++] = it;
    words[count] = NULL;
    for (; at < count; at += used)
        if ((used = set_option(&made, words[at], words[at + 1])) == 0) exit(97);
    return made;
}

/* Takes a part of a picture behind those before it. */
static size_t gathered;
static int gather(void *context, const void *part, size_t length) {
    memcpy((uint8_t *)context + gathered, part, length);
    gathered += length;
    return 0;
}

static void make_text(int call, uint8_t *buffer, size_t room, answered *told) {
    static const print1525_mark marks[] = {{0, 0, PRINT1525_CELL, 65, 1, 0, 0}, {7, 5, PRINT1525_DOTS, 77, 0, 0, 0}, {7, 9, PRINT1525_CELL, 88, 0, 1, 1}};
    static const uint16_t inputs[] = {65, 66, PRINT1525_SELECT_LOWER, 67, 13, 8, 255, 13};
    static const char *const words[] = {"raw", "--as", "svg", "--characters", characters, NULL};
    const char *const name = texts[call].name, *const input = texts[call].input == NULL ? script : texts[call].input;
    const size_t count = input == trace ? trace_length : strlen(input);
    print1525_details *const details = &told->details;
    size_t *const length = &told->length;
    char options[99];
    print1525_settings settings = settings_by(strcpy(options, texts[call].options));
    if (texts[call].input == NULL && strcmp(name, "print") != 0) settings.characters = characters, settings.characters_length = make_characters();
    if (strcmp(name, "pages") == 0) print1525_pages(input, count, &settings, buffer, room, length, details);
    else if (strcmp(name, "bus") == 0) print1525_bus(input, count, &settings, buffer, room, length, details);
    else if (strcmp(name, "check") == 0) print1525_check(input, count, &settings, buffer, room, length, details);
    else if (strcmp(name, "decode") == 0) print1525_decode(input, count, &settings, buffer, room, length, details);
    else if (strcmp(name, "raw") == 0) print1525_raw(input, count, &settings, buffer, room, length, details);
    else if (strcmp(name, "listing") == 0) print1525_listing(input, count, &settings, buffer, room, length, details);
    else if (strcmp(name, "answer") == 0) print1525_answer(words, input, count, buffer, room, length, details);
    else if (strcmp(name, "print") == 0) print1525_print(inputs, sizeof inputs / sizeof *inputs, &settings, buffer, room, length, details);
    else if (strcmp(name, "picture") == 0) {
        gathered = 0;
        print1525_printer_picture(marks, 3, &settings, gather, buffer, details);
        *length = gathered;
    } else {
        print1525_edges(input, count, &settings, (print1525_edge *)(void *)buffer, room / sizeof(print1525_edge), length, details);
        *length *= sizeof(print1525_edge);
    }
}

static void make(int call, uint8_t *buffer, size_t room, answered *told) {
    print1525_details *const details = &told->details;
    print1525_decoder decoder;
    print1525_reading reading;
    print1525_receiver receiver;
    print1525_received received = {0, 0, 0};
    print1525_device device;
    print1525_step step;
    size_t index;
    memset(told, 0, sizeof *told);
    if (call < TEXTS) {
        make_text(call, buffer, room, told);
    } else if (call == DECODER) {
        print1525_decoder_begin(&decoder, details);
        for (index = 0; index < COUNT; index++) print1525_decoder_edge(&decoder, &edges[index], &reading, details);
        print1525_decoder_end(&decoder, &reading, details);
        buffer[0] = reading.kind;
        told->length = 1;
    } else if (call == RECEIVER) {
        print1525_receiver_begin(&receiver, 4, details);
        for (index = 0; index < COUNT; index++) print1525_receiver_edge(&receiver, &edges[index], &received, details);
        buffer[0] = received.kind;
        print1525_device_begin(&device, 4, NULL, details);
        for (index = 0; index < COUNT; index++) print1525_device_step(&device, &edges[index], &step, details);
        print1525_device_busy(&device, 9, details);
        buffer[1] = step.pulls_data;
        told->length = 2;
    } else if (call == WORDS) {
        details->status = PRINT1525_REFUSED;
        details->fault = PRINT1525_FAULT_UNKNOWN_NAME;
        details->place = details->column = 123;
        told->length = print1525_message(details, (char *)buffer, room);
    } else {
        make_printed(call, buffer, room, told);
    }
}

/* What each call gives in the main program, and buffers for others. */
static uint8_t wanted[CALLS][ROOM], given[ROOM];
static answered wanted_answers[CALLS];

static void compare(int call, const answered *told, const uint8_t *buffer, const char *where) {
    if (memcmp(told, &wanted_answers[call], sizeof *told) != 0 || memcmp(buffer, wanted[call], told->length) != 0) {
        fprintf(stderr, "WRONG: %s %s, %d: status %d, fault %d\n", name_of(call), where, call, told->details.status, told->details.fault);
        wrong = 1;
    }
}

static int call_now;
static answered thread_answer;

static void *run(void *unused) {
    make(call_now, given, ROOM, &thread_answer);
    return unused;
}

/* Runs a call on a thread with a stack of its own, and gives how many bytes of it were written. */
static size_t stack_of(int call, uint8_t *stack, size_t size) {
    pthread_attr_t attributes;
    pthread_t thread;
    size_t untouched = 0;
    memset(stack, MARK, size);
    call_now = call;
    pthread_attr_init(&attributes);
    if (pthread_attr_setstack(&attributes, stack, size) != 0 || pthread_create(&thread, &attributes, run, NULL) != 0) {
        is_wrong("no thread", size);
        return 0;
    }
    pthread_join(thread, NULL);
    pthread_attr_destroy(&attributes);
    while (untouched < size && stack[untouched] == MARK) untouched++;
    return size - untouched;
}

static void *nothing(void *unused) { return unused; }

/* What a thread takes of its stack that makes no call. */
static size_t stack_of_nothing(uint8_t *stack, size_t size) {
    pthread_attr_t attributes;
    pthread_t thread;
    size_t untouched = 0;
    memset(stack, MARK, size);
    pthread_attr_init(&attributes);
    if (pthread_attr_setstack(&attributes, stack, size) != 0 || pthread_create(&thread, &attributes, nothing, NULL) != 0) return 0;
    pthread_join(thread, NULL);
    pthread_attr_destroy(&attributes);
    while (untouched < size && stack[untouched] == MARK) untouched++;
    return size - untouched;
}

static void try_stacks(int tells) {
    const size_t size = 1 << 20, guard = (size_t)sysconf(_SC_PAGESIZE);
    uint8_t *const stack = (uint8_t *)mmap(NULL, size + guard, PROT_READ | PROT_WRITE, MAP_PRIVATE | MAP_ANONYMOUS, -1, 0);
    size_t none;
    int call;
    if (stack == (uint8_t *)MAP_FAILED || mprotect(stack, guard, PROT_NONE) != 0) exit(98);
    none = stack_of_nothing(stack + guard, size);
    for (call = 0; call < CALLS; call++) {
        size_t used = stack_of(call, stack + guard, size);
        used = used > none ? used - none : 0;
        if (tells) printf("%d %s %lu\n", call, name_of(call), (unsigned long)used);
        compare(call, &thread_answer, given, "on a thread");
        /* (What `make` takes itself is a part of it.) */
        if (used > stack_most(call)) is_wrong(name_of(call), used);
    }
    /* A thread with that stack and no more, above memory that faults. */
    for (call = 0; call < CALLS; call++) {
        const size_t small = (PRINT1525_STACK + none + 2 * guard - 1) / guard * guard;
        stack_of(call, stack + guard, small);
        compare(call, &thread_answer, given, "on a small stack");
    }
}

static void try_fork(void) {
    int call, status;
    for (call = 0; call < CALLS; call++) {
        const pid_t child = fork();
        if (child == 0) {
            answered told;
            memset(given, 0x11, sizeof given);
            make(call, given, ROOM, &told);
            compare(call, &told, given, "in a child");
            _exit(wrong);
        }
        if (child < 0 || waitpid(child, &status, 0) != child || status != 0) is_wrong("a child, call", (unsigned long)call);
    }
}

static volatile sig_atomic_t signals;

static void handle(int signal) {
    static uint8_t buffer[HANDLERS_ROOM];
    answered told;
    int call;
    (void)signal;
    for (call = 0; call < CALLS; call++) {
        if (!is_for_handlers(call)) continue;
        make(call, buffer, sizeof buffer, &told);
        if (memcmp(&told, &wanted_answers[call], sizeof told) != 0) wrong = 1;
    }
    signals++;
}

static void try_signals(void) {
    struct sigaction action;
    struct itimerval every, never;
    int call, round;
    memset(&action, 0, sizeof action);
    memset(&every, 0, sizeof every);
    memset(&never, 0, sizeof never);
    action.sa_handler = handle;
    action.sa_flags = SA_RESTART;
    every.it_interval.tv_usec = every.it_value.tv_usec = 500;
    if (sigaction(SIGALRM, &action, NULL) != 0 || setitimer(ITIMER_REAL, &every, NULL) != 0) exit(98);
    for (round = 0; round < 200 && (round < 3 || signals < 50); round++)
        for (call = 0; call < CALLS; call++) {
            answered told;
            make(call, given, ROOM, &told);
            compare(call, &told, given, "among signals");
        }
    setitimer(ITIMER_REAL, &never, NULL);
    if (signals == 0) is_wrong("no signal came", 0);
}

int main(int words, char **word) {
    static uint8_t text[ROOM];
    print1525_details details;
    answered told;
    int call;
    (void)word;
    make_characters();
    print1525_bus(petcat, 0, NULL, trace, sizeof trace, &trace_length, &details);
    print1525_bus("OPEN 4,4\nPRINT#4,\"A\"\n", 21, NULL, trace, sizeof trace, &trace_length, &details);
    if (details.status != PRINT1525_DONE) is_wrong("no trace", (unsigned long)details.fault);
    for (call = 0; call < CALLS; call++) {
        memset(wanted[call], 0xA5, ROOM);
        make(call, wanted[call], ROOM, &wanted_answers[call]);
        if (!is_for_handlers(call) && wanted_answers[call].length == 0) is_wrong("no text, call", (unsigned long)call);
        memset(text, 0x3C, ROOM);
        make(call, text, ROOM, &told);
        compare(call, &told, text, "in another buffer");
    }
    try_stacks(words > 1);
    try_fork();
    try_signals();
    return wrong;
}
