/* Programs in BASIC with bytes changed: programs [--counts] SEED ROUNDS FILE..
 *
 * Each FILE is a program, typed or saved. In each round one is drawn and changed in some places, and runs as `pages --from basic` does, for
 * a few steps. Each input and buffer ends where memory ends. Tested: a status of 0 to 3 with the details that belong to it, a place that
 * the program has, a buffer that stays as it was after the text, memory that comes back, the same answer when it is asked again, also with
 * an allocation refused before; and that the script prints the program's pages. Status 0, else 1 and a line with the round; --counts says
 * how many runs ended with each status. */
#define _DEFAULT_SOURCE
#include "print1525.h"
#include <stdio.h>
#include <stdlib.h>
#include <string.h>
#include <sys/mman.h>
#include <unistd.h>

#define ROOM (1 << 18)
#define MOST 8192
#define FILES 400
#define UNTOUCHED 0xA5

void *__real_malloc(size_t size);
void *__real_realloc(void *old, size_t size);
void __real_free(void *old);
void *__wrap_malloc(size_t size);
void *__wrap_realloc(void *old, size_t size);
void __wrap_free(void *old);

static long live, taken, refused_one;

void *__wrap_malloc(size_t size) {
    void *block;
    if (++taken == refused_one) return NULL;
    block = __real_malloc(size);
    live += block != NULL;
    return block;
}

void *__wrap_realloc(void *old, size_t size) {
    if (++taken == refused_one) return NULL;
    live += old == NULL;
    return __real_realloc(old, size);
}

void __wrap_free(void *old) {
    live -= old != NULL;
    __real_free(old);
}

static uint64_t state;
static unsigned long round_now;
static int wrong;

static uint64_t drawn(void) {
    state ^= state << 13;
    state ^= state >> 7;
    state ^= state << 17;
    return state;
}

static size_t below(size_t limit) { return (size_t)(drawn() >> 20) % limit; }

static void is_wrong(const char *what) {
    if (wrong++ < 9) fprintf(stderr, "WRONG: round %lu: %s\n", round_now, what);
}

/* Memory of ROOM bytes that ends where memory ends. */
static uint8_t *guard(void) {
    const size_t page = (size_t)sysconf(_SC_PAGESIZE);
    uint8_t *const start = (uint8_t *)mmap(NULL, ROOM + page, PROT_READ | PROT_WRITE, MAP_PRIVATE | MAP_ANONYMOUS, -1, 0);
    if (start == (uint8_t *)MAP_FAILED || mprotect(start + ROOM, page, PROT_NONE) != 0) exit(98);
    return start;
}

static struct {
    uint8_t *bytes;
    size_t size;
} files[FILES];
static size_t files_count;

static void read_file(const char *name) {
    static uint8_t bytes[MOST];
    FILE *const file = fopen(name, "rb");
    if (file == NULL || files_count == FILES) exit(97);
    files[files_count].size = fread(bytes, 1, MOST, file);
    fclose(file);
    if (files[files_count].size == 0) exit(97);
    files[files_count].bytes = (uint8_t *)malloc(files[files_count].size);
    if (files[files_count].bytes == NULL) exit(97);
    memcpy(files[files_count].bytes, bytes, files[files_count].size);
    files_count++;
}

static const char *const pieces[] = {
    "FOR I=1 TO 9:", "FORI=9TO1STEP-.1:", "NEXT", "NEXT I,J", "GOSUB 100", "RETURN", "GOTO 10", "IF A THEN ", "IF A$=\"\"GOTO20", "ON A GOTO 10,20,30", "READ A,B$", "DATA 1,\"A\",,",
    "RESTORE", "DIM A(9,9)", "DIM Z(9000)", "A(I)=", "A$=A$+A$", "A%=", "DEF FN A(X)=X*2", "FN A(", "TAB(", "SPC(", "CHR$(", "MID$(A$,2,3)", "LEFT$(", "RIGHT$(", "STR$(", "VAL(", "ASC(", "LEN(",
    "INT(", "SQR(", "ABS(", "SGN(", "POS(0)", "RND(1)", "PEEK(1)", "TI$", "ST", "POKE 53280,0", "POKE 1,2", "1E38", "1E-39", ".", "99999999999999999999", "65536", "63999", "-32768", "^2", "^.5",
    "*", "/", "+", "-", "<>", "=>", " AND ", " OR ", "NOT ", "(", ")", "((((((((", ",", ";", ":", "\"", "{rvon}", "{5 down}", "{$00}", "{", "}", "?", "PRINT#4,", "OPEN 4,4:", "OPEN 1,4,7", "CMD 4",
    "CLOSE 4", "REM ", "END", "STOP", "CLR", "INPUT A", "GET A$", "SYS 64738", "\n", "\r\n", "\n10 ", "\n20", "\n64000 ", "\x99", "\x8f", "\x83", "\xff", "\0",
};
#define PIECES (sizeof pieces / sizeof *pieces)

static uint8_t made[3 * MOST];
static size_t made_size;

/* Some bytes in the place of others. */
static void put(size_t from, size_t removed, const uint8_t *bytes, size_t size) {
    static uint8_t copy[MOST];
    if (size > MOST || made_size - removed + size > MOST) return;
    memcpy(copy, bytes, size);
    memmove(made + from + size, made + from + removed, made_size - from - removed);
    memcpy(made + from, copy, size);
    made_size += size - removed;
}

static void change(void) {
    const size_t from = below(made_size + 1), left = made_size - from, other = below(files_count);
    size_t start, size;
    uint8_t b;
    switch (below(9)) {
    case 0:
        b = (uint8_t)drawn();
        put(from, left != 0, &b, 1);
        break;
    case 1:
        b = (uint8_t)(48 + below(10));
        for (start = from; start < made_size && (made[start] < 48 || made[start] > 57); start++) continue;
        if (start < made_size) made[start] = b;
        break;
    case 2:
        put(from, below((left < 9 ? left : 9) + 1), made, 0);
        break;
    case 3:
        start = below(files[other].size);
        size = below(files[other].size - start + 1);
        put(from, 0, files[other].bytes + start, size < 60 ? size : below(60));
        break;
    case 4:
        if (made_size) start = below(made_size), size = below(made_size - start + 1), put(from, 0, made + start, size < 80 ? size : below(80));
        break;
    case 5:
        if (from < made_size) made[from] ^= (uint8_t)(1 << below(8));
        break;
    case 6:
        if (below(40) == 0) made_size = from;
        break;
    default:
        size = below(PIECES);
        put(from, below(3) ? 0 : below((left < 5 ? left : 5) + 1), (const uint8_t *)pieces[size], size == PIECES - 1 ? 1 : strlen(pieces[size]));
    }
}

static size_t rows(const uint8_t *bytes, size_t size) {
    size_t count = 1, index;
    for (index = 0; index < size; index++) count += bytes[index] == 13 || bytes[index] == 10;
    return count;
}

/* The details belong to the status, and the place to the program. */
static void test_details(int status, const print1525_details *details, size_t length, size_t capacity, int is_saved, const uint8_t *bytes, size_t size) {
    const int fault = details->fault, is_small = fault == PRINT1525_FAULT_TOO_SMALL, is_error = fault > 100 && (fault < PRINT1525_FAULT_NO_LINE_NUMBER || fault > PRINT1525_FAULT_TOO_MANY_STEPS);
    char message[199];
    const size_t said = print1525_message(details, message, sizeof message);
    if (status != details->status || status < 0 || status > 3) is_wrong("the status");
    if ((status == PRINT1525_DONE) != (fault == PRINT1525_FAULT_NONE)) is_wrong("whether there is a fault");
    if ((status == PRINT1525_STOPPED) != is_error) is_wrong("an error of BASIC");
    if ((status == PRINT1525_FAILED) != (is_small || fault == PRINT1525_FAULT_NO_MEMORY)) is_wrong("a failure");
    if (is_small != (length > capacity)) is_wrong("the length");
    if (status == PRINT1525_REFUSED && length != 0) is_wrong("the length of nothing");
    if ((said != 0) != (status != PRINT1525_DONE) || said >= sizeof message || strlen(message) != said) is_wrong("the message");
    if (status == PRINT1525_REFUSED && fault >= PRINT1525_FAULT_NO_LINE_NUMBER && fault < PRINT1525_FAULT_TOO_MANY_STEPS && !is_saved && (details->column == 0 || details->place == 0 || details->place > rows(bytes, size))) is_wrong("the place");
    if (status == PRINT1525_REFUSED && fault == PRINT1525_FAULT_TOO_MANY_STEPS && details->place > 63999) is_wrong("the line of the limit");
}

static int is_untouched(const uint8_t *bytes, size_t count) {
    size_t index;
    for (index = 0; index < count; index++)
        if (bytes[index] != UNTOUCHED) return 0;
    return 1;
}

static unsigned long statuses[4];

static void try_program(uint8_t *memories[2]) {
    static uint8_t text[ROOM], page[ROOM], other_page[ROOM];
    const size_t file = below(files_count), capacity = below(8) ? 20000 : below(300);
    print1525_settings settings = PRINT1525_SETTINGS_INIT;
    print1525_details details, again;
    uint8_t *input, *const buffer = memories[1] + ROOM - capacity;
    size_t changes, length = 77, other = 77, page_length = 0, other_length = 0;
    int status, is_saved;
    made_size = files[file].size;
    memcpy(made, files[file].bytes, made_size);
    for (changes = below(6); changes > 0; changes--) change();
    is_saved = files[file].bytes[0] == 1 || (made_size > 0 && made[0] < 32);
    input = memories[0] + ROOM - made_size;
    memcpy(input, made, made_size);
    settings.as = PRINT1525_AS_SCRIPT;
    settings.from = below(6) ? PRINT1525_FROM_BASIC : PRINT1525_FROM_BAS;
    settings.steps = 1 + (below(9) ? below(300) : below(6000));
    memset(buffer, UNTOUCHED, capacity);
    live = taken = 0;
    refused_one = below(16) ? 0 : 1 + (long)below(90);
    status = print1525_pages(input, made_size, &settings, buffer, capacity, &length, &details);
    test_details(status, &details, length, capacity, is_saved || settings.from == PRINT1525_FROM_BAS, made, made_size);
    if (details.fault == PRINT1525_FAULT_NO_MEMORY && refused_one == 0) is_wrong("memory that was not refused");
    statuses[status & 3]++;
    if (live != 0) is_wrong("memory");
    if (memcmp(input, made, made_size) != 0) is_wrong("the program");
    if (status > PRINT1525_REFUSED) length = 0;
    if (!is_untouched(buffer + length, capacity - length)) is_wrong("the buffer");
    if (below(16) == 0 || refused_one) {
        memcpy(text, buffer, length);
        refused_one = 0;
        other = print1525_pages(input, made_size, &settings, buffer, capacity, &other_length, &again) == status && memcmp(&again, &details, sizeof again) == 0;
        if (details.fault != PRINT1525_FAULT_NO_MEMORY && (!other || (status <= PRINT1525_REFUSED && other_length != length) || memcmp(text, buffer, length) != 0)) is_wrong("another answer");
    }
    refused_one = 0;
    if (status > PRINT1525_STOPPED || below(16)) return;
    /* The script has the program's pages; an error of BASIC comes after them. */
    memcpy(text, buffer, length);
    settings.as = PRINT1525_AS_LIST;
    status = print1525_pages(input, made_size, &settings, page, sizeof page, &page_length, &details);
    memset(&settings, 0, sizeof settings);
    if (status <= PRINT1525_STOPPED && print1525_pages(text, length, &settings, other_page, sizeof other_page, &other_length, &again) <= PRINT1525_STOPPED &&
        (page_length != other_length || memcmp(page, other_page, page_length) != 0))
        is_wrong("the pages of the script");
    if (status == PRINT1525_REFUSED) is_wrong("a program whose script is not refused");
}

int main(int count, char **words) {
    const int counts = count > 1 && strcmp(words[1], "--counts") == 0;
    unsigned long rounds;
    uint8_t *memories[2];
    int index;
    words += counts;
    count -= counts;
    if (count < 4) return 96;
    for (index = 3; index < count; index++) read_file(words[index]);
    state = strtoul(words[1], NULL, 10) * 0x9E3779B97F4A7C15u + 1;
    rounds = strtoul(words[2], NULL, 10);
    memories[0] = guard();
    memories[1] = guard();
    for (round_now = 1; round_now <= rounds; round_now++) try_program(memories);
    if (rounds >= 1000 && (statuses[0] < rounds / 50 || statuses[1] < rounds / 50 || statuses[2] < rounds / 50)) is_wrong("too few that run, or end in an error, or are refused");
    if (counts) printf("%lu rounds, status 0: %lu, 1: %lu, 2: %lu, 3: %lu, %d wrong\n", rounds, statuses[0], statuses[1], statuses[2], statuses[3], wrong);
    return wrong != 0;
}
