/* A device and a printer in plain C, as an emulator's author would write them by hand, beside those of the library:
 * both are shown the same, and tools/device-speed counts the instructions of each. Written apart, from
 * docs/DEFINITIONS.md; they refuse nothing.
 *
 *     plain moments < TEXT > MOMENTS    the calls that the emulator of examples/c makes to its three devices
 *     plain device WAY < MOMENTS        makes them; says how many steps they are
 *     plain printer WAY < BYTES         prints the bytes; says how many they are, and how many marks
 *     plain random SEED                 shows devices of any delays 100,000 moments of any lines, both ways
 *
 * WAY is `plain`, `library`, or `both`, which compares what they answer and ends with status 1 where they differ. */
#include "print1525.h"
#include <stdio.h>
#include <stdlib.h>
#include <string.h>

/* The emulator of the examples, with its calls written down. */
static int written_step(print1525_device *, const print1525_edge *, print1525_step *, print1525_details *);
static int written_busy(print1525_device *, uint64_t, print1525_details *);
#define print1525_device_step written_step
#define print1525_device_busy written_busy
#define main emulator
#include "../../examples/c/emulator.c"
#undef main
#undef print1525_device_busy
#undef print1525_device_step

/* ------------------------------------------------------------------------------------------ a device by hand -- */

/* Where the lines are: no byte has begun; a byte has come; CLOCK is released before a byte; DATA too; the bits come. */
enum { BETWEEN, SENT, OPENING, FREED, BITS };

typedef struct {
    uint64_t since;  /* ATN's last change */
    uint64_t moment; /* CLOCK's release before a byte, or its last pull in one */
    uint64_t free;   /* DATA's release before a byte */
    uint64_t until;  /* it prints until then */
    print1525_timing timing;
    uint8_t address, listens, called, pulls, atn, clock, place, eoi, count, byte;
} plain_device;

void plain_device_begin(plain_device *it, uint8_t address, const print1525_timing *timing);
void plain_device_step(plain_device *it, const print1525_edge *edge, print1525_step *step);

void plain_device_begin(plain_device *it, uint8_t address, const print1525_timing *timing) {
    static const print1525_timing typical = {100, 50, 250, 80, 20, 20};
    memset(it, 0, sizeof *it);
    it->timing = timing == NULL ? typical : *timing;
    it->address = address;
    it->atn = it->clock = 1;
}

/* What a byte says to the device. */
static void hear(plain_device *it, print1525_received *heard) {
    const uint8_t byte = it->byte, called = it->called;
    it->called = 0;
    if (it->atn) {
        if (!it->listens) return;
        heard->kind = PRINT1525_RECEIVED_BYTE;
        heard->byte = byte;
        heard->eoi = it->eoi;
    } else if (byte == 32 + it->address) {
        it->listens = it->called = 1;
        heard->kind = PRINT1525_RECEIVED_LISTEN;
    } else if (byte == 63) {
        if (it->listens) heard->kind = PRINT1525_RECEIVED_UNLISTEN;
        it->listens = 0;
    } else if (called) {
        switch (byte >> 4) {
        case 6: heard->kind = PRINT1525_RECEIVED_SELECT; break;
        case 14: heard->kind = PRINT1525_RECEIVED_CLOSE; break;
        case 15: heard->kind = PRINT1525_RECEIVED_OPEN; break;
        default: return;
        }
        heard->byte = byte & 15;
    }
}

void plain_device_step(plain_device *it, const print1525_edge *edge, print1525_step *step) {
    const uint64_t now = edge->time;
    const uint8_t atn = edge->atn != 0, clock = edge->clock != 0, released = edge->data != 0;
    const uint8_t rises = clock && !it->clock, falls = !clock && it->clock;
    uint64_t wake = PRINT1525_NO_WAKE, end;
    uint8_t pulls = 0;
    memset(&step->heard, 0, sizeof step->heard);
    it->clock = clock;
    if (atn != it->atn) {
        it->atn = atn;
        it->since = now;
        it->place = BETWEEN;
    } else {
        switch (it->place) {
        case OPENING:
            if (!clock) {
                it->place = BETWEEN;
            } else if (released) {
                it->place = FREED;
                it->free = now;
            }
            break;
        case FREED:
            if (!clock) {
                it->place = BITS;
                it->count = it->byte = 0;
            } else if (atn && (!released || now >= it->free + it->timing.wait)) {
                it->eoi = 1;
            }
            break;
        case BITS:
            if (rises && it->count < 8) {
                it->byte = (uint8_t)(it->byte >> 1 | (released ? 128 : 0));
                it->count++;
            } else if (falls && it->count == 8) {
                it->place = SENT;
                it->moment = now;
                hear(it, &step->heard);
            }
            break;
        default: /* BETWEEN, SENT */
            if (rises) {
                it->place = OPENING;
                it->moment = now;
                it->eoi = 0;
            }
        }
    }
    if (atn && !it->listens) { /* nobody speaks to it */
        end = it->since + it->timing.leave;
        pulls = it->pulls && now < end;
        if (pulls) wake = end;
    } else {
        switch (it->place) {
        case SENT:
            end = it->moment + it->timing.accept;
            pulls = it->pulls || now >= end;
            if (!pulls) wake = end;
            break;
        case OPENING:
            end = it->moment + it->timing.hold;
            if (end < it->until) end = it->until;
            pulls = (it->pulls || now == it->moment) && now < end;
            if (pulls) wake = end;
            break;
        case FREED:
            if (!atn) break;
            end = it->free + it->timing.wait;
            if (now < end) {
                wake = end;
            } else if (now < end + it->timing.answer) {
                wake = end + it->timing.answer;
                pulls = 1;
            }
            break;
        case BITS: break;
        default: /* BETWEEN */
            if (atn) {
                pulls = !clock;
                break;
            }
            end = it->since + it->timing.attention;
            pulls = it->pulls || now >= end;
            if (!pulls) wake = end;
        }
    }
    it->pulls = pulls;
    step->pulls_data = pulls;
    step->wake = wake;
}

/* ----------------------------------------------------------------------------------------- a printer by hand -- */

/* What has come of a command, as print1525_printer has it. */
enum { IDLE, COLUMN, COLUMN_TENS, REPEAT, REPEAT_COUNT, ESCAPE, ADDRESS, ADDRESS_HIGH };

typedef struct {
    uint64_t y;
    uint16_t x;
    uint8_t graphic, wide, reverse, override_set, lower, pending, parameter;
} plain_printer;

size_t plain_printer_byte(plain_printer *it, uint8_t byte, print1525_mark *marks);

static void end_line(plain_printer *it) {
    it->y += it->graphic ? 14 : 21;
    it->x = 0;
}

static void column_of_dots(plain_printer *it, uint8_t byte, print1525_mark *mark) {
    if (it->x >= 480) end_line(it);
    mark->y = it->y;
    mark->x = it->x++;
    mark->kind = PRINT1525_DOTS;
    mark->value = byte & 127;
    mark->lower = mark->reverse = mark->wide = 0;
}

static void cell(plain_printer *it, uint8_t byte, print1525_mark *mark) {
    const uint16_t width = it->wide ? 12 : 6;
    if (it->x + width > 480) end_line(it);
    mark->y = it->y;
    mark->x = it->x;
    mark->kind = PRINT1525_CELL;
    mark->value = byte;
    mark->lower = it->override_set ? it->override_set == 2 : it->lower;
    mark->reverse = it->reverse;
    mark->wide = it->wide;
    it->x = (uint16_t)(it->x + width);
}

/* Gives how many marks the byte makes. */
size_t plain_printer_byte(plain_printer *it, uint8_t byte, print1525_mark *marks) {
    const uint8_t pending = it->pending, parameter = it->parameter;
    unsigned number;
    if (pending != IDLE) {
        it->pending = IDLE;
        switch (pending) {
        case COLUMN:
        case REPEAT:
        case ADDRESS:
            it->parameter = byte;
            it->pending = (uint8_t)(pending + 1);
            return 0;
        case COLUMN_TENS:
            if (parameter < '0' || parameter > '9' || byte < '0' || byte > '9') return 0;
            number = 10u * (parameter - '0') + (byte - '0');
            if (number < 80) it->x = (uint16_t)(6 * number);
            return 0;
        case REPEAT_COUNT:
            if (!it->graphic || byte < 128) return 0;
            for (number = 0; number < parameter; number++) column_of_dots(it, byte, &marks[number]);
            return parameter;
        case ADDRESS_HIGH:
            number = 256u * parameter + byte;
            if (number < 480) it->x = (uint16_t)number;
            return 0;
        default: /* ESCAPE */
            if (byte == 16) {
                it->pending = ADDRESS;
                return 0;
            }
        }
    }
    switch (byte) {
    case 8: it->graphic = 1; return 0;
    case 10: end_line(it); return 0;
    case 13:
        end_line(it);
        it->reverse = it->override_set = 0;
        return 0;
    case 14:
    case 15:
        it->graphic = 0;
        it->wide = byte == 14;
        return 0;
    case 16: it->pending = COLUMN; return 0;
    case 17: it->override_set = 2; return 0;
    case 18: it->reverse = 1; return 0;
    case 26: it->pending = REPEAT; return 0;
    case 27: it->pending = ESCAPE; return 0;
    default: break;
    }
    if (it->graphic) {
        if (byte < 128) return 0;
        column_of_dots(it, byte, marks);
        return 1;
    }
    if (byte == 145) it->override_set = 1;
    if (byte == 146) it->reverse = 0;
    if (byte < 32 || (byte >= 128 && byte < 160)) return 0;
    cell(it, byte, marks);
    return 1;
}

/* ------------------------------------------------------------------------------------------------- both ways -- */

enum { PLAIN = 1, LIBRARY = 2 };

/* The calls by hand, which no compiler puts into their callers: so they are counted apart. */
static void (*volatile step_by_hand)(plain_device *, const print1525_edge *, print1525_step *) = plain_device_step;
static size_t (*volatile print_by_hand)(plain_printer *, uint8_t, print1525_mark *) = plain_printer_byte;

/* A call to one of the emulator's devices: lines that it is shown, or until when it prints. */
typedef struct {
    print1525_edge edge;
    uint64_t until;
    uint64_t index, is_busy;
} call;

static void write_call(const print1525_device *device, const print1525_edge *edge, uint64_t until) {
    call it;
    memset(&it, 0, sizeof it);
    while (&devices[it.index].device != device) it.index++;
    if (edge != NULL) it.edge = *edge;
    it.until = until;
    it.is_busy = edge == NULL;
    fwrite(&it, sizeof it, 1, stdout);
}

static int written_step(print1525_device *device, const print1525_edge *edge, print1525_step *step,
                        print1525_details *details) {
    write_call(device, edge, 0);
    return print1525_device_step(device, edge, step, details);
}

static int written_busy(print1525_device *device, uint64_t until, print1525_details *details) {
    write_call(device, NULL, until);
    return print1525_device_busy(device, until, details);
}

static int moments(void) {
    int index;
    for (index = 0; index < DEVICES; index++) {
        print1525_device_begin(&devices[index].device, addresses[index], NULL, NULL);
        print1525_printer_begin(&devices[index].printer, NULL);
        devices[index].step.wake = PRINT1525_NO_WAKE;
    }
    return run() ? 0 : 1;
}

static int same_step(const print1525_step *a, const print1525_step *b) {
    return a->wake == b->wake && a->pulls_data == b->pulls_data && a->heard.kind == b->heard.kind &&
           a->heard.byte == b->heard.byte && a->heard.eoi == b->heard.eoi;
}

/* A device both ways. */
typedef struct {
    plain_device plain;
    print1525_device library;
} pair;

static int begin_pair(pair *it, uint8_t address, const print1525_timing *timing) {
    plain_device_begin(&it->plain, address, timing);
    return print1525_device_begin(&it->library, address, timing, NULL) == PRINT1525_DONE;
}

/* Shows a device a moment. Gives whether the library took it, and both ways answer the same. */
static int step_pair(pair *it, int way, const print1525_edge *edge, print1525_step *step) {
    print1525_step other;
    if (way == PLAIN) step_by_hand(&it->plain, edge, step);
    if (way != PLAIN && print1525_device_step(&it->library, edge, step, NULL) != PRINT1525_DONE) return 0;
    if (way != (PLAIN | LIBRARY)) return 1;
    step_by_hand(&it->plain, edge, &other);
    return same_step(step, &other);
}

static int wrong(const char *what, unsigned long at) {
    fprintf(stderr, "WRONG: %s %lu differs\n", what, at);
    return 1;
}

static int device_both_ways(int way) {
    static pair pairs[DEVICES];
    print1525_step step;
    call it;
    unsigned long steps = 0, heard = 0;
    int index;
    for (index = 0; index < DEVICES; index++)
        if (!begin_pair(&pairs[index], addresses[index], NULL)) return wrong("device", addresses[index]);
    while (fread(&it, sizeof it, 1, stdin) == 1) {
        if (it.is_busy) {
            pairs[it.index].plain.until = it.until;
            print1525_device_busy(&pairs[it.index].library, it.until, NULL);
            continue;
        }
        if (!step_pair(&pairs[it.index], way, &it.edge, &step)) return wrong("step", steps);
        steps++;
        heard += step.heard.kind != PRINT1525_NOTHING_RECEIVED;
    }
    printf("%lu steps, %lu heard\n", steps, heard);
    return 0;
}

static int same_mark(const print1525_mark *a, const print1525_mark *b) {
    return a->y == b->y && a->x == b->x && a->kind == b->kind && a->value == b->value && a->lower == b->lower &&
           a->reverse == b->reverse && a->wide == b->wide;
}

static int printer_both_ways(int way) {
    static print1525_mark marks[PRINT1525_MARKS_OF_A_BYTE], others[PRINT1525_MARKS_OF_A_BYTE];
    plain_printer plain;
    print1525_printer library;
    unsigned long bytes = 0, made = 0;
    size_t length = 0, other = 0, index;
    int byte;
    memset(&plain, 0, sizeof plain);
    print1525_printer_begin(&library, NULL);
    while ((byte = getchar()) != EOF) {
        if (bytes % 1000 == 0) { /* now and then a set is selected */
            plain.lower = bytes % 2000 != 0;
            print1525_printer_select(&library, plain.lower, NULL);
        }
        if (way != PLAIN)
            print1525_printer_byte(&library, (uint8_t)byte, marks, PRINT1525_MARKS_OF_A_BYTE, &length, NULL);
        if (way != LIBRARY) other = print_by_hand(&plain, (uint8_t)byte, others);
        if (way == (PLAIN | LIBRARY)) {
            if (length != other || library.x != plain.x || library.y != plain.y) return wrong("byte", bytes);
            for (index = 0; index < length; index++)
                if (!same_mark(&marks[index], &others[index])) return wrong("byte", bytes);
        }
        bytes++;
        made += way == PLAIN ? other : length;
    }
    printf("%lu bytes, %lu marks\n", bytes, made);
    return 0;
}

static uint64_t seed;

static unsigned any(unsigned count) {
    seed = seed * 6364136223846793005u + 1442695040888963407u;
    return (unsigned)(seed >> 33) % count;
}

static uint16_t between(unsigned least, unsigned most) { return (uint16_t)(least + any(most - least + 1)); }

/* A device of any delays is shown anything, and bytes between it. */
static int random_both_ways(void) {
    pair it;
    print1525_timing timing;
    print1525_edge edge = {0, 1, 1, 1};
    print1525_step step = {PRINT1525_NO_WAKE, 0, {0, 0, 0}};
    unsigned long at, heard = 0;
    uint8_t address = 4, byte = 0;
    unsigned left = 0;
    for (at = 0; at < 100000; at++) {
        if (at % 1000 == 0) {
            timing.attention = between(1, 1000), timing.hold = between(1, 10000), timing.wait = between(200, 250);
            timing.answer = between(80, 200), timing.accept = between(1, 80), timing.leave = between(1, 60);
            address = (uint8_t)between(4, 30);
            if (!begin_pair(&it, address, &timing)) return wrong("device", at);
            memset(&edge, 1, sizeof edge);
            edge.time = at, left = 0;
        }
        edge.time += any(4) ? any(100) : any(400);
        if (any(8) == 0 && step.wake != PRINT1525_NO_WAKE && step.wake >= edge.time) edge.time = step.wake;
        if (left > 0) { /* CLOCK ticks, with a bit where it is released */
            edge.clock = left % 2 == 0;
            if (edge.clock) edge.data = byte >> (16 - left) / 2 & 1;
            left--;
        } else if (any(4) == 0) { /* a byte, after CLOCK's and DATA's release */
            static const uint8_t seconds[] = {0x60, 0x67, 0xE2, 0xF5, 63, 63, 95, 32};
            byte = (uint8_t)(any(2) ? 32u + address : any(2) ? seconds[any(8)] : any(256));
            left = edge.clock && edge.data ? 17 : 0;
            edge.clock = edge.data = 1;
        } else {
            if (any(3) == 0) edge.clock = (uint8_t)any(2);
            if (any(3) == 0) edge.data = (uint8_t)any(2);
            if (any(9) == 0) edge.atn = (uint8_t)any(2);
        }
        if (any(50) == 0) {
            it.plain.until = edge.time + any(500);
            print1525_device_busy(&it.library, it.plain.until, NULL);
        }
        if (!step_pair(&it, PLAIN | LIBRARY, &edge, &step)) return wrong("step", at);
        heard += step.heard.kind != PRINT1525_NOTHING_RECEIVED;
    }
    printf("%lu steps, %lu heard\n", at, heard);
    return 0;
}

static int way_of(const char *word) {
    if (!strcmp(word, "plain")) return PLAIN;
    if (!strcmp(word, "library")) return LIBRARY;
    return strcmp(word, "both") ? 0 : PLAIN | LIBRARY;
}

int main(int words, char **word) {
    const char *const what = words > 1 ? word[1] : "";
    const int way = words > 2 ? way_of(word[2]) : 0;
    if (!strcmp(what, "moments")) return moments();
    if (!strcmp(what, "device") && way) return device_both_ways(way);
    if (!strcmp(what, "printer") && way) return printer_both_ways(way);
    if (!strcmp(what, "random") && words > 2) {
        seed = strtoull(word[2], NULL, 10);
        return random_both_ways();
    }
    fprintf(stderr, "usage: plain moments | device WAY | printer WAY | random SEED\n");
    return 2;
}
