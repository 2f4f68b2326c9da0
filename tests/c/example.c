/* The calls of a receiver, a device and a decoder over examples/hello.trace on standard input, and their refusals: worked by hand.
 * Ends with 0, or writes the line of each comparison that fails and ends with 1. */
#include "print1525.h"
#include <stdio.h>
#include <string.h>

#define EDGES 110

static int failed;

#define CHECK(it)                                                          \
    do {                                                                   \
        if (!(it)) failed = 1, fprintf(stderr, "line %d: %s\n", __LINE__, #it); \
    } while (0)

/* A level of a line is any number but 0 where the line is released. */
static const print1525_edge first = {0, 1, 2, 255};

static print1525_edge edges[EDGES];

static int answers(print1525_details answer, int status, int fault) {
    return answer.status == status && answer.fault == fault && answer.place == 0 && answer.column == 0;
}

static void example_decoded(void) {
    static const struct {
        unsigned byte, eoi;
        uint64_t end;
    } wanted[] = {{36, 0, 1930}, {72, 0, 2960}, {73, 0, 3890}, {13, 1, 5140}, {63, 0, 7070}};
    print1525_decoder decoder;
    print1525_reading reading, none;
    print1525_details answer;
    size_t index, count = 0;
    CHECK(print1525_decoder_begin(&decoder, &answer) == PRINT1525_DONE);
    for (index = 0; index < EDGES; index++) {
        print1525_decoder_edge(&decoder, &edges[index], &reading, &answer);
        CHECK(answer.status == PRINT1525_DONE);
        if (reading.kind == PRINT1525_NO_READING) continue;
        CHECK(count < 5 && reading.byte.byte == wanted[count].byte && reading.kind == PRINT1525_BYTE_ACKNOWLEDGED);
        CHECK(count < 5 && reading.end == wanted[count].end && reading.byte.eoi == wanted[count].eoi);
        count++;
    }
    CHECK(count == 5);
    memset(&none, 0, sizeof none);
    memset(&reading, 0, sizeof reading);
    print1525_decoder_end(&decoder, &reading, &answer);
    CHECK(answers(answer, PRINT1525_DONE, 0));
    CHECK(memcmp(&reading, &none, sizeof reading) == 0);
}

/* An edge that goes back. */
static void refusals_of_decoders(void) {
    static const print1525_edge later = {9, 1, 2, 255};
    print1525_decoder decoder, before;
    print1525_reading reading;
    print1525_details answer;
    CHECK(print1525_decoder_begin(&decoder, &answer) == PRINT1525_DONE);
    print1525_decoder_edge(&decoder, &later, &reading, &answer);
    CHECK(answers(answer, PRINT1525_DONE, 0));
    before = decoder;
    print1525_decoder_edge(&decoder, &first, &reading, &answer);
    CHECK(answers(answer, PRINT1525_REFUSED, PRINT1525_FAULT_GOES_BACK));
    CHECK(memcmp(&decoder, &before, sizeof decoder) == 0);
}

/* What comes to printer 4, to the computer's disk drive and to nobody, as any bus says it. */
static void example_received(void) {
    static const struct {
        unsigned kind, byte, eoi;
    } wanted[] = {{PRINT1525_RECEIVED_LISTEN, 0, 0},
                  {PRINT1525_RECEIVED_BYTE, 72, 0},
                  {PRINT1525_RECEIVED_BYTE, 73, 0},
                  {PRINT1525_RECEIVED_BYTE, 13, 1},
                  {PRINT1525_RECEIVED_UNLISTEN, 0, 0}};
    print1525_receiver receiver;
    print1525_received came;
    print1525_details answer;
    unsigned device;
    size_t index, count;
    CHECK(print1525_receiver_begin(&receiver, 3, &answer) == PRINT1525_REFUSED && answers(answer, PRINT1525_REFUSED, PRINT1525_FAULT_NO_SUCH_DEVICE));
    CHECK(print1525_receiver_begin(&receiver, 31, NULL) == PRINT1525_REFUSED && print1525_receiver_begin(NULL, 4, NULL) == PRINT1525_REFUSED);
    for (device = 4; device <= 30; device++) {
        CHECK(print1525_receiver_begin(&receiver, (uint8_t)device, &answer) == PRINT1525_DONE);
        for (index = count = 0; index < EDGES; index++) {
            CHECK(print1525_receiver_edge(&receiver, &edges[index], &came, &answer) == PRINT1525_DONE);
            CHECK(answers(answer, PRINT1525_DONE, 0));
            if (came.kind == PRINT1525_NOTHING_RECEIVED) continue;
            CHECK(device == 4 && count < 5 && came.kind == wanted[count].kind && came.byte == wanted[count].byte && came.eoi == wanted[count].eoi);
            count++;
        }
        CHECK(count == (device == 4 ? 5 : 0));
        CHECK(print1525_receiver_edge(&receiver, &edges[0], &came, &answer) == PRINT1525_REFUSED);
        CHECK(answers(answer, PRINT1525_REFUSED, PRINT1525_FAULT_GOES_BACK) && came.kind == PRINT1525_NOTHING_RECEIVED);
        CHECK(print1525_receiver_edge(&receiver, &edges[0], NULL, &answer) == PRINT1525_REFUSED && answer.fault == PRINT1525_FAULT_NULL_POINTER);
    }
}

/* LISTEN to device 9 in place of device 4: two bits differ. */
static void another_device_is_addressed(void) {
    static const size_t bits[] = {5, 6, 9, 10, 11, 12};
    print1525_edge changed[EDGES];
    size_t bit, index;
    unsigned device;
    memcpy(changed, edges, sizeof edges);
    for (bit = 0; bit < sizeof bits / sizeof *bits; bit++) changed[bits[bit]].data = !changed[bits[bit]].data;
    for (device = 4; device <= 9; device += 5) {
        print1525_receiver receiver;
        print1525_received came;
        size_t bytes = 0;
        print1525_receiver_begin(&receiver, (uint8_t)device, NULL);
        for (index = 0; index < EDGES; index++) {
            print1525_receiver_edge(&receiver, &changed[index], &came, NULL);
            bytes += came.kind == PRINT1525_RECEIVED_BYTE;
        }
        CHECK(bytes == (device == 9 ? 3 : 0));
    }
}

/* A device that is shown the edges of the trace hears what is sent, each with CLOCK's last pull in its byte: that is one edge before the one
 * that acknowledges it. */
static void example_heard(void) {
    static const unsigned wanted[][3] = {{PRINT1525_RECEIVED_LISTEN, 0, 0}, {PRINT1525_RECEIVED_BYTE, 72, 0}, {PRINT1525_RECEIVED_BYTE, 73, 0}, {PRINT1525_RECEIVED_BYTE, 13, 1}, {PRINT1525_RECEIVED_UNLISTEN, 0, 0}};
    print1525_device device;
    print1525_step step;
    print1525_details answer;
    size_t index, count = 0;
    CHECK(print1525_device_begin(&device, 4, NULL, &answer) == PRINT1525_DONE && answers(answer, PRINT1525_DONE, 0));
    for (index = 0; index < EDGES; index++) {
        CHECK(print1525_device_step(&device, &edges[index], &step, &answer) == PRINT1525_DONE && answers(answer, PRINT1525_DONE, 0));
        if (step.heard.kind == PRINT1525_NOTHING_RECEIVED) continue;
        CHECK(count < 5 && step.heard.kind == wanted[count][0] && step.heard.byte == wanted[count][1] && step.heard.eoi == wanted[count][2]);
        count++;
    }
    CHECK(count == 5);
}

int main(void) {
    size_t index;
    for (index = 0; index < EDGES; index++) {
        unsigned long time;
        char atn, clock, data;
        CHECK(scanf("%lu %c%c%c", &time, &atn, &clock, &data) == 4);
        edges[index].time = time;
        edges[index].atn = atn == '1';
        edges[index].clock = clock == '1';
        edges[index].data = data == '1';
    }
    example_decoded();
    example_received();
    example_heard();
    refusals_of_decoders();
    another_device_is_addressed();
    return failed;
}
