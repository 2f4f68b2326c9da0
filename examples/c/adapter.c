/* A bus adapter: a device that answers. Edges of the wires come in, a line each as `100 001` with a time in
 * microseconds and the levels of ATN, CLOCK and DATA; a line goes out for each thing that the device does to DATA, as
 * `200 pull` and `1150 release`, and for what it hears, as `1910 listen` and `2940 byte 72`:
 * adapter [DEVICE] < EDGES
 * Between two edges only a device is kept. Nothing here calls malloc. */
#include "print1525.h"
#include <stdio.h>
#include <stdlib.h>

/* The next edge that the wires make. Gives 1, or 0 where none comes, or -1 at a line that is none. */
static int next_edge(print1525_edge *edge) {
    int c = getchar();
    if (c == EOF) return 0;
    edge->time = 0;
    if (c < '0' || c > '9') return -1;
    for (; c >= '0' && c <= '9'; c = getchar()) edge->time = edge->time * 10 + (uint64_t)(c - '0');
    if (c != ' ') return -1;
    edge->atn = getchar() != '0';
    edge->clock = getchar() != '0';
    edge->data = getchar() != '0';
    return getchar() == '\n' ? 1 : -1;
}

/* Shows the device the lines, and tells what it does and hears then. */
static int show(print1525_device *device, const print1525_edge *lines, print1525_step *step,
                print1525_details *details) {
    const uint8_t pulled = step->pulls_data;
    const unsigned long time = (unsigned long)lines->time;
    const int status = print1525_device_step(device, lines, step, details);
    if (step->pulls_data != pulled) printf("%lu %s\n", time, pulled ? "release" : "pull");
    switch (step->heard.kind) {
    case PRINT1525_RECEIVED_LISTEN: printf("%lu listen\n", time); break;
    case PRINT1525_RECEIVED_SELECT: printf("%lu select %u\n", time, (unsigned)step->heard.byte); break;
    case PRINT1525_RECEIVED_BYTE: printf("%lu byte %u\n", time, (unsigned)step->heard.byte); break;
    case PRINT1525_RECEIVED_UNLISTEN: printf("%lu unlisten\n", time); break;
    default: break;
    }
    fflush(stdout);
    return status;
}

int main(int words, char **word) {
    print1525_device device;
    print1525_edge edge, lines = {0, 1, 1, 1};
    print1525_step step = {PRINT1525_NO_WAKE, 0, {0, 0, 0}};
    print1525_details details;
    char message[80];
    const int address = words > 1 ? atoi(word[1]) : 4;
    int got = 1;
    int status = print1525_device_begin(&device, (uint8_t)(address == (uint8_t)address ? address : 0), NULL, &details);
    while (status == PRINT1525_DONE && (got = next_edge(&edge)) > 0) {
        /* What the device wants to do before the edge, or at its time. */
        while (status == PRINT1525_DONE && step.wake <= edge.time) {
            lines.time = step.wake;
            status = show(&device, &lines, &step, &details);
        }
        lines = edge;
        if (status == PRINT1525_DONE) status = show(&device, &lines, &step, &details);
    }
    if (got < 0) {
        fprintf(stderr, "bad line\n");
        return PRINT1525_REFUSED;
    }
    if (print1525_message(&details, message, sizeof message) > 0) fprintf(stderr, "%s\n", message);
    return status;
}
