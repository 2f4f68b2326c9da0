/* A listener on any bus: edges in, a line each as `100 001`, and a line for what comes to a device, as soon as it
 * comes: receiver [DEVICE] < EDGES
 * It answers nobody (adapter.c does). Between two edges only a receiver is kept. Nothing here calls malloc. */
#include "print1525.h"
#include <stdio.h>
#include <stdlib.h>

/* The next edge that the wires make. Gives 1, or 0 where none comes, or -1 at a line that is none. */
static int next_edge(print1525_edge *edge) {
    int c = getchar();
    if (c == EOF) return 0;
    edge->time = 0;
    if (c < '0' || c > '9') return -1;
    for (; c >= '0' && c <= '9'; c = getchar()) edge->time = edge->time * 10 + (uint64_t)(c - '0');
    if (c != ' ') return -1;
    edge->atn = getchar() != '0';
    edge->clock = getchar() != '0';
    edge->data = getchar() != '0';
    return getchar() == '\n' ? 1 : -1;
}

int main(int words, char **word) {
    print1525_receiver receiver;
    print1525_received received;
    print1525_edge edge;
    print1525_details details;
    const int device = words > 1 ? atoi(word[1]) : 4;
    int got = 1, status = PRINT1525_DONE;

    if (device != (uint8_t)device || print1525_receiver_begin(&receiver, (uint8_t)device, NULL) != PRINT1525_DONE) {
        fprintf(stderr, "%s\n", print1525_strerror(PRINT1525_FAULT_NO_SUCH_DEVICE));
        return PRINT1525_REFUSED;
    }
    while (status == PRINT1525_DONE && (got = next_edge(&edge)) > 0) {
        status = print1525_receiver_edge(&receiver, &edge, &received, &details);
        switch (received.kind) {
        case PRINT1525_RECEIVED_LISTEN: puts("listen"); break;
        case PRINT1525_RECEIVED_SELECT: printf("select %u\n", (unsigned)received.byte); break;
        case PRINT1525_RECEIVED_BYTE: printf("byte %u%s\n", (unsigned)received.byte, received.eoi ? " last" : ""); break;
        case PRINT1525_RECEIVED_UNLISTEN: puts("unlisten"); break;
        default: break; /* no byte was acknowledged, or it has nothing for this device */
        }
        fflush(stdout);
    }
    if (got < 0) {
        fprintf(stderr, "bad line\n");
        return PRINT1525_REFUSED;
    }
    if (status != PRINT1525_DONE) fprintf(stderr, "%s\n", print1525_strerror(details.fault));
    return status;
}
