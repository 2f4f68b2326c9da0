/* What a recording of the bus says, edge by edge: when each whole byte was ready, CLOCK's last pull, what it is:
 * decode < RECORDING (a line an edge, as `100 001`)
 * The recording may be of any bus and begin anywhere. Between two edges only a decoder is kept; nothing here calls
 * malloc. */
#include "print1525.h"
#include <stdio.h>

/* The next edge that was recorded, a line as `100 001`. Gives 1, or 0 where none comes, or -1 at a line that is none. */
static int next_edge(print1525_edge *edge) {
    int c = getchar();
    if (c == EOF) return 0;
    edge->time = 0;
    if (c < '0' || c > '9') return -1;
    for (; c >= '0' && c <= '9'; c = getchar()) edge->time = edge->time * 10 + (uint64_t)(c - '0');
    if (c != ' ') return -1;
    edge->atn = getchar() != '0';
    edge->clock = getchar() != '0';
    edge->data = getchar() != '0';
    return getchar() == '\n' ? 1 : -1;
}

/* Prints a whole byte, and nothing for an incomplete one. */
static void tell(const print1525_reading *reading) {
    const print1525_byte *byte = &reading->byte;
    if (reading->kind < PRINT1525_BYTE_ACKNOWLEDGED || reading->kind > PRINT1525_BYTE_LAST) return;
    printf("%lu %lu %s %u%s\n", (unsigned long)byte->ready, (unsigned long)byte->last_pull,
           byte->command ? "command" : "data", (unsigned)byte->byte, byte->eoi ? " eoi" : "");
}

int main(void) {
    static char in[4096], out[4096];
    print1525_decoder decoder;
    print1525_edge edge;
    print1525_reading reading;
    print1525_details details;
    int got, status;
    setvbuf(stdin, in, _IOFBF, sizeof in);
    setvbuf(stdout, out, _IOFBF, sizeof out);

    print1525_decoder_begin(&decoder, NULL);
    while ((got = next_edge(&edge)) > 0) {
        status = print1525_decoder_edge(&decoder, &edge, &reading, &details);
        if (status != PRINT1525_DONE) {
            fprintf(stderr, "%s\n", print1525_strerror(details.fault)); /* time goes back */
            return status;
        }
        tell(&reading);
    }
    if (got < 0) {
        fprintf(stderr, "bad line\n");
        return PRINT1525_REFUSED;
    }
    status = print1525_decoder_end(&decoder, &reading, NULL);
    tell(&reading);
    return status;
}
