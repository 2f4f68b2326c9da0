/* Several threads make calls of include/print1525.h at once, and each gets what one alone gets: status 0, else 1. */
#include "print1525.h"
#include <pthread.h>
#include <stdio.h>
#include <string.h>

#define THREADS 8
#define ROUNDS 50
#define ROOM 65536
#define TEXTS 8

static const char script[] = "OPEN 4,4\nOPEN 5,5,7\nCMD 4,\"ON BOTH\";\nPRINT#5,CHR$(14)\"WIDE\"\nPRINT \"MORE\"\nPRINT#9\n";
static const char printed[] = "AB\016C\r\022D\r\010\032\377\201\032\377\252\r\017\020" "12E\033\020\001\101F";

typedef struct {
    uint8_t text[TEXTS][ROOM];
    print1525_details answer[TEXTS];
    size_t length[TEXTS];
    print1525_edge edges[ROOM / 16];
    int differs;
} work;

static work alone, shared[THREADS];

/* What a decoder, a receiver and a device give of edges, one after the other. */
static void receive(const print1525_edge *edges, size_t count, uint8_t *text, size_t *made, print1525_details *answer) {
    print1525_decoder decoder;
    print1525_receiver receiver;
    print1525_device device;
    print1525_step step;
    print1525_reading reading;
    print1525_received received;
    print1525_details details;
    size_t index, length = 0;
    print1525_decoder_begin(&decoder, NULL);
    print1525_receiver_begin(&receiver, 4, NULL);
    print1525_device_begin(&device, 4, NULL, NULL);
    for (index = 0; index < count; index++) {
        print1525_decoder_edge(&decoder, edges + index, &reading, &details);
        if (reading.kind) text[length++] = reading.byte.byte;
        print1525_receiver_edge(&receiver, edges + index, &received, &details);
        if (received.kind) text[length++] = received.kind, text[length++] = received.byte;
        print1525_device_step(&device, edges + index, &step, answer);
        if (step.heard.kind) text[length++] = step.heard.byte;
    }
    print1525_decoder_end(&decoder, &reading, &details);
    *made = length;
}

/* The pixels that a watched printer's marks make, byte by byte, and after them those of bytes together. */
static void print(uint8_t *text, print1525_details *answer) {
    static const print1525_region region = {0, 0, 300, 60, 0, PRINT1525_GRAY};
    const size_t size = region.width * region.height;
    print1525_mark marks[PRINT1525_MARKS_OF_A_BYTE];
    print1525_printer printer;
    size_t index, made, taken = sizeof printed - 1;
    memset(text, 255, size);
    print1525_printer_begin(&printer, NULL);
    print1525_printer_select(&printer, PRINT1525_SET_LOWER, NULL);
    for (index = 0; index < sizeof printed - 1; index++) {
        print1525_printer_byte(&printer, (uint8_t)printed[index], marks, PRINT1525_MARKS_OF_A_BYTE, &made, NULL);
        print1525_printer_draw(marks, made, &region, text, size, NULL);
    }
    print1525_printer_begin(&printer, NULL);
    print1525_printer_bytes(&printer, printed, &taken, marks, PRINT1525_MARKS_OF_A_BYTE, &made, NULL);
    print1525_printer_page(marks, made, &region, text + size, ROOM - size, answer);
}

/* The pages of the script, its trace, the frames, the edges and the pages of the trace, why the run stopped, and what is received and
 * printed without memory. */
static void make(work *w) {
    print1525_settings settings = PRINT1525_SETTINGS_INIT;
    settings.status = PRINT1525_MODE_KEPT;
    settings.delays = "/0";
    memset(w->text, 7, sizeof w->text);
    print1525_bus(script, strlen(script), &settings, w->text[1], ROOM, &w->length[1], &w->answer[1]);
    settings.as = PRINT1525_AS_SVG;
    print1525_pages(script, strlen(script), &settings, w->text[0], ROOM, &w->length[0], &w->answer[0]);
    print1525_check(w->text[1], w->length[1], NULL, w->text[2], ROOM, &w->length[2], &w->answer[2]);
    settings.explain = 1;
    print1525_pages(script, strlen(script), &settings, w->text[3], ROOM, &w->length[3], &w->answer[3]);
    memset(&settings, 0, sizeof settings);
    settings.as = PRINT1525_AS_SVG;
    print1525_decode(w->text[1], w->length[1], &settings, w->text[4], ROOM, &w->length[4], &w->answer[4]);
    print1525_edges(w->text[1], w->length[1], NULL, w->edges, ROOM / 16, &w->length[5], &w->answer[5]);
    receive(w->edges, w->length[5], w->text[5], &w->length[6], &w->answer[6]);
    print(w->text[6], &w->answer[7]);
    w->length[7] = print1525_message(&w->answer[0], (char *)w->text[7], ROOM);
}

static void *run(void *place) {
    work *const w = (work *)place;
    int round, index;
    for (round = 0; round < ROUNDS; round++) {
        make(w);
        for (index = 0; index < TEXTS; index++)
            w->differs |= memcmp(&w->answer[index], &alone.answer[index], sizeof w->answer[index]) != 0 || w->length[index] != alone.length[index];
        w->differs |= memcmp(w->text, alone.text, sizeof w->text) != 0;
    }
    return NULL;
}

int main(void) {
    pthread_t threads[THREADS];
    int index, wrong = 0;
    make(&alone);
    wrong |= alone.answer[0].status != PRINT1525_STOPPED || alone.answer[0].fault != PRINT1525_STOP_FILE_NOT_OPEN ||
             alone.answer[0].place != 6 || alone.answer[1].status != PRINT1525_STOPPED || alone.answer[2].status != PRINT1525_DONE;
    wrong |= alone.answer[3].status != PRINT1525_STOPPED || alone.answer[3].place != 6 || alone.length[3] < 60 || alone.answer[4].status != PRINT1525_DONE;
    wrong |= alone.answer[5].status != PRINT1525_DONE || alone.length[5] < 300 || alone.answer[6].status != PRINT1525_DONE || alone.length[6] < 60;
    wrong |= alone.answer[7].status != PRINT1525_DONE || memchr(alone.text[6], 0, 300 * 60) == NULL || memchr(alone.text[6] + 300 * 60, 0, 300 * 60) == NULL;
    for (index = 0; index < THREADS; index++) wrong |= pthread_create(&threads[index], NULL, run, &shared[index]) != 0;
    for (index = 0; index < THREADS; index++) {
        pthread_join(threads[index], NULL);
        wrong |= shared[index].differs;
    }
    if (wrong) fprintf(stderr, "WRONG: threads\n");
    return wrong;
}
