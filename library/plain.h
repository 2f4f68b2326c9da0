/* The proved calls, as the library names them (tools/archive): an export print1525_x of pr_exports or pr_ear is
 * print1525_plain_x here. Each slice is a pointer, which is not NULL, and a length; what is written overlaps nothing
 * else. No program needs this file: it is not installed. */
#ifndef PRINT1525_PLAIN_H
#define PRINT1525_PLAIN_H

#include "print1525.h"

/* The program as a function: words with a byte 0 between each two, and what it writes and says out. */
typedef struct {
    size_t status; /* the program's exit status: above `most` the output is not written; 4: its buffer is too small */
    size_t fault;  /* one of enum print1525_fault; 0 where the program is done. With status 4 it says how the run ended
                    * whose output has no room: 0, or 100 and the BASIC error */
    size_t place, column; /* as in print1525_details; with status 4 and such an error its statement */
    size_t output, messages; /* how many bytes they have; messages without room are not written */
} print1525_plain_end;

void print1525_plain_answer(const uint8_t *words, size_t words_length, uint8_t explained, uint8_t most,
                            const uint8_t *input, size_t input_length, const uint8_t *characters,
                            size_t characters_length, uint8_t *output, size_t capacity, uint8_t *messages,
                            size_t messages_capacity, print1525_plain_end *end);

/* What a call with numbers answers. */
typedef struct {
    size_t code;   /* 0 done, 2 refused, 3 out of memory, 4 the buffer is too small */
    size_t fault;  /* of code 2 one of enum print1525_fault, or 24, 29 or 60, a number that is no setting (of print and
                    * printer_picture, edges and listing) */
    size_t place;
    size_t length; /* with the faults 63 and 64 the column */
} print1525_plain_numbers;

void print1525_plain_listing(const uint8_t *bytes, size_t bytes_length, uint8_t form, uint8_t *buffer, size_t capacity,
                             print1525_plain_numbers *answer);
void print1525_plain_print(const uint16_t *inputs, size_t inputs_length, uint8_t format, uint8_t device,
                           uint64_t sheet, uint8_t top, uint8_t paper, uint8_t scale, const uint8_t *characters,
                           size_t characters_length, uint8_t *buffer, size_t capacity,
                           print1525_plain_numbers *answer);
void print1525_plain_edges(const uint8_t *bytes, size_t bytes_length, uint8_t source, const uint8_t *atn,
                           size_t atn_length, const uint8_t *clock, size_t clock_length, const uint8_t *line,
                           size_t line_length, uint8_t inverted, uint64_t start, uint64_t rate, uint64_t *numbers,
                           size_t capacity, print1525_plain_numbers *answer);
void print1525_plain_receiver_begin(print1525_receiver *receiver, uint8_t device, print1525_plain_numbers *answer);
void print1525_plain_receiver_edge(print1525_receiver *receiver, const print1525_edge *edge,
                                   print1525_received *received, print1525_plain_numbers *answer);
void print1525_plain_decode_begin(print1525_decoder *decoder);
void print1525_plain_decode_edge(print1525_decoder *decoder, const print1525_edge *edge, print1525_reading *reading,
                                 print1525_plain_numbers *answer);
void print1525_plain_decode_end(const print1525_decoder *decoder, print1525_reading *reading,
                                print1525_plain_numbers *answer);
void print1525_plain_device_begin(print1525_device *device, uint8_t address, const print1525_timing *timing,
                                  print1525_plain_numbers *answer);
void print1525_plain_device_step(print1525_device *device, uint64_t now, uint8_t atn, uint8_t clock, uint8_t data,
                                 print1525_step *step, print1525_plain_numbers *answer);
void print1525_plain_device_busy(print1525_device *device, uint64_t until);
void print1525_plain_printing_time(uint32_t columns, uint16_t feeds, const print1525_speed *speed, uint64_t *time);
void print1525_plain_printer_picture(const print1525_mark *marks, size_t marks_length, uint8_t format, uint64_t sheet,
                                     uint8_t top, uint8_t paper, uint8_t scale, const uint8_t *characters,
                                     size_t characters_length, uint8_t *buffer, size_t capacity,
                                     print1525_plain_numbers *answer);
void print1525_plain_characters_read(const uint8_t *text, size_t text_length, print1525_characters *characters,
                                     print1525_plain_numbers *answer);
void print1525_plain_characters_dots(const print1525_characters *characters, const print1525_mark *mark,
                                     print1525_mark *dots, size_t capacity, print1525_plain_numbers *answer);

/* A region of packed pixels of a byte each. */
typedef struct {
    uint64_t x, y;
    size_t width, height;
} print1525_plain_region;

/* How many of some bytes a printer has taken, and how many marks they make. */
typedef struct {
    size_t taken;
    size_t marks;
} print1525_plain_run;

void print1525_plain_printer_begin(print1525_printer *printer);
void print1525_plain_printer_select(print1525_printer *printer, uint8_t set, print1525_plain_numbers *answer);
void print1525_plain_printer_byte(print1525_printer *printer, uint8_t byte, print1525_mark *marks, size_t capacity,
                                  print1525_plain_numbers *answer);
void print1525_plain_printer_bytes(print1525_printer *printer, const uint8_t *bytes, size_t bytes_length,
                                   print1525_mark *marks, size_t capacity, print1525_plain_run *run);
void print1525_plain_printer_page(const print1525_mark *marks, size_t marks_length,
                                  const print1525_plain_region *region, uint8_t *pixels, size_t capacity,
                                  print1525_plain_numbers *answer);
void print1525_plain_printer_draw(const print1525_mark *marks, size_t marks_length,
                                  const print1525_plain_region *region, uint8_t *pixels, size_t capacity,
                                  print1525_plain_numbers *answer);

#endif
