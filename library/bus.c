/* Receivers and decoders of edges. They are apart from what takes memory: a program that calls these alone links
 * no malloc. */
#include "library.h"

/* Reports what a proved call answered that takes the edges of any bus and refuses nothing but their order. */
static int report_order(print1525_details *details, print1525_plain_numbers answer) {
    if (answer.fault == PRINT1525_FAULT_BAD_ORDER) answer.fault = PRINT1525_FAULT_GOES_BACK;
    return report(details, &answer);
}

size_t print1525_decoder_size(void) { return sizeof(print1525_decoder); }

int print1525_decoder_begin(print1525_decoder *decoder, print1525_details *details) {
    if (decoder == NULL) return refuse(details, PRINT1525_FAULT_NULL_POINTER);
    print1525_plain_decode_begin(decoder);
    return done(details);
}

int print1525_decoder_edge(print1525_decoder *decoder, const print1525_edge *edge, print1525_reading *reading,
                           print1525_details *details) {
    print1525_edge read;
    print1525_reading settled;
    print1525_plain_numbers answer;
    if (decoder == NULL || edge == NULL || reading == NULL) return refuse(details, PRINT1525_FAULT_NULL_POINTER);
    read = *edge;
    memset(&settled, 0, sizeof settled);
    print1525_plain_decode_edge(decoder, &read, &settled, &answer);
    *reading = settled;
    return report_order(details, answer);
}

int print1525_decoder_end(const print1525_decoder *decoder, print1525_reading *reading, print1525_details *details) {
    print1525_reading cut;
    print1525_plain_numbers answer;
    if (decoder == NULL || reading == NULL) return refuse(details, PRINT1525_FAULT_NULL_POINTER);
    memset(&cut, 0, sizeof cut);
    print1525_plain_decode_end(decoder, &cut, &answer);
    *reading = cut;
    return report(details, &answer);
}

size_t print1525_receiver_size(void) { return sizeof(print1525_receiver); }

int print1525_receiver_begin(print1525_receiver *receiver, uint8_t device, print1525_details *details) {
    print1525_plain_numbers answer;
    if (receiver == NULL) return refuse(details, PRINT1525_FAULT_NULL_POINTER);
    print1525_plain_receiver_begin(receiver, device, &answer);
    return report(details, &answer);
}

int print1525_receiver_edge(print1525_receiver *receiver, const print1525_edge *edge, print1525_received *received,
                            print1525_details *details) {
    print1525_edge read;
    print1525_received came;
    print1525_plain_numbers answer;
    if (receiver == NULL || edge == NULL || received == NULL) return refuse(details, PRINT1525_FAULT_NULL_POINTER);
    read = *edge;
    print1525_plain_receiver_edge(receiver, &read, &came, &answer);
    *received = came;
    return report_order(details, answer);
}
