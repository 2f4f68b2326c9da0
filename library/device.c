/* Devices that answer. */
#include "library.h"

size_t print1525_device_size(void) { return sizeof(print1525_device); }

int print1525_device_begin(print1525_device *device, uint8_t address, const print1525_timing *timing,
                           print1525_details *details) {
    print1525_timing read = {0, 0, 0, 0, 0, 0};
    print1525_plain_numbers answer;
    if (device == NULL) return refuse(details, PRINT1525_FAULT_NULL_POINTER);
    if (timing != NULL) read = *timing;
    print1525_plain_device_begin(device, address, &read, &answer);
    return report(details, &answer);
}

int print1525_device_step(print1525_device *device, const print1525_edge *moment, print1525_step *step,
                          print1525_details *details) {
    print1525_edge read;
    print1525_step does;
    print1525_plain_numbers answer;
    if (device == NULL || moment == NULL || step == NULL) return refuse(details, PRINT1525_FAULT_NULL_POINTER);
    read = *moment;
    memset(&does, 0, sizeof does);
    print1525_plain_device_step(device, read.time, read.atn, read.clock, read.data, &does, &answer);
    *step = does;
    return report(details, &answer);
}

int print1525_device_busy(print1525_device *device, uint64_t until, print1525_details *details) {
    if (device == NULL) return refuse(details, PRINT1525_FAULT_NULL_POINTER);
    print1525_plain_device_busy(device, until);
    return done(details);
}

uint64_t print1525_printing_time(uint32_t columns, uint16_t feeds, const print1525_speed *speed) {
    print1525_speed read = {0, 0};
    uint64_t time = 0;
    if (speed != NULL) read = *speed;
    print1525_plain_printing_time(columns, feeds, &read, &time);
    return time;
}
