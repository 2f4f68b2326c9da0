/* The serial bus as an emulator has it: emulator PREFIX [TRACE] < TEXT
 * A computer drives ATN, CLOCK and DATA bit by bit, as the KERNAL of a Commodore 64 does (no real one was tried). It
 * prints each line of the text on two printers, 4 and 5 (the second in lower case), and writes it to a file on drive
 * 8. The library says when each device pulls and releases DATA; while a printer prints a line, the computer waits.
 * Time is virtual: nothing here sleeps. The first sheets come out as PREFIX-4.pgm and PREFIX-5.pgm, the file as
 * PREFIX-8.seq, and a line says how many microseconds all that took. Nothing here calls malloc. TRACE gets the edges
 * of the bus, a line of moment, ATN, CLOCK and DATA for each, 1 where nobody pulls: `print1525 decode` reads it. */
#include "print1525.h"
#include <stdio.h>
#include <string.h>

/* A sheet of eleven inches, in pixels: 120 to the inch across and 126 down. */
#define WIDTH 960
#define HEIGHT PRINT1525_SHEET

/* A device on the bus: what the library keeps of it, and what it does to DATA since it was shown the lines. */
typedef struct {
    print1525_device device;
    print1525_step step;
    print1525_printer printer; /* of a printer: what it keeps between two bytes, and its paper */
    uint16_t columns;          /* how far the marks of its line reach */
    uint8_t paper[HEIGHT][WIDTH];
} device;

enum { DRIVE = 2, DEVICES = 3 };
static const uint8_t addresses[DEVICES] = {4, 5, 8};
static device devices[DEVICES];

/* The drive's file, after its name. */
static uint8_t disk[65536];
static size_t disk_length;
static int is_name;

/* What the computer does to the lines, 1 released and 0 pulled; the moment, in microseconds; and the trace. */
static int atn = 1, clock_line = 1, data = 1;
static uint64_t now;
static FILE *trace;

/* How far a line reaches with more marks, of which some may be in another line. */
static uint16_t reach(uint16_t columns, const print1525_mark *marks, size_t length, uint64_t line) {
    for (; length > 0; length--, marks++) {
        const int end = marks->x + (marks->kind == PRINT1525_DOTS ? 1 : marks->wide ? 12 : 6);
        if (marks->y == line && end > columns) columns = (uint16_t)end;
    }
    return columns;
}

/* A byte goes to a printer. It keeps a line until its end, and prints it then, 30 characters a second: the computer
 * waits that long. A feed in graphic mode is two thirds as far. */
static void print(device *it, uint8_t byte) {
    static const print1525_region sheet = {0, 0, WIDTH, HEIGHT, 0, PRINT1525_GRAY};
    print1525_mark marks[PRINT1525_MARKS_OF_A_BYTE];
    const uint64_t line = it->printer.y;
    print1525_speed speed = {0, 0};
    size_t length;
    print1525_printer_byte(&it->printer, byte, marks, PRINT1525_MARKS_OF_A_BYTE, &length, NULL);
    print1525_printer_draw(marks, length, &sheet, it->paper[0], sizeof it->paper, NULL);
    it->columns = reach(it->columns, marks, length, line);
    if (it->printer.y == line) return;
    if (it->printer.y - line == 14) speed.feed = 133333;
    print1525_device_busy(&it->device, now + print1525_printing_time(it->columns, 1, &speed), NULL);
    it->columns = reach(0, marks, length, it->printer.y);
}

static void printer_hears(device *it, print1525_received heard) {
    switch (heard.kind) {
    case PRINT1525_RECEIVED_LISTEN: print1525_printer_select(&it->printer, PRINT1525_SET_UPPER, NULL); break;
    case PRINT1525_RECEIVED_SELECT:
        if (heard.byte == 7) print1525_printer_select(&it->printer, PRINT1525_SET_LOWER, NULL);
        break;
    case PRINT1525_RECEIVED_BYTE: print(it, heard.byte); break;
    default: break;
    }
}

/* A drive that only listens: after OPEN comes a name, until UNLISTEN, and then what is in the file. */
static void drive_hears(print1525_received heard) {
    switch (heard.kind) {
    case PRINT1525_RECEIVED_OPEN: is_name = 1; break;
    case PRINT1525_RECEIVED_UNLISTEN: is_name = 0; break;
    case PRINT1525_RECEIVED_BYTE:
        if (!is_name && disk_length < sizeof disk) disk[disk_length++] = heard.byte;
        break;
    default: break;
    }
}

/* DATA is released where nobody pulls it. */
static int is_data_released(void) {
    int index, released = data;
    for (index = 0; index < DEVICES; index++) released = released && !devices[index].step.pulls_data;
    return released;
}

/* Shows all devices the lines, and once more where they have changed DATA. */
static void show(void) {
    print1525_edge lines;
    int index;
    do {
        lines.time = now;
        lines.atn = (uint8_t)atn;
        lines.clock = (uint8_t)clock_line;
        lines.data = (uint8_t)is_data_released();
        for (index = 0; index < DEVICES; index++) {
            device *const it = &devices[index];
            print1525_device_step(&it->device, &lines, &it->step, NULL);
            if (index == DRIVE)
                drive_hears(it->step.heard);
            else
                printer_hears(it, it->step.heard);
        }
    } while (lines.data != is_data_released());
}

/* The computer pulls and releases lines. */
static void set(int new_atn, int new_clock, int new_data) {
    atn = new_atn, clock_line = new_clock, data = new_data;
    show();
}

/* When the next device wants to be called. */
static uint64_t next_wake(void) {
    uint64_t next = PRINT1525_NO_WAKE;
    int index;
    for (index = 0; index < DEVICES; index++)
        if (devices[index].step.wake < next) next = devices[index].step.wake;
    return next;
}

/* Time goes on to a later moment. The trace gets the levels that the lines have until then, where they are new. */
static void go_on(uint64_t moment) {
    static int traced = -1;
    const int levels = 100 * atn + 10 * clock_line + is_data_released();
    if (trace != NULL && levels != traced) fprintf(trace, "%llu %03d\n", (unsigned long long)now, levels);
    traced = levels, now = moment;
}

/* Time passes until DATA has a level, at most until a moment. Gives whether DATA has it then. */
static int wait_for_data(int released, uint64_t end) {
    while (is_data_released() != released && next_wake() <= end && next_wake() != PRINT1525_NO_WAKE) {
        go_on(next_wake());
        show();
    }
    return is_data_released() == released;
}

/* Time passes, whatever DATA does. */
static void pass(uint64_t microseconds) {
    const uint64_t end = now + microseconds;
    while (next_wake() <= end) {
        go_on(next_wake());
        show();
    }
    go_on(end);
}

/* Sends a byte. Gives whether all that listen have taken it. */
static int send(uint8_t byte, int is_last) {
    int bit;
    set(atn, 1, 1); /* ready to send: CLOCK is released, and DATA by the computer */
    if (!wait_for_data(1, PRINT1525_NO_WAKE)) return 0;
    if (is_last) { /* end-or-identify: CLOCK stays released until it is answered */
        if (!wait_for_data(0, PRINT1525_NO_WAKE) || !wait_for_data(1, PRINT1525_NO_WAKE)) return 0;
    }
    pass(40);
    for (bit = 0; bit < 8; bit++) {
        set(atn, 0, 1);
        pass(30);
        set(atn, 0, byte >> bit & 1);
        pass(40);
        set(atn, 1, data); /* the bit counts */
        pass(20);
    }
    set(atn, 0, 1);
    return wait_for_data(0, now + 1000);
}

/* ATN is pulled, and one command comes, or two. Gives 0 where no device answers. */
static int attention(uint8_t first, int second) {
    int is_done;
    pass(100);
    if (first == 63) set(atn, 1, 1); /* UNLISTEN */
    set(0, clock_line, 1);
    pass(10);
    set(0, 0, 1);
    pass(1000); /* so long a device has to pull DATA */
    is_done = !is_data_released() && send(first, 0);
    if (is_done && second >= 0) {
        pass(1000);
        is_done = send((uint8_t)second, 0);
    }
    pass(100);
    set(1, clock_line, 1);
    if (first == 63 || !is_done) { /* nobody is called any more */
        pass(100);
        set(1, 1, 1);
    }
    pass(100);
    return is_done;
}

/* LISTEN to a device, bytes, the last with end-or-identify, and UNLISTEN. */
static int send_all(uint8_t address, int second, const uint8_t *bytes, size_t length) {
    size_t index;
    if (!attention((uint8_t)(32 + address), second)) return 0;
    for (index = 0; index < length; index++) {
        pass(index % 16 == 15 ? 3000 : 100); /* now and then the computer has something else to do */
        if (!send(bytes[index], index + 1 == length)) return 0;
    }
    return attention(63, -1);
}

static int write_file(const char *prefix, const char *name, const char *head, const uint8_t *bytes, size_t length) {
    char path[4096];
    FILE *file;
    snprintf(path, sizeof path, "%s-%s", prefix, name);
    file = fopen(path, "wb");
    if (file == NULL) return 0;
    fputs(head, file);
    fwrite(bytes, 1, length, file);
    return fclose(file) == 0;
}

/* The next line of the text, or its next 255 bytes. Gives how many there are. */
static size_t next_line(uint8_t *line) {
    size_t length = 0;
    int byte = 0;
    while (length < 255 && byte != '\n' && (byte = getchar()) != EOF)
        line[length++] = (uint8_t)(byte == '\n' ? 13 : byte);
    return length;
}

/* OPEN 4,4, OPEN 5,5,7 and OPEN 8,8,2,"TEXT,S,W"; then PRINT# to each for each line; and CLOSE. */
static int run(void) {
    static const uint8_t name[] = "TEXT,S,W";
    uint8_t line[255];
    size_t length;
    if (!send_all(8, 0xF2, name, sizeof name - 1)) return 0;
    while ((length = next_line(line)) > 0)
        if (!send_all(4, -1, line, length) || !send_all(5, 0x67, line, length) || !send_all(8, 0x62, line, length))
            return 0;
    return send_all(8, 0xE2, NULL, 0);
}

int main(int words, char **word) {
    static const char head[] = "P5\n960 1386\n255\n";
    int index, is_written;
    if (words != 2 && words != 3) {
        fprintf(stderr, "usage: emulator PREFIX [TRACE] < TEXT\n");
        return PRINT1525_REFUSED;
    }
    if (words == 3 && (trace = fopen(word[2], "w")) == NULL) return PRINT1525_FAILED;
    for (index = 0; index < DEVICES; index++) {
        print1525_device_begin(&devices[index].device, addresses[index], NULL, NULL);
        print1525_printer_begin(&devices[index].printer, NULL);
        memset(devices[index].paper, 255, sizeof devices[index].paper);
        devices[index].step.wake = PRINT1525_NO_WAKE;
    }
    if (!run()) {
        fprintf(stderr, "device not present\n");
        return PRINT1525_FAILED;
    }
    printf("%llu microseconds\n", (unsigned long long)now);
    if (trace != NULL && fclose(trace) != 0) return PRINT1525_FAILED;
    is_written = write_file(word[1], "4.pgm", head, devices[0].paper[0], sizeof devices[0].paper) &&
                 write_file(word[1], "5.pgm", head, devices[1].paper[0], sizeof devices[1].paper) &&
                 write_file(word[1], "8.seq", "", disk, disk_length);
    return is_written ? PRINT1525_DONE : PRINT1525_FAILED;
}
