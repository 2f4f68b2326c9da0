/* libprint1525 1.0: what a Commodore 64 prints on VIC-1525 printers, for C (C99 and later) and C++ (C++11 and later).
 *
 *     Devices of the serial bus that answer, for emulators and adapters
 *     print1525_device_..         what a device does to DATA and what it hears, moment by moment
 *     print1525_printing_time     how long a printer prints, for a device that is busy meanwhile
 *
 *     Printers that are watched
 *     print1525_printer_..        the marks of each byte as it comes, and the pixels of any part of the paper
 *     print1525_printer_picture   the paper of marks as SVG, PNG or PDF, in parts
 *     print1525_characters_..     the dots of marks in the characters of a file
 *
 *     Receivers of edges of the serial bus
 *     print1525_receiver_..       what comes to a device on any bus, edge by edge
 *     print1525_decoder_..        what any recording of the bus says, edge by edge
 *
 *     Texts                       give                                                          as the command
 *     print1525_pages             the pages of a script: a list, lines, SVG, PNG or PDF         pages
 *     print1525_bus               the trace of a script's run: a text or a Value Change Dump    bus
 *     print1525_check             the frames or the story of a trace, or its first fault        check
 *     print1525_decode            what a recording of any bus says, or the pages that it prints decode
 *     print1525_raw               the page of the bytes that a printer gets                     raw
 *     print1525_answer            all of these, and what else the program gives, by the words of its command line
 *     print1525_print             the page of bytes and of selections of a character set
 *     print1525_listing           a listing in any form as the text of a script
 *     print1525_edges             the edges of a recording in any format
 *
 *     Words
 *     print1525_strerror          what a fault says, as the program says it
 *     print1525_message           the same with its place: `line 3, column 9: unknown name`
 *     print1525_version           the version of the library that is linked
 *
 * This file is the manual. docs/C.md shows how to build and link, and a program for each purpose. include/print1525.hpp
 * wraps the calls for C++17; examples/ has packages for Python and Rust.
 *
 * The library is for 64-bit processors whose numbers have their lowest byte first. Each call is a function in C that is
 * tested only: it says settings as words of a command line, refuses pointers, and calls proved functions. These give
 * exactly what their definitions say (docs/C.md says where these are).
 *
 * ANSWERS. A call returns an exit status of the program print1525 (enum print1525_status), and writes the same and the
 * reason to `details`. Where it fills a buffer, it writes how many items it has put there to `length`. Either may be
 * NULL. What it gives is at the front of the buffer, without a zero byte after it; the rest of the buffer stays as it
 * was. With a refusal and a failure (2 and 3) the whole buffer does, and the length is 0; but what a recording says
 * before its first fault, and why an input is refused (`explain`), is given with status 2. Nothing is cut: if the
 * buffer is too small, the call fails with PRINT1525_FAULT_TOO_SMALL, and the length is what it needs. So a caller may
 * ask for the length with a NULL buffer of capacity 0, or guess, and ask again.
 *
 * POINTERS. A pointer may be NULL where its length is 0. With another length, and where a structure is read or
 * written, NULL is refused (NULL_POINTER). A buffer that overlaps bytes, marks or words which the call reads is refused
 * (OVERLAP); one over a structure is not noticed. Settings may be NULL: then all are 0. Structures may overlap: each is
 * read before one is written, and length and details are written last. What cannot be tested is the caller's part: as
 * many items can be read as a length says, and written as a capacity says; a pointer to numbers is aligned for them; a
 * `const char *` ends with a zero byte; and during a call no other thread writes what the call reads, or touches what
 * it writes.
 *
 * OWNERSHIP. The caller owns all memory that it passes. No call keeps a pointer or hands out memory; what a call takes
 * by malloc it frees before it returns. A buffer's bytes need not be initialised. Structures without pointers are
 * plain: copy, save and load them freely.
 *
 * WHAT A CALLER CARRIES.
 * - Threads: no call keeps any state, so several threads may make calls at once.
 * - Stack: at most 4096 bytes of it for print1525_device_.., _printing_time, _printer_.., _receiver_.., _decoder_.. and
 *   the calls under `Words` above, and 20,480 for _characters_..; at most PRINT1525_STACK for each other call and for
 *   print1525_printer_picture, as tests measure in our builds. Where functions of the C library are bound at their
 *   first call (without `-z now`), the dynamic linker needs some 2500 bytes more then.
 * - Memory: the calls with at most 20,480 bytes of stack take none. The others take it by malloc, realloc and free of
 *   one allocator, aligned as C demands. Where these give none, a call fails with PRINT1525_FAULT_NO_MEMORY and has
 *   freed what it took.
 * - Signal handlers: the calls that take no memory, and no others.
 * - fork: a child may make calls where it may call malloc.
 * - No call touches files, streams, locales, the time or the state of floating point; errno only where malloc does.
 *
 * STABLE in all versions 1: the names, numbers and structures of this file, and what calls give. A later version may
 * add calls, numbers, and settings in the reserved part of print1525_settings. */
#ifndef PRINT1525_H
#define PRINT1525_H

#include <stddef.h>
#include <stdint.h>

/* The version of this header: a text, and a number that grows. */
#define PRINT1525_VERSION "1.0.0"
#define PRINT1525_VERSION_NUMBER 10000

/* The most bytes of stack that a call takes, as tests measure in our builds. */
#define PRINT1525_STACK 262144

#ifdef __cplusplus
extern "C" {
#endif

/* ------------------------------------------------------------------------------------------------- answers -- */

/* What a call returns: the exit statuses of the program print1525. */
enum print1525_status {
    PRINT1525_DONE = 0,    /* the buffer has the text, or what else the call gives */
    PRINT1525_STOPPED = 1, /* the same, and a BASIC error stopped the run: the fault says which; or with `strict`
                            * something of a recording is left out, without a fault */
    PRINT1525_REFUSED = 2, /* the call refuses what it was passed: the fault says why */
    PRINT1525_FAILED = 3   /* there is no memory, or no room in the buffer, or the caller's function wants no more: the
                            * fault says which */
};

/* What a call reports besides its status. */
typedef struct {
    int32_t status; /* what it returned */
    int32_t fault;  /* one of enum print1525_fault; PRINT1525_FAULT_NONE with status 0 */
    size_t place;   /* the statement, line, edge, input, mark or setting that the fault names; else 0 */
    size_t column;  /* with UNKNOWN_NAME and BAD_CHARACTER the column of that line, from 1, else 0 */
} print1525_details;

/* Why a call does not return 0. */
enum print1525_fault {
    PRINT1525_FAULT_NONE = 0,
    /* refused: of a script; `place` is the line, from 1 */
    PRINT1525_FAULT_UNKNOWN_WORD = 1,
    PRINT1525_FAULT_BAD_NUMBER = 2,
    PRINT1525_FAULT_BAD_DEVICE = 3,
    PRINT1525_FAULT_BAD_SECOND = 4,
    PRINT1525_FAULT_BAD_BYTE = 5,
    PRINT1525_FAULT_TOO_LONG = 6,
    PRINT1525_FAULT_TOO_MANY = 7,
    /* refused: of a trace text; `place` is the line, from 1 */
    PRINT1525_FAULT_BAD_LINE = 8,
    /* refused: of any input; `place` is 0 */
    PRINT1525_FAULT_TOO_LARGE = 9,
    /* refused: of a lawful trace's edges; `place` is the edge's index, from 0 */
    PRINT1525_FAULT_BAD_START = 11,
    PRINT1525_FAULT_BAD_ORDER = 12,
    PRINT1525_FAULT_TOO_EARLY = 13,
    PRINT1525_FAULT_TOO_LATE = 14,
    PRINT1525_FAULT_BAD_SHAPE = 15,
    PRINT1525_FAULT_TRUNCATED = 16,
    /* refused: of an edge or a moment of any bus, earlier than the one before it; `place` is 0, since nobody counts
     * them */
    PRINT1525_FAULT_GOES_BACK = 17,
    /* refused: of marks: one is above the one before it; `place` is its index, from 0 */
    PRINT1525_FAULT_MARK_ABOVE = 18,
    /* refused: a number that means no device, character set, timing or pixels; `place` is 0 */
    PRINT1525_FAULT_NO_SUCH_DEVICE = 21,
    PRINT1525_FAULT_NO_SUCH_SET = 25,
    PRINT1525_FAULT_NO_SUCH_TIMING = 26,
    PRINT1525_FAULT_NO_SUCH_PIXELS = 27,
    /* refused: a number that means no input of a printer; `place` is its index, from 0 */
    PRINT1525_FAULT_NO_SUCH_INPUT = 28,
    /* refused: of a recording: a dump or a table; `place` is the line, from 1 */
    PRINT1525_FAULT_NO_ATN = 31,
    PRINT1525_FAULT_NO_CLOCK = 32,
    PRINT1525_FAULT_NO_DATA = 33,
    PRINT1525_FAULT_NO_LEVEL_OF_ATN = 34,
    PRINT1525_FAULT_NO_LEVEL_OF_CLOCK = 35,
    PRINT1525_FAULT_NO_LEVEL_OF_DATA = 36,
    PRINT1525_FAULT_BAD_WORD = 41,
    PRINT1525_FAULT_NO_END = 42,
    PRINT1525_FAULT_NO_DEFINITIONS = 43,
    PRINT1525_FAULT_NO_TIMESCALE = 44,
    PRINT1525_FAULT_BAD_TIME = 45,
    PRINT1525_FAULT_LINE_GOES_BACK = 46,
    PRINT1525_FAULT_LEVEL_X = 47,
    PRINT1525_FAULT_LEVEL_Z = 48,
    PRINT1525_FAULT_BAD_LEVEL = 49,
    /* refused: a sheet that the pages do not have; `place` is how many they have */
    PRINT1525_FAULT_NO_SUCH_SHEET = 50,
    /* refused: a document that is longer than its format allows, or a PNG file that is too high; `place` is 0 */
    PRINT1525_FAULT_DOCUMENT_TOO_LARGE = 51,
    /* refused: of a file of characters; `place` is the line, from 1 */
    PRINT1525_FAULT_BAD_CHARACTER_LINE = 52,
    /* refused: words of a command line; `place` is 0. With `--explain` the text says why */
    PRINT1525_FAULT_BAD_WORDS = 54,
    /* refused: of a listing. It has no load address, or no line (`place` is 0); it ends within a line; in a string of
     * petcat's text or of a magazine's listing a brace has no name that they have, or a byte is one that they do not
     * have. `place` is the line, from 1, and `column` of the two after it the column, from 1 */
    PRINT1525_FAULT_NOT_SAVED = 61,
    PRINT1525_FAULT_CUT_OFF = 62,
    PRINT1525_FAULT_UNKNOWN_NAME = 63,
    PRINT1525_FAULT_BAD_CHARACTER = 64,
    PRINT1525_FAULT_NO_LINE = 65,
    /* refused: of a recording: a dump or a table; `place` is the line, from 1 */
    PRINT1525_FAULT_BAD_TIMESCALE = 70,
    PRINT1525_FAULT_NO_TIME = 71,
    PRINT1525_FAULT_UTF_16 = 72,
    PRINT1525_FAULT_ARCHIVE = 73,
    PRINT1525_FAULT_ANOTHER_ATN = 75,
    PRINT1525_FAULT_ANOTHER_CLOCK = 76,
    PRINT1525_FAULT_ANOTHER_DATA = 77,
    /* refused: of what the call was passed; `place` is 0 */
    PRINT1525_FAULT_NULL_POINTER = 80,
    PRINT1525_FAULT_OVERLAP = 81,
    /* refused: a setting has no such value, or is not read here; `place` is its number, of enum print1525_setting */
    PRINT1525_FAULT_BAD_SETTING = 82,
    /* failed; `place` is 0 */
    PRINT1525_FAULT_NO_MEMORY = 90,
    PRINT1525_FAULT_TOO_SMALL = 91, /* `length` is what it needs */
    PRINT1525_FAULT_NOT_WRITTEN = 92, /* the caller's function wanted no more */
    /* stopped: 100 and the number of the BASIC error; `place` is the statement that it stopped, from 1 */
    PRINT1525_STOP_TOO_MANY_FILES = 101,
    PRINT1525_STOP_FILE_OPEN = 102,
    PRINT1525_STOP_FILE_NOT_OPEN = 103,
    PRINT1525_STOP_DEVICE_NOT_PRESENT = 105,
    PRINT1525_STOP_NOT_INPUT_FILE = 106,
    /* stopped: an error of BASIC in a program that is run, 100 and its number; `place` is the number of the program's
     * line */
    PRINT1525_STOP_NEXT_WITHOUT_FOR = 110,
    PRINT1525_STOP_SYNTAX = 111,
    PRINT1525_STOP_RETURN_WITHOUT_GOSUB = 112,
    PRINT1525_STOP_OUT_OF_DATA = 113,
    PRINT1525_STOP_ILLEGAL_QUANTITY = 114,
    PRINT1525_STOP_OVERFLOW = 115,
    PRINT1525_STOP_UNDEFINED_STATEMENT = 117,
    PRINT1525_STOP_BAD_SUBSCRIPT = 118,
    PRINT1525_STOP_REDIMENSIONED_ARRAY = 119,
    PRINT1525_STOP_DIVISION_BY_ZERO = 120,
    PRINT1525_STOP_TYPE_MISMATCH = 122,
    PRINT1525_STOP_STRING_TOO_LONG = 123,
    PRINT1525_STOP_FORMULA_TOO_COMPLEX = 125,
    PRINT1525_STOP_UNDEFINED_FUNCTION = 127,
    /* refused: of a program that is run, at a place of its text; `place` is the line of the text and `column` the
     * column, from 1 */
    PRINT1525_FAULT_NO_LINE_NUMBER = 131,
    PRINT1525_FAULT_LARGE_LINE_NUMBER = 132,
    PRINT1525_FAULT_SYNTAX = 133,
    PRINT1525_FAULT_UNKNOWN_KEY = 134,
    PRINT1525_FAULT_BAD_STRING_BYTE = 135,
    PRINT1525_FAULT_NOT_SUPPORTED = 136,
    PRINT1525_FAULT_NOT_CERTAIN = 137,
    PRINT1525_FAULT_POKE_NOT_SUPPORTED = 138,
    PRINT1525_FAULT_BAD_PROGRAM_DEVICE = 139,
    PRINT1525_FAULT_BAD_PROGRAM_SECOND = 140,
    PRINT1525_FAULT_FILE_NAME = 141,
    PRINT1525_FAULT_LONG_LIST = 142,
    PRINT1525_FAULT_OPEN_FILES = 143,
    PRINT1525_FAULT_FULL_STACK = 144,
    PRINT1525_FAULT_FULL_MEMORY = 145,
    /* refused: the run of a program does not end within its steps; `place` is the number of the program's line */
    PRINT1525_FAULT_TOO_MANY_STEPS = 146,
    /* stopped: an error of a channel call in a program whose script is written, 150 and its number; `place` is the
     * number of the program's line. Where the script is run, 100 and its number serve, and the statement */
    PRINT1525_STOP_PROGRAM_TOO_MANY_FILES = 151,
    PRINT1525_STOP_PROGRAM_FILE_OPEN = 152,
    PRINT1525_STOP_PROGRAM_FILE_NOT_OPEN = 153,
    PRINT1525_STOP_PROGRAM_NOT_INPUT_FILE = 156
};

/* What a fault says, in the program's words (of a BASIC error its name); "no fault" of any other number. The text stays
 * where it is. */
const char *print1525_strerror(int fault);

/* Writes what the program writes of these details, as `line 3: unknown word`, `edge 5: too early`, `out of memory` or
 * `?FILE NOT OPEN  ERROR (statement 3)`, of a program `?SYNTAX  ERROR IN 20`; of a bad setting
 * `setting top: bad setting`. At most capacity - 1 bytes of it, and a zero byte if there is room for one. Returns the
 * length of all of it, as snprintf does. Of NULL and of status 0 this is 0. */
size_t print1525_message(const print1525_details *details, char *text, size_t capacity);

/* PRINT1525_VERSION of the library that is linked. */
const char *print1525_version(void);

/* ------------------------------------------------------------------------------------- devices that answer -- */

/* The lines of the serial bus from this microsecond on, each 0 for pulled and any other number for released. */
typedef struct {
    uint64_t time;
    uint8_t atn, clock, data;
} print1525_edge;

/* `kind` of what comes to a device. */
enum print1525_received_kind {
    PRINT1525_NOTHING_RECEIVED = 0,
    PRINT1525_RECEIVED_BYTE = 1,     /* a data byte, while the device listens */
    PRINT1525_RECEIVED_SELECT = 2,   /* a secondary address directly after LISTEN to the device: to a VIC-1525 number 7
                                      * selects the lower/upper case set */
    PRINT1525_RECEIVED_LISTEN = 3,   /* LISTEN to the device: to a VIC-1525 it selects the graphic/upper case set */
    PRINT1525_RECEIVED_UNLISTEN = 4, /* UNLISTEN, while the device listens */
    PRINT1525_RECEIVED_OPEN = 5,     /* of print1525_device_step alone: the secondary address of OPEN ($F0 on), */
    PRINT1525_RECEIVED_CLOSE = 6     /* and that of CLOSE ($E0 on), directly after LISTEN to the device */
};

/* What comes to a device. */
typedef struct {
    uint8_t kind; /* one of enum print1525_received_kind */
    uint8_t byte; /* the byte, or the number of the secondary address; else 0 */
    uint8_t eoi;  /* 1: a byte with end-or-identify, the last of its sender; else 0 */
} print1525_received;

/* How long a device waits before each thing that it does to DATA, in microseconds; 0 is the typical delay. In brackets
 * the least, the typical and the greatest one. */
typedef struct {
    uint16_t attention; /* from ATN's pull to DATA's pull (1, 100, 1000) */
    uint16_t hold;      /* from CLOCK's release before a byte to DATA's release (1, 50, 10000) */
    uint16_t wait;      /* from DATA's release to its pull, with end-or-identify (200, 250, 250) */
    uint16_t answer;    /* how long that answer lasts (80, 80, 200) */
    uint16_t accept;    /* from CLOCK's last pull in a byte to DATA's pull: the byte is acknowledged (1, 20, 80) */
    uint16_t leave;     /* from ATN's release to DATA's release, if the device does not listen (1, 20, 60) */
} print1525_timing;

/* A device: what the library keeps of one between two moments. Its numbers are the library's own. Copy, save and load
 * its bytes freely; their version is among them. A step refuses a device of another version, or memory that is no
 * device, as no such device (21); all other numbers mean some device. */
typedef struct {
    uint64_t kept[8];
} print1525_device;

/* `wake` of a device that does nothing until a line changes. */
#define PRINT1525_NO_WAKE UINT64_MAX

/* What a device does at a moment, and what it hears then. */
typedef struct {
    uint64_t wake;            /* later than this moment: then show it the lines again, if none changes before (what is
                               * shown later, it does later); or PRINT1525_NO_WAKE */
    uint8_t pulls_data;       /* 1: it pulls DATA from this moment on; 0: it does not */
    print1525_received heard; /* with CLOCK's last pull in a byte what the byte says to the device, else nothing */
} print1525_step;

/* How many bytes a device has, for programs in other languages and for saved ones: sizeof(print1525_device). */
size_t print1525_device_size(void);

/* Begins a device of 4 to 30, to which no moment was shown: all lines are released, it does not listen, and it pulls
 * nothing.
 *
 * Reads: timing, or of NULL the typical delays.
 * Refuses, with the device as it was: NULL (80), the address (21), and a delay outside its bounds (26). */
int print1525_device_begin(print1525_device *device, uint8_t address, const print1525_timing *timing,
                           print1525_details *details);

/* Shows a device the lines at a moment, and answers with what it does to DATA and what it hears. Call it for each
 * device whenever a line changes, also where a device has changed DATA, and at each `wake`. DATA's level is that of the
 * wire: it is pulled as long as anybody pulls it, this device too.
 *
 * Reads: a device that was begun; a moment in microseconds below 2^63 that is not earlier than the last one, and the
 * levels of the lines. Several moments may have one time; a byte is heard once. A change of ATN ends what had begun, so
 * show it before a change of CLOCK; and a `wake` before a change at the same time.
 * Gives: the step. The device keeps pulling, or not, until the next step.
 * Refuses, with the device as it was: NULL (80), with nothing written but details; numbers that are no device's (21);
 * and a moment that is earlier than the last one, or is 2^63 or more (17). With these two the step pulls nothing, hears
 * nothing and has no wake. */
int print1525_device_step(print1525_device *device, const print1525_edge *moment, print1525_step *step,
                          print1525_details *details);

/* Lets a device print until a moment, in microseconds: before the next byte, also a command to another device, it holds
 * DATA until then, and the talker waits. The next step has the new wake. It hears what comes meanwhile. Once it has
 * released DATA before a byte, it does not pull it again for that. A later call counts instead of an earlier one.
 *
 * Refuses, with the device as it was: NULL (80). Memory that is no device is written to, and refused by the next step. */
int print1525_device_busy(print1525_device *device, uint64_t until, print1525_details *details);

/* How fast a printer prints; 0 is the figure of the VIC-1525 User's Manual, of 30 characters or five line feeds a
 * second. */
typedef struct {
    uint32_t columns; /* how many columns of dots in a second: 180 */
    uint32_t feed;    /* how long a line feed takes, in microseconds: 200,000. One in graphic mode is two thirds as
                       * far: 133,333 where the paper moves as fast */
} print1525_speed;

/* Gives how long a printer takes for columns of dots and line feeds, in microseconds: less than 2^53. When a line ends,
 * its device prints until that moment plus this time: print1525_device_busy.
 *
 * Reads: how many columns a line has from the left edge to where its marks reach, blank ones between them too, of a
 * printer at most 480: a mark has its `x` and one column of dots, six of a character or twelve of a wide one; how
 * many line feeds; and a speed, or of NULL that of the manual. (The `x` of a printer is no measure: it may be moved
 * back, and a byte that ends the line may still have marks in it.) The time is rounded up. */
uint64_t print1525_printing_time(uint32_t columns, uint16_t feeds, const print1525_speed *speed);

/* -------------------------------------------------------------------------------- printers that are watched -- */

/* The most marks that a byte makes: the columns of dots of a repeat. */
#define PRINT1525_MARKS_OF_A_BYTE 255

/* `set`: the graphic/upper case or the lower/upper case characters. */
enum print1525_set { PRINT1525_SET_UPPER = 0, PRINT1525_SET_LOWER = 1 };

/* `kind` of a mark. */
enum print1525_mark_kind {
    PRINT1525_CELL = 0, /* a character, 6 dots wide, or 12 if `wide` */
    PRINT1525_DOTS = 1  /* a column of seven dots */
};

/* A mark on the paper. All numbers mean some mark: a `kind` that is not 1 is a cell, and a flag that is not 1 is 0. */
typedef struct {
    uint64_t y;      /* its row's distance from the top, in 1/126 inch */
    uint16_t x;      /* the dot column at which it begins, 0 to 479, in 1/60 inch */
    uint8_t kind;    /* one of enum print1525_mark_kind */
    uint8_t value;   /* a cell's code (docs/DEFINITIONS.md has what each prints), or the dots of a column, bit 0 at the
                      * top */
    uint8_t lower;   /* 1: a cell of the lower/upper case set */
    uint8_t reverse; /* 1: a cell white on black */
    uint8_t wide;    /* 1: a cell of double width */
} print1525_mark;

/* A printer: what the library keeps of one between two bytes. It keeps no marks: the caller keeps those that it wants
 * to draw again. The numbers are to be read; copy, save and load them freely, and each copy goes on by itself. `y` may
 * be set, as after a reset over used paper. All numbers mean some printer: an `x` above 480 is 480, a `y` above 2^63
 * is 2^63, and a number that means nothing is 0. Memory of zeros is a printer just begun. */
typedef struct {
    uint64_t y;           /* the line's distance from the top, in 1/126 inch: its marks have it too */
    uint16_t x;           /* the dot column to which the next mark goes, at most 480; one that does not fit there goes
                           * to the next line */
    uint8_t graphic;      /* 1: graphic mode */
    uint8_t wide;         /* 1: double width */
    uint8_t reverse;      /* 1: reverse printing */
    uint8_t override_set; /* which set overrides the selected one: 0 none, 1 graphic/upper case, 2 lower/upper case */
    uint8_t lower;        /* 1: the lower/upper case set is selected */
    uint8_t pending;      /* what has come of a command: 0 nothing, 1 code 16, 2 and its first digit, 3 code 26, 4 and
                           * its count, 5 code 27, 6 and code 16, 7 and the first byte of the address */
    uint8_t parameter;    /* with 2, 4 and 7 the parameter that has come */
} print1525_printer;

/* Begins a printer at dot 0 of the first line, in character mode, with the graphic/upper case set selected.
 *
 * Refuses: NULL (80). */
int print1525_printer_begin(print1525_printer *printer, print1525_details *details);

/* Selects a character set of a printer, one of enum print1525_set. A selection makes no mark. Where a device hears
 * PRINT1525_RECEIVED_LISTEN select PRINT1525_SET_UPPER, and at PRINT1525_RECEIVED_SELECT of 7 PRINT1525_SET_LOWER.
 *
 * Refuses, with the printer as it was: NULL (80), and any other set (25). */
int print1525_printer_select(print1525_printer *printer, uint8_t set, print1525_details *details);

/* Gives a printer a byte, and answers with the marks that it makes. All marks so far are those of the page that
 * print1525_print makes of the same inputs, row by row in order, and then those of the line that has not ended.
 *
 * Reads: a printer that was begun.
 * Gives: the marks: none, one, or those of a repeat, which may be in two lines. Capacity and length count marks;
 * PRINT1525_MARKS_OF_A_BYTE have room for those of any byte. Where the line ends, the printer's `y` grows by 21, or 14
 * in graphic mode.
 * Refuses: NULL (80) and OVERLAP (81). Where the buffer is too small (91) the byte is not taken. With all of these the
 * printer is as it was. */
int print1525_printer_byte(print1525_printer *printer, uint8_t byte, print1525_mark *marks, size_t capacity,
                           size_t *length, print1525_details *details);

/* Gives a printer bytes, until the marks of one more have no room.
 *
 * Reads: a printer that was begun. `taken` says how many bytes there are.
 * Gives: in `taken` how many of them it has taken, and their marks, as print1525_printer_byte. Give it the rest once
 * the marks are used: each call takes a byte at least, if there is one, where the capacity is
 * PRINT1525_MARKS_OF_A_BYTE or more.
 * Refuses, with all as it was, `taken` too: NULL (80) and OVERLAP (81). */
int print1525_printer_bytes(print1525_printer *printer, const void *bytes, size_t *taken, print1525_mark *marks,
                            size_t capacity, size_t *length, print1525_details *details);

/* The height of a sheet of 11 inches, in 1/126 inch: sheet n, from 0, begins at n times it. */
#define PRINT1525_SHEET 1386

/* Feeds paper by hand, until the line is the first one of the next sheet. A line that has not ended goes on there.
 *
 * Refuses, with the printer as it was: NULL (80). */
int print1525_printer_form_feed(print1525_printer *printer, print1525_details *details);

/* Tears off the sheets above the line: the paper then begins with the sheet that the line is on.
 *
 * Gives: how many sheets they are. The printer's `y` is smaller by PRINT1525_SHEET for each; so should be that of each
 * mark that the caller has kept of the rest.
 * Refuses, with the printer as it was: NULL (80). */
int print1525_printer_tear_off(print1525_printer *printer, uint64_t *sheets, print1525_details *details);

/* How the pixels of a picture lie in memory, line by line. */
enum print1525_pixels {
    PRINT1525_GRAY = 0, /* a byte each: 0 where a dot is, else 255 */
    PRINT1525_RGBA = 1, /* four bytes each, red, green, blue and 255: the first three 0 where a dot is, else 255 */
    PRINT1525_BITS = 2  /* a bit each, the highest of a byte first, as in a PBM file: 1 where a dot is, else 0 */
};

/* A region of the paper in pixels, 120 to the inch across and 126 down, as in a PNG file: a dot is two by two, so the
 * mark (x, y) begins in column 2x of line y. The paper is 960 columns wide, and a row 14 lines high. Its pixels are in
 * memory of the caller's; in a window that is larger, the pointer is that of the region's first pixel. */
typedef struct {
    uint64_t x;     /* the first column */
    uint64_t y;     /* the first line, from the top of the paper */
    size_t width;   /* how many columns */
    size_t height;  /* how many lines */
    size_t stride;  /* how many bytes of memory from a line to the next one; 0: no more than its pixels need */
    uint8_t pixels; /* one of enum print1525_pixels */
} print1525_region;

/* Gives the smallest region of the page that has the places of some marks: what a window shows anew when a byte has
 * made them. Without a mark, and where all of them are beside the page, it has no width and height.
 *
 * Reads: marks, in any order. The region's stride and pixels stay as they are.
 * Refuses, with the region as it was: NULL (80). */
int print1525_printer_changed(const print1525_mark *marks, size_t length, print1525_region *region,
                              print1525_details *details);

/* Gives the pixels of a region of the page with some marks.
 *
 * Reads: marks, in any order; a region, also beyond the page.
 * Gives: all pixels of the region; bytes between two lines, and the last bits of a line's last byte, stay as they were.
 * All marks of ended lines give the pixels of the PNG file with `top` PRINT1525_TOP_EDGE. Cells have this project's
 * shapes: for those of a file draw the dots of each mark (print1525_characters_dots). Capacity counts the bytes from
 * the region's first pixel on. It takes time for the marks and the pixels.
 * Refuses, with the pixels as they were: NULL (80), OVERLAP (81), a region that needs 2^63 bytes or more (9), and a
 * stride that is smaller than a line, or pixels that mean nothing (27). Too small a capacity fails (91). */
int print1525_printer_page(const print1525_mark *marks, size_t length, const print1525_region *region, void *pixels,
                           size_t capacity, print1525_details *details);

/* Draws marks over the pixels of a region: those where a dot is become black, all others stay as they were. So a window
 * draws the marks of each byte as they come, over a region that began white, and renders nothing again.
 *
 * Reads and refuses: as print1525_printer_page. It takes time for the marks alone. */
int print1525_printer_draw(const print1525_mark *marks, size_t length, const print1525_region *region, void *pixels,
                           size_t capacity, print1525_details *details);

/* The characters of a file, for drawing in a window. The numbers are the library's own, and all of them mean some
 * characters; copy, save and load them freely. */
typedef struct {
    uint8_t kept[1536];
} print1525_characters;

/* How many bytes they have: sizeof(print1525_characters). */
size_t print1525_characters_size(void);

/* Reads a file of characters, as the program's option --characters does.
 *
 * Reads: the text of the file (examples/characters.txt has its form); an empty one means this project's own
 * characters.
 * Gives: the characters.
 * Refuses, with the characters as they were: NULL (80), OVERLAP (81), and a file by its first bad line (52). */
int print1525_characters_read(const void *text, size_t length, print1525_characters *characters,
                              print1525_details *details);

/* The most columns of dots that draw a mark. */
#define PRINT1525_DOTS_OF_A_MARK 12

/* Gives the columns of dots that draw a mark in these characters, as marks of kind PRINT1525_DOTS: one for a column,
 * six for a character, twelve for a wide one; white on black where it is reverse. So a window draws them in place of
 * the mark, with print1525_printer_page, _draw and _changed.
 *
 * Reads: characters that were read, and a mark.
 * Gives: the columns from left to right; the first has the mark's place, and one past column 65,535 is left out.
 * Capacity and length count marks; PRINT1525_DOTS_OF_A_MARK have room for those of any mark.
 * Refuses: NULL (80) and OVERLAP (81). Too small a capacity fails (91). The buffer is then as it was. */
int print1525_characters_dots(const print1525_characters *characters, const print1525_mark *mark, print1525_mark *dots,
                              size_t capacity, size_t *length, print1525_details *details);

/* ------------------------------------------------------------------------------------------- receivers of edges -- */

/* A byte on the wires as far as it came, with its times in microseconds; what did not come is 0. */
typedef struct {
    uint64_t look;                        /* CLOCK is released and DATA is pulled */
    uint64_t ready;                       /* DATA is released */
    uint64_t answered, answer_ended;      /* with end-or-identify DATA is pulled, and released again */
    uint64_t pull;                        /* CLOCK's first pull */
    uint64_t shortest_low, longest_low;   /* for how long CLOCK is pulled in its bits */
    uint64_t shortest_high, longest_high; /* for how long CLOCK is released in them */
    uint64_t last_pull;                   /* CLOCK's last pull */
    uint8_t command;                      /* 1: a command; 0: a data byte */
    uint8_t eoi;                          /* 1: with end-or-identify */
    uint8_t bits;                         /* how many bits came whole: at most eight; of a damaged decoder any number */
    uint8_t byte;                         /* their number, the lowest bit first */
} print1525_byte;

/* `kind` of a reading: how a whole byte ends, or what ended an incomplete one. */
enum print1525_kind {
    PRINT1525_NO_READING = 0,
    PRINT1525_BYTE_ACKNOWLEDGED = 1,   /* a whole byte, at whose end DATA is pulled */
    PRINT1525_BYTE_UNACKNOWLEDGED = 2, /* a whole byte, at whose end CLOCK is released or ATN pulled */
    PRINT1525_BYTE_LAST = 3,           /* a whole byte, after which the recording ends */
    PRINT1525_INCOMPLETE_ATN = 4,      /* ATN is pulled within the byte */
    PRINT1525_INCOMPLETE_SILENCE = 5,  /* CLOCK is released for more than 1000 microseconds within it */
    PRINT1525_INCOMPLETE_END = 6       /* the recording ends within it */
};

/* What a recording says at one place. */
typedef struct {
    print1525_byte byte;
    uint64_t end; /* when it ended; 0 where the recording ends before */
    uint8_t kind; /* one of enum print1525_kind */
} print1525_reading;

/* A decoder: what the library keeps of a recording between two edges. Memory of zeros is a decoder just begun. The
 * numbers are the library's own, but all numbers mean some decoder, so a damaged one gives nonsense, and no harm. */
typedef struct {
    uint64_t kept[24];
} print1525_decoder;

/* How many bytes a decoder has: sizeof(print1525_decoder). */
size_t print1525_decoder_size(void);

/* Begins a decoder of a recording of any bus, wherever the recording begins.
 *
 * Refuses: NULL (80). */
int print1525_decoder_begin(print1525_decoder *decoder, print1525_details *details);

/* Gives a decoder the next edge, and answers with the reading that it settles. Later edges take no more time than
 * earlier ones.
 *
 * Reads: a decoder that was begun, and edges whose times do not go back; several may have one time.
 * Gives: the reading, or one of kind PRINT1525_NO_READING.
 * Refuses, with the decoder as it was: NULL (80), with nothing written but details; and an edge earlier than the one
 * before it (17), with PRINT1525_NO_READING. */
int print1525_decoder_edge(print1525_decoder *decoder, const print1525_edge *edge, print1525_reading *reading,
                           print1525_details *details);

/* Answers with the reading that the end of a recording cuts, if it cuts one. The decoder may be given more edges.
 *
 * Gives: the reading, or one of kind PRINT1525_NO_READING.
 * Refuses: NULL (80). */
int print1525_decoder_end(const print1525_decoder *decoder, print1525_reading *reading, print1525_details *details);

/* A receiver: what the library keeps of a device on any bus between two edges, one for each device. All numbers mean
 * some receiver, as those of a decoder. It drives no line: show it every edge, also those that the device makes. */
typedef struct {
    uint64_t kept[25];
} print1525_receiver;

/* How many bytes a receiver has: sizeof(print1525_receiver). */
size_t print1525_receiver_size(void);

/* Begins a receiver for a device of 4 to 30, before its first edge.
 *
 * Refuses, with the receiver as it was: NULL (80), and the device (21). */
int print1525_receiver_begin(print1525_receiver *receiver, uint8_t device, print1525_details *details);

/* Gives a receiver the next edge of a bus, wherever its edges begin, and answers with what comes to the device: with
 * the edge that acknowledges a byte. Later edges take no more time than earlier ones.
 *
 * Reads: a receiver that was begun, and edges whose times do not go back; several may have one time.
 * Gives: what came, or PRINT1525_NOTHING_RECEIVED.
 * Refuses, with the receiver as it was: NULL (80), with nothing written but details; and an edge earlier than the one
 * before it (17), with PRINT1525_NOTHING_RECEIVED. */
int print1525_receiver_edge(print1525_receiver *receiver, const print1525_edge *edge, print1525_received *received,
                            print1525_details *details);

/* ------------------------------------------------------------------------------------------------ settings -- */

/* `as`: what the text is, the program's option --as. Each call has those that are named with it; another is refused. */
enum print1525_as {
    PRINT1525_AS_USUAL = 0,   /* the first one named */
    PRINT1525_AS_LIST = 1,    /* pages, decode, raw, print: a line for each row and mark; of decode for each byte */
    PRINT1525_AS_TEXT = 2,    /* bus: a line for each edge; pages, decode, raw, print: lines for a terminal */
    PRINT1525_AS_FRAMES = 3,  /* check: a line for each frame, and `lawful` */
    PRINT1525_AS_STORY = 4,   /* check: what happens, byte by byte with its times */
    PRINT1525_AS_JSON = 5,    /* check, decode: a line of JSON for each byte */
    PRINT1525_AS_VCD = 6,     /* bus: a Value Change Dump */
    PRINT1525_AS_SVG = 7,     /* pages, decode, raw, print, printer_picture: a picture, */
    PRINT1525_AS_PNG = 8,     /* the paper of one printer as a PNG file, */
    PRINT1525_AS_PDF = 9,     /* or a PDF document of all sheets */
    PRINT1525_AS_BYTES = 10,  /* pages, decode: the bytes that a printer hears, for print1525_raw */
    PRINT1525_AS_SCRIPT = 11  /* pages, bus: the script that is run */
};
/* `from`: what the input is, the program's option --from. AUTO is what its first bytes show. */
enum print1525_from {
    PRINT1525_FROM_USUAL = 0,   /* pages, bus, check: TEXT; decode, listing, edges: AUTO */
    PRINT1525_FROM_AUTO = 1,
    PRINT1525_FROM_TEXT = 2,    /* a script's text, or a trace text */
    PRINT1525_FROM_PRG = 3,     /* pages, bus, listing: a saved program (a `.prg` file), */
    PRINT1525_FROM_PETCAT = 4,  /* petcat's text of one, */
    PRINT1525_FROM_MAGAZINE = 5, /* or a listing as magazines print it */
    PRINT1525_FROM_VCD = 6,     /* check, decode, edges: a Value Change Dump, */
    PRINT1525_FROM_CSV = 7,     /* or a table of comma separated values */
    PRINT1525_FROM_BASIC = 8,   /* pages, bus: a program in BASIC, which is run, */
    PRINT1525_FROM_BAS = 9      /* or a script, and such a program where it is none */
};
/* `present`: the printers on the bus. */
enum print1525_present {
    PRINT1525_PRESENT_BOTH = 0,
    PRINT1525_PRESENT_4 = 1,
    PRINT1525_PRESENT_5 = 2,
    PRINT1525_PRESENT_NONE = 3
};
/* `status`: the status is cleared before each statement, or kept. */
enum print1525_mode { PRINT1525_MODE_EACH = 0, PRINT1525_MODE_KEPT = 1 };
/* `paper` of a PDF document: continuous paper of 9.5 by 11 inches, A4 with a sheet in true size in its middle, or
 * letter with a sheet at 95 %. */
enum print1525_paper { PRINT1525_PAPER_CONTINUOUS = 0, PRINT1525_PAPER_A4 = 1, PRINT1525_PAPER_LETTER = 2 };
/* `bounds`: those of the profile, or of the Programmer's Reference Guide. */
enum print1525_bounds { PRINT1525_BOUNDS_PROFILE = 0, PRINT1525_BOUNDS_GUIDE = 1 };
/* `listening`: the printers that listen when a recording begins. */
enum print1525_listening {
    PRINT1525_LISTENING_NONE = 0,
    PRINT1525_LISTENING_4 = 1,
    PRINT1525_LISTENING_5 = 2,
    PRINT1525_LISTENING_BOTH = 3
};
/* `top` of paper whose first row is at its upper edge. */
#define PRINT1525_TOP_EDGE 255

/* Most options of the program (print1525_answer has all). 0 is the program's default of each, so begin with `{0}` and
 * change what you want. After each setting are the calls and the formats (`as`) that read it. Where it would not be
 * read it is refused unless it is 0, and so is a number that the option does not have (BAD_SETTING): `place` is then
 * the number in brackets, one of enum print1525_setting, and print1525_message says the name. */
typedef struct {
    uint8_t as;         /* [1] --as: enum print1525_as (all but listing and edges) */
    uint8_t from;       /* [2] --from: enum print1525_from (all but raw, print and printer_picture) */
    uint8_t present;    /* [3] --present: enum print1525_present (pages, bus) */
    uint8_t status;     /* [4] --status: enum print1525_mode (pages, bus) */
    uint8_t set;        /* [5] --set: enum print1525_set, before the first byte (raw; decode with pages) */
    uint8_t device;     /* [6] --device: the printer 4 or 5 alone; 0: all, of PNG the first that printed, of BYTES 4
                         * (SVG, PNG, PDF, BYTES; not printer_picture) */
    uint8_t paper;      /* [7] --paper: enum print1525_paper (PDF) */
    uint8_t holes;      /* [8] --holes: 1: continuous paper with its holes and perforations (PNG, PDF) */
    uint8_t top;        /* [9] --top: the lines of 1/6 inch from the paper's upper edge to the first row, 1 to 65, or
                         * PRINT1525_TOP_EDGE for none; 0: 3 (SVG, PNG, PDF) */
    uint8_t scale;      /* [10] --scale: the pixels for the place of a dot, 1 to 8; 0: 2 (PNG) */
    uint8_t bounds;     /* [11] --bounds: enum print1525_bounds (decode as LIST) */
    uint8_t intervals;  /* [12] --intervals: 1: also those outside their bounds, and a table (decode as LIST) */
    uint8_t invert;     /* [13] --invert: 1: the levels of a dump or a table are inverted (check, decode, edges) */
    uint8_t listening;  /* [14] --listening: enum print1525_listening (decode with pages and BYTES) */
    uint8_t strict;     /* [15] --strict: 1: status 1 where pages or bytes leave out something (decode with them) */
    uint8_t explain;    /* [16] --explain: 1: the text is what the program says with --explain, on standard error, in
                         * place of what it writes: why the input is refused or the run stopped, and notes; where
                         * memory is refused it may say less (pages, bus, check, decode, raw) */
    uint64_t sheet;     /* [17] --sheet: this sheet alone, from 1; 0: all (SVG, PNG) */
    uint64_t from_time; /* [18] --from-time: the microsecond at which a dump or a table starts (check, decode, edges) */
    uint64_t rate;      /* [19] --rate: samples in a second, of a table without times; 0: it says it (the same) */
    const char *delays; /* [20] --delays, as "900,999/9"; NULL: the typical ones (pages, bus) */
    const char *names;  /* [21] --names, as "A,C,D"; NULL: "ATN,CLOCK,DATA" (check, decode, edges) */
    const void *characters; /* [22] --characters: the bytes of such a file; an empty one: this project's own (SVG, PNG,
                             * PDF) */
    size_t characters_length;
    uint64_t steps;     /* [24] --steps: the steps that a program has at most; 0: 10,000,000 (BASIC, BAS) */
    uint64_t reserved[3]; /* [23] 0 */
} print1525_settings;

/* All of them 0. `{0}` is the same in C; this is for C++ too. */
#ifdef __cplusplus
#define PRINT1525_SETTINGS_INIT {}
#else
#define PRINT1525_SETTINGS_INIT {0}
#endif

/* `place` of BAD_SETTING. */
enum print1525_setting {
    PRINT1525_SETTING_AS = 1,
    PRINT1525_SETTING_FROM = 2,
    PRINT1525_SETTING_PRESENT = 3,
    PRINT1525_SETTING_STATUS = 4,
    PRINT1525_SETTING_SET = 5,
    PRINT1525_SETTING_DEVICE = 6,
    PRINT1525_SETTING_PAPER = 7,
    PRINT1525_SETTING_HOLES = 8,
    PRINT1525_SETTING_TOP = 9,
    PRINT1525_SETTING_SCALE = 10,
    PRINT1525_SETTING_BOUNDS = 11,
    PRINT1525_SETTING_INTERVALS = 12,
    PRINT1525_SETTING_INVERT = 13,
    PRINT1525_SETTING_LISTENING = 14,
    PRINT1525_SETTING_STRICT = 15,
    PRINT1525_SETTING_EXPLAIN = 16,
    PRINT1525_SETTING_SHEET = 17,
    PRINT1525_SETTING_FROM_TIME = 18,
    PRINT1525_SETTING_RATE = 19,
    PRINT1525_SETTING_DELAYS = 20,
    PRINT1525_SETTING_NAMES = 21,
    PRINT1525_SETTING_CHARACTERS = 22,
    PRINT1525_SETTING_RESERVED = 23,
    PRINT1525_SETTING_STEPS = 24
};

/* ------------------------------------------------------------------------------------------- calls for texts -- */

/* Does what the program print1525 does with the words of a command line: the one door, of which the five calls below
 * are shorter ways. All options are there.
 *
 * Reads: words as `pages`, `--as`, `text`, without the program's name, and NULL after the last of them; an input, in
 * the place of the file that the words name or of standard input. There are no files: the name of the input serves for
 * its ending, and the word after `--characters` is the text of such a file itself.
 * Gives: what the program writes on standard output. Where a word is `--explain` it is instead what the program says on
 * standard error: why words or an input are refused, or a run stopped, and notes.
 * Refuses: words that ask for nothing (54), and an input as the calls below. */
int print1525_answer(const char *const *words, const void *input, size_t input_length, void *text, size_t capacity,
                     size_t *length, print1525_details *details);

/* Runs a script and gives its pages.
 *
 * Reads: a script of at most 16,777,216 bytes, a listing that has the text of one, or a program that prints one.
 * Gives: what `print1525 pages` writes. Status 1 comes with the BASIC error that stopped the run; what was printed
 * until then is in the text.
 * Refuses: settings (82); a text above the limit (9), before it is read; characters, by their first bad line (52); a
 * listing by its first fault (61 to 65), a program by what is refused (131 to 146), and a script (1 to 7); after the
 * run a sheet that does not exist (50), with how many there are, and a document that is too large or a PNG file of more
 * than 1,000,000 lines of pixels (51). */
int print1525_pages(const void *script, size_t script_length, const print1525_settings *settings, void *text,
                    size_t capacity, size_t *length, print1525_details *details);

/* Runs a script and gives the trace of its run on the serial bus.
 *
 * Reads: what print1525_pages reads.
 * Gives: what `print1525 bus` writes. Status 1 comes with the BASIC error that stopped the run.
 * Refuses: as print1525_pages. */
int print1525_bus(const void *script, size_t script_length, const print1525_settings *settings, void *text,
                  size_t capacity, size_t *length, print1525_details *details);

/* Checks a trace: only this project's own timing is lawful (docs/TIMING.md).
 *
 * Reads: a trace text of at most 1,099,511,627,776 bytes, or a dump or a table.
 * Gives: what `print1525 check` writes.
 * Refuses: settings (82); a text above the limit (9), before it is read; and a trace by its first fault: a bad line (8)
 * with its number, an edge (11 to 16) with its index, or a line of a dump or a table (31 to 49, 70 to 77). Of a refused
 * trace the story is given up to the fault, the JSON whole. */
int print1525_check(const void *trace, size_t trace_length, const print1525_settings *settings, void *text,
                    size_t capacity, size_t *length, print1525_details *details);

/* Reads a recording of any bus, wherever it begins, and gives what it says, or the pages that it prints.
 *
 * Reads: a recording of at most 1,099,511,627,776 bytes, for pages 4,000,000,000: a trace text, a dump or a table.
 * Gives: what `print1525 decode` writes.
 * Refuses: settings (82); a recording above the limit (9), before it is read; characters, by their first bad line (52);
 * a recording by its first fault: a bad line (8), an edge earlier than the one before it (12), or a line of a dump or a
 * table (31 to 49, 70 to 77), with what comes before the fault given; and a picture (50, 51), as print1525_pages, also
 * where the recording has a fault too. */
int print1525_decode(const void *recording, size_t recording_length, const print1525_settings *settings, void *text,
                     size_t capacity, size_t *length, print1525_details *details);

/* Prints the bytes that a printer gets.
 *
 * Reads: at most 4,294,967,295 bytes.
 * Gives: what `print1525 raw` writes, the page as that of printer 4.
 * Refuses: settings (82); bytes above the limit (9), before they are read; characters, by their first bad line (52);
 * and a picture (50, 51), as print1525_pages. */
int print1525_raw(const void *bytes, size_t bytes_length, const print1525_settings *settings, void *text,
                  size_t capacity, size_t *length, print1525_details *details);

/* An input of a printer that is no byte (0 to 255): the selection of the one set or of the other. */
enum print1525_input { PRINT1525_SELECT_UPPER = 256, PRINT1525_SELECT_LOWER = 257 };

/* Prints what a printer receives: bytes, and between them selections of a character set.
 *
 * Reads: at most 4,294,967,296 inputs. An emulator gives PRINT1525_SELECT_UPPER for each LISTEN to the printer, and
 * PRINT1525_SELECT_LOWER directly after it if secondary address 7 follows, as for a file opened by OPEN 4,4,7. Before
 * the first selection the graphic/upper case set is selected.
 * Gives: the text of the page, as that of printer 4. Of a selection and bytes after it this is what print1525_raw
 * gives for that set and these bytes.
 * Refuses: settings (82); inputs above the limit (9), before they are read; characters, by their first bad line (52);
 * then the first number above 257 (28) with its index, before any memory is taken; and a picture (50, 51). */
int print1525_print(const uint16_t *inputs, size_t inputs_length, const print1525_settings *settings, void *text,
                    size_t capacity, size_t *length, print1525_details *details);

/* Gives the text of the script that a listing says.
 *
 * Reads: a listing of any length.
 * Gives: the text that `print1525 pages` runs with the same --from: a line for each line of the listing, of the same
 * number. A listing that is the text of a script is itself.
 * Refuses: settings (82); then a listing that has no text, by its first fault (61 to 65). The calls that run the text
 * say whether it is a script: its faults are those of the listing's lines. */
int print1525_listing(const void *listing, size_t listing_length, const print1525_settings *settings, void *text,
                      size_t capacity, size_t *length, print1525_details *details);

/* Gives the edges of a recording in any format, for a decoder or a receiver.
 *
 * Reads: a recording, as print1525_decode. Capacity and length count edges.
 * Gives: the edges, whose levels are 0 and 1.
 * Refuses: settings (82), and names that are not three (82); and a recording by its first fault: a bad line (8), or a
 * line of a dump or a table (31 to 49, 70 to 77). The edges before the fault are given. */
int print1525_edges(const void *recording, size_t recording_length, const print1525_settings *settings,
                    print1525_edge *edges, size_t capacity, size_t *length, print1525_details *details);

/* The most bytes of a part of a picture. */
#define PRINT1525_PART 65536

/* A function of the caller's that takes the next part of a picture: 1 to PRINT1525_PART bytes, which are there only
 * until it returns. It returns 0 if it wants the next part too. It must return: no longjmp, no exception. */
typedef int (*print1525_write)(void *context, const void *bytes, size_t length);

/* Writes a picture of the paper with some marks, as that of printer 4.
 *
 * Reads: marks of which none is above the one before it, as print1525_printer_byte gives them; of the settings `as`
 * (SVG, which 0 means, PNG, PDF), `paper`, `holes`, `top`, `scale`, `sheet` and `characters`. One sheet needs no other
 * marks than its own and those of a row that reaches down to it; a sheet without a mark needs one of a later row.
 * Sheets of a picture count from 1, and `top` lowers the marks by 21 for each of its lines: for the sheets of a window,
 * which begin at the paper's edge (PRINT1525_SHEET), it is PRINT1525_TOP_EDGE.
 * Gives: to the function, with the context, part after part of what print1525_print gives of the inputs that make these
 * marks, if each of their lines has ended and has a mark. The paper ends with the last row that has marks, and rows
 * without any are not part of it; a mark of kind PRINT1525_DOTS and value 0 has no dot, and makes its row known. No
 * marks are empty paper, of one sheet. Marks whose `x` is 480 or more, which no printer makes, are beside the columns
 * of an SVG or PDF picture and not in a PNG file. Where a printer's `y` was set back, put the rows of its marks in
 * order. The whole picture is made before its first part is given, so nothing is given of one that is refused. A PDF
 * document takes time and memory for each sheet down to the last mark.
 * Refuses: NULL (80); settings (82); characters, by their first bad line (52); the first mark that is above the one
 * before it (18), with its index; and a picture (50, 51), as print1525_pages. Where the function returns anything but
 * 0, the call fails (92), and gives nothing more. */
int print1525_printer_picture(const print1525_mark *marks, size_t length, const print1525_settings *settings,
                              print1525_write write, void *context, print1525_details *details);

#ifdef __cplusplus
}
#endif

#endif
