/* The words of faults, and the version. */
#include "library.h"

const char *print1525_version(void) { return PRINT1525_VERSION; }

const char *print1525_strerror(int fault) {
    switch (fault) {
    case PRINT1525_FAULT_UNKNOWN_WORD: return "unknown word";
    case PRINT1525_FAULT_BAD_NUMBER: return "bad number";
    case PRINT1525_FAULT_BAD_DEVICE: return "bad device";
    case PRINT1525_FAULT_BAD_SECOND: return "bad secondary address";
    case PRINT1525_FAULT_BAD_BYTE: return "bad byte";
    case PRINT1525_FAULT_TOO_LONG: return "too long";
    case PRINT1525_FAULT_TOO_MANY: return "too many statements";
    case PRINT1525_FAULT_BAD_LINE: return "bad trace line";
    case PRINT1525_FAULT_TOO_LARGE: return "input too large";
    case PRINT1525_FAULT_BAD_START: return "bad start";
    case PRINT1525_FAULT_BAD_ORDER: return "bad order";
    case PRINT1525_FAULT_TOO_EARLY: return "too early";
    case PRINT1525_FAULT_TOO_LATE: return "too late";
    case PRINT1525_FAULT_BAD_SHAPE: return "bad shape";
    case PRINT1525_FAULT_TRUNCATED: return "truncated";
    case PRINT1525_FAULT_GOES_BACK: return "time goes back";
    case PRINT1525_FAULT_MARK_ABOVE: return "above the one before it";
    case PRINT1525_FAULT_NO_SUCH_DEVICE: return "no such device";
    case PRINT1525_FAULT_NO_SUCH_SET: return "no such character set";
    case PRINT1525_FAULT_NO_SUCH_TIMING: return "no such timing";
    case PRINT1525_FAULT_NO_SUCH_PIXELS: return "no such pixels";
    case PRINT1525_FAULT_NO_SUCH_INPUT: return "no such input";
    case PRINT1525_FAULT_NO_ATN: return "no signal ATN";
    case PRINT1525_FAULT_NO_CLOCK: return "no signal CLOCK";
    case PRINT1525_FAULT_NO_DATA: return "no signal DATA";
    case PRINT1525_FAULT_NO_LEVEL_OF_ATN: return "no level of ATN";
    case PRINT1525_FAULT_NO_LEVEL_OF_CLOCK: return "no level of CLOCK";
    case PRINT1525_FAULT_NO_LEVEL_OF_DATA: return "no level of DATA";
    case PRINT1525_FAULT_BAD_WORD: return "bad word";
    case PRINT1525_FAULT_NO_END: return "no $end";
    case PRINT1525_FAULT_NO_DEFINITIONS: return "no $enddefinitions";
    case PRINT1525_FAULT_NO_TIMESCALE: return "no timescale";
    case PRINT1525_FAULT_BAD_TIME: return "bad time";
    case PRINT1525_FAULT_LINE_GOES_BACK: return "time goes back";
    case PRINT1525_FAULT_LEVEL_X: return "level x";
    case PRINT1525_FAULT_LEVEL_Z: return "level z";
    case PRINT1525_FAULT_BAD_LEVEL: return "bad level";
    case PRINT1525_FAULT_NO_SUCH_SHEET: return "no such sheet";
    case PRINT1525_FAULT_DOCUMENT_TOO_LARGE: return "picture too large";
    case PRINT1525_FAULT_BAD_CHARACTER_LINE: return "bad character line";
    case PRINT1525_FAULT_BAD_WORDS: return "words that ask for nothing";
    case PRINT1525_FAULT_NOT_SAVED: return "not a saved program";
    case PRINT1525_FAULT_CUT_OFF: return "cut off";
    case PRINT1525_FAULT_UNKNOWN_NAME: return "unknown name";
    case PRINT1525_FAULT_BAD_CHARACTER: return "bad byte";
    case PRINT1525_FAULT_NO_LINE: return "saved program without a line";
    case PRINT1525_FAULT_BAD_TIMESCALE: return "bad timescale";
    case PRINT1525_FAULT_NO_TIME: return "no time";
    case PRINT1525_FAULT_UTF_16: return "UTF-16 text";
    case PRINT1525_FAULT_ARCHIVE: return "zip archive";
    case PRINT1525_FAULT_ANOTHER_ATN: return "another signal ATN";
    case PRINT1525_FAULT_ANOTHER_CLOCK: return "another signal CLOCK";
    case PRINT1525_FAULT_ANOTHER_DATA: return "another signal DATA";
    case PRINT1525_FAULT_NULL_POINTER: return "null pointer";
    case PRINT1525_FAULT_OVERLAP: return "overlapping memory";
    case PRINT1525_FAULT_BAD_SETTING: return "bad setting";
    case PRINT1525_FAULT_NO_MEMORY: return "out of memory";
    case PRINT1525_FAULT_TOO_SMALL: return "buffer too small";
    case PRINT1525_FAULT_NOT_WRITTEN: return "not written";
    case PRINT1525_STOP_TOO_MANY_FILES: return "TOO MANY FILES";
    case PRINT1525_STOP_FILE_OPEN: return "FILE OPEN";
    case PRINT1525_STOP_FILE_NOT_OPEN: return "FILE NOT OPEN";
    case PRINT1525_STOP_DEVICE_NOT_PRESENT: return "DEVICE NOT PRESENT";
    case PRINT1525_STOP_NOT_INPUT_FILE: return "NOT INPUT FILE";
    case PRINT1525_STOP_NEXT_WITHOUT_FOR: return "NEXT WITHOUT FOR";
    case PRINT1525_STOP_SYNTAX: return "SYNTAX";
    case PRINT1525_STOP_RETURN_WITHOUT_GOSUB: return "RETURN WITHOUT GOSUB";
    case PRINT1525_STOP_OUT_OF_DATA: return "OUT OF DATA";
    case PRINT1525_STOP_ILLEGAL_QUANTITY: return "ILLEGAL QUANTITY";
    case PRINT1525_STOP_OVERFLOW: return "OVERFLOW";
    case PRINT1525_STOP_UNDEFINED_STATEMENT: return "UNDEF'D STATEMENT";
    case PRINT1525_STOP_BAD_SUBSCRIPT: return "BAD SUBSCRIPT";
    case PRINT1525_STOP_REDIMENSIONED_ARRAY: return "REDIM'D ARRAY";
    case PRINT1525_STOP_DIVISION_BY_ZERO: return "DIVISION BY ZERO";
    case PRINT1525_STOP_TYPE_MISMATCH: return "TYPE MISMATCH";
    case PRINT1525_STOP_STRING_TOO_LONG: return "STRING TOO LONG";
    case PRINT1525_STOP_FORMULA_TOO_COMPLEX: return "FORMULA TOO COMPLEX";
    case PRINT1525_STOP_UNDEFINED_FUNCTION: return "UNDEF'D FUNCTION";
    case PRINT1525_FAULT_NO_LINE_NUMBER: return "no line number";
    case PRINT1525_FAULT_LARGE_LINE_NUMBER: return "line number above 63999";
    case PRINT1525_FAULT_SYNTAX: return "syntax error";
    case PRINT1525_FAULT_UNKNOWN_KEY: return "unknown name";
    case PRINT1525_FAULT_BAD_STRING_BYTE: return "bad byte";
    case PRINT1525_FAULT_NOT_SUPPORTED: return "not supported";
    case PRINT1525_FAULT_NOT_CERTAIN: return "not certain";
    case PRINT1525_FAULT_POKE_NOT_SUPPORTED: return "POKE not supported";
    case PRINT1525_FAULT_BAD_PROGRAM_DEVICE: return "bad device";
    case PRINT1525_FAULT_BAD_PROGRAM_SECOND: return "bad secondary address";
    case PRINT1525_FAULT_FILE_NAME: return "file name not supported";
    case PRINT1525_FAULT_LONG_LIST: return "too long";
    case PRINT1525_FAULT_OPEN_FILES: return "CLR with an open file";
    case PRINT1525_FAULT_FULL_STACK: return "stack may be full";
    case PRINT1525_FAULT_FULL_MEMORY: return "memory may be full";
    case PRINT1525_FAULT_TOO_MANY_STEPS: return "too many steps";
    case PRINT1525_STOP_PROGRAM_TOO_MANY_FILES: return "TOO MANY FILES";
    case PRINT1525_STOP_PROGRAM_FILE_OPEN: return "FILE OPEN";
    case PRINT1525_STOP_PROGRAM_FILE_NOT_OPEN: return "FILE NOT OPEN";
    case PRINT1525_STOP_PROGRAM_NOT_INPUT_FILE: return "NOT INPUT FILE";
    default: return "no fault";
    }
}

/* What a fault's place counts, or NULL. */
static const char *counted(int fault) {
    if (fault >= PRINT1525_FAULT_UNKNOWN_WORD && fault <= PRINT1525_FAULT_TOO_MANY) return "line ";
    if (fault == PRINT1525_FAULT_BAD_LINE) return "line ";
    if (fault >= PRINT1525_FAULT_BAD_START && fault <= PRINT1525_FAULT_TRUNCATED) return "edge ";
    if (fault == PRINT1525_FAULT_MARK_ABOVE) return "mark ";
    if (fault == PRINT1525_FAULT_NO_SUCH_INPUT) return "input ";
    if (fault >= PRINT1525_FAULT_NO_ATN && fault <= PRINT1525_FAULT_BAD_LEVEL) return "line ";
    if (fault == PRINT1525_FAULT_BAD_CHARACTER_LINE) return "line ";
    if (fault >= PRINT1525_FAULT_CUT_OFF && fault <= PRINT1525_FAULT_BAD_CHARACTER) return "line ";
    if (fault >= PRINT1525_FAULT_BAD_TIMESCALE && fault <= PRINT1525_FAULT_NO_TIME) return "line ";
    if (fault >= PRINT1525_FAULT_ANOTHER_ATN && fault <= PRINT1525_FAULT_ANOTHER_DATA) return "line ";
    if (fault == PRINT1525_FAULT_BAD_SETTING) return "setting ";
    if (fault >= PRINT1525_FAULT_NO_LINE_NUMBER && fault <= PRINT1525_FAULT_FULL_MEMORY) return "line ";
    return NULL;
}

/* The names of settings, by their numbers. */
static const char *setting_name(size_t number) {
    static const char names[][12] = {
        "",      "as",        "from",   "present",   "status", "set",     "device", "paper",
        "holes", "top",       "scale",  "bounds",    "intervals", "invert", "listening", "strict",
        "explain", "sheet",   "from_time", "rate",   "delays", "names",   "characters", "reserved",
        "steps",
    };
    return number < sizeof names / sizeof *names ? names[number] : "";
}

size_t print1525_message(const print1525_details *details, char *text, size_t capacity) {
    growing to = {text, capacity, 0};
    /* (read before anything is written: the text may lie over the details) */
    const int status = details != NULL ? details->status : PRINT1525_DONE;
    const int fault = details != NULL ? details->fault : PRINT1525_FAULT_NONE;
    const size_t place = details != NULL ? details->place : 0, column = details != NULL ? details->column : 0;
    if (text == NULL) to.capacity = 0;
    if (status == PRINT1525_STOPPED && fault != PRINT1525_FAULT_NONE) {
        add(&to, "?");
        add(&to, print1525_strerror(fault));
        add(&to, fault < PRINT1525_STOP_NEXT_WITHOUT_FOR ? "  ERROR (statement " : "  ERROR IN ");
        add_number(&to, place);
        if (fault < PRINT1525_STOP_NEXT_WITHOUT_FOR) add(&to, ")");
    } else if (status != PRINT1525_DONE && fault != PRINT1525_FAULT_NONE) {
        const char *const what = counted(fault);
        if (what != NULL) {
            add(&to, what);
            if (fault == PRINT1525_FAULT_BAD_SETTING)
                add(&to, setting_name(place));
            else
                add_number(&to, place);
            if (column > 0) {
                add(&to, ", column ");
                add_number(&to, column);
            }
            add(&to, ": ");
        }
        add(&to, print1525_strerror(fault));
        if (fault == PRINT1525_FAULT_TOO_MANY_STEPS) {
            add(&to, " in ");
            add_number(&to, place);
        }
        if (fault == PRINT1525_FAULT_NO_SUCH_SHEET && place == 1) {
            add(&to, ": the paper has one sheet");
        } else if (fault == PRINT1525_FAULT_NO_SUCH_SHEET) {
            add(&to, ": the paper has ");
            add_number(&to, place);
            add(&to, " sheets");
        }
    }
    if (to.capacity > 0) to.text[to.length < to.capacity ? to.length : to.capacity - 1] = '\0';
    return to.length;
}
