/* The settings of include/print1525.h that the program's options say. */
#include "print1525.h"
#include <stdlib.h>
#include <string.h>

/* The number of a word of an option, or 200. */
static uint8_t numbered(const char *const *names, const char *word) {
    size_t index;
    for (index = 0; names[index] != NULL; index++)
        if (strcmp(names[index], word) == 0) return (uint8_t)index;
    return 200;
}

/* Sets what an option says, all but --characters. Gives how many words it has, 0 where there is no such option. */
static int set_option(print1525_settings *s, const char *name, const char *value) {
    static const char *const as[] = {"", "list", "text", "frames", "story", "json", "vcd", "svg", "png", "pdf", "bytes", "script", NULL};
    static const char *const from[] = {"", "auto", "text", "prg", "petcat", "magazine", "vcd", "csv", "basic", "bas", NULL};
    static const char *const present[] = {"both", "4", "5", "none", NULL}, *const status[] = {"each", "kept", NULL};
    static const char *const sets[] = {"upper", "lower", NULL}, *const paper[] = {"continuous", "a4", "letter", NULL};
    static const char *const bounds[] = {"profile", "guide", NULL}, *const listening[] = {"", "4", "5", "4,5", NULL};
    if (strcmp(name, "--holes") == 0) s->holes = 1;
    else if (strcmp(name, "--intervals") == 0) s->intervals = 1;
    else if (strcmp(name, "--invert") == 0) s->invert = 1;
    else if (strcmp(name, "--strict") == 0) s->strict = 1;
    else if (strcmp(name, "--explain") == 0) s->explain = 1;
    else {
        if (value == NULL) return 0;
        if (strcmp(name, "--as") == 0) s->as = numbered(as, value);
        else if (strcmp(name, "--from") == 0) s->from = numbered(from, value);
        else if (strcmp(name, "--present") == 0) s->present = numbered(present, value);
        else if (strcmp(name, "--status") == 0) s->status = numbered(status, value);
        else if (strcmp(name, "--set") == 0) s->set = numbered(sets, value);
        else if (strcmp(name, "--paper") == 0) s->paper = numbered(paper, value);
        else if (strcmp(name, "--bounds") == 0) s->bounds = numbered(bounds, value);
        else if (strcmp(name, "--listening") == 0) s->listening = numbered(listening, value);
        else if (strcmp(name, "--device") == 0) s->device = (uint8_t)atoi(value);
        else if (strcmp(name, "--top") == 0) s->top = (uint8_t)(strcmp(value, "0") == 0 ? PRINT1525_TOP_EDGE : atoi(value));
        else if (strcmp(name, "--scale") == 0) s->scale = (uint8_t)atoi(value);
        else if (strcmp(name, "--sheet") == 0) s->sheet = strtoul(value, NULL, 10);
        else if (strcmp(name, "--from-time") == 0) s->from_time = strtoul(value, NULL, 10);
        else if (strcmp(name, "--rate") == 0) s->rate = strtoul(value, NULL, 10);
        else if (strcmp(name, "--steps") == 0) s->steps = strtoul(value, NULL, 10);
        else if (strcmp(name, "--delays") == 0) s->delays = value;
        else if (strcmp(name, "--names") == 0) s->names = value;
        else return 0;
        return 2;
    }
    return 1;
}
