/* The pages of a script, converted: show [list|text|svg|png|pdf] < SCRIPT */
#include "print1525.h"
#include <stdio.h>
#include <stdlib.h>
#include <string.h>
#ifdef _WIN32 /* where standard streams are text, unless a program says that they are bytes */
#include <fcntl.h>
#include <io.h>
#endif

/* All of standard input; its length is left in *length. NULL where there is no memory for it. */
static uint8_t *read_all(size_t *length) {
    size_t room = 65536, got;
    uint8_t *bytes = (uint8_t *)malloc(room);
    *length = 0;
    while (bytes && (got = fread(bytes + *length, 1, room - *length, stdin)) > 0) {
        *length += got;
        if (*length == room) {
            uint8_t *more = (uint8_t *)realloc(bytes, room *= 2);
            if (!more) free(bytes);
            bytes = more;
        }
    }
    return bytes;
}

int main(int count, char **words) {
    static const char *const formats[] = {"list", "text", "svg", "png", "pdf"};
    static const uint8_t forms[] = {PRINT1525_AS_LIST, PRINT1525_AS_TEXT, PRINT1525_AS_SVG, PRINT1525_AS_PNG,
                                    PRINT1525_AS_PDF};
    print1525_settings settings = PRINT1525_SETTINGS_INIT;
    print1525_details details;
    uint8_t *script, *text = NULL;
    size_t script_length, length, capacity = 0;
    char message[80];
    int status, form = 0;
#ifdef _WIN32
    _setmode(0, _O_BINARY), _setmode(1, _O_BINARY);
#endif
    while (count == 2 && form < 5 && strcmp(words[1], formats[form]) != 0) form++;
    if (count > 2 || form == 5) {
        fprintf(stderr, "usage: show [list|text|svg|png|pdf] < SCRIPT\n");
        return PRINT1525_REFUSED;
    }
    settings.as = forms[form];
    script = read_all(&script_length);
    if (script == NULL) return PRINT1525_FAILED;
    /* The first call asks for the size, the second one for the text. */
    for (;;) {
        status = print1525_pages(script, script_length, &settings, text, capacity, &length, &details);
        if (details.fault != PRINT1525_FAULT_TOO_SMALL) break;
        free(text);
        text = (uint8_t *)malloc(capacity = length);
        if (text == NULL) return PRINT1525_FAILED;
    }
    if (status <= PRINT1525_STOPPED) fwrite(text, 1, length, stdout);
    if (print1525_message(&details, message, sizeof message) > 0) fprintf(stderr, "%s\n", message);
    free(text);
    free(script);
    return status;
}
