/* example < LISTING: prints the page of a listing of Commodore 64 BASIC, as lines of text. */
#include "print1525.h"
#include <stdio.h>

int main(void) {
    static char listing[1 << 20], page[1 << 24], words[80];
    print1525_settings settings = PRINT1525_SETTINGS_INIT;
    print1525_details details;
    const size_t listing_length = fread(listing, 1, sizeof listing, stdin);
    size_t length;
    int status;
    if (listing_length == sizeof listing) {
        fprintf(stderr, "the listing is too large for this example\n");
        return PRINT1525_REFUSED;
    }
    settings.as = PRINT1525_AS_TEXT;
    settings.present = PRINT1525_PRESENT_4;
    status = print1525_pages(listing, listing_length, &settings, page, sizeof page, &length, &details);
    if (status <= PRINT1525_STOPPED) fwrite(page, 1, length, stdout);
    if (print1525_message(&details, words, sizeof words) > 0) fprintf(stderr, "%s\n", words);
    return status;
}
