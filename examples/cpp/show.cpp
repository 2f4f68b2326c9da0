// The pages of a script, converted: show [list|text|svg|png|pdf] < SCRIPT
// And a printer's page, as an emulator has it: show --bytes [list|text|svg|png|pdf] < BYTES
#include "print1525.hpp"

#include <array>
#include <iostream>
#include <iterator>

int main(int count, char **words) {
    constexpr std::array<std::string_view, 5> formats = {"list", "text", "svg", "png", "pdf"};
    const bool is_bytes = count > 1 && std::string_view(words[1]) == "--bytes";
    const std::string_view word = count > 1 + is_bytes ? words[1 + is_bytes] : "list";
    const std::string input(std::istreambuf_iterator<char>(std::cin), {});
    constexpr std::array<print1525_as, 5> forms = {PRINT1525_AS_LIST, PRINT1525_AS_TEXT, PRINT1525_AS_SVG,
                                                   PRINT1525_AS_PNG, PRINT1525_AS_PDF};
    std::size_t form = 0;
    while (form < formats.size() && formats[form] != word) form++;
    if (count > 2 + is_bytes || form == formats.size()) {
        std::cerr << "usage: show [--bytes] [list|text|svg|png|pdf] < INPUT\n";
        return PRINT1525_REFUSED;
    }
    const print1525::settings settings = forms[form];
    try {
        if (is_bytes) {
            print1525::printer printer;
            printer.print(input);
            std::cout << printer.page(settings);
            return PRINT1525_DONE;
        }
        const print1525::result made = print1525::pages(input, settings);
        std::cout << made.text;
        if (const auto stop = made.stop()) std::cerr << *stop << "\n";
        return made.details.status;
    } catch (const print1525::error &why) {
        std::cerr << why.what() << "\n";
        return why.details.status;
    } catch (const std::bad_alloc &) {
        return PRINT1525_FAILED;
    }
}
