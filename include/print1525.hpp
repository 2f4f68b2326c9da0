// libprint1525 for C++17: texts in, texts out. print1525.h is the manual; this file says only what differs. `printer`
// collects inputs for print1525_print; `watched_printer` is print1525_printer.
//
//     std::string picture = print1525::pages("OPEN 4,4:PRINT#4,\"HELLO\"", PRINT1525_AS_SVG).text;
//
// A call gives a `result`: the text, and the details with a BASIC error that stopped the run. Where the C call refuses,
// it throws `print1525::error`, whose what() is the program's message; std::bad_alloc where there is no memory.
#ifndef PRINT1525_HPP
#define PRINT1525_HPP

#include "print1525.h"

#include <cstdint>
#include <exception>
#include <new>
#include <optional>
#include <stdexcept>
#include <string>
#include <string_view>
#include <utility>
#include <vector>

namespace print1525 {

// The words of details, as `line 3: unknown word`.
inline std::string message(const print1525_details &details) {
    std::string words(print1525_message(&details, nullptr, 0) + 1, '\0');
    print1525_message(&details, words.data(), words.size());
    words.pop_back();
    return words;
}

// Why a call refuses; with a fault of a recording the text, or the edges, of what comes before it.
class error : public std::runtime_error {
public:
    explicit error(const print1525_details &why, std::string before = {}, std::vector<print1525_edge> edges_before = {})
        : std::runtime_error(message(why)), details(why), text(std::move(before)), edges(std::move(edges_before)) {}
    print1525_details details;
    std::string text;
    std::vector<print1525_edge> edges;
};

// Settings, which begin as 0. The characters, the names and the delays stay their owner's.
struct settings : print1525_settings {
    settings() : print1525_settings{} {}
    settings(print1525_as format) : settings() { as = static_cast<std::uint8_t>(format); }
    settings &draws(std::string_view file) {
        characters = file.data();
        characters_length = file.size();
        return *this;
    }
};

// A text, and what came of the call.
struct result {
    std::string text;
    print1525_details details;
    // The message of the BASIC error that stopped the run, if one did.
    std::optional<std::string> stop() const {
        return details.fault > 100 ? std::optional(message(details)) : std::nullopt;
    }
};

// Makes a call with a buffer that grows until the text fits.
template <typename Call> result text_of(Call call) {
    result made{std::string(65536, '\0'), {}};
    std::size_t length = 0;
    call(made.text.data(), made.text.size(), &length, &made.details);
    while (made.details.fault == PRINT1525_FAULT_TOO_SMALL) {
        made.text.resize(length);
        call(made.text.data(), made.text.size(), &length, &made.details);
    }
    if (made.details.fault == PRINT1525_FAULT_NO_MEMORY) throw std::bad_alloc();
    made.text.resize(length);
    if (made.details.status > PRINT1525_STOPPED) throw error(made.details, std::move(made.text));
    return made;
}
using text_call = int (*)(const void *, std::size_t, const print1525_settings *, void *, std::size_t, std::size_t *,
                          print1525_details *);
inline result text_by(text_call call, std::string_view input, const settings &with) {
    return text_of([&](char *text, std::size_t capacity, std::size_t *length, print1525_details *details) {
        return call(input.data(), input.size(), &with, text, capacity, length, details);
    });
}

inline result pages(std::string_view script, const settings &with = {}) {
    return text_by(print1525_pages, script, with);
}
inline result bus(std::string_view script, const settings &with = {}) { return text_by(print1525_bus, script, with); }
inline result check(std::string_view trace, const settings &with = {}) {
    return text_by(print1525_check, trace, with);
}
inline result decode(std::string_view recording, const settings &with = {}) {
    return text_by(print1525_decode, recording, with);
}
inline result raw(std::string_view bytes, const settings &with = {}) { return text_by(print1525_raw, bytes, with); }
inline result listing(std::string_view bytes, const settings &with = {}) {
    return text_by(print1525_listing, bytes, with);
}

// What the program writes for the words of a command line.
inline result answer(const std::vector<std::string> &words, std::string_view input) {
    std::vector<const char *> given;
    for (const std::string &word : words) given.push_back(word.c_str());
    given.push_back(nullptr);
    return text_of([&](char *text, std::size_t capacity, std::size_t *length, print1525_details *details) {
        return print1525_answer(given.data(), input.data(), input.size(), text, capacity, length, details);
    });
}

// Why a call refuses its input, or a run stopped, in words for people: the same call with `explain`.
inline std::string explained(text_call call, std::string_view input, settings with = {}) {
    with.explain = 1;
    try {
        return text_by(call, input, with).text;
    } catch (const error &why) {
        return why.text;
    }
}

// The edges of a recording in any format.
inline std::vector<print1525_edge> edges(std::string_view recording, const settings &with = {}) {
    std::vector<print1525_edge> made;
    print1525_details details{};
    std::size_t length = 0;
    print1525_edges(recording.data(), recording.size(), &with, nullptr, 0, &length, &details);
    if (details.fault == PRINT1525_FAULT_TOO_SMALL) {
        made.resize(length);
        print1525_edges(recording.data(), recording.size(), &with, made.data(), made.size(), &length, &details);
    }
    if (details.fault == PRINT1525_FAULT_NO_MEMORY) throw std::bad_alloc();
    if (details.status > PRINT1525_STOPPED) throw error(details, {}, std::move(made));
    return made;
}

// A printer: it keeps what it receives, and gives its page when asked.
class printer {
public:
    void select(print1525_set set) {
        inputs.push_back(set == PRINT1525_SET_LOWER ? PRINT1525_SELECT_LOWER : PRINT1525_SELECT_UPPER);
    }
    void print(std::string_view bytes) {
        for (char byte : bytes) inputs.push_back(static_cast<std::uint8_t>(byte));
    }
    std::string page(const settings &with = {}) const {
        return text_of([&](char *text, std::size_t capacity, std::size_t *length, print1525_details *details) {
                   return print1525_print(inputs.data(), inputs.size(), &with, text, capacity, length, details);
               })
            .text;
    }
    void clear() { inputs.clear(); }

private:
    std::vector<std::uint16_t> inputs;
};

// A decoder of a recording of any bus: the reading that an edge settles, or that the end cuts, if there is one.
class decoder {
public:
    std::optional<print1525_reading> edge(const print1525_edge &next) {
        print1525_details details{};
        print1525_reading reading{};
        if (print1525_decoder_edge(&state, &next, &reading, &details) != PRINT1525_DONE) throw error(details);
        return reading.kind != PRINT1525_NO_READING ? std::optional(reading) : std::nullopt;
    }
    std::optional<print1525_reading> end() const {
        print1525_reading reading{};
        print1525_decoder_end(&state, &reading, nullptr);
        return reading.kind != PRINT1525_NO_READING ? std::optional(reading) : std::nullopt;
    }

private:
    print1525_decoder state{}; // a decoder just begun
};

// A receiver of a device on any bus: what comes to it with an edge, if anything does.
class receiver {
public:
    explicit receiver(std::uint8_t device) {
        print1525_details details{};
        if (print1525_receiver_begin(&state, device, &details) != PRINT1525_DONE) throw error(details);
    }
    std::optional<print1525_received> edge(const print1525_edge &next) {
        print1525_details details{};
        print1525_received received{};
        if (print1525_receiver_edge(&state, &next, &received, &details) != PRINT1525_DONE) throw error(details);
        return received.kind != PRINT1525_NOTHING_RECEIVED ? std::optional(received) : std::nullopt;
    }

private:
    print1525_receiver state{};
};

// A device on the bus that hears and answers: what it does to DATA at a moment, and what it hears then.
class device {
public:
    explicit device(std::uint8_t address, const print1525_timing &timing = {}) {
        print1525_details details{};
        if (print1525_device_begin(&kept, address, &timing, &details) != PRINT1525_DONE) throw error(details);
    }
    // The device whose state() was kept.
    explicit device(const print1525_device &state) : kept(state) {}
    print1525_step step(const print1525_edge &moment) {
        print1525_details details{};
        print1525_step does{};
        if (print1525_device_step(&kept, &moment, &does, &details) != PRINT1525_DONE) throw error(details);
        return does;
    }
    void busy(std::uint64_t until) { print1525_device_busy(&kept, until, nullptr); }
    const print1525_device &state() const { return kept; }

private:
    print1525_device kept{};
};

// A printer that is watched: the marks that bytes make, as they come.
class watched_printer {
public:
    void select(print1525_set set) { print1525_printer_select(&kept, static_cast<std::uint8_t>(set), nullptr); }
    std::vector<print1525_mark> print(std::string_view bytes) {
        std::vector<print1525_mark> marks;
        print1525_mark made[PRINT1525_MARKS_OF_A_BYTE];
        while (!bytes.empty()) {
            std::size_t taken = bytes.size(), length = 0;
            print1525_printer_bytes(&kept, bytes.data(), &taken, made, PRINT1525_MARKS_OF_A_BYTE, &length, nullptr);
            marks.insert(marks.end(), made, made + length);
            bytes.remove_prefix(taken);
        }
        return marks;
    }
    void form_feed() { print1525_printer_form_feed(&kept, nullptr); }
    // How many sheets are torn off.
    std::uint64_t tear_off() {
        std::uint64_t sheets = 0;
        print1525_printer_tear_off(&kept, &sheets, nullptr);
        return sheets;
    }
    const print1525_printer &state() const { return kept; }

private:
    print1525_printer kept{}; // a printer just begun
};

// The region of the page that these marks change.
inline print1525_region changed(const std::vector<print1525_mark> &marks) {
    print1525_region region{};
    print1525_printer_changed(marks.data(), marks.size(), &region, nullptr);
    return region;
}

// The pixels of a region of the page with these marks, a byte each: 0 where a dot is, else 255.
inline std::vector<std::uint8_t> pixels(const std::vector<print1525_mark> &marks, print1525_region region) {
    print1525_details details{};
    region.stride = region.pixels = 0;
    const bool is_large = region.width >= 1 << 24 || region.height >= 1 << 24;
    std::vector<std::uint8_t> made(is_large ? 0 : region.width * region.height);
    print1525_printer_page(marks.data(), marks.size(), &region, made.data(), made.size(), &details);
    if (details.status != PRINT1525_DONE) throw error(details);
    return made;
}

// Gives a picture of the paper with these marks, an SVG document if nothing else is asked for, part after part to a
// function of a std::string_view.
template <typename Write>
void write_picture(const std::vector<print1525_mark> &marks, const settings &with, Write write) {
    struct writing {
        Write &write;
        std::exception_ptr thrown;
    } to{write, nullptr};
    const auto part = [](void *context, const void *bytes, std::size_t length) -> int {
        writing &it = *static_cast<writing *>(context);
        try {
            it.write(std::string_view(static_cast<const char *>(bytes), length));
            return 0;
        } catch (...) {
            it.thrown = std::current_exception();
            return 1;
        }
    };
    print1525_details details{};
    print1525_printer_picture(marks.data(), marks.size(), &with, part, &to, &details);
    if (to.thrown) std::rethrow_exception(to.thrown);
    if (details.fault == PRINT1525_FAULT_NO_MEMORY) throw std::bad_alloc();
    if (details.status != PRINT1525_DONE) throw error(details);
}
inline std::string picture(const std::vector<print1525_mark> &marks, const settings &with = {}) {
    std::string made;
    write_picture(marks, with, [&](std::string_view part) { made += part; });
    return made;
}

// The characters of a file, or the project's own: the dots that draw marks in them.
class characters {
public:
    explicit characters(std::string_view file = {}) {
        print1525_details details{};
        if (print1525_characters_read(file.data(), file.size(), &kept, &details) != PRINT1525_DONE)
            throw error(details);
    }
    std::vector<print1525_mark> dots(const std::vector<print1525_mark> &marks) const {
        std::vector<print1525_mark> made;
        print1525_mark columns[PRINT1525_DOTS_OF_A_MARK];
        for (const print1525_mark &mark : marks) {
            std::size_t length = 0;
            print1525_characters_dots(&kept, &mark, columns, PRINT1525_DOTS_OF_A_MARK, &length, nullptr);
            made.insert(made.end(), columns, columns + length);
        }
        return made;
    }

private:
    print1525_characters kept{};
};

// How long a printer prints, in microseconds.
inline std::uint64_t printing_time(std::uint32_t columns, std::uint16_t feeds = 1, const print1525_speed &speed = {}) {
    return print1525_printing_time(columns, feeds, &speed);
}

} // namespace print1525

#endif
