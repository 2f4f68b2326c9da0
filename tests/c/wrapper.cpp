// The wrapper for C++17, include/print1525.hpp, beside the calls that it wraps: status 0, or the line of each comparison that fails and 1.
// On standard input is examples/hello.trace, in the first word a file of characters.
#include "print1525.hpp"

#include <cstdio>
#include <fstream>
#include <iostream>
#include <iterator>

static bool failed;

#define CHECK(it)                                                                             \
    do {                                                                                      \
        if (!(it)) failed = true, std::fprintf(stderr, "WRONG: line %d: %s\n", __LINE__, #it); \
    } while (false)

template <typename Call> static std::string message_of(Call call) {
    try {
        call();
    } catch (const print1525::error &why) {
        return why.what();
    }
    return "";
}

static void texts() {
    const std::string_view script = "OPEN 4,4\nPRINT#4,\"A\"\n";
    print1525::settings kept;
    kept.status = PRINT1525_MODE_KEPT;
    CHECK(print1525::pages("OPEN 4,4:PRINT#4,\"A\"\n").text == "printer 4\nrow 0\n 0 cell 65\nprinter 5\nstatus 0 0\nscreen\n");
    CHECK(print1525::pages(script, kept).stop() == std::nullopt);
    const print1525::result stopped = print1525::pages("REM\nPRINT#5");
    CHECK(stopped.stop() == "?FILE NOT OPEN  ERROR (statement 2)" && stopped.details.place == 2 && stopped.details.fault == PRINT1525_STOP_FILE_NOT_OPEN);
    CHECK(print1525::bus("REM").text == "0 111\n");
    CHECK(print1525::check("0 111\n").text == "lawful\n");
    print1525::settings petcat;
    petcat.from = PRINT1525_FROM_PETCAT;
    CHECK(print1525::listing("10 print#4,\"a\"\n", petcat).text == "10 print#4,\"A\"\n");
    CHECK(message_of([&] { print1525::listing("10 open4,4\n20 print#4,\"a{no}\"\n", petcat); }) == "line 2, column 14: unknown name");
    CHECK(message_of([] { print1525::pages("A\n"); }) == "line 1: unknown word");
    CHECK(message_of([] { print1525::check("0 11\n"); }) == "line 1: bad trace line");
    CHECK(print1525::pages(std::string_view()).text == print1525::pages("").text);
    CHECK(print1525::explained(print1525_pages, "REM\nPRINT#5").find("line 2: PRINT#5") != std::string::npos);
    CHECK(print1525::explained(print1525_pages, "REM\nA\n").find("line 2, column 1") != std::string::npos);
    CHECK(print1525::answer({"pages", "--as", "text"}, script).text == print1525::pages(script, PRINT1525_AS_TEXT).text);
    CHECK(message_of([&] { print1525::answer({"pages", "--nothing"}, script); }) == "words that ask for nothing");
    CHECK(message_of([&] { print1525::raw("A", PRINT1525_AS_VCD); }) == "setting as: bad setting");
    /* Two sheets, of which one is shown: it is the second alone, and there is no third. */
    const std::string lines = "OPEN 4,4\n" + [] {
        std::string made;
        for (int line = 0; line < 70; line++) made += "PRINT#4,\"A\"\n";
        return made;
    }();
    print1525::settings all = PRINT1525_AS_SVG, one = PRINT1525_AS_SVG, first = PRINT1525_AS_SVG;
    one.device = first.device = 4;
    one.sheet = 2, first.sheet = 1;
    CHECK(print1525::pages(lines, one).text.size() < print1525::pages(lines, all).text.size() / 4);
    CHECK(print1525::pages(lines, first).text != print1525::pages(lines, one).text);
    one.sheet = 3;
    CHECK(message_of([&] { print1525::pages(lines, one); }) == "no such sheet: the paper has 2 sheets");
    one.as = PRINT1525_AS_PDF;
    CHECK(message_of([&] { print1525::pages(lines, one); }) == "setting sheet: bad setting");
}

static void printers(const char *name) {
    std::ifstream file(name, std::ios::binary);
    const std::string characters(std::istreambuf_iterator<char>(file), {});
    print1525::printer printer;
    CHECK(printer.page() == print1525::raw("").text);
    printer.select(PRINT1525_SET_LOWER);
    printer.print("Ab\r");
    print1525::settings page = PRINT1525_AS_SVG, settings = page;
    settings.set = PRINT1525_SET_LOWER;
    CHECK(printer.page(page) == print1525::raw("Ab\r", settings).text);
    page.draws(characters), settings.draws(characters);
    CHECK(!characters.empty() && printer.page(page) == print1525::raw("Ab\r", settings).text);
    CHECK(printer.page(page) != printer.page(PRINT1525_AS_SVG));
    printer.clear();
    CHECK(printer.page() == print1525::raw("").text);
}

static void recordings() {
    const std::string trace(std::istreambuf_iterator<char>(std::cin), {});
    print1525::decoder decoder;
    print1525::receiver receiver(4);
    std::string bytes, received;
    for (std::size_t at = 0; at < trace.size(); at = trace.find('\n', at) + 1) {
        const std::size_t levels = trace.find(' ', at) + 1;
        const auto level = [&](std::size_t line) { return static_cast<std::uint8_t>(trace[levels + line] == '1'); };
        const print1525_edge edge = {std::stoull(trace.substr(at)), level(0), level(1), level(2)};
        const auto reading = decoder.edge(edge);
        const auto came = receiver.edge(edge);
        if (came && came->kind == PRINT1525_RECEIVED_BYTE) received += static_cast<char>(came->byte);
        if (reading && reading->kind == PRINT1525_BYTE_ACKNOWLEDGED && !reading->byte.command) bytes += static_cast<char>(reading->byte.byte);
    }
    CHECK(bytes == "HI\r" && received == "HI\r" && !decoder.end());
    const std::vector<print1525_edge> edges = print1525::edges(trace);
    CHECK(edges.size() == 110 && edges[0].time == 0 && edges[0].data == 1 && edges[1].time == 100 && edges[1].atn == 0);
    print1525::settings vcd;
    const std::string dump = print1525::bus("OPEN 4,4\nPRINT#4,\"HI\"\n", PRINT1525_AS_VCD).text;
    vcd.from = PRINT1525_FROM_VCD;
    CHECK(print1525::edges(dump, vcd).size() == edges.size() && print1525::check(dump, vcd).text == print1525::check(trace).text);
    vcd.names = "ATN,CLOCK,SRQ";
    CHECK(message_of([&] { print1525::edges(dump, vcd); }).find("no signal DATA") != std::string::npos);
    CHECK(print1525::decode(trace).text.find("HI") == std::string::npos && print1525::decode(trace, PRINT1525_AS_JSON).text[0] == '{');
    CHECK(print1525::check(trace, PRINT1525_AS_STORY).text != print1525::check(trace).text);
    CHECK(print1525::decode(trace, PRINT1525_AS_TEXT).text.find("HI") != std::string::npos);
    print1525::settings text;
    text.from = PRINT1525_FROM_TEXT;
    try {
        print1525::decode(trace + "x\n", text);
        CHECK(false);
    } catch (const print1525::error &why) {
        CHECK(why.what() == std::string("line 111: bad trace line") && why.text.size() > 100);
    }
    try {
        print1525::edges(trace + "x\n", text);
        CHECK(false);
    } catch (const print1525::error &why) {
        CHECK(why.edges.size() == 110 && why.edges[109].time == edges[109].time);
    }
    CHECK(print1525::explained(print1525_decode, trace + "x\n", text).find("line 111") != std::string::npos);
    CHECK(print1525::explained(print1525_check, trace).empty());
    CHECK(message_of([&] { receiver.edge({0, 1, 1, 1}); }) == "time goes back");
    CHECK(message_of([] { print1525::receiver(31); }) == "no such device");
    CHECK(message_of([&] { decoder.edge({0, 1, 1, 1}); }) == "time goes back");
}

static void watched_printers() {
    print1525::watched_printer printer;
    printer.select(PRINT1525_SET_LOWER);
    std::vector<print1525_mark> marks = printer.print("A");
    CHECK(marks.size() == 1 && marks[0].kind == PRINT1525_CELL && marks[0].value == 65 && marks[0].lower == 1 && marks[0].x == 0);
    print1525::watched_printer copy = printer;
    CHECK(printer.print("\r").empty() && printer.state().y == 21 && copy.state().y == 0);
    marks = printer.print("\b\x1a\xff\x81\x1a\xff\x81");
    CHECK(marks.size() == 510 && marks[479].x == 479 && marks[480].x == 0 && marks[480].y == 35 && marks[509].value == 1);
    CHECK(print1525::changed(marks).width == 960 && print1525::changed(marks).y == 21 && print1525::changed(marks).height == 28);
    const std::vector<std::uint8_t> pixels = print1525::pixels(marks, {959, 21, 2, 3, 0, 0});
    CHECK((pixels == std::vector<std::uint8_t>{0, 255, 0, 255, 255, 255}));
    CHECK(message_of([&] { print1525::pixels(marks, {0, 0, SIZE_MAX, SIZE_MAX, 0, 0}); }) == print1525_strerror(PRINT1525_FAULT_TOO_LARGE));
}

static void pictures(const char *name) {
    std::ifstream file(name, std::ios::binary);
    const std::string text(std::istreambuf_iterator<char>(file), {}), bytes = "\x11" "AB\r\x12W\r";
    print1525::watched_printer printer;
    const std::vector<print1525_mark> marks = printer.print(bytes);
    for (const print1525_as as : {PRINT1525_AS_SVG, PRINT1525_AS_PNG, PRINT1525_AS_PDF}) {
        print1525::settings with = as;
        CHECK(print1525::picture(marks, with) == print1525::raw(bytes, with).text);
        with.draws(text);
        CHECK(print1525::picture(marks, with) == print1525::raw(bytes, with).text);
    }
    std::vector<print1525_mark> many(9000, print1525_mark{0, 0, PRINT1525_CELL, 65, 0, 0, 0});
    for (std::size_t n = 0; n < many.size(); n++) many[n].y = 14 * (n / 80);
    std::size_t parts = 0, length = 0;
    print1525::write_picture(many, {}, [&](std::string_view part) { parts++, length += part.size(); });
    CHECK(parts == (length + PRINT1525_PART - 1) / PRINT1525_PART && parts > 1 && length == print1525::picture(many).size());
    bool thrown = false;
    try {
        print1525::write_picture(marks, {}, [](std::string_view) { throw 7; });
    } catch (int seven) {
        thrown = seven == 7;
    }
    CHECK(thrown);
    CHECK(message_of([&] { print1525::picture({marks[2], marks[0]}); }) == "mark 1: above the one before it");
    CHECK(message_of([&] { print1525::picture(marks, PRINT1525_AS_LIST); }) == "setting as: bad setting");
    const print1525::characters own, drawn(text);
    const print1525_region region = print1525::changed(marks);
    CHECK(own.dots(marks).size() == 18 && print1525::pixels(own.dots(marks), region) == print1525::pixels(marks, region));
    CHECK(drawn.dots(marks).size() == 18 && print1525::pixels(drawn.dots(marks), region) != print1525::pixels(marks, region));
    CHECK(message_of([] { print1525::characters("lower 65\n"); }) == "line 1: bad character line");
    CHECK(print1525::printing_time(480) == 2866667 && print1525::printing_time(6, 0, {60, 0}) == 100000);
}

static void devices() {
    print1525::watched_printer printer;
    printer.print("\r"), printer.form_feed();
    CHECK(printer.state().y == PRINT1525_SHEET && printer.tear_off() == 1 && printer.state().y == 0);
    print1525::device device(4), quick(5, {1, 1, 200, 80, 1, 1});
    print1525_step step = device.step({0, 1, 1, 1});
    CHECK(step.pulls_data == 0 && step.wake == PRINT1525_NO_WAKE && step.heard.kind == PRINT1525_NOTHING_RECEIVED);
    CHECK(device.step({1000, 0, 0, 1}).wake == 1100 && quick.step({1000, 0, 0, 1}).wake == 1001);
    print1525::device saved(device.state());
    CHECK(device.step({1100, 0, 0, 1}).pulls_data == 1 && saved.step({1100, 0, 0, 1}).pulls_data == 1);
    saved.busy(9000);
    CHECK(device.step({2000, 0, 1, 0}).wake == 2050 && saved.step({2000, 0, 1, 0}).wake == 9000);
    CHECK(message_of([&] { device.step({1999, 0, 1, 0}); }) == "time goes back");
    CHECK(message_of([] { print1525::device(31); }) == "no such device");
    CHECK(message_of([] { print1525::device(4, {0, 10001, 0, 0, 0, 0}); }) == "no such timing");
    CHECK(message_of([] { print1525::device(print1525_device{}).step({0, 1, 1, 1}); }) == "no such device");
}

int main(int, char **words) {
    texts();
    printers(words[1]);
    recordings();
    watched_printers();
    pictures(words[1]);
    devices();
    return failed;
}
