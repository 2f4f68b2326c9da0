//! The package over the library.
use print1525::{changed, draw, fault, pages, paint, picture, printing_time, write_picture, Characters, Decoder};
use print1525::{As, Listening, Present, Received, Receiver, Region, Set, Settings, Speed, Timing, SHEET};
use print1525::{Device, Edge, Mark, Pixels, Printer};

const HELLO: &[u8] = b"OPEN 4,4\nPRINT#4,\"HI\"\n";
const PAGE: &str = "printer 4\nrow 0\n 0 cell 72\n 6 cell 73\nprinter 5\nstatus 0 0\nscreen\n";

fn text(answer: print1525::Answer) -> String {
    String::from_utf8(answer.text).unwrap()
}

#[test]
fn texts() {
    let usual = Settings::default();
    assert_eq!(text(pages(HELLO, &usual).unwrap()), PAGE);
    assert!(pages(HELLO, &Settings { as_: As::Png, ..usual }).unwrap().text.starts_with(b"\x89PNG"));
    let dump = print1525::bus(HELLO, &Settings { as_: As::Vcd, delays: "7,9/1", ..usual }).unwrap().text;
    let trace = text(print1525::bus(HELLO, &Settings { delays: "7,9/1", ..usual }).unwrap());
    let edges = print1525::edges(&dump, &usual).unwrap();
    let lines = edges.iter().map(|it| format!("{} {}{}{}\n", it.time, it.atn, it.clock, it.data));
    assert_eq!(lines.collect::<String>(), trace);
    assert!(text(print1525::check(trace.as_bytes(), &usual).unwrap()).ends_with("lawful\n"));
    let shown = Settings { as_: As::Text, ..usual };
    assert_eq!(text(print1525::decode(trace.as_bytes(), &shown).unwrap()), "Printer 4\nHI\n");
    let listening = Settings { listening: Listening::Four, ..shown };
    assert_eq!(text(print1525::decode(trace.as_bytes(), &listening).unwrap()), "Printer 4\nHI\n");
    let lower = Settings { set: Set::Lower, ..usual };
    let inputs = [257, 72, 73, 13];
    assert_eq!(print1525::raw(b"HI\r", &lower), print1525::print_inputs(&inputs, &usual));
    assert_eq!(text(print1525::listing(HELLO, &usual).unwrap()).as_bytes(), HELLO);
    assert_eq!(text(print1525::answer(&["pages"], HELLO).unwrap()), PAGE);
    assert_eq!(print1525::answer(&["pages", "\0"], HELLO).unwrap_err().fault(), fault::BAD_WORDS);
}

#[test]
fn refusals() {
    let usual = Settings::default();
    let why = pages(b"REM\nPRONT\n", &usual).unwrap_err();
    assert_eq!((why.to_string().as_str(), why.status(), why.fault()), ("line 2: unknown word", 2, fault::UNKNOWN_WORD));
    assert_eq!((why.place(), why.column(), why.text.len()), (2, 0, 0));
    let explained = pages(b"REM\nPRONT\n", &Settings { explain: true, ..usual }).unwrap_err();
    assert!(String::from_utf8(explained.text).unwrap().contains("PRONT"));
    let stopped = pages(b"REM\nPRINT#4\n", &Settings { present: Present::Four, ..usual }).unwrap();
    assert_eq!(stopped.status, 1);
    assert_eq!(stopped.stop.unwrap().to_string(), "?FILE NOT OPEN  ERROR (statement 2)");
    for (settings, words) in [
        (Settings { as_: As::Vcd, ..usual }, "setting as: bad setting"),
        (Settings { as_: As::Svg, top: Some(66), ..usual }, "setting top: bad setting"),
        (Settings { as_: As::Svg, top: Some(255), ..usual }, "setting top: bad setting"),
        (Settings { as_: As::Svg, scale: 2, ..usual }, "setting scale: bad setting"),
        (Settings { delays: "1\0", ..usual }, "setting delays: bad setting"),
        (Settings { as_: As::Svg, sheet: 2, ..usual }, "no such sheet: the paper has one sheet"),
    ] {
        assert_eq!(pages(HELLO, &settings).unwrap_err().to_string(), words);
    }
    assert!(pages(HELLO, &Settings { as_: As::Svg, top: Some(0), ..usual }).is_ok());
    let why = print1525::edges(b"0 111\nx\n", &usual).unwrap_err();
    assert_eq!((why.to_string().as_str(), why.edges.len()), ("line 2: bad trace line", 1));
    let why = print1525::print_inputs(&[65, 258], &usual).unwrap_err();
    assert_eq!((why.fault(), why.place()), (fault::NO_SUCH_INPUT, 1));
}

fn at(time: u64, atn: u8, clock: u8, data: u8) -> Edge {
    Edge { time, atn, clock, data }
}

#[test]
fn device() {
    let mut device = Device::new(4, &Timing::default()).unwrap();
    let step = device.step(at(1000, 0, 0, 1)).unwrap();
    assert_eq!((step.pulls_data, step.wake, step.heard), (false, Some(1100), None));
    let mut saved = Device::from_state(device.state());
    assert!(saved.step(at(1100, 0, 0, 1)).unwrap().pulls_data && device.step(at(1100, 0, 0, 1)).unwrap().pulls_data);
    saved.busy(9000);
    assert_eq!(saved.step(at(2000, 0, 1, 0)).unwrap().wake, Some(9000));
    assert_eq!(device.step(at(2000, 0, 1, 0)).unwrap().wake, Some(2050));
    device.step(at(2050, 0, 1, 0)).unwrap();
    device.step(at(2050, 0, 1, 1)).unwrap();
    // LISTEN to device 4, the lowest bit first.
    for bit in 0..8 {
        for half in 0..2 {
            let lines = at(2090 + 90 * bit + 70 * half, 0, half as u8, 36 >> bit & 1);
            assert_eq!(device.step(lines).unwrap().heard, None);
        }
    }
    let step = device.step(at(2810, 0, 0, 1)).unwrap();
    assert_eq!((step.pulls_data, step.wake, step.heard), (false, Some(2830), Some(Received::Listen)));
    assert_eq!(device.step(at(2809, 0, 0, 1)).unwrap_err().to_string(), "time goes back");
    assert_eq!(Device::new(31, &Timing::default()).unwrap_err().to_string(), "no such device");
    let slow = Timing { hold: 10_001, ..Timing::default() };
    assert_eq!(Device::new(4, &slow).unwrap_err().to_string(), "no such timing");
}

#[test]
fn states() {
    let usual = Settings::default();
    let edges = print1525::edges(&print1525::bus(HELLO, &usual).unwrap().text, &usual).unwrap();
    let (mut decoder, mut receiver) = (Decoder::new(), Receiver::new(4).unwrap());
    let mut heard = Vec::new();
    for edge in &edges {
        decoder = Decoder::from_state(decoder.state());
        receiver = Receiver::from_state(receiver.state());
        decoder.edge(*edge).unwrap();
        heard.extend(receiver.edge(*edge).unwrap());
    }
    let byte = |byte, is_last| Received::Byte { byte, is_last };
    let wanted = [Received::Listen, byte(72, false), byte(73, false), byte(13, true), Received::Unlisten];
    assert_eq!(heard, wanted);
    assert_eq!(decoder.end(), None);
    assert!(Receiver::new(3).is_err());
}

#[test]
fn paper() {
    let (mut printer, mut marks) = (Printer::new(), Vec::new());
    printer.select(Set::Lower);
    printer.print(b"A\x08\x1a\xff\x81\r", &mut marks);
    assert_eq!((marks.len(), marks[255].x, printer.x(), printer.y()), (256, 260, 0, 14));
    assert_eq!(marks[0], Mark { value: 65, lower: 1, ..Mark::default() });
    let (region, mut memory) = (Region { x: 10, width: 4, height: 3, ..Region::default() }, [7; 12]);
    draw(&marks, &region, &mut memory).unwrap();
    assert_eq!(memory, [7, 7, 0, 0, 7, 7, 0, 0, 7, 7, 7, 7]);
    paint(&marks, &region, &mut memory).unwrap();
    assert_eq!(memory, [255, 255, 0, 0, 255, 255, 0, 0, 255, 255, 255, 255]);
    let why = draw(&marks, &Region { height: 4, ..region }, &mut memory).unwrap_err();
    assert_eq!((why.to_string().as_str(), why.status()), ("buffer too small", 3));
    let mut bits = [0; 3];
    paint(&marks, &Region { pixels: Pixels::Bits, ..region }, &mut bits).unwrap();
    assert_eq!(bits.map(|it| it >> 4), [3, 3, 0]);
    let around = changed(&marks[..1], 100, Pixels::Rgba);
    assert_eq!((around.x, around.y, around.width, around.height), (0, 0, 12, 14));
    assert_eq!((around.stride, around.pixels, changed(&[], 0, Pixels::Gray).width), (100, Pixels::Rgba, 0));
    printer.form_feed();
    assert_eq!((printer.y(), printer.tear_off(), printer.y()), (SHEET, 1, 0));
}

#[test]
fn pictures() {
    let (mut printer, mut marks, data) = (Printer::new(), Vec::new(), b"AB\r\x12C\r");
    printer.print(data, &mut marks);
    for as_ in [As::Svg, As::Png, As::Pdf] {
        let settings = Settings { as_, ..Settings::default() };
        assert_eq!(picture(&marks, &settings).unwrap(), print1525::raw(data, &settings).unwrap().text);
    }
    let many: Vec<Mark> = (0..9000).map(|it| Mark { y: 14 * (it / 80), value: 65, ..Mark::default() }).collect();
    let (mut lengths, usual) = (Vec::new(), Settings::default());
    write_picture(&many, &usual, |part| {
        lengths.push(part.len());
        true
    })
    .unwrap();
    assert!(lengths.len() > 1 && lengths[..lengths.len() - 1].iter().all(|&it| it == 65_536));
    let why = write_picture(&marks, &usual, |_| false).unwrap_err();
    assert_eq!((why.to_string().as_str(), why.fault()), ("not written", fault::NOT_WRITTEN));
    marks.reverse();
    assert_eq!(picture(&marks, &usual).unwrap_err().to_string(), "mark 1: above the one before it");
}

#[test]
fn characters() {
    let (own, mut dots) = (Characters::new(b"").unwrap(), Vec::new());
    let cell = Mark { value: 65, wide: 1, ..Mark::default() };
    own.dots(&cell, &mut dots);
    assert_eq!((dots.len(), dots[11].x, dots[0].kind), (12, 11, 1));
    let region = changed(&[cell], 0, Pixels::Gray);
    let (mut one, mut other) = ([7; 24 * 14], [8; 24 * 14]);
    paint(&[cell], &region, &mut one).unwrap();
    paint(&dots, &region, &mut other).unwrap();
    assert_eq!(one, other);
    assert_eq!(Characters::new(b"upper 65\n").unwrap_err().to_string(), "line 1: bad character line");
    assert_eq!(printing_time(480, 1, &Speed::default()), 2_866_667);
}
