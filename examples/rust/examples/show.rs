//! The pages of a script, converted: show [list|text|svg|png|pdf] < SCRIPT
//! And a printer's page, as an emulator has it: show --bytes [list|text|svg|png|pdf] < BYTES
//! And the acknowledged bytes of a recording: show --decode < RECORDING
//! And what comes to a device in it, as examples/c/receiver.c shows it: show --receive [DEVICE] < RECORDING
//! And the first sheet of a printer's window, as a PGM picture: show --window < BYTES
use print1525::{Answer, As, Decoder, Error, Kind, Printer, Received, Receiver, Region, Settings, SHEET};
use std::io::{stdin, stdout, Read, Write};
use std::process::ExitCode;

/// When each acknowledged byte was ready, what it is, and its number.
fn decoded(recording: &[u8]) -> Result<String, Error> {
    let (mut decoder, mut text) = (Decoder::new(), String::new());
    for edge in print1525::edges(recording, &Settings::default())? {
        if let Some(reading) = decoder.edge(edge)?.filter(|it| it.kind == Kind::Acknowledged) {
            let kind = if reading.byte.command == 1 { "command" } else { "data" };
            text += &format!("{} {kind} {}\n", reading.byte.ready, reading.byte.byte);
        }
    }
    Ok(text)
}

/// What comes to a device, a line each.
fn received(recording: &[u8], device: u8) -> Result<String, Error> {
    let (mut receiver, mut text) = (Receiver::new(device)?, String::new());
    for edge in print1525::edges(recording, &Settings::default())? {
        text += &match receiver.edge(edge)? {
            Some(Received::Listen) => "listen\n".to_string(),
            Some(Received::Select(number)) => format!("select {number}\n"),
            Some(Received::Byte { byte, is_last: false }) => format!("byte {byte}\n"),
            Some(Received::Byte { byte, .. }) => format!("byte {byte} last\n"),
            Some(Received::Unlisten) => "unlisten\n".to_string(),
            _ => String::new(),
        };
    }
    Ok(text)
}

/// A window over the first sheet, in which each byte is drawn as it comes.
fn window(bytes: &[u8]) -> Result<Vec<u8>, Error> {
    let sheet = Region { width: 960, height: SHEET as usize, ..Region::default() };
    let (mut printer, mut shown) = (Printer::new(), vec![255; sheet.width * sheet.height]);
    for byte in bytes {
        let mut marks = Vec::new();
        printer.print(&[*byte], &mut marks);
        print1525::draw(&marks, &sheet, &mut shown)?;
    }
    Ok([format!("P5 {} {} 255\n", sheet.width, sheet.height).into_bytes(), shown].concat())
}

fn main() -> ExitCode {
    let words: Vec<String> = std::env::args().skip(1).collect();
    let as_ = match words.last().map(String::as_str) {
        Some("text") => As::Text,
        Some("svg") => As::Svg,
        Some("png") => As::Png,
        Some("pdf") => As::Pdf,
        _ => As::List,
    };
    let settings = Settings { as_, ..Settings::default() };
    let mut input = Vec::new();
    if stdin().read_to_end(&mut input).is_err() {
        return ExitCode::from(3);
    }
    let text = |text| Answer { text, ..Answer::default() };
    let made = match words.first().map(String::as_str) {
        Some("--bytes") => {
            let inputs: Vec<u16> = input.iter().map(|&byte| byte.into()).collect();
            print1525::print_inputs(&inputs, &settings)
        }
        Some("--decode") => decoded(&input).map(|it| text(it.into_bytes())),
        Some("--receive") => {
            let device = words.get(1).and_then(|it| it.parse().ok()).unwrap_or(4);
            received(&input, device).map(|it| text(it.into_bytes()))
        }
        Some("--window") => window(&input).map(text),
        _ => print1525::pages(&input, &settings),
    };
    match made {
        Ok(Answer { text, status, stop }) => {
            let written = stdout().write_all(&text);
            if let Some(stop) = &stop {
                eprintln!("{stop}");
            }
            ExitCode::from(if written.is_err() { 3 } else { status as u8 })
        }
        Err(why) => {
            eprintln!("{why}");
            ExitCode::from(why.status() as u8)
        }
    }
}
