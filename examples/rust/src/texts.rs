//! Texts: pages, traces, readings and edges.

use crate::raw::{self, Chosen, Details, Numbers};
use crate::{done, fault, Edge, Error};
use std::ffi::CString;

/// What the text is: the program's option --as. Each call has its own, and refuses others.
#[derive(Clone, Copy, Debug, Default, PartialEq, Eq)]
pub enum As {
    #[default]
    Usual = 0,
    List = 1,
    Text = 2,
    Frames = 3,
    Story = 4,
    Json = 5,
    Vcd = 6,
    Svg = 7,
    Png = 8,
    Pdf = 9,
    Bytes = 10,
    Script = 11,
}

/// What the input is.
#[derive(Clone, Copy, Debug, Default, PartialEq, Eq)]
pub enum From {
    #[default]
    Usual = 0,
    Auto = 1,
    Text = 2,
    Prg = 3,
    Petcat = 4,
    Magazine = 5,
    Vcd = 6,
    Csv = 7,
    Basic = 8,
    Bas = 9,
}

/// The printers on the bus.
#[derive(Clone, Copy, Debug, Default, PartialEq, Eq)]
pub enum Present {
    #[default]
    Both = 0,
    Four = 1,
    Five = 2,
    None = 3,
}

/// Whether the status is cleared before each statement, or kept.
#[derive(Clone, Copy, Debug, Default, PartialEq, Eq)]
pub enum Mode {
    #[default]
    Each = 0,
    Kept = 1,
}

/// The graphic/upper case or the lower/upper case characters.
#[derive(Clone, Copy, Debug, Default, PartialEq, Eq)]
pub enum Set {
    #[default]
    Upper = 0,
    Lower = 1,
}

/// The paper of a PDF document.
#[derive(Clone, Copy, Debug, Default, PartialEq, Eq)]
pub enum Paper {
    #[default]
    Continuous = 0,
    A4 = 1,
    Letter = 2,
}

/// The bounds of this project's profile, or of the Programmer's Reference Guide.
#[derive(Clone, Copy, Debug, Default, PartialEq, Eq)]
pub enum Bounds {
    #[default]
    Profile = 0,
    Guide = 1,
}

/// The printers that listen when a recording begins.
#[derive(Clone, Copy, Debug, Default, PartialEq, Eq)]
pub enum Listening {
    #[default]
    None = 0,
    Four = 1,
    Five = 2,
    Both = 3,
}

/// What the options of the program say, with its defaults. A setting that a call does not read is refused, unless it
/// has its default; so is a number that the option does not have.
#[derive(Clone, Copy, Debug, Default)]
pub struct Settings<'a> {
    pub as_: As,
    pub from: From,
    pub present: Present,
    pub status: Mode,
    pub set: Set,
    /// The printer 4 or 5 alone; 0 for all.
    pub device: u8,
    pub paper: Paper,
    /// Continuous paper with its holes and perforations.
    pub holes: bool,
    /// The lines of 1/6 inch from the paper's upper edge to the first row, at most 65; 3 if none are given.
    pub top: Option<u8>,
    /// The pixels of a PNG file for the place of a dot, 1 to 8; 0 for 2.
    pub scale: u8,
    pub bounds: Bounds,
    /// Also the intervals outside their bounds, and a table.
    pub intervals: bool,
    /// The levels of a dump or a table are inverted.
    pub invert: bool,
    pub listening: Listening,
    /// Status 1 where pages or bytes leave out something of a recording.
    pub strict: bool,
    /// The text is what the program says with --explain.
    pub explain: bool,
    /// This sheet alone, from 1; 0 for all.
    pub sheet: u64,
    /// The microsecond at which a dump or a table starts.
    pub from_time: u64,
    /// Samples in a second, of a table without times; 0 where it says it.
    pub rate: u64,
    /// As `900,999/9`.
    pub delays: &'a str,
    /// The names of ATN, CLOCK and DATA, as `A,C,D`.
    pub names: &'a str,
    /// A file of characters; empty for this project's own.
    pub characters: &'a [u8],
    /// The steps that a program in BASIC has at most; 0 for 10,000,000.
    pub steps: u64,
}

impl<'a> Settings<'a> {
    pub(crate) fn chosen(&self) -> Chosen<'a> {
        // (255 is the upper edge for the library, and 254 a number that it refuses.)
        let top = self.top.map_or(0, |lines| match lines {
            0 => 255,
            lines => lines.min(254),
        });
        let small = [
            self.as_ as u8,
            self.from as u8,
            self.present as u8,
            self.status as u8,
            self.set as u8,
            self.device,
            self.paper as u8,
            self.holes.into(),
            top,
            self.scale,
            self.bounds as u8,
            self.intervals.into(),
            self.invert.into(),
            self.listening as u8,
            self.strict.into(),
            self.explain.into(),
        ];
        let large = [self.sheet, self.from_time, self.rate];
        Chosen::new(Numbers { small, large, steps: self.steps }, self.delays, self.names, self.characters)
    }
}

/// A text, and the BASIC error that stopped the run, if one did. The status is 1 then, and where with `strict`
/// something of a recording was left out; else 0.
#[derive(Clone, Debug, Default, PartialEq, Eq)]
pub struct Answer {
    pub text: Vec<u8>,
    pub status: i32,
    pub stop: Option<Error>,
}

/// How many bytes a call is given first.
const ROOM: usize = 65_536;

/// Makes a call with room for most answers, and again for one that is longer.
fn filled<Item: Clone + Default>(mut make: impl FnMut(&mut [Item]) -> (usize, Details)) -> (Vec<Item>, Details) {
    let mut items = vec![Item::default(); ROOM / std::mem::size_of::<Item>()];
    loop {
        let (length, details) = make(&mut items);
        if details.fault != fault::TOO_SMALL {
            items.truncate(length);
            return (items, details);
        }
        items.resize(length, Item::default());
    }
}

fn answered((text, details): (Vec<u8>, Details)) -> Result<Answer, Error> {
    match details.status {
        0 | 1 => {
            let stop = Some(details).filter(|it| it.fault != 0).map(Error::from);
            Ok(Answer { text, status: details.status, stop })
        }
        _ => Err(Error { text, ..details.into() }),
    }
}

fn of_bytes(call: raw::OfBytes, given: &[u8], settings: &Settings) -> Result<Answer, Error> {
    let chosen = settings.chosen();
    answered(filled(|to| raw::text_of_bytes(call, given, &chosen, to)))
}

/// What the program print1525 does with the words of a command line, as `["pages", "--as", "svg"]`, over an input. No
/// file is read or written: the word after `--characters` is the text of such a file. With `--explain` the text is what
/// the program says. (A word with a zero byte is on no command line: then no word is given.)
pub fn answer(words: &[&str], input: &[u8]) -> Result<Answer, Error> {
    let words: Result<Vec<CString>, _> = words.iter().map(|&it| CString::new(it)).collect();
    let words = words.unwrap_or_default();
    answered(filled(|to| raw::answer(&words, input, to)))
}

/// The pages of a script, or of a listing by `from`.
pub fn pages(script: &[u8], settings: &Settings) -> Result<Answer, Error> {
    of_bytes(raw::PAGES, script, settings)
}

/// The trace of a script's run on the serial bus.
pub fn bus(script: &[u8], settings: &Settings) -> Result<Answer, Error> {
    of_bytes(raw::BUS, script, settings)
}

/// The frames of a trace, its story, or a line of JSON for each byte. Only this project's own timing is lawful.
pub fn check(trace: &[u8], settings: &Settings) -> Result<Answer, Error> {
    of_bytes(raw::CHECK, trace, settings)
}

/// What a recording of any bus says, or the pages that it prints.
pub fn decode(recording: &[u8], settings: &Settings) -> Result<Answer, Error> {
    of_bytes(raw::DECODE, recording, settings)
}

/// The page of the bytes that a printer gets.
pub fn raw(bytes: &[u8], settings: &Settings) -> Result<Answer, Error> {
    of_bytes(raw::RAW, bytes, settings)
}

/// The text of the script that a listing says.
pub fn listing(bytes: &[u8], settings: &Settings) -> Result<Answer, Error> {
    of_bytes(raw::LISTING, bytes, settings)
}

/// The page of what a printer receives: bytes, and between them 256 (for each LISTEN) and 257 (for secondary address 7
/// directly after it), which select a character set.
pub fn print_inputs(inputs: &[u16], settings: &Settings) -> Result<Answer, Error> {
    let chosen = settings.chosen();
    answered(filled(|to| raw::text_of_inputs(raw::PRINT, inputs, &chosen, to)))
}

/// The edges of a recording in any format.
pub fn edges(recording: &[u8], settings: &Settings) -> Result<Vec<Edge>, Error> {
    let chosen = settings.chosen();
    let (edges, details) = filled(|to| raw::edges(recording, &chosen, to));
    match done((), details) {
        Ok(()) => Ok(edges),
        Err(why) => Err(Error { edges, ..why }),
    }
}
