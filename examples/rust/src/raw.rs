//! The C library: its structures and its calls. All that is `unsafe` in this package is here; every function is safe.
#![allow(unsafe_code)]

use std::any::Any;
use std::ffi::{CStr, CString};
use std::marker::PhantomData;
use std::mem::size_of;
use std::os::raw::{c_char, c_int, c_void};
use std::panic::{catch_unwind, resume_unwind, AssertUnwindSafe};
use std::ptr::{null, null_mut};

/// What a call reports: its status and the fault, with the line, edge, input or setting, and the column, that it names.
#[repr(C)]
#[derive(Clone, Copy, Debug, Default, PartialEq, Eq)]
pub struct Details {
    pub status: i32,
    pub fault: i32,
    pub place: usize,
    pub column: usize,
}

/// The settings as numbers, in the order of the header.
#[derive(Clone, Copy, Debug, Default)]
pub struct Numbers {
    /// From `as` to `explain`.
    pub small: [u8; 16],
    /// `sheet`, `from_time` and `rate`.
    pub large: [u64; 3],
    pub steps: u64,
}

#[repr(C)]
struct Settings {
    small: [u8; 16],
    large: [u64; 3],
    delays: *const c_char,
    names: *const c_char,
    characters: *const c_void,
    characters_length: usize,
    steps: u64,
    reserved: [u64; 3],
}

/// The lines of the bus from this microsecond on, each 0 for pulled and any other number for released.
#[repr(C)]
#[derive(Clone, Copy, Debug, Default, PartialEq, Eq)]
pub struct Edge {
    pub time: u64,
    pub atn: u8,
    pub clock: u8,
    pub data: u8,
}

#[repr(C)]
#[derive(Clone, Copy, Default)]
pub struct Received {
    pub kind: u8,
    pub byte: u8,
    pub eoi: u8,
}

/// How many microseconds a device waits before each thing that it does to DATA; 0 is the typical delay.
#[repr(C)]
#[derive(Clone, Copy, Debug, Default, PartialEq, Eq)]
pub struct Timing {
    /// From ATN's pull to DATA's pull.
    pub attention: u16,
    /// From CLOCK's release before a byte to DATA's release.
    pub hold: u16,
    /// From DATA's release to its pull, with end-or-identify.
    pub wait: u16,
    /// How long that answer lasts.
    pub answer: u16,
    /// From CLOCK's last pull in a byte to DATA's pull, by which the byte is acknowledged.
    pub accept: u16,
    /// From ATN's release to DATA's release, if the device does not listen.
    pub leave: u16,
}

/// How fast a printer prints; 0 is the figure of the VIC-1525 User's Manual.
#[repr(C)]
#[derive(Clone, Copy, Debug, Default, PartialEq, Eq)]
pub struct Speed {
    /// How many columns of dots in a second.
    pub columns: u32,
    /// How long a line feed takes, in microseconds.
    pub feed: u32,
}

#[repr(C)]
#[derive(Clone, Copy, Default)]
pub struct Step {
    pub wake: u64,
    pub pulls_data: u8,
    pub heard: Received,
}

/// A byte on the wires as far as it came, with its times in microseconds; what did not come is 0.
#[repr(C)]
#[derive(Clone, Copy, Debug, Default, PartialEq, Eq)]
pub struct Byte {
    /// CLOCK is released and DATA is pulled.
    pub look: u64,
    /// DATA is released.
    pub ready: u64,
    /// With end-or-identify DATA is pulled, and released again.
    pub answered: u64,
    pub answer_ended: u64,
    /// CLOCK's first pull.
    pub pull: u64,
    /// For how long CLOCK is pulled in the bits.
    pub shortest_low: u64,
    pub longest_low: u64,
    /// For how long CLOCK is released in them.
    pub shortest_high: u64,
    pub longest_high: u64,
    /// CLOCK's last pull.
    pub last_pull: u64,
    /// 1 for a command, 0 for a data byte.
    pub command: u8,
    /// 1 with end-or-identify.
    pub eoi: u8,
    /// How many bits came whole, and the number that they make, the lowest bit first.
    pub bits: u8,
    pub byte: u8,
}

#[repr(C)]
#[derive(Clone, Copy, Default)]
pub struct Reading {
    pub byte: Byte,
    pub end: u64,
    pub kind: u8,
}

/// A mark on the paper.
#[repr(C)]
#[derive(Clone, Copy, Debug, Default, PartialEq, Eq)]
pub struct Mark {
    /// Its row's distance from the top, in 1/126 inch.
    pub y: u64,
    /// The dot column at which it begins, in 1/60 inch.
    pub x: u16,
    /// 0 for a cell, 1 for a column of dots.
    pub kind: u8,
    /// A cell's code; or the dots of a column, bit 0 at the top.
    pub value: u8,
    /// 1 for a cell of the lower/upper case set, white on black, of double width.
    pub lower: u8,
    pub reverse: u8,
    pub wide: u8,
}

#[repr(C)]
#[derive(Clone, Copy, Debug, Default, PartialEq, Eq)]
pub struct Printer {
    pub y: u64,
    pub x: u16,
    pub modes: [u8; 7],
}

#[repr(C)]
#[derive(Clone, Copy, Default)]
pub struct Region {
    pub x: u64,
    pub y: u64,
    pub width: usize,
    pub height: usize,
    pub stride: usize,
    pub pixels: u8,
}

/// What the library keeps of a device, a decoder and a receiver.
pub type Device = [u64; 8];
pub type Decoder = [u64; 24];
pub type Receiver = [u64; 25];

/// What it keeps of the characters of a file.
pub type Characters = [u8; 1536];

const _: () = assert!(size_of::<Details>() == 24 && size_of::<Settings>() == 104 && size_of::<Edge>() == 16);
const _: () = assert!(size_of::<Received>() == 3 && size_of::<Timing>() == 12 && size_of::<Step>() == 16);
const _: () = assert!(size_of::<Byte>() == 88 && size_of::<Reading>() == 104 && size_of::<Mark>() == 16);
const _: () = assert!(size_of::<Printer>() == 24 && size_of::<Region>() == 48 && size_of::<Speed>() == 8);

type OfItems<Given> =
    unsafe extern "C" fn(Given, usize, *const Settings, *mut c_void, usize, *mut usize, *mut Details) -> c_int;

/// Declares calls that make a text of items, and a name for each.
macro_rules! texts {
    ($given:ty: $($name:ident $call:ident),*) => {
        extern "C" {
            $(fn $call(
                given: $given,
                given_length: usize,
                settings: *const Settings,
                to: *mut c_void,
                capacity: usize,
                length: *mut usize,
                details: *mut Details,
            ) -> c_int;)*
        }
        $(pub const $name: Call<$given> = Call($call);)*
    };
}

/// A call that makes a text, or edges, of items.
#[derive(Clone, Copy)]
pub struct Call<Given>(OfItems<Given>);

texts!(*const c_void: PAGES print1525_pages, BUS print1525_bus, CHECK print1525_check, DECODE print1525_decode,
    RAW print1525_raw, LISTING print1525_listing);
texts!(*const u16: PRINT print1525_print);

extern "C" {
    fn print1525_edges(
        recording: *const c_void,
        recording_length: usize,
        settings: *const Settings,
        edges: *mut Edge,
        capacity: usize,
        length: *mut usize,
        details: *mut Details,
    ) -> c_int;
    fn print1525_answer(
        words: *const *const c_char,
        input: *const c_void,
        input_length: usize,
        text: *mut c_void,
        capacity: usize,
        length: *mut usize,
        details: *mut Details,
    ) -> c_int;
    fn print1525_message(details: *const Details, text: *mut c_char, capacity: usize) -> usize;
    fn print1525_version() -> *const c_char;
    fn print1525_device_begin(device: *mut Device, address: u8, timing: *const Timing, details: *mut Details) -> c_int;
    fn print1525_device_step(device: *mut Device, moment: *const Edge, step: *mut Step, details: *mut Details)
        -> c_int;
    fn print1525_device_busy(device: *mut Device, until: u64, details: *mut Details) -> c_int;
    fn print1525_decoder_edge(
        decoder: *mut Decoder,
        edge: *const Edge,
        reading: *mut Reading,
        details: *mut Details,
    ) -> c_int;
    fn print1525_decoder_end(decoder: *const Decoder, reading: *mut Reading, details: *mut Details) -> c_int;
    fn print1525_receiver_begin(receiver: *mut Receiver, device: u8, details: *mut Details) -> c_int;
    fn print1525_receiver_edge(
        receiver: *mut Receiver,
        edge: *const Edge,
        received: *mut Received,
        details: *mut Details,
    ) -> c_int;
    fn print1525_printer_select(printer: *mut Printer, set: u8, details: *mut Details) -> c_int;
    fn print1525_printer_bytes(
        printer: *mut Printer,
        bytes: *const c_void,
        taken: *mut usize,
        marks: *mut Mark,
        capacity: usize,
        length: *mut usize,
        details: *mut Details,
    ) -> c_int;
    fn print1525_printer_form_feed(printer: *mut Printer, details: *mut Details) -> c_int;
    fn print1525_printer_tear_off(printer: *mut Printer, sheets: *mut u64, details: *mut Details) -> c_int;
    fn print1525_printer_changed(
        marks: *const Mark,
        length: usize,
        region: *mut Region,
        details: *mut Details,
    ) -> c_int;
    fn print1525_printer_page(
        marks: *const Mark,
        length: usize,
        region: *const Region,
        pixels: *mut c_void,
        capacity: usize,
        details: *mut Details,
    ) -> c_int;
    fn print1525_printer_draw(
        marks: *const Mark,
        length: usize,
        region: *const Region,
        pixels: *mut c_void,
        capacity: usize,
        details: *mut Details,
    ) -> c_int;
}

extern "C" {
    fn print1525_printer_picture(
        marks: *const Mark,
        length: usize,
        settings: *const Settings,
        write: extern "C" fn(*mut c_void, *const c_void, usize) -> c_int,
        context: *mut c_void,
        details: *mut Details,
    ) -> c_int;
    fn print1525_characters_read(
        text: *const c_void,
        length: usize,
        characters: *mut Characters,
        details: *mut Details,
    ) -> c_int;
    fn print1525_characters_dots(
        characters: *const Characters,
        mark: *const Mark,
        dots: *mut Mark,
        capacity: usize,
        length: *mut usize,
        details: *mut Details,
    ) -> c_int;
    fn print1525_printing_time(columns: u32, feeds: u16, speed: *const Speed) -> u64;
}

pub type OfBytes = Call<*const c_void>;

/// Settings as C has them, with the texts that they point at.
pub struct Chosen<'a> {
    settings: Settings,
    _texts: [Option<CString>; 2],
    _characters: PhantomData<&'a [u8]>,
}

/// A text for C. One with a zero byte in it is none: in its place is one that no setting has, which the library
/// refuses.
fn text_for_c(text: &str) -> Option<CString> {
    let given = CString::new(text).or_else(|_| CString::new("\u{1}")).ok();
    given.filter(|it| !it.as_bytes().is_empty())
}

impl<'a> Chosen<'a> {
    pub fn new(numbers: Numbers, delays: &str, names: &str, characters: &'a [u8]) -> Self {
        let texts = [delays, names].map(text_for_c);
        let [delays, names] = [0, 1].map(|at: usize| texts[at].as_ref().map_or(null(), |it| it.as_ptr()));
        let settings = Settings {
            small: numbers.small,
            large: numbers.large,
            delays,
            names,
            characters: characters.as_ptr().cast(),
            characters_length: characters.len(),
            steps: numbers.steps,
            reserved: [0; 3],
        };
        Chosen { settings, _texts: texts, _characters: PhantomData }
    }
}

/// Makes a call for a text: how long it is, or has to be, and what the call reports.
pub fn text_of_bytes(call: OfBytes, given: &[u8], chosen: &Chosen, to: &mut [u8]) -> (usize, Details) {
    let (mut length, mut details) = (0, Details::default());
    // SAFETY: slices, settings and what these point at live as long as the call, which writes within the room.
    unsafe {
        (call.0)(
            given.as_ptr().cast(),
            given.len(),
            &chosen.settings,
            to.as_mut_ptr().cast(),
            to.len(),
            &mut length,
            &mut details,
        )
    };
    (length, details)
}

/// The same of inputs.
pub fn text_of_inputs(call: Call<*const u16>, given: &[u16], chosen: &Chosen, to: &mut [u8]) -> (usize, Details) {
    let (mut length, mut details) = (0, Details::default());
    // SAFETY: as above.
    unsafe {
        (call.0)(
            given.as_ptr(),
            given.len(),
            &chosen.settings,
            to.as_mut_ptr().cast(),
            to.len(),
            &mut length,
            &mut details,
        )
    };
    (length, details)
}

pub fn edges(recording: &[u8], chosen: &Chosen, to: &mut [Edge]) -> (usize, Details) {
    let (mut length, mut details) = (0, Details::default());
    // SAFETY: as above.
    unsafe {
        print1525_edges(
            recording.as_ptr().cast(),
            recording.len(),
            &chosen.settings,
            to.as_mut_ptr(),
            to.len(),
            &mut length,
            &mut details,
        )
    };
    (length, details)
}

pub fn answer(words: &[CString], input: &[u8], to: &mut [u8]) -> (usize, Details) {
    let (mut length, mut details) = (0, Details::default());
    let words: Vec<*const c_char> = words.iter().map(|it| it.as_ptr()).chain([null()]).collect();
    // SAFETY: as above; NULL is after the last word.
    unsafe {
        print1525_answer(
            words.as_ptr(),
            input.as_ptr().cast(),
            input.len(),
            to.as_mut_ptr().cast(),
            to.len(),
            &mut length,
            &mut details,
        )
    };
    (length, details)
}

/// The library's words for details.
pub fn message(details: &Details) -> String {
    // SAFETY: without room nothing is written; then the buffer has as many bytes as the call is given.
    let mut text = vec![0u8; unsafe { print1525_message(details, null_mut(), 0) } + 1];
    unsafe { print1525_message(details, text.as_mut_ptr().cast(), text.len()) };
    text.pop();
    String::from_utf8_lossy(&text).into_owned()
}

/// The version of the library.
pub fn version() -> &'static str {
    // SAFETY: it is a text that stays.
    unsafe { CStr::from_ptr(print1525_version()) }.to_str().unwrap_or("")
}

/// Defines functions over calls that take structures alone, which live as long as the call; each gives what it reports.
macro_rules! over_structures {
    ($($name:ident $call:ident($($given:ident: $type:ty),*))*) => {
        $(pub fn $name($($given: $type),*) -> Details {
            let mut details = Details::default();
            // SAFETY: each reference is to a structure of the call's.
            unsafe { $call($($given),*, &mut details) };
            details
        })*
    };
}

over_structures! {
    device_begin print1525_device_begin(device: &mut Device, address: u8, timing: &Timing)
    device_step print1525_device_step(device: &mut Device, moment: &Edge, step: &mut Step)
    device_busy print1525_device_busy(device: &mut Device, until: u64)
    decoder_edge print1525_decoder_edge(decoder: &mut Decoder, edge: &Edge, reading: &mut Reading)
    decoder_end print1525_decoder_end(decoder: &Decoder, reading: &mut Reading)
    receiver_begin print1525_receiver_begin(receiver: &mut Receiver, device: u8)
    receiver_edge print1525_receiver_edge(receiver: &mut Receiver, edge: &Edge, received: &mut Received)
    printer_select print1525_printer_select(printer: &mut Printer, set: u8)
    printer_form_feed print1525_printer_form_feed(printer: &mut Printer)
    printer_tear_off print1525_printer_tear_off(printer: &mut Printer, sheets: &mut u64)
}

/// Gives a printer bytes: how many of them it has taken, and how many marks they have made.
pub fn printer_bytes(printer: &mut Printer, bytes: &[u8], to: &mut [Mark]) -> (usize, usize) {
    let (mut taken, mut length) = (bytes.len(), 0);
    // SAFETY: the slices live as long as the call, which writes no more marks than there is room.
    unsafe {
        print1525_printer_bytes(
            printer,
            bytes.as_ptr().cast(),
            &mut taken,
            to.as_mut_ptr(),
            to.len(),
            &mut length,
            null_mut(),
        )
    };
    (taken, length)
}

pub fn changed(marks: &[Mark], region: &mut Region) -> Details {
    let mut details = Details::default();
    // SAFETY: the slice lives as long as the call.
    unsafe { print1525_printer_changed(marks.as_ptr(), marks.len(), region, &mut details) };
    details
}

/// Marks as pixels, over those of the memory or over white paper.
pub fn drawn(over: bool, marks: &[Mark], region: &Region, memory: &mut [u8]) -> Details {
    let mut details = Details::default();
    let call = if over { print1525_printer_draw } else { print1525_printer_page };
    // SAFETY: the slices live as long as the call, which writes within the memory.
    unsafe { call(marks.as_ptr(), marks.len(), region, memory.as_mut_ptr().cast(), memory.len(), &mut details) };
    details
}

/// A function that takes parts of a picture, and its panic.
struct Writing<'a> {
    write: &'a mut dyn FnMut(&[u8]) -> bool,
    panic: Option<Box<dyn Any + Send>>,
}

extern "C" fn write_part(context: *mut c_void, bytes: *const c_void, length: usize) -> c_int {
    // SAFETY: the context is that of the call below, and the part is there while this runs.
    let (writing, part) =
        unsafe { (&mut *context.cast::<Writing>(), std::slice::from_raw_parts(bytes.cast::<u8>(), length)) };
    let wants = catch_unwind(AssertUnwindSafe(|| (writing.write)(part)));
    let is_wanted = *wants.as_ref().unwrap_or(&false);
    writing.panic = wants.err();
    (!is_wanted).into()
}

/// Gives a picture of the paper with marks to a function, part after part, as long as it wants more.
pub fn picture(marks: &[Mark], chosen: &Chosen, write: &mut dyn FnMut(&[u8]) -> bool) -> Details {
    let (mut details, mut writing) = (Details::default(), Writing { write, panic: None });
    // SAFETY: the slice, the settings and the function live as long as the call, into which no panic goes.
    unsafe {
        print1525_printer_picture(
            marks.as_ptr(),
            marks.len(),
            &chosen.settings,
            write_part,
            (&mut writing as *mut Writing).cast(),
            &mut details,
        )
    };
    match writing.panic {
        Some(panic) => resume_unwind(panic),
        None => details,
    }
}

pub fn characters_read(file: &[u8], characters: &mut Characters) -> Details {
    let mut details = Details::default();
    // SAFETY: the slice and the characters live as long as the call.
    unsafe { print1525_characters_read(file.as_ptr().cast(), file.len(), characters, &mut details) };
    details
}

/// The columns of dots that draw a mark: how many they are.
pub fn characters_dots(characters: &Characters, mark: &Mark, dots: &mut [Mark]) -> usize {
    let mut length = 0;
    // SAFETY: all live as long as the call, which writes no more marks than there is room.
    unsafe {
        print1525_characters_dots(characters, mark, dots.as_mut_ptr(), dots.len(), &mut length, null_mut());
    }
    length
}

pub fn printing_time(columns: u32, feeds: u16, speed: &Speed) -> u64 {
    // SAFETY: the speed lives as long as the call.
    unsafe { print1525_printing_time(columns, feeds, speed) }
}
