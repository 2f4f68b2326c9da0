//! What a Commodore 64 prints on VIC-1525 printers, and what is on its serial bus: libprint1525 for Rust.
//!
//!     let settings = print1525::Settings { as_: print1525::As::Svg, ..Default::default() };
//!     let picture = print1525::pages(b"OPEN 4,4\nPRINT#4,\"HELLO\"\n", &settings)?.text;
//!     # Ok::<(), print1525::Error>(())
//!
//! [`pages`], [`bus()`], [`check`], [`decode`], [`raw()`], [`listing`] and [`print_inputs`] give an [`Answer`]: a text
//! as bytes. [`Settings`] are the program's options, and [`answer`] takes the words of its command line. [`edges`]
//! gives the edges of a recording; a [`Decoder`] and a [`Receiver`] say what edges mean. A [`Device`] is on a bus of
//! yours and answers. A [`Printer`] gives the marks of each byte; [`draw`] and [`paint`] draw them, and [`picture`] and
//! [`write_picture`] give their paper as SVG, PNG or PDF.
//!
//! Where a call refuses, it gives an [`Error`] with the library's words.
#![deny(unsafe_code)]

mod bus;
pub mod fault;
mod paper;
mod raw;
mod texts;

pub use bus::{printing_time, Decoder, Device, Kind, Reading, Received, Receiver, Step};
pub use paper::{changed, draw, paint, picture, write_picture, Characters, Pixels, Printer, Region, SHEET};
pub use raw::{Byte, Edge, Mark, Speed, Timing};
pub use texts::{answer, bus, check, decode, edges, listing, pages, print_inputs, raw};
pub use texts::{Answer, As, Bounds, From, Listening, Mode, Paper, Present, Set, Settings};

use std::fmt;

/// Why a call does not do what it was asked for, or why a run stopped. It displays the library's words, as `line 3:
/// unknown word`.
#[derive(Clone, Debug, Default, PartialEq, Eq)]
pub struct Error {
    details: raw::Details,
    /// What comes before the fault of a recording; with `explain` the explanation.
    pub text: Vec<u8>,
    /// The edges before the fault, of [`edges`].
    pub edges: Vec<Edge>,
}

impl Error {
    /// The exit status of the program: 1 where a run stopped, 2 where a call refuses, 3 where there is no memory.
    pub fn status(&self) -> i32 {
        self.details.status
    }

    /// One of the numbers of [`fault`].
    pub fn fault(&self) -> i32 {
        self.details.fault
    }

    /// The statement, line, edge, input or setting that the fault names; else 0.
    pub fn place(&self) -> usize {
        self.details.place
    }

    /// The column of that line, from 1; else 0.
    pub fn column(&self) -> usize {
        self.details.column
    }
}

impl core::convert::From<raw::Details> for Error {
    fn from(details: raw::Details) -> Self {
        Error { details, ..Error::default() }
    }
}

impl fmt::Display for Error {
    fn fmt(&self, f: &mut fmt::Formatter<'_>) -> fmt::Result {
        f.write_str(&raw::message(&self.details))
    }
}

impl std::error::Error for Error {}

/// The version of the library.
pub fn version() -> &'static str {
    raw::version()
}

/// What a call gives that reports these details.
fn done<T>(made: T, details: raw::Details) -> Result<T, Error> {
    if details.status < 2 {
        Ok(made)
    } else {
        Err(details.into())
    }
}
