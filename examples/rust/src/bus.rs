//! The serial bus: devices that answer, and what any bus says, edge by edge. Times are microseconds.

use crate::raw::{self, Byte, Details, Edge, Speed, Timing};
use crate::{done, Error};

/// What comes to a device.
#[derive(Clone, Copy, Debug, PartialEq, Eq)]
pub enum Received {
    /// A data byte while the device listens, and whether it is the last of its sender (end-or-identify).
    Byte {
        byte: u8,
        is_last: bool,
    },
    /// The number of a secondary address directly after LISTEN.
    Select(u8),
    Listen,
    Unlisten,
    /// The secondary addresses of OPEN and CLOSE, which only a [`Device`] hears.
    Open(u8),
    Close(u8),
}

fn received(made: raw::Received) -> Option<Received> {
    let byte = made.byte;
    Some(match made.kind {
        1 => Received::Byte { byte, is_last: made.eoi == 1 },
        2 => Received::Select(byte),
        3 => Received::Listen,
        4 => Received::Unlisten,
        5 => Received::Open(byte),
        6 => Received::Close(byte),
        _ => return None,
    })
}

/// What a device does to DATA from a moment on, and what it hears then.
#[derive(Clone, Copy, Debug, PartialEq, Eq)]
pub struct Step {
    pub pulls_data: bool,
    /// When to show it the lines again, if none changes before.
    pub wake: Option<u64>,
    pub heard: Option<Received>,
}

/// A device on the bus that hears and answers.
#[derive(Clone, Copy, Debug, PartialEq, Eq)]
pub struct Device {
    kept: raw::Device,
}

impl Device {
    /// A device of 4 to 30, to which no moment was shown.
    pub fn new(address: u8, timing: &Timing) -> Result<Device, Error> {
        let mut kept = [0; 8];
        let details = raw::device_begin(&mut kept, address, timing);
        done(Device { kept }, details)
    }

    /// The device whose state was kept.
    pub fn from_state(state: [u64; 8]) -> Device {
        Device { kept: state }
    }

    /// All that the library keeps of the device.
    pub fn state(&self) -> [u64; 8] {
        self.kept
    }

    /// Shows the device the lines at a moment: whenever one changes, and at each wake. DATA is pulled as long as
    /// anybody pulls it, this device too.
    pub fn step(&mut self, lines: Edge) -> Result<Step, Error> {
        let mut made = raw::Step::default();
        let details = raw::device_step(&mut self.kept, &lines, &mut made);
        let wake = Some(made.wake).filter(|&it| it != u64::MAX);
        done(Step { pulls_data: made.pulls_data == 1, wake, heard: received(made.heard) }, details)
    }

    /// Lets the device print until a moment: it holds DATA before the next byte, and the talker waits.
    pub fn busy(&mut self, until: u64) {
        raw::device_busy(&mut self.kept, until);
    }
}

/// How a whole byte ended, or what ended an incomplete one.
#[derive(Clone, Copy, Debug, PartialEq, Eq)]
pub enum Kind {
    Acknowledged,
    Unacknowledged,
    Last,
    IncompleteAtn,
    IncompleteSilence,
    IncompleteEnd,
}

/// What a recording says at one place. It ended at `end`, which is 0 where the recording ends before.
#[derive(Clone, Copy, Debug, PartialEq, Eq)]
pub struct Reading {
    pub byte: Byte,
    pub end: u64,
    pub kind: Kind,
}

fn reading(made: raw::Reading) -> Option<Reading> {
    let kind = match made.kind {
        1 => Kind::Acknowledged,
        2 => Kind::Unacknowledged,
        3 => Kind::Last,
        4 => Kind::IncompleteAtn,
        5 => Kind::IncompleteSilence,
        6 => Kind::IncompleteEnd,
        _ => return None,
    };
    Some(Reading { byte: made.byte, end: made.end, kind })
}

/// What any recording of the bus says, edge by edge, wherever it begins. The default is a decoder just begun.
#[derive(Clone, Copy, Debug, Default, PartialEq, Eq)]
pub struct Decoder {
    kept: raw::Decoder,
}

impl Decoder {
    pub fn new() -> Decoder {
        Decoder::default()
    }

    /// The decoder whose state was kept.
    pub fn from_state(state: [u64; 24]) -> Decoder {
        Decoder { kept: state }
    }

    pub fn state(&self) -> [u64; 24] {
        self.kept
    }

    /// Takes the next edge, and gives the reading that it settles, if it settles one.
    pub fn edge(&mut self, edge: Edge) -> Result<Option<Reading>, Error> {
        let mut made = raw::Reading::default();
        let details = raw::decoder_edge(&mut self.kept, &edge, &mut made);
        done(reading(made), details)
    }

    /// The reading that the end of the recording cuts, if it cuts one. More edges may follow.
    pub fn end(&self) -> Option<Reading> {
        let mut made = raw::Reading::default();
        raw::decoder_end(&self.kept, &mut made);
        reading(made)
    }
}

/// What comes to a device on any bus, edge by edge. It drives no line.
#[derive(Clone, Copy, Debug, PartialEq, Eq)]
pub struct Receiver {
    kept: raw::Receiver,
}

impl Receiver {
    /// A receiver of a device of 4 to 30, before its first edge.
    pub fn new(device: u8) -> Result<Receiver, Error> {
        let mut kept = [0; 25];
        let details: Details = raw::receiver_begin(&mut kept, device);
        done(Receiver { kept }, details)
    }

    /// The receiver whose state was kept.
    pub fn from_state(state: [u64; 25]) -> Receiver {
        Receiver { kept: state }
    }

    pub fn state(&self) -> [u64; 25] {
        self.kept
    }

    /// Takes the next edge, and gives what comes to the device with it, if anything does.
    pub fn edge(&mut self, edge: Edge) -> Result<Option<Received>, Error> {
        let mut made = raw::Received::default();
        let details = raw::receiver_edge(&mut self.kept, &edge, &mut made);
        done(received(made), details)
    }
}

/// How long a printer takes for columns of dots from the left edge, blank ones too, and line feeds.
pub fn printing_time(columns: u32, feeds: u16, speed: &Speed) -> u64 {
    raw::printing_time(columns, feeds, speed)
}
