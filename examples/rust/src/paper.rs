//! Printers that are watched: the marks of each byte as it comes, and the pixels and pictures of the paper.

use crate::raw::{self, Mark};
use crate::{done, Error, Set, Settings};

/// The height of a sheet of 11 inches, in 1/126 inch.
pub const SHEET: u64 = 1386;

/// How many marks one call gives at most; a byte has no more than 255.
const MARKS: usize = 1024;

/// A printer that is watched. It keeps no marks: keep those that are to be drawn again. The default is one just begun.
#[derive(Clone, Copy, Debug, Default, PartialEq, Eq)]
pub struct Printer {
    kept: raw::Printer,
}

impl Printer {
    pub fn new() -> Printer {
        Printer::default()
    }

    /// The line's distance from the top, in 1/126 inch.
    pub fn y(&self) -> u64 {
        self.kept.y
    }

    /// The dot column to which the next mark goes.
    pub fn x(&self) -> u16 {
        self.kept.x
    }

    /// Selects a character set: the graphic/upper case one with each LISTEN, the lower/upper case one with secondary
    /// address 7 directly after it.
    pub fn select(&mut self, set: Set) {
        raw::printer_select(&mut self.kept, set as u8);
    }

    /// Prints bytes, and adds the marks that they make, in order.
    pub fn print(&mut self, mut bytes: &[u8], marks: &mut Vec<Mark>) {
        let mut made = [Mark::default(); MARKS];
        while !bytes.is_empty() {
            let (taken, length) = raw::printer_bytes(&mut self.kept, bytes, &mut made);
            marks.extend_from_slice(&made[..length]);
            bytes = &bytes[taken..];
        }
    }

    /// Feeds paper by hand, until the line is the first one of the next sheet.
    pub fn form_feed(&mut self) {
        raw::printer_form_feed(&mut self.kept);
    }

    /// Tears off the sheets above the line, and gives how many they are: the printer's `y` is smaller by [`SHEET`] for
    /// each, and so should be that of each mark that was kept of the rest.
    pub fn tear_off(&mut self) -> u64 {
        let mut sheets = 0;
        raw::printer_tear_off(&mut self.kept, &mut sheets);
        sheets
    }
}

/// How the pixels of a picture lie in memory, line by line.
#[derive(Clone, Copy, Debug, Default, PartialEq, Eq)]
pub enum Pixels {
    /// A byte each: 0 where a dot is, else 255.
    #[default]
    Gray = 0,
    /// Four bytes each: red, green, blue, and 255.
    Rgba = 1,
    /// A bit each, the highest of a byte first: 1 where a dot is.
    Bits = 2,
}

/// A region of the paper in pixels, 120 to the inch across and 126 down, so that a dot is two by two. The paper is 960
/// columns wide.
#[derive(Clone, Copy, Debug, Default, PartialEq, Eq)]
pub struct Region {
    pub x: u64,
    pub y: u64,
    pub width: usize,
    pub height: usize,
    /// How many bytes of memory from a line to the next one; 0 for no more than its pixels need.
    pub stride: usize,
    pub pixels: Pixels,
}

impl Region {
    fn raw(&self) -> raw::Region {
        let Region { x, y, width, height, stride, pixels } = *self;
        raw::Region { x, y, width, height, stride, pixels: pixels as u8 }
    }
}

/// The smallest region that has all pixels of some marks: what a window shows anew. Without a mark it has no width.
pub fn changed(marks: &[Mark], stride: usize, pixels: Pixels) -> Region {
    let mut made = Region { stride, pixels, ..Region::default() }.raw();
    raw::changed(marks, &mut made);
    let raw::Region { x, y, width, height, .. } = made;
    Region { x, y, width, height, stride, pixels }
}

/// The pixels of a region of the paper with some marks. The memory begins with the region's first pixel.
pub fn paint(marks: &[Mark], region: &Region, memory: &mut [u8]) -> Result<(), Error> {
    done((), raw::drawn(false, marks, &region.raw(), memory))
}

/// Draws marks over the pixels of a region: where a dot is they become black, all others stay as they were.
pub fn draw(marks: &[Mark], region: &Region, memory: &mut [u8]) -> Result<(), Error> {
    done((), raw::drawn(true, marks, &region.raw(), memory))
}

/// Gives a picture of the paper with marks, of which none is above the one before it, to a function, part after part.
/// It is SVG, PNG or PDF by `as_`. Where the function wants no more, the error is [`crate::fault::NOT_WRITTEN`].
pub fn write_picture(marks: &[Mark], settings: &Settings, mut write: impl FnMut(&[u8]) -> bool) -> Result<(), Error> {
    done((), raw::picture(marks, &settings.chosen(), &mut write))
}

/// A picture of the paper with marks.
pub fn picture(marks: &[Mark], settings: &Settings) -> Result<Vec<u8>, Error> {
    let mut made = Vec::new();
    write_picture(marks, settings, |part| {
        made.extend_from_slice(part);
        true
    })?;
    Ok(made)
}

/// The most columns of dots that draw a mark.
const DOTS: usize = 12;

/// The characters of a file, or the project's own where it is empty.
#[derive(Clone, Debug, PartialEq, Eq)]
pub struct Characters {
    kept: raw::Characters,
}

impl Characters {
    pub fn new(file: &[u8]) -> Result<Characters, Error> {
        let mut kept = [0; 1536];
        let details = raw::characters_read(file, &mut kept);
        done(Characters { kept }, details)
    }

    /// Adds the columns of dots that draw a mark, for [`draw`], [`paint`] and [`changed`] in its place.
    pub fn dots(&self, mark: &Mark, dots: &mut Vec<Mark>) {
        let mut made = [Mark::default(); DOTS];
        let length = raw::characters_dots(&self.kept, mark, &mut made);
        dots.extend_from_slice(&made[..length]);
    }
}
