//! What the functions give back, laid out as include/s1d.h says.

#[repr(C)]
#[derive(Clone, Copy, Debug, Default, PartialEq, Eq)]
pub struct Compiled {
    pub number: u32,
    pub place: u64,
    pub length: u64,
    pub depth: u32,
    pub rotation: u32,
    pub flag: u32,
    pub part_at: u64,
    pub part_length: u64,
}

#[repr(C)]
#[derive(Clone, Copy, Debug, Default, PartialEq, Eq)]
pub struct Played {
    pub number: u32,
    pub place: u64,
    pub values: [u32; 6],
}

/// A command list that was turned into its other form.
#[repr(C)]
#[derive(Clone, Copy, Debug, Default, PartialEq, Eq)]
pub struct List {
    pub number: u32,
    /// In bytes.
    pub length: u64,
}

/// The state of a player that is fed in blocks. Any numbers are a state.
#[repr(C)]
#[derive(Clone, Copy, Debug, Default, PartialEq, Eq)]
pub struct Player {
    /// Registers as last written, in rising number: the header's `values`, then its `blit`.
    pub registers: [u32; 15],
    /// Not 0: a data word is due, and these are its line and its index in the line.
    pub due: u32,
    pub line: u16,
    pub word: u16,
    /// The bytes of the half-read record, and how many they are; above 7 means 7.
    pub half: [u8; 7],
    pub held: u8,
    /// Records taken, up to 2^64 - 1.
    pub count: u64,
    /// Not 0: an answer is kept, and these are its number and place.
    pub kept: u32,
    pub number: u32,
    pub place: u64,
}

#[repr(C)]
#[derive(Clone, Copy, Debug, Default, PartialEq, Eq)]
pub struct Values {
    pub values: [u32; 6],
}

#[repr(C)]
#[derive(Clone, Copy, Debug, Default, PartialEq, Eq)]
pub struct Point {
    pub number: u32,
    pub colour: u32,
    /// The byte that the pixel stands in, at depth 16 its low byte.
    pub address: u32,
    /// The place of its highest bit there.
    pub bit: u32,
}

#[repr(C)]
#[derive(Clone, Copy, Debug, Default, PartialEq, Eq)]
pub struct Drawn {
    pub number: u32,
    pub place: u64,
    pub length: u64,
    pub values: [u32; 6],
}

/// What the point reader is told of the screen.
#[derive(Clone, Copy, Debug, PartialEq, Eq)]
pub struct Settings {
    pub depth: u32,
    pub rotation: u32,
    pub flag: u32,
    pub width: u32,
    pub height: u32,
    pub values: [u32; 6],
}

/// What an hour of the ring holds; blank, `sampled` and `height` are 0.
#[repr(C)]
#[derive(Clone, Copy, Debug, Default, PartialEq, Eq)]
pub struct Hour {
    pub number: u32,
    pub sampled: u32,
    pub height: u32,
}

#[repr(C)]
#[derive(Clone, Copy, Debug, Default, PartialEq, Eq)]
pub struct Strip {
    pub number: u32,
    /// In bytes.
    pub list_length: u64,
    /// In words.
    pub words_length: u64,
}

/// A digit's glyph: the part of the site font (1) or of the factory font (0) that it is.
#[repr(C)]
#[derive(Clone, Copy, Debug, Default, PartialEq, Eq)]
pub struct Glyph {
    pub number: u32,
    pub site: u32,
    pub at: u64,
    pub length: u64,
}

/// What a strip is asked for, besides the ring and the fonts.
#[derive(Clone, Copy, Debug, PartialEq, Eq)]
pub struct Form {
    pub hours: u32,
    pub depth: u32,
    /// The upper left corner.
    pub x: u16,
    pub y: u16,
    /// A column's width.
    pub column: u32,
    pub bar: u16,
    pub background: u16,
}
