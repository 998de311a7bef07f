//! Paper 01 three times over, with the line lengths of paper 02's request c), the places of its request
//! e), the two forms of a list of its request g), the operations of its request h) and the panel lines of its
//! request i), and the proved library beside it.
//!
//! - `reference`: compiling, playing, the point reader and panel lines, written for speed; what the library is
//!   compared with and timed against.
//! - `serial`: playing in blocks, request a) of paper 02, to the same ends.
//! - `older`: the older chip, request d): compiling, its values, the point reader and panel lines; not timed.
//! - `wear`: the ring of samples and the strip, request f), to the same ends as `reference`.
//! - `chart`: the same from the list of accepted samples, command by command and pixel by pixel.
//! - `forms`: turning a list into its other form, request g), to the same ends as `reference`.
//! - `records`: the same record by record and field by field, and what a list in either form compiles to,
//!   told by short ones, by the fields of the long form's own operations and by the bytes that they share.
//! - `sheet`: the plain sheet, pixel by pixel from the commands, with no register or direction.
//! - `literal`: an accepted stream played one pixel at a time, in the direction named; and a panel line read
//!   one point at a time.
//! - `unit`: the library, where build.rs found it.

// Divisions and remainders stand as the paper has them.
#![allow(clippy::manual_is_multiple_of, clippy::manual_div_ceil)]

pub mod answers;
pub mod chart;
pub mod forms;
pub mod inputs;
pub mod literal;
pub mod older;
pub mod records;
pub mod reference;
pub mod serial;
pub mod sheet;
#[cfg(unit)]
pub mod unit;
pub mod wear;
/// Stands in where the library is not there: the reference against itself.
#[cfg(not(unit))]
pub mod unit {
    pub use crate::forms::{to_long, to_short};
    pub use crate::older;
    pub use crate::reference::{compile, draw, play, read_line, read_point};
    pub use crate::serial::{end, feed, new_player};
    pub use crate::wear::{find_glyph, hour_at, new_ring, newest, take_sample, wear_strip, Ring};

    /// The library's ring may hold any numbers; the reference's may not.
    pub fn ring_of(_: &[u16; 1026]) -> Ring {
        new_ring()
    }
}

/// Whether the library is linked.
pub const LINKED: bool = cfg!(unit);
