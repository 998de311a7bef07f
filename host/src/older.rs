//! Request d) of paper 02 in plain Rust: the older units' S1D13706. It has a smaller memory, a
//! register for each byte, and no blits.

use crate::answers::{Compiled, Point, Settings, Values};
use crate::reference::{count, put_record, read_line_in, read_point_in, Screen};

/// Bytes of the display memory.
pub const MEMORY: usize = 81_920;

/// Registers, a byte each.
pub const REGISTERS: usize = 18;

/// Bytes of the stream.
pub const STREAM: usize = 8 * REGISTERS;

/// The numbers that the registers hold, each by its first register and how many it has, the lowest
/// byte first: main start, main offset, window start, window offset, X start, Y start, X end, Y end.
const NUMBERS: [(u32, usize); 8] =
    [(0x74, 3), (0x78, 2), (0x7C, 3), (0x80, 2), (0x84, 2), (0x88, 2), (0x8C, 2), (0x90, 2)];

/// Compiles a screen into the front of the stream buffer; a list is refused, and so are host words.
pub fn compile(
    form: u32,
    screen: &[u8],
    list: &[u8],
    words: &[u16],
    stream: &mut [u8],
) -> Compiled {
    match plan(form, screen, list, words.len(), stream.len()) {
        Ok(screen) => {
            write(screen.values(), stream);
            screen.accepted(STREAM)
        }
        Err(number) => Compiled { number, ..Compiled::default() },
    }
}

/// The screen, or refusal 1 to 11, 16, 17 or 26.
fn plan(form: u32, screen: &[u8], list: &[u8], words: usize, room: usize) -> Result<Screen, u32> {
    let screen = Screen::read(screen, MEMORY)?;
    if count(form, list)? > 0 {
        return Err(11);
    }
    if words > 0 {
        return Err(16);
    }
    if room < STREAM {
        return Err(17);
    }
    Ok(screen)
}

/// Writes the six values, a record for each register, to the front of a buffer that holds them.
fn write([main, main_offset, window, window_offset, x, y]: [u32; 6], stream: &mut [u8]) {
    let (start, end) = (|edges: u32| edges & 0xFFFF, |edges: u32| edges >> 16);
    let values = [main, main_offset, window, window_offset, start(x), start(y), end(x), end(y)];
    let mut records = stream.chunks_exact_mut(8);
    for ((first, length), value) in NUMBERS.into_iter().zip(values) {
        for (register, byte) in (first..).zip(&value.to_le_bytes()[..length]) {
            put_record(records.next().unwrap(), register, (*byte).into());
        }
    }
}

/// The six values that the registers' bytes, in rising register number, make.
pub fn values(bytes: &[u8; REGISTERS]) -> Values {
    let mut rest = &bytes[..];
    let [main, main_offset, window, window_offset, x_start, y_start, x_end, y_end] =
        NUMBERS.map(|(_, length)| {
            let (number, others) = rest.split_at(length);
            rest = others;
            number.iter().rev().fold(0, |value, &byte| 256 * value + u32::from(byte))
        });
    let edges = |start: u32, end: u32| start + 65_536 * end;
    let (x, y) = (edges(x_start, x_end), edges(y_start, y_end));
    Values { values: [main, main_offset, window, window_offset, x, y] }
}

/// The colour that a panel point shows, and where it stands.
pub fn read_point(screen: &Settings, p: u32, q: u32, memory: &[u8]) -> Point {
    read_point_in(MEMORY, screen, p, q, memory)
}

/// Fills a line with the colours that panel line q shows, one for each column; gives 0 or the refusal.
pub fn read_line(screen: &Settings, q: u32, memory: &[u8], line: &mut [u16]) -> u32 {
    read_line_in(MEMORY, screen, q, memory, line)
}
