//! Records that playing takes, played as papers 01 and 02 word it: pixels one by one, line by line, in the
//! direction named. And a panel line as request i) of paper 02 words it: point by point.

use std::collections::HashMap;

use crate::answers::Point;

/// What a blit was.
#[derive(Clone, Copy, Debug)]
pub struct Blit {
    pub operation: i64,
    /// Bytes of a pixel.
    pub pixel: usize,
    /// Pixels that the key colour kept, and all others.
    pub kept: u64,
    pub stored: u64,
    /// Whether it changed what it is drawn from: a pixel before it was read, or the pattern.
    pub changed: bool,
}

/// Plays records that playing takes, over a memory of 262,144 bytes. The last write may have words
/// due. Gives the blits that were drawn to their end.
pub fn play(stream: &[u8], memory: &mut [u8]) -> Vec<Blit> {
    let mut registers: HashMap<u32, i64> = HashMap::new();
    let mut blits = Vec::new();
    let mut records = stream.chunks(8).map(|record| {
        let half = |at: usize| u32::from_le_bytes(record[at..at + 4].try_into().unwrap());
        (half(0), half(4))
    });
    while let Some((number, value)) = records.next() {
        registers.insert(number, value.into());
        if number != 0x8000 || value % 2 == 0 {
            continue;
        }
        let register = |number: u32| registers.get(&number).copied().unwrap_or(0);
        let pixel = if value >= 0x4_0000 { 2 } else { 1 };
        let (operation, code) = (register(0x8008) % 16, (register(0x8008) / 65_536) as u8);
        let (source, destination) = (register(0x800C), register(0x8010));
        let stride = 2 * register(0x8014);
        let (width, height) = (register(0x8018) + 1, register(0x801C) + 1);
        let (key, colour) = (register(0x8020).to_le_bytes(), register(0x8024).to_le_bytes());
        let direction = if operation == 3 { -1 } else { 1 };
        // 002's table 9-4: the pattern's address, then three bits of its line and the pixel's in the line.
        let (line, column) = (source / (8 * pixel) % 8, source / pixel % 8);
        let base = (source - source % (64 * pixel)) as usize;
        let before = match operation {
            5..=7 => memory.to_vec(),
            _ => Vec::new(),
        };
        let mut blit =
            Blit { operation, pixel: pixel as usize, kept: 0, stored: 0, changed: false };
        for j in 0..height {
            let mut word = [0; 2];
            for i in 0..width {
                // A word has one pixel at depth 16, two at 8.
                if operation == 0 && (pixel == 2 || i % 2 == 0) {
                    let Some((_, data)) = records.next() else { return blits };
                    word = (data as u16).to_le_bytes();
                }
                let away = direction * (j * stride + i * pixel);
                let to = (destination + away) as usize;
                let from = (source + away) as usize;
                let hatch = 8 * ((line + j) % 8) + (column + i) % 8;
                let s: Vec<u8> = (0..pixel as usize)
                    .map(|b| match operation {
                        12 => colour[b],
                        0 => word[(i * pixel) as usize % 2 + b],
                        6 | 7 => before[base + pixel as usize * hatch as usize + b],
                        _ => memory[from + b],
                    })
                    .collect();
                blit.changed |= operation == 5 && s != before[from..from + blit.pixel];
                if matches!(operation, 5 | 7) && s == key[..blit.pixel] {
                    blit.kept += 1;
                    continue;
                }
                blit.stored += 1;
                for (b, s) in s.into_iter().enumerate() {
                    memory[to + b] = match operation {
                        5 | 7 | 12 => s,
                        _ => combined(code, s, memory[to + b]),
                    };
                }
            }
        }
        let pattern = base..base + 64 * blit.pixel;
        blit.changed |=
            matches!(operation, 6 | 7) && memory[pattern.clone()] != before[pattern.clone()];
        blits.push(blit);
    }
    blits
}

/// Each bit of the result is bit 2s + d of the code.
fn combined(code: u8, s: u8, d: u8) -> u8 {
    let when = |bit: u8, pattern: u8| if code >> bit & 1 == 1 { pattern } else { 0 };
    when(3, s & d) | when(2, s & !d) | when(1, !s & d) | when(0, !s & !d)
}

/// The colours of a panel line, for a line buffer of so many, by a point reader that is given the column; or
/// the number of the leftmost refused point, or 17. A panel of width 0 is asked for column 0.
pub fn line(width: u32, room: usize, read: impl Fn(u32) -> Point) -> Result<Vec<u16>, u32> {
    let mut colours = Vec::new();
    for p in 0..width.max(1) {
        match read(p) {
            Point { number: 0, colour, .. } => colours.push(colour.try_into().unwrap()),
            Point { number, .. } => return Err(number),
        }
    }
    if room != colours.len() {
        return Err(17);
    }
    Ok(colours)
}
