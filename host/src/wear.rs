//! Request f) of paper 02 in plain Rust: the ring of hourly samples, the strip that shows the last of
//! them, and the glyphs of its number.
//!
//! `take_sample`, `hour_at` and `wear_strip` are not inlined, so that timing them beside the library is
//! fair.

use crate::answers::{Form, Glyph, Hour, Strip};

/// Hours of the ring.
pub const HOURS: usize = 512;

/// Lines of a column; a sample is at most as high.
const LINES: u32 = 100;

/// Most hours of a strip.
const MOST_HOURS: usize = 24;

/// Most digits of a sequence number.
const MOST_DIGITS: usize = 5;

/// Bytes of a glyph, a byte for each of its lines, and of a whole font.
const GLYPH: usize = 8;
const FONT: usize = 10 * GLYPH;

/// Bytes of a command.
const COMMAND: usize = 32;

// ---- The ring ----

/// No height: an hour without a sample.
const BLANK: u8 = 255;

/// The last hours, in the order of their age.
#[derive(Clone, Debug, PartialEq, Eq)]
pub struct Ring {
    newest: Option<u16>,
    /// Heights, or blank. The newest hour's is at `front`, and older ones follow, on from the end to
    /// the start.
    hours: [u8; HOURS],
    front: usize,
}

pub fn new_ring() -> Ring {
    Ring { newest: None, hours: [BLANK; HOURS], front: 0 }
}

impl Ring {
    /// The height of an age below 512, or blank.
    fn height(&self, age: usize) -> u8 {
        self.hours[(self.front + age) % HOURS]
    }
}

/// The newest sample's number.
pub fn newest(ring: &Ring) -> Option<u16> {
    ring.newest
}

/// Takes a sample, the first or 1 to 512 steps ahead; or refusal 27.
#[inline(never)]
pub fn take_sample(ring: &mut Ring, sequence: u16, height: u32) -> u32 {
    let steps = match ring.newest {
        Some(newest) => sequence.wrapping_sub(newest).into(),
        None => 1,
    };
    if !(1..=HOURS).contains(&steps) || height > LINES {
        return 27;
    }
    // The hours that are skipped take the oldest ones' places.
    let (old, new) = (ring.front, (ring.front + HOURS - steps) % HOURS);
    match steps {
        1 => {}
        _ if new < old => ring.hours[new + 1..old].fill(BLANK),
        _ => {
            ring.hours[..old].fill(BLANK);
            ring.hours[new + 1..].fill(BLANK);
        }
    }
    ring.hours[new] = height as u8;
    (ring.front, ring.newest) = (new, Some(sequence));
    0
}

/// The hour of an age, 0 being the newest; or refusal 27.
#[inline(never)]
pub fn hour_at(ring: &Ring, age: u32) -> Hour {
    if age >= HOURS as u32 {
        return Hour { number: 27, ..Hour::default() };
    }
    match ring.height(age as usize) {
        BLANK => Hour::default(),
        height => Hour { number: 0, sampled: 1, height: height.into() },
    }
}

// ---- The strip ----

/// A digit's glyph: the site's where that font has it whole, else the factory's; or refusal 27.
pub fn find_glyph(site: &[u8], factory: &[u8], digit: u32) -> Glyph {
    if factory.len() < FONT || digit > 9 {
        return Glyph { number: 27, ..Glyph::default() };
    }
    let at = GLYPH * digit as usize;
    let in_site = at + GLYPH <= site.len();
    Glyph { number: 0, site: in_site.into(), at: at as u64, length: GLYPH as u64 }
}

/// Host words of a digit.
fn glyph_words(depth: u32) -> usize {
    GLYPH * (GLYPH * depth as usize / 16)
}

/// What a strip shows.
struct Plan {
    /// Bars' heights, from the left; 0 for none.
    bars: [u32; MOST_HOURS],
    digits: [usize; MOST_DIGITS],
    digit_count: usize,
    list_length: usize,
    words_length: usize,
}

/// The digits of a number from the left, without leading zeros, and how many they are.
fn digits_of(mut number: u16) -> ([usize; MOST_DIGITS], usize) {
    let mut digits = [0; MOST_DIGITS];
    for digit in digits.iter_mut().rev() {
        *digit = usize::from(number % 10);
        number /= 10;
    }
    let zeros = digits[..MOST_DIGITS - 1].iter().take_while(|&&digit| digit == 0).count();
    digits.rotate_left(zeros);
    (digits, MOST_DIGITS - zeros)
}

/// The plan of a strip, or refusal 2, 11, 12, 17 or 27.
fn plan(
    ring: &Ring,
    form: &Form,
    factory: usize,
    list_room: usize,
    words_room: usize,
) -> Result<Plan, u32> {
    let &Form { hours, depth, x, y, column, bar, background } = form;
    if !matches!(depth, 1 | 2 | 4 | 8 | 16) {
        return Err(2);
    }
    if depth < 8 {
        return Err(11);
    }
    if depth == 8 && (bar > 255 || background > 255) {
        return Err(12);
    }
    if !(1..=MOST_HOURS as u32).contains(&hours) || !(1..=16).contains(&column) || factory < FONT {
        return Err(27);
    }

    let mut bars = [0; MOST_HOURS];
    let (mut bar_count, mut least) = (0, LINES);
    for (bar, age) in bars.iter_mut().zip((0..hours as usize).rev()) {
        let height = ring.height(age);
        if height != BLANK && height != 0 {
            *bar = height.into();
            bar_count += 1;
            least = least.min(*bar);
        }
    }
    let (digits, digit_count) = ring.newest.map_or(([0; MOST_DIGITS], 0), digits_of);
    // A bar's upper line, the last column, the last digit.
    let far = |at: u16, further: u32| u32::from(at) + further > 0xFFFF;
    if far(y, LINES - least)
        || far(x, (hours - 1) * column)
        || digit_count > 0 && (far(x, 8 * (digit_count as u32 - 1)) || far(y, LINES))
    {
        return Err(27);
    }

    let list_length = COMMAND * (hours as usize + bar_count + digit_count);
    let words_length = digit_count * glyph_words(depth);
    if list_room < list_length || words_room < words_length {
        return Err(17);
    }
    Ok(Plan { bars, digits, digit_count, list_length, words_length })
}

/// Puts a command on main into its 32 bytes.
fn put_command(part: &mut [u8], operation: u64, code: u64, place: [u32; 4], colour: u16) {
    let [x, y, width, height] = place.map(u64::from);
    let eights =
        [operation | code << 16 | x << 32 | y << 48, width | height << 16, colour.into(), 0];
    for (bytes, eight) in part.chunks_exact_mut(8).zip(eights) {
        bytes.copy_from_slice(&eight.to_le_bytes());
    }
}

impl Plan {
    /// Writes commands and words to the front of buffers that hold them.
    fn write(&self, form: &Form, site: &[u8], factory: &[u8], list: &mut [u8], words: &mut [u16]) {
        let &Form { hours, depth, column, bar, background, .. } = form;
        let (x, y) = (u32::from(form.x), u32::from(form.y));
        let mut parts = list.chunks_exact_mut(COMMAND);
        let mut put = |operation: u64, code: u64, place: [u32; 4], colour: u16| {
            put_command(parts.next().unwrap(), operation, code, place, colour);
        };
        for (i, &height) in (0..hours).zip(&self.bars) {
            let x = x + i * column;
            put(0, 0, [x, y, column, LINES], background);
            if height > 0 {
                put(0, 0, [x, y + LINES - height, column, height], bar);
            }
        }
        let digits = &self.digits[..self.digit_count];
        for (i, (&digit, words)) in
            (0..).zip(digits.iter().zip(words.chunks_exact_mut(glyph_words(depth))))
        {
            put(2, 0xC, [x + 8 * i, y + LINES, 8, 8], 0);
            let at = GLYPH * digit;
            let glyph = site.get(at..at + GLYPH).unwrap_or(&factory[at..at + GLYPH]);
            put_glyph(glyph, depth, [background, bar], words);
        }
    }
}

/// Puts a glyph's pixels into its words; the colours are those of a 0 and of a 1.
fn put_glyph(glyph: &[u8], depth: u32, colours: [u16; 2], words: &mut [u16]) {
    let [zero, one] = colours;
    if depth == 16 {
        for (line, byte) in words.chunks_exact_mut(8).zip(glyph) {
            for (i, word) in line.iter_mut().enumerate() {
                *word = colours[usize::from(byte >> (7 - i) & 1)];
            }
        }
    } else {
        // Two pixels, the left one in the low byte.
        let pairs = [zero | zero << 8, zero | one << 8, one | zero << 8, one | one << 8];
        for (line, byte) in words.chunks_exact_mut(4).zip(glyph) {
            for (i, word) in line.iter_mut().enumerate() {
                *word = pairs[usize::from(byte >> (6 - 2 * i) & 3)];
            }
        }
    }
}

/// Makes the commands and host words of a strip, at the front of their buffers.
#[inline(never)]
pub fn wear_strip(
    ring: &Ring,
    form: &Form,
    site: &[u8],
    factory: &[u8],
    list: &mut [u8],
    words: &mut [u16],
) -> Strip {
    match plan(ring, form, factory.len(), list.len(), words.len()) {
        Ok(plan) => {
            plan.write(form, site, factory, list, words);
            let (list_length, words_length) = (plan.list_length as u64, plan.words_length as u64);
            Strip { number: 0, list_length, words_length }
        }
        Err(number) => Strip { number, ..Strip::default() },
    }
}
