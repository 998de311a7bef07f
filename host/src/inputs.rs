//! Random inputs, from a seed: records, lists in both forms, words, streams, players, points, panel lines,
//! samples and strips, whole and damaged.

use crate::answers::{Form, Player, Settings};
use crate::chart::Told;

/// Bytes of the display memory, and of the older chip's.
const MEMORY: u64 = 262_144;
const OLDER_MEMORY: u64 = 81_920;

/// Bytes of the older chip's stream.
const OLDER_STREAM: u64 = 144;

/// Numbers at the limit of a field, or just past it.
const LIMITS: [u64; 9] =
    [1024, 1025, 1032, OLDER_MEMORY, MEMORY, 0xFFFF, 0x8000, 0xFFFF_FFFC, 0xFFFF_FFFF];

/// Most dwords of a line.
const MOST_LINE: u64 = 1023;

/// Most host words of a list that is made here.
const MOST_WORDS: u64 = 200_000;

/// The bytes of pictures that a key colour is to be found in.
pub const POOR: [u8; 2] = [0, 0x5A];

/// Longest stream buffer of a list that is made here.
pub const MOST_ROOM: usize = 48 + 72 * 64 + 8 * MOST_WORDS as usize + 100;

/// xorshift64*, begun by splitmix64.
pub struct Rng(u64);

impl Rng {
    /// The generator of input number `index`: each input is made from itself alone.
    pub fn new(seed: u64, index: u64) -> Rng {
        let mut z = seed.wrapping_mul(0xD134_2543_DE82_EF95) ^ index;
        z = z.wrapping_add(0x9E37_79B9_7F4A_7C15);
        z = (z ^ z >> 30).wrapping_mul(0xBF58_476D_1CE4_E5B9);
        z = (z ^ z >> 27).wrapping_mul(0x94D0_49BB_1331_11EB);
        Rng((z ^ z >> 31).max(1))
    }

    pub fn any(&mut self) -> u64 {
        self.0 ^= self.0 >> 12;
        self.0 ^= self.0 << 25;
        self.0 ^= self.0 >> 27;
        self.0.wrapping_mul(0x2545_F491_4F6C_DD1D)
    }

    /// 0 to n - 1.
    pub fn below(&mut self, n: u64) -> u64 {
        ((u128::from(self.any()) * u128::from(n)) >> 64) as u64
    }

    pub fn between(&mut self, low: u64, high: u64) -> u64 {
        low + self.below(high - low + 1)
    }

    pub fn one_in(&mut self, n: u64) -> bool {
        self.below(n) == 0
    }

    pub fn pick<T: Copy>(&mut self, from: &[T]) -> T {
        from[self.below(from.len() as u64) as usize]
    }

    /// 1 to `most`, often small or `most` itself.
    fn size(&mut self, most: u64) -> u64 {
        match self.below(8) {
            0 => 1,
            1 => most,
            2 | 3 => self.between(1, most),
            _ => self.between(1, most.min(12)),
        }
    }

    /// 0 to `most`, often either end.
    fn offset(&mut self, most: u64) -> u64 {
        match self.below(4) {
            0 => 0,
            1 => most,
            _ => self.between(0, most),
        }
    }

    pub fn words(&mut self, count: u64) -> Vec<u16> {
        (0..count).map(|_| self.any() as u16).collect()
    }

    /// A number near another one, or at a limit.
    fn near(&mut self, old: u64) -> u64 {
        let step = self.pick(&[1, 1, 1, 2, 4, 8, 16, 32]);
        match self.below(10) {
            0 => 0,
            1 => 1,
            2 | 3 => old.wrapping_sub(step),
            4 | 5 => old.wrapping_add(step),
            6 => self.pick(&LIMITS),
            // The longest line in pixels, and a dword more, at some depth.
            7 => self.pick(&[MOST_LINE, MOST_LINE + 1]) * self.pick(&[32, 16, 8, 4, 2]),
            8 => old ^ 1 << self.below(32),
            _ => self.any(),
        }
    }
}

fn field(bytes: &[u8], at: usize, size: usize) -> u64 {
    (0..size).map(|i| u64::from(bytes[at + i]) << (8 * i)).sum()
}

fn set(bytes: &mut [u8], at: usize, size: usize, value: u64) {
    bytes[at..at + size].copy_from_slice(&value.to_le_bytes()[..size]);
}

/// Places a number near its old value into one of the fields (place, size).
fn nudge(rng: &mut Rng, bytes: &mut [u8], fields: &[(usize, usize)]) {
    let (at, size) = rng.pick(fields);
    let value = rng.near(field(bytes, at, size));
    set(bytes, at, size, value);
}

const SCREEN_FIELDS: [(usize, usize); 13] = [
    (0, 1),
    (1, 1),
    (2, 1),
    (4, 2),
    (6, 2),
    (8, 4),
    (12, 4),
    (16, 2),
    (18, 2),
    (20, 2),
    (22, 2),
    (24, 2),
    (26, 2),
];
const COMMAND_FIELDS: [(usize, usize); 10] =
    [(0, 1), (1, 1), (2, 1), (4, 2), (6, 2), (8, 2), (10, 2), (12, 2), (14, 2), (16, 2)];
/// Those of a long record past byte 31.
const FURTHER_FIELDS: [(usize, usize); 4] = [(32, 2), (34, 1), (35, 1), (36, 4)];

/// Numbers that are no form of a list, and must be seen.
pub const NO_FORMS: [u32; 7] = [0, 31, 33, 47, 49, 96, u32::MAX];

/// What compiling is given; `form` is the list's, mostly 32 or 48, `room` the stream buffer's length.
pub struct Drawing {
    pub form: u32,
    pub screen: Vec<u8>,
    pub list: Vec<u8>,
    pub words: Vec<u16>,
    pub room: usize,
}

/// An image in memory, counted in dwords.
#[derive(Clone, Copy)]
struct Image {
    base: u64,
    /// What a line shows, and its length.
    shown: u64,
    line: u64,
    lines: u64,
    /// Whether the record names the length.
    named: bool,
}

/// An image that fits into a memory. Its length is often not named, and otherwise often the least, a
/// dword more or the greatest.
fn image(rng: &mut Rng, memory: u64, shown: u64, lines: u64) -> Image {
    let left = memory / 4 - shown;
    let most = left.checked_div(lines - 1).unwrap_or(MOST_LINE).min(MOST_LINE);
    let named = rng.one_in(2);
    let line = match rng.below(5) {
        _ if !named => shown,
        0 => shown,
        1 => most.min(shown + 1),
        2 => most,
        _ => rng.between(shown, most),
    };
    Image { base: rng.offset(left - (lines - 1) * line), shown, line, lines, named }
}

impl Image {
    /// An image like the other one in this one's gap, right of its shown part, so that they share no
    /// byte; smaller where it has to be to fit into the memory. Nothing where there is no gap.
    fn gap(&self, rng: &mut Rng, memory: u64, other: &Image) -> Option<Image> {
        let gap = self.line - self.shown;
        let shown = other.shown.min(gap);
        let first = self.base + self.shown + rng.offset(gap - shown);
        let left = (memory / 4).checked_sub(first + shown)?;
        let lines = other.lines.min(left / self.line + 1);
        let base = first + self.line * rng.offset(left / self.line + 1 - lines);
        (shown > 0).then_some(Image { base, shown, line: self.line, lines, named: true })
    }

    /// Puts base and length into a record, `k` pixels a dword.
    fn put(&self, record: &mut [u8], base_at: usize, length_at: usize, k: u64) {
        set(record, base_at, 4, 4 * self.base);
        set(record, length_at, 2, if self.named { k * self.line } else { 0 });
    }
}

/// A screen record that is accepted on a chip with a memory of so many bytes.
pub fn screen(rng: &mut Rng, memory: u64) -> Vec<u8> {
    let depth = rng.pick(&[1, 2, 4, 8, 8, 8, 16, 16, 16]);
    let rotation = rng.below(4);
    let k = 32 / depth;
    let (width, mut height) = if rotation % 2 == 0 {
        let step = k.max(8);
        (step * rng.size(1024 / step), rng.size(1024))
    } else {
        (k * rng.size(1024 / k), 8 * rng.size(128))
    };
    let most = memory * 8 / (width * depth);
    height = height.min(if rotation % 2 == 0 { most } else { most / 8 * 8 });
    screen_of(rng, memory, (depth, rotation), (width, height))
}

/// The same of a depth, a rotation and the view's size.
fn screen_of(
    rng: &mut Rng,
    memory: u64,
    (depth, rotation): (u64, u64),
    (mut width, mut height): (u64, u64),
) -> Vec<u8> {
    let k = 32 / depth;
    let mut record = vec![0; 32];
    set(&mut record, 0, 1, depth);
    set(&mut record, 1, 1, rotation);
    let main = image(rng, memory, width / k, height);
    main.put(&mut record, 8, 24, k);
    if rotation % 2 == 1 {
        (width, height) = (height, width);
    }
    set(&mut record, 4, 2, width);
    set(&mut record, 6, 2, height);
    if rng.one_in(2) {
        let (shown, lines) = (rng.size(main.shown), rng.size(main.lines));
        let mut window = image(rng, memory, shown, lines);
        if rng.one_in(3) {
            window = main.gap(rng, memory, &window).unwrap_or(window);
        }
        record[2] = 1;
        window.put(&mut record, 12, 26, k);
        set(&mut record, 16, 2, k * rng.offset(main.shown - window.shown));
        set(&mut record, 18, 2, rng.offset(main.lines - window.lines));
        set(&mut record, 20, 2, k * window.shown);
        set(&mut record, 22, 2, window.lines);
    }
    record
}

/// The lines of a rectangle in memory: first byte, bytes from line to line, bytes of each, and how many.
#[derive(Clone, Copy)]
struct Lines {
    first: u64,
    line: u64,
    bytes: u64,
    count: u64,
}

impl Lines {
    /// Whether some bytes have one of theirs.
    fn share(&self, at: u64, size: u64) -> bool {
        let line = |j: u64| self.first + j * self.line;
        (0..self.count).any(|j| line(j) < at + size && at < line(j) + self.bytes)
    }
}

/// The address of a pattern of so many bytes for a rectangle: any, or in or around its lines; mostly with
/// none of their bytes.
fn pattern(rng: &mut Rng, size: u64, lines: &Lines) -> u64 {
    let most = MEMORY / size - 1;
    let mut at = 0;
    for _ in 0..8 {
        let near = lines.first + lines.line * rng.below(lines.count) + rng.pick(&[0, lines.bytes]);
        at = match rng.below(6) {
            0 => most,
            1 | 2 => rng.offset(most),
            _ => ((near + rng.below(5) * size) / size).saturating_sub(2).min(most),
        } * size;
        if !lines.share(at, size) || rng.one_in(32) {
            break;
        }
    }
    at
}

/// A colour, often one of `POOR` bytes.
fn colour(rng: &mut Rng, depth: u64) -> u64 {
    let poor = u16::from_le_bytes([rng.pick(&POOR), rng.pick(&POOR)]).into();
    let colour = if rng.one_in(3) { rng.any() } else { poor };
    colour & if depth == 8 { 0xFF } else { 0xFFFF }
}

/// A command in a form that is mostly accepted on a screen of depth 8 or 16, and the host words that it
/// takes, at most `words`.
fn command(rng: &mut Rng, form: u32, screen: &[u8], words: u64) -> (Vec<u8>, u64) {
    let depth = u64::from(screen[0]);
    let on_window = screen[2] == 1 && rng.one_in(2);
    let (mut across, mut down) = if on_window {
        (field(screen, 20, 2), field(screen, 22, 2))
    } else {
        (field(screen, 4, 2), field(screen, 6, 2))
    };
    if !on_window && screen[1] % 2 == 1 {
        (across, down) = (down, across);
    }
    let (width, height) = (rng.size(across), rng.size(down));
    let (mut x, mut y) = (rng.offset(across - width), rng.offset(down - height));
    let taken = (width * depth / 8).div_ceil(2) * height;
    let operation = match rng.below(if form == 48 { 10 } else { 4 }) {
        0 => 0,
        3 if taken <= words => 2,
        1..=3 => 1,
        4 | 5 => 3,
        6 | 7 => 4,
        _ => 5,
    };
    let mut part = vec![0; form as usize];
    part[0] = operation;
    part[1] = on_window.into();
    if matches!(operation, 1..=3) {
        part[2] = if rng.one_in(2) { 12 } else { rng.below(16) as u8 };
    }
    if matches!(operation, 1 | 5) {
        // Near the destination, or anywhere.
        let mut place = |at: u64, most: u64| match rng.below(3) {
            0 => rng.offset(most),
            _ => (at + rng.below(7)).saturating_sub(3).min(most),
        };
        let (mut sx, mut sy) = (place(x, across - width), place(y, down - height));
        // The transparent move goes up; now and then it has no way.
        if operation == 5 && (y, x) > (sy, sx) && !rng.one_in(8) {
            (x, y, sx, sy) = (sx, sy, x, y);
        }
        set(&mut part, 12, 2, sx);
        set(&mut part, 14, 2, sy);
    }
    for (at, value) in [(4, x), (6, y), (8, width), (10, height)] {
        set(&mut part, at, 2, value);
    }
    match operation {
        0 => set(&mut part, 16, 2, colour(rng, depth)),
        3 | 4 => {
            let (base, length) = if on_window { (12, 26) } else { (8, 24) };
            let length = match field(screen, length, 2) {
                0 => across,
                given => given,
            };
            let line = length * depth / 8;
            let first = field(screen, base, 4) + y * line + x * depth / 8;
            let lines = Lines { first, line, bytes: width * depth / 8, count: height };
            part[34] = rng.below(8) as u8;
            part[35] = rng.below(8) as u8;
            set(&mut part, 36, 4, pattern(rng, 8 * depth, &lines));
        }
        _ => {}
    }
    if operation > 3 {
        set(&mut part, 32, 2, colour(rng, depth));
    }
    (part, if operation == 2 { taken } else { 0 })
}

/// A form of a list.
fn form_of(rng: &mut Rng) -> u32 {
    rng.pick(&[32, 48])
}

/// A number that is no form: one that must be seen, one that is a form in its low bits, or any.
fn no_form(rng: &mut Rng) -> u32 {
    let other = match rng.below(8) {
        0 => form_of(rng) | 1 << rng.between(8, 31),
        1 => rng.any() as u32 >> rng.below(32),
        _ => rng.pick(&NO_FORMS),
    };
    if matches!(other, 32 | 48) {
        other + 1
    } else {
        other
    }
}

/// The length of a list that is no multiple of its form's records, often one of the other form's.
fn odd_length(rng: &mut Rng, size: usize, length: usize) -> usize {
    let other = if size == 32 { 48 } else { 32 };
    let length = match rng.below(4) {
        0 => length + rng.between(1, size as u64 - 1) as usize,
        1 => length.saturating_sub(rng.between(1, size as u64 - 1) as usize),
        _ => other * rng.size(64) as usize,
    };
    if length % size == 0 {
        length + other
    } else {
        length
    }
}

/// A long command: a short one, then key colour, pattern x and y, and pattern address.
pub fn long_command(short: Vec<u8>, key: u16, (x, y): (u8, u8), pattern: u32) -> Vec<u8> {
    let mut part = short;
    part.extend(key.to_le_bytes());
    part.extend([x, y]);
    part.extend(pattern.to_le_bytes());
    part.resize(48, 0);
    part
}

/// A drawing in any form.
pub fn accepted(rng: &mut Rng) -> Drawing {
    let form = form_of(rng);
    accepted_in(rng, form)
}

/// A screen, a list in a form that is accepted on it, its words, and a buffer that holds the stream.
pub fn accepted_in(rng: &mut Rng, form: u32) -> Drawing {
    let screen = screen(rng, MEMORY);
    let count = match rng.below(16) {
        _ if screen[0] < 8 => 0,
        0 => 0,
        1 if field(&screen, 4, 2) * field(&screen, 6, 2) < 40_000 => rng.between(50, 64),
        _ => rng.between(1, 4),
    };
    let most = if rng.one_in(50) { MOST_WORDS } else { 20_000 };
    let (mut list, mut taken) = (Vec::new(), 0);
    for _ in 0..count {
        let (part, words) = command(rng, form, &screen, most - taken);
        list.extend(part);
        taken += words;
    }
    let mut room = (8 * (6 + 9 * count + taken)) as usize;
    if rng.one_in(2) {
        room += rng.below(100) as usize;
    }
    Drawing { form, screen, list, words: rng.words(taken), room }
}

/// Damages a screen record in one place.
fn damage_screen(rng: &mut Rng, screen: &mut Vec<u8>) {
    match rng.below(7) {
        0..=4 if screen.len() >= 32 => nudge(rng, screen, &SCREEN_FIELDS),
        5 if screen.len() >= 32 => screen[rng.below(32) as usize] = rng.any() as u8,
        _ => {
            let length = rng.pick(&[0, 1, 16, 31, 33, 64]);
            screen.resize(length, 0);
        }
    }
}

/// Damages a command, in either form, in one place.
fn damage_command(rng: &mut Rng, part: &mut [u8]) {
    match rng.below(8) {
        0 => part[rng.below(part.len() as u64) as usize] = rng.any() as u8,
        1 => part[0] = operation_above(rng),
        2..=4 if part.len() > 32 && part[0] <= 2 => damage_past(rng, part),
        2..=5 if part.len() > 32 && part[0] <= 5 => damage_new(rng, part),
        _ => nudge(rng, part, &COMMAND_FIELDS),
    }
}

/// Changes a field of a long command with operation 3 to 5.
fn damage_new(rng: &mut Rng, part: &mut [u8]) {
    let (byte, number) =
        (rng.pick(&[1, 7, 8, 8, 8, 12, 16, 16, 128, 255]), rng.pick(&[1, 255, 256, 0x5A5A]));
    match rng.below(14) {
        0 => part[2] = byte,
        1 => set(part, rng.pick(&[12, 14]), 2, number),
        2 => set(part, 16, 2, number),
        3 => set(part, 32, 2, number),
        9 => set(part, 32, 2, rng.pick(&[256, 256, 256, 0x5A5A])),
        10 => set(part, rng.pick(&[8, 10]), 2, 0),
        4 => part[34] = byte,
        5 => part[35] = byte,
        6 => set(part, 36, 4, field(part, 36, 4) ^ 1 << rng.below(7)),
        7 => {
            let past = [MEMORY - 64, MEMORY, MEMORY + 64, MEMORY + 128, 1 << 31, 0xFFFF_FF80];
            set(part, 36, 4, rng.pick(&past));
        }
        8 => part[rng.between(40, 47) as usize] = byte,
        11 | 12 => part[rng.pick(&[34, 35])] = 8,
        _ => nudge(rng, part, &FURTHER_FIELDS),
    }
}

/// Makes an operation of a short list one of the long form's, with zeros where that has no field.
pub fn make_new(rng: &mut Rng, list: &mut [u8]) {
    let Some(part) = list.chunks_exact_mut(32).last() else { return };
    part[0] = rng.pick(&[3, 4, 5]);
    part[16..18].fill(0);
    if part[0] != 5 {
        part[12..16].fill(0);
    }
    if part[0] != 3 {
        part[2] = 0;
    }
}

/// An operation above 2.
fn operation_above(rng: &mut Rng) -> u8 {
    match rng.below(4) {
        0 => rng.between(3, 255) as u8,
        1 => rng.pick(&[128, 129, 130, 255]),
        _ => rng.pick(&[3, 4, 5]),
    }
}

/// Changes a byte past 31 of a long command; now and then several.
fn damage_past(rng: &mut Rng, part: &mut [u8]) {
    for _ in 0..rng.pick(&[1, 1, 1, 1, 2, 16]) {
        let byte = if rng.one_in(2) { 1 << rng.below(8) } else { rng.any() as u8 };
        part[rng.between(32, 47) as usize] = byte;
    }
}

/// Damages a drawing in one place.
pub fn damage(rng: &mut Rng, drawing: &mut Drawing) {
    let Drawing { form, screen, list, words, room } = drawing;
    let size = if matches!(form, 32 | 48) { *form as usize } else { 32 };
    let commands = list.len() / size;
    match rng.below(if size == 48 { 32 } else { 24 }) {
        0..=6 => damage_screen(rng, screen),
        7..=13 | 24.. if commands > 0 => {
            let at = size * rng.below(commands as u64) as usize;
            damage_command(rng, &mut list[at..at + size]);
        }
        14 => list.resize(odd_length(rng, size, list.len()), 0),
        15 => {
            // A command more than a list may have, or one more, which is all zero or not.
            let length = if rng.one_in(2) { 65 * size } else { list.len() + size };
            list.resize(length, rng.pick(&[0, 1]));
        }
        16 => *form = no_form(rng),
        // The same bytes in the other form.
        17 => *form = if *form == 32 { 48 } else { 32 },
        18 | 19 => {
            let left = rng.below(words.len() as u64 + 1);
            let left = if rng.one_in(2) { words.len().saturating_sub(1) } else { left as usize };
            words.truncate(left);
        }
        20 => {
            let more = rng.size(40);
            words.extend(rng.words(more));
        }
        _ => {
            let less =
                if rng.one_in(4) { rng.below(*room as u64 + 1) } else { rng.between(1, 108) };
            *room = room.saturating_sub(less as usize);
        }
    }
}

/// A list to turn from a form, and the length of the target: mostly accepted. Bytes are any.
pub fn turning(rng: &mut Rng, from: u32) -> (Vec<u8>, usize) {
    let (from, to) = if from == 32 { (32, 48) } else { (48, 32) };
    let count = match rng.below(8) {
        0 => 0,
        1 => 64,
        2 => rng.between(1, 64),
        _ => rng.between(1, 6),
    };
    let mut list = Vec::new();
    for _ in 0..count {
        let part = list.len();
        list.extend((0..32).map(|_| rng.any() as u8));
        list[part] %= 3;
        list.resize(part + from, 0);
    }
    if count > 0 && rng.one_in(3) {
        for _ in 0..rng.pick(&[1, 1, 1, 1, 2]) {
            let at = from * rng.offset(count - 1) as usize;
            if from == 48 && !rng.one_in(4) {
                damage_past(rng, &mut list[at..at + 48]);
            } else {
                list[at] = operation_above(rng);
            }
        }
    }
    match rng.below(12) {
        0 => list.resize(odd_length(rng, from, list.len()), 0xA5),
        1 => {
            let over = rng.pick(&[65, 65, 66, 96, 97, 128]);
            list.resize(from * over, rng.pick(&[0, 0xA5]));
        }
        _ => {}
    }
    let room = room(rng, list.len() / from * to);
    (list, room)
}

/// What compiling for the older chip is given: mostly accepted, or refused for one thing.
pub fn older(rng: &mut Rng) -> Drawing {
    // An image that ends with a larger memory ends past the chip's, often by a dword.
    let memory = match rng.below(8) {
        0 | 1 => OLDER_MEMORY + rng.pick(&[4, 4, 4, 8, 64, 4096]),
        2 => MEMORY,
        _ => OLDER_MEMORY,
    };
    let mut screen = screen(rng, memory);
    let mut form = form_of(rng);
    let list = if rng.one_in(6) { older_list(rng, form, &screen) } else { Vec::new() };
    if rng.one_in(16) {
        form = no_form(rng);
    }
    let count = if rng.one_in(8) { rng.size(40) } else { 0 };
    let room = match rng.below(12) {
        0 => OLDER_STREAM - 1,
        1 => rng.below(OLDER_STREAM),
        2..=6 => OLDER_STREAM,
        _ => OLDER_STREAM + rng.below(100),
    };
    if rng.one_in(4) {
        for _ in 0..rng.pick(&[1, 1, 1, 2]) {
            damage_screen(rng, &mut screen);
        }
    }
    Drawing { form, screen, list, words: rng.words(count), room: room as usize }
}

/// A list that is not empty: no whole commands, too many, some that are all zero, or one that the
/// other chip accepts where the depth allows it.
fn older_list(rng: &mut Rng, form: u32, screen: &[u8]) -> Vec<u8> {
    let size = form as usize;
    match rng.below(4) {
        0 => {
            let whole = size * rng.pick(&[0, 1, 2, 64]);
            vec![0; odd_length(rng, size, whole)]
        }
        1 => vec![0; rng.pick(&[65 * size, 65 * size + 1, 128 * size])],
        2 => vec![0; size * rng.size(64) as usize],
        _ => command(rng, form, screen, 0).0,
    }
}

/// Bytes of the older chip's registers: any, or each at a limit.
pub fn older_bytes(rng: &mut Rng) -> [u8; 18] {
    let any = rng.one_in(2);
    [(); 18].map(|()| if any { rng.any() as u8 } else { rng.pick(&[0, 1, 0x80, 0xFF]) })
}

const SCREEN_REGISTERS: [(u32, u32); 6] = [
    (0x40, 0xFFFF),
    (0x44, 0x3FF),
    (0x50, 0xFFFF),
    (0x54, 0x3FF),
    (0x58, 0x3FF_03FF),
    (0x5C, 0x3FF_03FF),
];
/// The registers, then other numbers of a record.
pub const NUMBERS: [u32; 22] = [
    0x40, 0x44, 0x50, 0x54, 0x58, 0x5C, 0x8000, 0x8008, 0x800C, 0x8010, 0x8014, 0x8018, 0x801C,
    0x8020, 0x8024, 0x10000, 0x10000, 0, 0x10, 0x8004, 0x8028, 0x10001,
];

/// The start address of a rectangle of `reach` bytes: mostly inside the memory, often just so, now
/// and then just not.
fn address(rng: &mut Rng, reach: u64, pixel: u64, backward: bool) -> u64 {
    let (low, high) = if backward {
        (reach.saturating_sub(pixel), MEMORY - pixel)
    } else {
        (0, MEMORY.saturating_sub(reach))
    };
    let at = match rng.below(12) {
        0 => low.wrapping_sub(pixel),
        1 => high + pixel,
        2 | 3 => low,
        4 | 5 => high,
        _ if low <= high => rng.between(low, high) / pixel * pixel,
        _ => low,
    };
    if at < MEMORY {
        at
    } else {
        high.min(MEMORY - 1)
    }
}

fn stream_of(records: Vec<(u32, u32)>) -> Vec<u8> {
    let bytes = |(number, value): (u32, u32)| u64::from(number) | u64::from(value) << 32;
    records.into_iter().flat_map(|record| bytes(record).to_le_bytes()).collect()
}

/// So many data records, `line` to a line; the first line has `taken` already. Now and then another
/// record stands where a word is due, or the words end there: among the first, at either end of a
/// line, or anywhere.
fn data(rng: &mut Rng, words: u64, line: u64, taken: u64) -> Vec<(u32, u32)> {
    let word = |rng: &mut Rng| u32::from(rng.any() as u16);
    let mut records: Vec<(u32, u32)> = (0..words).map(|_| (0x10000, word(rng))).collect();
    if words == 0 || !rng.one_in(4) {
        return records;
    }
    let at = match rng.below(4) {
        0 => rng.below(words.min(3)),
        1 => rng.below(words),
        _ => {
            let end = line * rng.between(1, (taken + words).div_ceil(line)) - taken;
            (end - rng.below(2)).min(words - 1)
        }
    } as usize;
    records[at] = match rng.below(4) {
        0 => (rng.pick(&NUMBERS), rng.near(0) as u32),
        1 | 2 => (0x10000, word(rng) | 0x1_0000 << rng.below(16)),
        _ => (0x8000, rng.pick(&[0, 1, 0x4_0000, 0x4_0001, 0x1_0001])),
    };
    // The words behind it follow, or are left out; or it is left out too.
    match rng.below(3) {
        0 => records.truncate(at),
        1 => records.truncate(at + 1),
        _ => {}
    }
    records
}

/// A stream that no compiling made: blits of any offset and direction, mostly accepted.
pub fn foreign(rng: &mut Rng) -> Vec<u8> {
    let mut records: Vec<(u32, u32)> = Vec::new();
    for _ in 0..rng.below(5) {
        let operation = match rng.below(48) {
            0 => rng.below(16),
            _ => rng.pick(&[0, 0, 2, 2, 3, 3, 5, 5, 6, 7, 12]),
        };
        let pixel = rng.between(1, 2);
        let most = if rng.one_in(16) { 1024 } else { 48 };
        let (width, height) = (rng.size(most), rng.size(if operation == 0 { 48 } else { most }));
        let offset = match rng.below(4) {
            0 => rng.below(4),
            1 => rng.below(0x800),
            2 => (width * pixel).div_ceil(2),
            _ => rng.below(64),
        };
        let reach = (height - 1) * 2 * offset + width * pixel;
        let backward = operation == 3;
        let destination = address(rng, reach, pixel, backward);
        let source = match rng.below(4) {
            _ if operation == 0 => u64::from(rng.one_in(64)),
            0 | 1 if matches!(operation, 6 | 7) => rng.below(MEMORY / pixel) * pixel,
            0 => address(rng, reach, pixel, backward),
            1 => (destination + rng.below(9) * 2 * offset).saturating_sub(8 * offset),
            _ => (destination + rng.below(17) * pixel).saturating_sub(8 * pixel),
        };
        let source = source.min(MEMORY - pixel);
        let code = if rng.one_in(3) { 12 } else { rng.below(16) };
        let odd = |rng: &mut Rng, at: u64| if rng.one_in(48) { at ^ 1 } else { at };
        let mut setup = vec![
            (0x8008, operation | code << 16),
            (0x800C, odd(rng, source)),
            (0x8010, odd(rng, destination)),
            (0x8014, offset),
            (0x8018, width - 1),
            (0x801C, height - 1),
            (0x8024, rng.below(0x1_0000)),
        ];
        if matches!(operation, 5 | 7) || rng.one_in(4) {
            // At depth 8 the high byte is any.
            let high = if pixel == 1 { rng.any() << 8 } else { 0 };
            setup.push((0x8020, (colour(rng, 8 * pixel) | high) & 0xFFFF));
        }
        if rng.one_in(4) {
            setup.push((0x8000, rng.pick(&[0, 0x4_0000])));
        }
        for _ in 0..rng.below(3) {
            let (number, mask) = rng.pick(&SCREEN_REGISTERS);
            setup.push((number, rng.any() & u64::from(mask)));
        }
        // Now and then a register keeps the value that it had.
        if rng.one_in(8) {
            setup.swap_remove(rng.below(setup.len() as u64) as usize);
        }
        for i in (1..setup.len()).rev() {
            setup.swap(i, rng.below(i as u64 + 1) as usize);
        }
        setup.push((0x8000, 1 | (pixel - 1) << 18));
        records.extend(setup.iter().map(|&(number, value)| (number, value as u32)));
        if operation == 0 {
            let line = (width * pixel).div_ceil(2);
            let mut words = line * height;
            if rng.one_in(16) {
                words = words + 1 - 2 * rng.below(2);
            }
            records.extend(data(rng, words, line, 0));
        }
    }
    stream_of(records)
}

/// Changes a stream in one place.
pub fn mutate(rng: &mut Rng, stream: &mut Vec<u8>) {
    let count = (stream.len() / 8) as u64;
    if count == 0 || rng.one_in(12) {
        let length = stream.len() as u64 + rng.below(16);
        stream.resize(length as usize, 0);
        return;
    }
    // Among the first records, the last ones, or anywhere: data words are most of a long stream.
    let i = match rng.below(4) {
        0 => rng.below(count),
        1 => count - 1 - rng.below(count.min(4)),
        _ => rng.below(count.min(40)),
    };
    let at = 8 * i as usize;
    match rng.below(8) {
        0 => {
            let number = if rng.one_in(4) { rng.any() } else { rng.pick(&NUMBERS).into() };
            set(stream, at, 4, number);
        }
        1..=3 => {
            let value = rng.near(field(stream, at + 4, 4));
            set(stream, at + 4, 4, value);
        }
        4 => {
            stream.drain(at..at + 8);
        }
        5 => {
            let (number, value) = (rng.pick(&NUMBERS), rng.near(0));
            let record = u64::from(number) | value << 32;
            stream.splice(at..at, record.to_le_bytes());
        }
        6 => stream.truncate(at + 8 * rng.below(2) as usize),
        _ => {
            let record: Vec<u8> = stream[at..at + 8].to_vec();
            stream.splice(at..at, record);
        }
    }
}

/// A player's state that mostly no stream leads to, and a stream that goes on from there.
pub fn player(rng: &mut Rng) -> (Player, Vec<u8>) {
    let mut player = Player::default();
    for register in &mut player.registers {
        *register = match rng.below(6) {
            0 | 1 => 0,
            2 | 3 => rng.below(6) as u32,
            4 => rng.any() as u32 >> rng.below(20),
            _ => rng.any() as u32,
        };
    }
    // Often a small blit at either end of the memory; bits outside the fields are any.
    if rng.one_in(2) {
        player.registers[6] = rng.any() as u32;
        player.registers[7] = rng.any() as u32 & !0xF | rng.pick(&[0, 2, 3, 5, 6, 7, 12]);
        player.registers[8] = (rng.any() << 18) as u32;
        player.registers[9] =
            (rng.any() << 18) as u32 + rng.pick(&[0, MEMORY - 6]) as u32 + rng.below(6) as u32;
        player.registers[10] = (rng.any() << 11) as u32 + rng.below(6) as u32;
    }
    let [.., width, height, _, _] = player.registers.map(|register| u64::from(register % 1024 + 1));
    let words = if player.registers[6] >> 18 & 1 == 1 { width } else { width.div_ceil(2) };
    let mut at = |end: u64| match rng.below(8) {
        0 => rng.any() as u16,
        1 => end as u16,
        2 | 3 => rng.below(end) as u16,
        _ => (end - 1 - rng.below(end.min(4))) as u16,
    };
    (player.line, player.word) = (at(height), at(words));
    // Often the next word stands at the memory's end.
    if rng.one_in(3) {
        let offset = u64::from(player.registers[10] % 0x800);
        let away = 2 * (offset * u64::from(player.line) + u64::from(player.word));
        let to = (MEMORY + 2 - rng.below(16)).wrapping_sub(away) % MEMORY;
        player.registers[9] = (rng.any() << 18 | to) as u32;
    }
    player.due = rng.pick(&[0, 0, 1, 1, 1, 2, 0x100, 0x8000_0000]);
    player.count = match rng.below(4) {
        0 => rng.below(100),
        1 => rng.any(),
        _ => u64::MAX - rng.below(40),
    };
    player.kept = if rng.one_in(8) { rng.any() as u32 >> rng.below(32) } else { 0 };
    player.number = match rng.below(4) {
        0 => 0,
        1 => rng.any() as u32,
        _ => rng.below(34) as u32,
    };
    player.place = rng.any();

    // As many words as are due, or some; then any records, or blits.
    let due = words.saturating_sub(player.word.into()).max(1)
        + height.saturating_sub(u64::from(player.line) + 1) * words;
    let count = match player.due {
        0 if rng.one_in(2) => 0,
        _ if due <= 100 && !rng.one_in(4) => due,
        _ => rng.below(40),
    };
    let taken = u64::from(player.word).min(words - 1);
    let mut stream = stream_of(data(rng, count, words, taken));
    if rng.one_in(2) {
        // A start on the registers as they are.
        stream.extend((0x8000 | rng.pick(&[1u64, 0x4_0001]) << 32).to_le_bytes());
    }
    if rng.one_in(3) {
        for _ in 0..rng.below(30) {
            let value = if rng.one_in(2) { rng.below(4) } else { rng.near(0) };
            let record = u64::from(rng.pick(&NUMBERS)) | value << 32;
            stream.extend(record.to_le_bytes());
        }
    } else {
        stream.extend(foreign(rng));
    }
    if rng.one_in(4) {
        mutate(rng, &mut stream);
    }

    // The front of the stream is held already, where it is not just any bytes.
    player.held = if rng.one_in(4) { rng.any() as u8 } else { rng.below(8) as u8 };
    let held = usize::from(player.held.min(7));
    player.half = rng.any().to_le_bytes()[..7].try_into().unwrap();
    if held <= stream.len() && !rng.one_in(8) {
        let bytes: Vec<u8> = stream.drain(..held).collect();
        player.half[..held].copy_from_slice(&bytes);
    }
    (player, stream)
}

/// Settings, values and a point, on a chip with a memory of so many bytes: mostly accepted.
pub fn point(rng: &mut Rng, memory: u64) -> (Settings, u32, u32) {
    let record = screen(rng, memory);
    let (depth, rotation) = (u32::from(record[0]), u32::from(record[1]));
    let (width, height) = (field(&record, 4, 2), field(&record, 6, 2));
    let (mut across, mut down) = (width, height);
    // The window's edges are counted in dwords along the view's lines.
    *(if rotation % 2 == 0 { &mut across } else { &mut down }) /= u64::from(32 / depth);
    let edges = |rng: &mut Rng, most: u64| {
        let (a, b) = (rng.offset(most - 1), rng.offset(most - 1));
        let (start, end) = if rng.one_in(16) { (a, b) } else { (a.min(b), a.max(b)) };
        (start | end << 16) as u32
    };
    let last = memory / 4 - 1;
    let start = |rng: &mut Rng| {
        let most = rng.pick(&[last, last, 0xFFFF]);
        rng.offset(most) as u32
    };
    let offset = |rng: &mut Rng| {
        let most = rng.pick(&[0x3FF, 64, 64]);
        rng.offset(most) as u32
    };
    let mut settings = Settings {
        depth,
        rotation,
        flag: rng.below(2) as u32,
        width: width as u32,
        height: height as u32,
        values: [
            start(rng),
            offset(rng),
            start(rng),
            offset(rng),
            edges(rng, across),
            edges(rng, down),
        ],
    };
    let (mut p, mut q) = (rng.offset(width - 1) as u32, rng.offset(height - 1) as u32);
    // Often within a few dwords of either end of the memory.
    if rng.one_in(4) {
        let k = u64::from(32 / depth);
        let (across, down) = if rotation % 2 == 0 { (3 * k, 3) } else { (3, 3 * k) };
        p = rng.below(across.min(width)) as u32;
        q = rng.below(down.min(height)) as u32;
        for i in [0, 2] {
            let near = rng.pick(&[0, 1, 2, last - 2, last - 1, last, last + 1]);
            (settings.values[i], settings.values[i + 1]) = (near as u32, rng.below(2) as u32);
        }
    }
    for _ in 0..rng.pick(&[0, 0, 0, 0, 1, 1, 2, 3]) {
        let number = match rng.below(8) {
            6 => &mut p,
            7 => &mut q,
            which => setting(rng, &mut settings, which),
        };
        *number = rng.near((*number).into()) as u32;
    }
    (settings, p, q)
}

/// One of the numbers that both readers are given: 0 to 4, or one of the six values.
fn setting<'a>(rng: &mut Rng, settings: &'a mut Settings, which: u64) -> &'a mut u32 {
    match which {
        0 => &mut settings.depth,
        1 => &mut settings.rotation,
        2 => &mut settings.flag,
        3 => &mut settings.width,
        4 => &mut settings.height,
        _ => &mut settings.values[rng.below(6) as usize],
    }
}

/// Settings, values, a panel line and the length of a line buffer, on a chip with a memory of so many bytes:
/// mostly accepted. The window is often at an edge of the panel or past it, and the line often begins, ends or
/// crosses the window's edge at an end of the memory or just outside.
pub fn line(rng: &mut Rng, memory: u64) -> (Settings, u32, usize) {
    let record = screen(rng, memory);
    let (depth, rotation) = (u32::from(record[0]), u32::from(record[1]));
    let (width, height) = (field(&record, 4, 2), field(&record, 6, 2));
    let mut q = rng.offset(height - 1) as u32;
    let k = u64::from(32 / depth);
    let (x_step, y_step) = if rotation % 2 == 0 { (k, 1) } else { (1, k) };
    let (x_start, x_end) = edges_across(rng, width / x_step - 1);
    let (y_start, y_end) = edges_down(rng, u64::from(q) / y_step, height / y_step - 1);
    let mut settings = Settings {
        depth,
        rotation,
        flag: u32::from(!rng.one_in(8)),
        width: width as u32,
        height: height as u32,
        values: [0, 0, 0, 0, (x_start | x_end << 16) as u32, (y_start | y_end << 16) as u32],
    };

    // Columns where an image begins or ends, and any other: the window's, and main's beside it.
    let (left, right) = ((x_start * x_step).min(width), ((x_end + 1) * x_step).min(width));
    let crosses =
        settings.flag == 1 && left < right && (y_start..=y_end).contains(&(u64::from(q) / y_step));
    let mut main = vec![0, width - 1];
    let mut window = Vec::new();
    if crosses {
        main.extend([left.saturating_sub(1), right.min(width - 1)]);
        main.retain(|column| !(left..right).contains(column));
        window.extend([left, right - 1, rng.between(left, right - 1)]);
    } else {
        main.push(rng.below(width));
    }
    let corner = (x_start * x_step, y_start * y_step);
    for (i, columns, corner) in [(0, main, (0, 0)), (2, window, corner)] {
        if !columns.is_empty() {
            let image = image_for(rng, memory, &settings, &columns, corner, q);
            (settings.values[i], settings.values[i + 1]) = image;
        }
    }

    for _ in 0..rng.pick(&[0, 0, 0, 0, 0, 1, 1, 2, 3]) {
        let which = rng.below(8);
        if which > 5 {
            q = rng.pick(&[settings.height, settings.height, settings.height - 1, u32::MAX]);
            continue;
        }
        let number = setting(rng, &mut settings, which);
        *number = rng.near((*number).into()) as u32;
    }
    let room = line_room(rng, settings.width.min(4096) as usize);
    (settings, q, room)
}

/// The edges of a window along a panel line whose last step is `last`: in the middle, at an edge, past it, or
/// the wrong way round.
fn edges_across(rng: &mut Rng, last: u64) -> (u64, u64) {
    const MOST: u64 = 0x3FF;
    let (a, b) = (rng.between(0, last), rng.between(0, last));
    match rng.below(16) {
        0 => (0, last),
        1 => (0, a),
        2 => (a, last),
        3 => (last.min(1), last),
        4 => (0, last.saturating_sub(1)),
        5 => (a, rng.between(last, MOST)),
        6 => (rng.between((last + 1).min(MOST), MOST), MOST),
        7 => (a.max(b), a.min(b)),
        8 => (a, a),
        9 => (last.min(1), last.saturating_sub(1)),
        _ => (a.min(b), a.max(b)),
    }
}

/// The edges of a window down a panel whose last step is `last`: mostly around one step.
fn edges_down(rng: &mut Rng, step: u64, last: u64) -> (u64, u64) {
    let (a, b) = (rng.offset(last), rng.offset(last));
    match rng.below(16) {
        0 => (a, b),
        1 => (a.min(b), a.max(b)),
        2 if step < last => (step + 1, rng.between(step + 1, last)),
        3 if step > 0 => (rng.between(0, step - 1), step - 1),
        4 => (step, step),
        _ => (rng.offset(step), rng.between(step, last)),
    }
}

/// Start and offset of an image that begins at a corner of the panel and is shown at columns of line q: such
/// that these are in the memory, where they can be; or that one of them is at an end of it, or just outside.
fn image_for(
    rng: &mut Rng,
    memory: u64,
    settings: &Settings,
    columns: &[u64],
    (x, y): (u64, u64),
    q: u32,
) -> (u32, u32) {
    let dwords = memory as i64 / 4;
    let k = i64::from(32 / settings.depth);
    let (x, q) = (x as i64, i64::from(q) - y as i64);
    // How often the offset is taken at a column.
    let times = |column: u64| match settings.rotation % 2 {
        0 => q,
        _ => column as i64 - x,
    };
    let most = columns.iter().map(|&column| times(column)).max().unwrap().max(1);
    let fit = (dwords / most).min(0x3FF) as u64;
    let offset = match rng.below(6) {
        0 => fit,
        1 => rng.below(0x400),
        2 => rng.below(3),
        _ => rng.offset(fit),
    } as i64;
    // The dword of a column, counted from the start.
    let away = |column: u64| match settings.rotation {
        0 => q * offset + (column as i64 - x) / k,
        1 => times(column) * offset - q / k,
        2 => -(q * offset + (column as i64 - x) / k),
        _ => q / k - times(column) * offset,
    };
    let ends = columns.iter().map(|&column| away(column));
    let (low, high) = (ends.clone().min().unwrap(), ends.max().unwrap());
    let (least, most) = ((-low).max(0), (dwords - 1 - high).min(0xFFFF));
    let start = if least <= most && !rng.one_in(3) {
        least + rng.offset((most - least) as u64) as i64
    } else {
        let end = rng.pick(&[-1, 0, dwords - 1, dwords]);
        end - away(rng.pick(columns))
    };
    (start.clamp(0, 0xFFFF) as u32, offset as u32)
}

/// The length of a buffer for a line of so many columns: mostly as many.
pub fn line_room(rng: &mut Rng, columns: usize) -> usize {
    match rng.below(24) {
        0 => columns.saturating_sub(1),
        1 => columns + 1,
        2 => 0,
        3 => rng.below(columns as u64 + 1) as usize,
        4 => columns + rng.size(100) as usize,
        5 => rng.pick(&[1, 8, 1024, 1025, 2 * columns]),
        _ => columns,
    }
}

// ---- Samples and strips ----

/// Samples for an empty ring, each a number and a height: mostly accepted, in steps of one kind, often
/// many rounds of the numbers.
pub fn samples(rng: &mut Rng) -> Vec<(u16, u32)> {
    let count = match rng.below(16) {
        0 => 0,
        1 => 1,
        2..=8 => rng.between(1, 40),
        9..=13 => rng.between(1, 700),
        _ => rng.between(1, 3000),
    };
    let kind = rng.below(8);
    let refused = rng.pick(&[2, 8, 50, 1000]);
    let mut newest = match rng.below(4) {
        0 => rng.pick(&[0, 1, 511, 512, 65_535]),
        1 => (65_536 - rng.below(count + 1)) as u16,
        _ => rng.any() as u16,
    };
    let mut any = false;
    let mut samples = Vec::new();
    for _ in 0..count {
        let mut steps = match kind {
            0 => 1,
            1 => rng.pick(&[1, 1, 1, 1, 1, 1, 2, 3, 24]),
            2 => rng.between(1, 30),
            3 => 512 - rng.below(3),
            4 => rng.pick(&[1, 2, 255, 256, 257, 511, 512]),
            5 if rng.one_in(8) => rng.between(1, 512),
            5 => 1,
            _ => rng.between(1, 512),
        };
        let mut height = match rng.below(4) {
            0 => rng.pick(&[0, 0, 1, 99, 100]),
            _ => rng.below(101),
        };
        let bad = if rng.one_in(refused) { rng.between(1, 3) } else { 0 };
        if bad & 1 != 0 {
            steps = match rng.below(4) {
                0 => 0,
                1 => rng.pick(&[513, 514, 1024, 65_024, 65_535]),
                _ => rng.between(513, 65_535),
            };
        }
        if bad & 2 != 0 {
            // Also such as are right in their low bits.
            height = match rng.below(4) {
                0 => 101,
                1 => rng.between(101, 300),
                2 => height + (1 << rng.between(8, 31)),
                _ => rng.between(101, u32::MAX.into()),
            };
        }
        // The first is taken with any steps.
        let sequence = newest.wrapping_add(steps as u16);
        samples.push((sequence, height as u32));
        if bad == 0 || bad == 1 && !any {
            (newest, any) = (sequence, true);
        }
    }
    samples
}

/// Ages to ask for besides 0 to 511.
pub fn far_ages(rng: &mut Rng) -> [u32; 6] {
    let any = rng.any() as u32 >> rng.below(22);
    [512, 513, 65_535, 65_536 + rng.below(512) as u32, u32::MAX, any.max(512)]
}

/// The numbers of a ring that mostly no samples lead to: the flag, the newest number, 512 numbers and
/// 512 heights.
pub fn ring(rng: &mut Rng) -> [u16; 1026] {
    let newest = rng.any() as u16;
    let mut ring = [0; 1026];
    ring[0] = rng.pick(&[0, 1, 1, 1, 2, 0x100, 0x8000, 0xFFFF]);
    ring[1] = newest;
    // How many of them are any, how many a round old, and the rest as samples leave them.
    let (any, old) = (rng.pick(&[1, 8, 600]), rng.pick(&[2, 8, 600]));
    for slot in 0..512u16 {
        let age = newest.wrapping_sub(slot) % 512;
        let number = match () {
            _ if rng.one_in(any) => rng.any() as u16,
            _ if rng.one_in(old) => newest.wrapping_sub(age + 512),
            _ => newest.wrapping_sub(age),
        };
        let height = match rng.below(8) {
            0 => rng.any() as u16,
            1 => rng.pick(&[0, 1, 99, 100, 101, 102, 255, 256, 356, 0x7FFF, 0x8000, 0xFFFF]),
            _ => rng.below(101) as u16,
        };
        ring[2 + usize::from(slot)] = number;
        ring[514 + usize::from(slot)] = height;
    }
    ring
}

/// A sample for a ring with a newest number: any, or near the limits.
pub fn sample(rng: &mut Rng, newest: Option<u16>) -> (u16, u32) {
    let steps = match rng.below(4) {
        0 => rng.any(),
        1 => rng.pick(&[0, 1, 2, 511, 512, 513, 65_024, 65_535]),
        _ => rng.between(1, 512),
    };
    let height = match rng.below(8) {
        0 => rng.any() as u32 >> rng.below(32),
        1 => rng.pick(&[0, 99, 100, 101, 256, 65_636]),
        _ => rng.below(101) as u32,
    };
    (newest.unwrap_or(0).wrapping_add(steps as u16), height)
}

/// A font: mostly whole, as long as a font or longer by a bit; or cut anywhere.
fn font(rng: &mut Rng, whole: bool) -> Vec<u8> {
    let length = match rng.below(4) {
        0 => 80,
        1 => rng.between(80, 100),
        2 if whole => 80,
        2 => 8 * rng.between(0, 10) + rng.below(8),
        _ if whole => rng.between(80, 100),
        _ => rng.between(0, 100),
    };
    (0..length).map(|_| rng.any() as u8).collect()
}

/// The site's font and the factory's: the site's any, the factory's mostly whole.
pub fn fonts(rng: &mut Rng) -> [Vec<u8>; 2] {
    let site = if rng.one_in(4) { Vec::new() } else { font(rng, false) };
    let mut factory = font(rng, true);
    if rng.one_in(16) {
        let length = rng.pick(&[79, 79, 79, 72, 8, 1, 0]);
        factory.truncate(length);
    }
    [site, factory]
}

/// A number of a digit: mostly one.
pub fn digit(rng: &mut Rng) -> u32 {
    match rng.below(8) {
        0 => rng.any() as u32 >> rng.below(32),
        1 => rng.pick(&[9, 10, 11, 255, 256, 265, 65_536, 1 << 29, u32::MAX]),
        _ => rng.below(10) as u32,
    }
}

/// What a strip is given besides its ring; the rooms are the buffers' lengths.
pub struct Asked {
    pub form: Form,
    pub site: Vec<u8>,
    pub factory: Vec<u8>,
    pub list_room: usize,
    pub words_room: usize,
}

/// What a strip of a ring is given: mostly right. In half of them the corner is such that the strip
/// lies on a screen, which comes with it.
pub fn asked(rng: &mut Rng, told: &Told) -> (Asked, Option<Vec<u8>>) {
    let mut form = form(rng);
    let [site, factory] = fonts(rng);
    let mut screen = None;
    if rng.one_in(2) {
        let (record, x, y) = screen_for(rng, form.depth, told.size(&form));
        (form.x, form.y) = (x, y);
        screen = Some(record);
    } else {
        corner(rng, &mut form, told);
        for _ in 0..rng.pick(&[0, 0, 0, 1, 1, 1, 2, 4]) {
            damage_form(rng, &mut form);
        }
    }
    let made = told.strip(&form, &site, &factory);
    let (list, words) = made.map_or((960, 160), |(list, words)| (list.len(), words.len()));
    let (list_room, words_room) = (room(rng, list), room(rng, words));
    (Asked { form, site, factory, list_room, words_room }, screen)
}

/// What a strip is asked for; the corner is (0, 0), and all is right.
fn form(rng: &mut Rng) -> Form {
    let depth = rng.pick(&[8, 16]);
    let mut colour = || rng.any() as u16 & if depth == 8 { 0xFF } else { 0xFFFF };
    let (bar, background) = (colour(), colour());
    let hours = if rng.one_in(3) { 24 } else { rng.between(1, 24) } as u32;
    let column = if rng.one_in(3) { rng.pick(&[1, 16]) } else { rng.between(1, 16) } as u32;
    Form { hours, depth, x: 0, y: 0, column, bar, background }
}

/// A corner for a strip that is not drawn: any, near none or near 65,535, often such that a command's
/// x or y is at the limit or just past it.
fn corner(rng: &mut Rng, form: &mut Form, told: &Told) {
    let digits = told.digits().len() as u32;
    let bars = (0..form.hours).filter_map(|c| told.bar(form, c));
    let (columns, low) = ((form.hours - 1) * form.column, 100 - bars.min().unwrap_or(100));
    let mut place = |ends: [u32; 2]| match rng.below(4) {
        0 => rng.any() as u16,
        1 => rng.below(1000) as u16,
        _ => (65_535 + rng.below(3) as u32 - rng.pick(&ends)).clamp(0, 65_535) as u16,
    };
    form.x = place([columns, 8 * digits.saturating_sub(1)]);
    form.y = place([low, 100]);
}

/// Puts something wrong into what a strip is asked for; now and then it stays right.
fn damage_form(rng: &mut Rng, form: &mut Form) {
    let any = rng.any() as u32 >> rng.below(32);
    match rng.below(6) {
        0 => {
            let odd = [0, 1, 2, 3, 4, 1, 2, 4, 5, 7, 9, 12, 15, 17, 24, 32, 264, 65_544, any];
            form.depth = rng.pick(&odd);
        }
        1 => form.hours = rng.pick(&[0, 25, 0, 25, 26, 255, 256, 257, 65_537, u32::MAX, any]),
        2 => form.column = rng.pick(&[0, 17, 0, 17, 18, 255, 256, 257, 65_537, u32::MAX, any]),
        3 => form.bar = rng.pick(&[255, 256, 256, 257, 65_535, any as u16]),
        4 => form.background = rng.pick(&[255, 256, 256, 257, 65_535, any as u16]),
        _ => (form.bar, form.background) = (any as u16, rng.any() as u16),
    }
}

/// The room of a buffer for a result of so many: mostly as much or more, or one short, or any less.
fn room(rng: &mut Rng, length: usize) -> usize {
    let less = rng.below(length as u64 + 1) as usize;
    match rng.below(16) {
        0 => length.saturating_sub(1),
        1 => less,
        2..=8 => length,
        _ => length + rng.size(100) as usize,
    }
}

/// A screen of a depth, 8 or 16, whose view holds a rectangle, and a corner for it there.
fn screen_for(rng: &mut Rng, depth: u32, (width, height): (u32, u32)) -> (Vec<u8>, u16, u16) {
    let (depth, width, height) = (u64::from(depth), u64::from(width), u64::from(height));
    let rotation = rng.below(4);
    let k = 32 / depth;
    let (step, line_step) = if rotation % 2 == 0 { (k.max(8), 1) } else { (k, 8) };
    let mut least_or_more = |least: u64, most: u64, step: u64| {
        let (least, most) = (least.div_ceil(step), most / step);
        step * (least + rng.offset(most - least))
    };
    let across = least_or_more(width, 1024, step);
    let most = (MEMORY * 8 / (across * depth)).min(1024);
    let down = least_or_more(height, most, line_step);
    let record = screen_of(rng, MEMORY, (depth, rotation), (across, down));
    (record, rng.offset(across - width) as u16, rng.offset(down - height) as u16)
}

/// Pixels of the view to look at, on a strip that is drawn there: of each column the top line, the
/// lowest, and those where the bar begins; the digits; and any in the strip and close around it. Now
/// and then all of these.
pub fn pixels(rng: &mut Rng, told: &Told, form: &Form, screen: &[u8]) -> Vec<(usize, usize)> {
    let (mut across, mut down) = (field(screen, 4, 2), field(screen, 6, 2));
    if screen[1] % 2 == 1 {
        (across, down) = (down, across);
    }
    let (x, y) = (u64::from(form.x), u64::from(form.y));
    let (width, height) = told.size(form);
    let lefts = x.saturating_sub(2)..(x + u64::from(width) + 2).min(across);
    let tops = y.saturating_sub(2)..(y + u64::from(height) + 2).min(down);
    let mut pixels = Vec::new();
    if rng.one_in(32) {
        for v in tops {
            pixels.extend(lefts.clone().map(|u| (u as usize, v as usize)));
        }
        return pixels;
    }
    for c in 0..form.hours {
        let left = x + u64::from(c * form.column);
        let bar = u64::from(told.bar(form, c).unwrap_or(0));
        for line in [0, (100 - bar).saturating_sub(1), (100 - bar).min(99), 99] {
            let u = left + rng.offset(u64::from(form.column) - 1);
            pixels.push((u as usize, (y + line) as usize));
        }
    }
    for i in 0..8 * told.digits().len() as u64 {
        pixels.extend((100..108).map(|line| ((x + i) as usize, (y + line) as usize)));
    }
    for _ in 0..100 {
        let u = rng.between(lefts.start, lefts.end - 1);
        let v = rng.between(tops.start, tops.end - 1);
        pixels.push((u as usize, v as usize));
    }
    pixels
}
