//! Requests g) and h) of paper 02 as they are worded: a list as records with their fields, turned record by
//! record; and what a list in either form compiles to, told by what short lists compile to and, for
//! operations 3 to 5, by the grounds of 12 and the bytes that are shared.

use crate::answers::Compiled;
use crate::sheet;

/// Bytes of the display memory.
const MEMORY: usize = 262_144;

/// A record of 48 bytes; one of 32 has the first field alone, and all others are zero.
struct Record {
    as_now: [u8; 32],
    key: u16,
    pattern_x: u8,
    pattern_y: u8,
    pattern: u32,
    zero: [u8; 8],
}

impl Record {
    /// The record at the front of some bytes, and what follows it. Nothing where it is not whole.
    fn read(form: u32, bytes: &[u8]) -> Option<(Record, &[u8])> {
        let (&as_now, mut rest) = bytes.split_first_chunk()?;
        let mut further = [0; 16];
        if form == 48 {
            (further, rest) = rest.split_first_chunk().map(|(&first, rest)| (first, rest))?;
        }
        let [k0, k1, pattern_x, pattern_y, p0, p1, p2, p3, zero @ ..] = further;
        let key = u16::from_le_bytes([k0, k1]);
        let pattern = u32::from_le_bytes([p0, p1, p2, p3]);
        Some((Record { as_now, key, pattern_x, pattern_y, pattern, zero }, rest))
    }

    /// Its bytes in a form.
    fn bytes(&self, form: u32) -> Vec<u8> {
        let mut bytes = self.as_now.to_vec();
        if form == 48 {
            bytes.extend(self.key.to_le_bytes());
            bytes.extend([self.pattern_x, self.pattern_y]);
            bytes.extend(self.pattern.to_le_bytes());
            bytes.extend(self.zero);
        }
        bytes
    }

    /// Whether a byte past 31 is not zero.
    fn goes_on(&self) -> bool {
        let Record { key, pattern_x, pattern_y, pattern, zero, .. } = self;
        (*key, *pattern_x, *pattern_y, *pattern, *zero) != (0, 0, 0, 0, [0; 8])
    }

    fn operation(&self) -> u8 {
        self.as_now[0]
    }
}

/// The records of a list in the form that is named; or nothing, for 10.
fn records(form: u32, mut list: &[u8]) -> Option<Vec<Record>> {
    if form != 32 && form != 48 {
        return None;
    }
    let mut records = Vec::new();
    while !list.is_empty() {
        let (record, rest) = Record::read(form, list)?;
        records.push(record);
        list = rest;
    }
    (records.len() <= 64).then_some(records)
}

fn joined(form: u32, records: &[Record]) -> Vec<u8> {
    records.iter().flat_map(|record| record.bytes(form)).collect()
}

/// The list in the other form, in a target of so many bytes; or its refusal.
pub fn turned(from: u32, to: u32, list: &[u8], room: usize) -> Result<Vec<u8>, u32> {
    let records = records(from, list).ok_or(10u32)?;
    let new = joined(to, &records);
    let none = |record: &Record| record.operation() > 2 || record.goes_on();
    match () {
        _ if room < new.len() => Err(17),
        _ if to == 32 && records.iter().any(none) => Err(28),
        _ => Ok(new),
    }
}

/// Whether an operation of a list is above 2.
pub fn any_above(form: u32, list: &[u8]) -> bool {
    records(form, list).is_some_and(|records| records.iter().any(|record| record.operation() > 2))
}

/// The fields that may make 12 of a long command with operation 3 to 5.
pub const FIELDS: [&str; 9] = [
    "raster code",
    "source",
    "colour",
    "key",
    "pattern x",
    "pattern y",
    "pattern address",
    "pattern outside",
    "bytes 40-47",
];

impl Record {
    fn number(&self, at: usize) -> usize {
        u16::from_le_bytes([self.as_now[at], self.as_now[at + 1]]).into()
    }

    /// Whether it has one of the long form's own operations.
    fn is_new(&self, form: u32) -> bool {
        form == 48 && (3..=5).contains(&self.operation())
    }

    /// Bytes of its pattern.
    fn pattern_bytes(&self, depth: u8) -> std::ops::Range<usize> {
        let first = self.pattern as usize;
        first..first + 64 * usize::from(depth) / 8
    }

    /// Which of `FIELDS` make 12 of such a command. What is left is asked of the command that stands in for it.
    fn grounds(&self, depth: u8) -> [bool; FIELDS.len()] {
        let (code, colour) = (self.as_now[2], self.number(16));
        let source = (self.number(12), self.number(14)) != (0, 0);
        let bytes = self.pattern_bytes(depth);
        let no_multiple = bytes.start % bytes.len() != 0;
        let zero = self.zero != [0; 8];
        let (x, y, pattern) = (self.pattern_x, self.pattern_y, self.pattern);
        let (no_x, no_y, outside) = (x > 7, y > 7, bytes.end > MEMORY);
        let (any_key, high_key) = (self.key != 0, depth == 8 && self.key > 255);
        let colour = colour != 0;
        match self.operation() {
            3 => [code > 15, source, colour, any_key, no_x, no_y, no_multiple, outside, zero],
            4 => [code != 0, source, colour, high_key, no_x, no_y, no_multiple, outside, zero],
            _ => [code != 0, false, colour, high_key, x != 0, y != 0, pattern != 0, false, zero],
        }
    }

    /// A short command with the same surface, rectangle and spare bytes: a fill for a pattern fill, a move
    /// for a transparent move. Any other command stands for itself.
    fn stand_in(&self, form: u32) -> [u8; 32] {
        let mut short = self.as_now;
        if self.is_new(form) {
            short[2] = 0;
            short[16..18].fill(0);
            short[0] = 1;
            if self.operation() != 5 {
                short[0] = 0;
                short[12..16].fill(0);
            }
        }
        short
    }

    /// Whether 29 holds, of a command with such an operation that 12 to 14 do not refuse: byte by byte.
    fn clashes(&self, screen: &[u8]) -> bool {
        let command = &self.as_now;
        let to = (self.number(4), self.number(6));
        let from = (self.number(12), self.number(14));
        let drawn = sheet::bytes_of(screen, command, to, MEMORY);
        if self.operation() != 5 {
            return self.pattern_bytes(screen[0]).any(|at| drawn[at]);
        }
        let read = sheet::bytes_of(screen, command, from, MEMORY);
        let address = |at: (usize, usize)| sheet::address(screen, command, at);
        address(to) > address(from) && (0..MEMORY).any(|at| drawn[at] && read[at])
    }
}

/// Of a long command with operation 3 to 5, which of `FIELDS` make 12 at a depth, and what stands in for it.
pub fn asked(part: &[u8], depth: u8) -> Option<([bool; FIELDS.len()], [u8; 32])> {
    let (record, _) = Record::read(48, part)?;
    record.is_new(48).then(|| (record.grounds(depth), record.stand_in(48)))
}

/// What compiling gives for a list in the form that is named, told by what it gives for short ones: the
/// screen's refusal, 10, or the answer for the commands that stand in for the records, unless one comes
/// before the refused one that has a byte past 31 and may not, or is refused for what its operation asks.
pub fn told(form: u32, screen: &[u8], list: &[u8], short: impl Fn(&[u8]) -> Compiled) -> Compiled {
    let alone = short(&[]);
    if matches!(alone.number, 1..=9 | 26) {
        return alone;
    }
    let Some(records) = records(form, list) else {
        return Compiled { number: 10, ..Compiled::default() };
    };
    let stand_ins: Vec<u8> = records.iter().flat_map(|record| record.stand_in(form)).collect();
    let answer = short(&stand_ins);
    if answer.number == 11 {
        return answer;
    }
    let of_command = (12..=15).contains(&answer.number);
    let refused = |number: u32, place: usize| {
        let (place, size) = (place as u64, u64::from(form));
        let (part_at, part_length) = (size * place, size);
        Compiled { number, place, part_at, part_length, ..Compiled::default() }
    };
    for (place, record) in records.iter().enumerate() {
        let is_refused = of_command && answer.place == place as u64;
        let twelve = match record.is_new(form) {
            true => record.grounds(screen[0]).contains(&true),
            false => record.goes_on(),
        };
        match () {
            _ if twelve => return refused(12, place),
            _ if is_refused => return refused(answer.number, place),
            _ if record.is_new(form) && record.clashes(screen) => return refused(29, place),
            _ => {}
        }
    }
    answer
}
