//! Request f) of paper 02 as it is worded: what a ring tells, from the list of its accepted samples; a
//! strip's commands one by one, in wide numbers; and its picture pixel by pixel, with no command.

use crate::answers::Form;

/// An accepted sample, with its hour, counted from the first one's.
struct Sample {
    hour: u64,
    sequence: u16,
    height: u32,
}

/// The samples accepted so far, from an empty ring on.
#[derive(Default)]
pub struct Samples(Vec<Sample>);

impl Samples {
    /// Takes a sample, or gives 27.
    pub fn take(&mut self, sequence: u16, height: u32) -> u32 {
        let hour = match self.0.last() {
            None => 0,
            Some(newest) => {
                let ahead = 65_536 + u64::from(sequence) - u64::from(newest.sequence);
                match ahead % 65_536 {
                    steps @ 1..=512 => newest.hour + steps,
                    _ => return 27,
                }
            }
        };
        if height > 100 {
            return 27;
        }
        self.0.push(Sample { hour, sequence, height });
        0
    }

    /// Each hour of the ring: the sample that was taken for it, or blank.
    pub fn told(&self) -> Told {
        let Some(newest) = self.0.last() else {
            return Told { newest: None, heights: vec![None; 512] };
        };
        let mut last = self.0.iter().rev().take_while(|sample| sample.hour + 512 > newest.hour);
        let mut next = last.next();
        let mut height = |age: u64| {
            let sample = next.filter(|sample| sample.hour + age == newest.hour)?;
            next = last.next();
            Some(sample.height)
        };
        Told { newest: Some(newest.sequence), heights: (0..512).map(&mut height).collect() }
    }

    /// How often the numbers have come round from 65,535 to 0.
    pub fn rounds(&self) -> u64 {
        match (self.0.first(), self.0.last()) {
            (Some(first), Some(last)) => (u64::from(first.sequence) + last.hour) / 65_536,
            _ => 0,
        }
    }

    /// The blank hours of the ring whose number a sample had on an earlier round.
    pub fn skipped_again(&self) -> usize {
        let told = self.told();
        let mut had = vec![false; 65_536];
        self.0.iter().for_each(|sample| had[usize::from(sample.sequence)] = true);
        let number = |age: u16| told.newest.unwrap_or(0).wrapping_sub(age);
        let blank = |age: &u16| told.heights[usize::from(*age)].is_none();
        (0..512).filter(blank).filter(|&age| had[usize::from(number(age))]).count()
    }
}

/// What a ring tells: the newest sample's number, and the height of each age from 0 to 511, or blank.
#[derive(Clone, Debug, PartialEq, Eq)]
pub struct Told {
    pub newest: Option<u16>,
    pub heights: Vec<Option<u32>>,
}

/// A command on the main image.
struct Command {
    operation: u8,
    code: u8,
    x: u64,
    y: u64,
    width: u64,
    height: u64,
    colour: u16,
}

/// The grounds of 27, for a strip.
pub const GROUNDS: [&str; 7] =
    ["hours", "column", "factory", "column's x", "digit's x", "bar's y", "digit's y"];

impl Told {
    /// The digits that are drawn.
    pub fn digits(&self) -> Vec<usize> {
        let text = self.newest.map_or(String::new(), |number| number.to_string());
        text.bytes().map(|digit| usize::from(digit - b'0')).collect()
    }

    /// The height of the bar in column c from the left, if there is one.
    pub fn bar(&self, form: &Form, c: u32) -> Option<u32> {
        let age = form.hours - 1 - c;
        self.heights[age as usize].filter(|&height| height > 0)
    }

    /// The commands of 1 to 24 hours, in order.
    fn commands(&self, form: &Form) -> Vec<Command> {
        let mut commands = Vec::new();
        let (left, top, width) = (u64::from(form.x), u64::from(form.y), u64::from(form.column));
        for c in 0..form.hours {
            let x = left + u64::from(c) * width;
            let mut fill = |y: u64, height: u64, colour: u16| {
                commands.push(Command { operation: 0, code: 0, x, y, width, height, colour });
            };
            fill(top, 100, form.background);
            if let Some(height) = self.bar(form, c) {
                fill(top + 100 - u64::from(height), height.into(), form.bar);
            }
        }
        for i in 0..self.digits().len() as u64 {
            let (x, y) = (left + 8 * i, top + 100);
            let colour = 0;
            commands.push(Command { operation: 2, code: 12, x, y, width: 8, height: 8, colour });
        }
        commands
    }

    /// Which of the grounds of 27 hold; those of commands, where hours, column and font are right.
    pub fn grounds(&self, form: &Form, factory: &[u8]) -> [bool; GROUNDS.len()] {
        let hours = form.hours < 1 || form.hours > 24;
        let column = form.column < 1 || form.column > 16;
        let font = factory.len() < 80;
        let commands = if hours || column || font { Vec::new() } else { self.commands(form) };
        let past = |operation: u8, place: fn(&Command) -> u64| {
            commands.iter().any(|c| c.operation == operation && place(c) > 65_535)
        };
        let [x, y]: [fn(&Command) -> u64; 2] = [|c| c.x, |c| c.y];
        [hours, column, font, past(0, x), past(2, x), past(0, y), past(2, y)]
    }

    /// Whether pixel (i, j) of a digit is one of its glyph's ones.
    fn inked(site: &[u8], factory: &[u8], digit: usize, i: usize, j: usize) -> bool {
        let font = if 8 * digit + 8 <= site.len() { site } else { factory };
        font[8 * digit + j] / 2u8.pow(7 - i as u32) % 2 == 1
    }

    /// The bytes of a strip's list, and its words; or its refusal, but for 17.
    pub fn strip(
        &self,
        form: &Form,
        site: &[u8],
        factory: &[u8],
    ) -> Result<(Vec<u8>, Vec<u16>), u32> {
        match form.depth {
            1 | 2 | 4 => return Err(11),
            8 if form.bar.max(form.background) > 255 => return Err(12),
            8 | 16 => {}
            _ => return Err(2),
        }
        if self.grounds(form, factory).contains(&true) {
            return Err(27);
        }
        let mut list = Vec::new();
        for c in self.commands(form) {
            let mut part = vec![c.operation, 0, c.code, 0];
            for number in [c.x, c.y, c.width, c.height, 0, 0, c.colour.into()] {
                part.extend(u16::try_from(number).unwrap().to_le_bytes());
            }
            part.resize(32, 0);
            list.extend(part);
        }
        let mut words = Vec::new();
        for digit in self.digits() {
            for j in 0..8 {
                let pixels: Vec<u16> = (0..8)
                    .map(|i| match Self::inked(site, factory, digit, i, j) {
                        true => form.bar,
                        false => form.background,
                    })
                    .collect();
                match form.depth {
                    16 => words.extend(pixels),
                    _ => words.extend(pixels.chunks(2).map(|pair| pair[0] + 256 * pair[1])),
                }
            }
        }
        Ok((list, words))
    }

    /// What the strip and its number take of the main image: width and height from the corner on.
    pub fn size(&self, form: &Form) -> (u32, u32) {
        let digits = self.digits().len() as u32;
        let height = if digits == 0 { 100 } else { 108 };
        ((form.hours * form.column).max(8 * digits), height)
    }

    /// What pixel (u, v) of the main image shows of the strip, or nothing.
    pub fn pixel(
        &self,
        form: &Form,
        site: &[u8],
        factory: &[u8],
        u: usize,
        v: usize,
    ) -> Option<u32> {
        let (right, down) = (u.checked_sub(form.x.into())?, v.checked_sub(form.y.into())?);
        let shows = |bar: bool| Some(u32::from(if bar { form.bar } else { form.background }));
        match down {
            0..=99 => {
                let c = right / form.column as usize;
                if c >= form.hours as usize {
                    return None;
                }
                // Lines from the lowest up, which is the first.
                shows(self.bar(form, c as u32).is_some_and(|height| 100 - down <= height as usize))
            }
            100..=107 => {
                let digit = *self.digits().get(right / 8)?;
                shows(Self::inked(site, factory, digit, right % 8, down - 100))
            }
            _ => None,
        }
    }
}
