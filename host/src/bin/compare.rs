//! Compares the library with the reference on random inputs, and the reference with the plain sheet
//! and with pixel-by-pixel playing; the player that is fed in blocks also with the one that is not,
//! the older chip's bytes with the other chip's values, and a point's colour with the bits of memory
//! where it is said to stand; lists in either form with what short ones compile to and, for operations 3 to
//! 5, with the bytes that they share; turned lists with their records, and compiled and drawn in both forms;
//! panel lines with their points, and of compiled screens with the sheet; rings and strips with what the
//! accepted samples say, drawn strips with their picture, and the library's rings of any numbers with what they
//! tell themselves.
//!
//!     compare [--reference-only] [COUNT [SEED [FIRST]]]
//!
//! Inputs are numbered from FIRST (0); each is made from the seed and its number alone, so
//! `compare 1 SEED NUMBER` repeats one. Ends with status 1 on a difference, or where a refusal
//! number was never seen, or not by `feed`, `end`, turning, the older chip's functions and those of the
//! wear strip and panel lines where they give it, or not in each form of a list by compiling and drawing; or
//! where something of `Seen` or `Lines`, on either chip, of `Formed`, of `Hatched` or of `Worn` was not.

use std::fmt::{Debug, Write};
use std::ops::Range;
use std::process::ExitCode;
use std::time::Instant;

use host::answers::{Compiled, Drawn, Glyph, Hour, List, Played, Player, Point, Settings, Strip};
use host::chart::{Samples, Told, GROUNDS};
use host::inputs::{self, Asked, Drawing, Rng, NO_FORMS, POOR};
use host::records::FIELDS;
use host::reference::{LONG, MEMORY, SHORT};
use host::serial::{self, BLOCK};
use host::wear::{self, HOURS};
use host::{forms, literal, older, records, reference, sheet, unit, LINKED};

const FUNCTIONS: [&str; 16] = [
    "compile",
    "play",
    "point",
    "draw",
    "feed",
    "end",
    "compile06",
    "point06",
    "sample",
    "hour",
    "strip",
    "glyph",
    "to long",
    "to short",
    "line",
    "line06",
];
const COMPILE: usize = 0;
const PLAY: usize = 1;
const POINT: usize = 2;
const DRAW: usize = 3;
const FEED: usize = 4;
const END: usize = 5;
const OLDER_COMPILE: usize = 6;
const OLDER_POINT: usize = 7;
const SAMPLE: usize = 8;
const HOUR: usize = 9;
const STRIP: usize = 10;
const GLYPH: usize = 11;
const TO_LONG: usize = 12;
const TO_SHORT: usize = 13;
const LINE: usize = 14;
const OLDER_LINE: usize = 15;

/// The highest number of a refusal, and those that there are not.
const HIGHEST: usize = 32;
const FREE: Range<usize> = 30..32;

/// What some functions must have given; `feed` and `end`, repeated answers among it.
const GIVEN: [(usize, &[usize]); 11] = [
    (FEED, &[0, 18, 19, 20, 21, 22, 23, 32]),
    (END, &[0, 19, 20, 21, 22, 23]),
    (OLDER_POINT, &[0, 1, 2, 3, 4, 5, 18, 21, 24, 25]),
    (SAMPLE, &[0, 27]),
    (HOUR, &[0, 27]),
    (STRIP, &[0, 2, 11, 12, 17, 27]),
    (GLYPH, &[0, 27]),
    (TO_LONG, &[0, 10, 17]),
    (TO_SHORT, &[0, 10, 17, 28]),
    (LINE, &[0, 1, 2, 3, 4, 5, 17, 18, 21, 24, 25]),
    (OLDER_LINE, &[0, 1, 2, 3, 4, 5, 17, 18, 21, 24, 25]),
];

/// The number that the long form alone has.
const LONG_ALONE: usize = 29;

/// Functions that take a list, and what each must have given in either form.
const LISTED: [(usize, &[usize]); 3] = [
    (COMPILE, &[0, 1, 2, 3, 4, 5, 6, 7, 8, 9, 10, 11, 12, 13, 14, 15, 16, 17, 26, LONG_ALONE]),
    (DRAW, &[0, 1, 2, 3, 4, 5, 6, 7, 8, 9, 10, 11, 12, 13, 14, 15, 16, 17, 18, 26, LONG_ALONE]),
    (OLDER_COMPILE, &[0, 1, 2, 3, 4, 5, 6, 7, 8, 9, 10, 11, 16, 17, 26]),
];

/// Where a form is counted: 32, 48, and any number that is none.
fn form_index(form: u32) -> usize {
    match form {
        SHORT => 0,
        LONG => 1,
        _ => 2,
    }
}

type Compile = fn(u32, &[u8], &[u8], &[u16], &mut [u8]) -> Compiled;
type Read = fn(&Settings, u32, u32, &[u8]) -> Point;
type ReadLine = fn(&Settings, u32, &[u8], &mut [u16]) -> u32;

/// A chip: the size of its memory, and its functions by the reference and by the library.
struct Chip {
    name: &'static str,
    memory: usize,
    compile: [Compile; 2],
    read_point: [Read; 2],
    read_line: [ReadLine; 2],
    /// Where their numbers are counted, and the rest.
    compiled: usize,
    read: usize,
    lined: usize,
    index: usize,
}

const NEWER: Chip = Chip {
    name: "S1D13A05",
    memory: MEMORY,
    compile: [reference::compile, unit::compile],
    read_point: [reference::read_point, unit::read_point],
    read_line: [reference::read_line, unit::read_line],
    compiled: COMPILE,
    read: POINT,
    lined: LINE,
    index: 0,
};
const OLDER: Chip = Chip {
    name: "S1D13706",
    memory: older::MEMORY,
    compile: [older::compile, unit::older::compile],
    read_point: [older::read_point, unit::older::read_point],
    read_line: [older::read_line, unit::older::read_line],
    compiled: OLDER_COMPILE,
    read: OLDER_POINT,
    lined: OLDER_LINE,
    index: 1,
};

type Turn = fn(&[u8], &mut [u8]) -> List;

/// A way of turning a list: its forms, and its functions by the reference and by the library.
struct Way {
    name: &'static str,
    from: u32,
    to: u32,
    turn: [Turn; 2],
    /// Where its numbers are counted, and the rest.
    turned: usize,
    index: usize,
}

const THERE: Way = Way {
    name: "to long",
    from: SHORT,
    to: LONG,
    turn: [forms::to_long, unit::to_long],
    turned: TO_LONG,
    index: 0,
};
const BACK: Way = Way {
    name: "to short",
    from: LONG,
    to: SHORT,
    turn: [forms::to_short, unit::to_short],
    turned: TO_SHORT,
    index: 1,
};

/// What else must be seen of a chip.
#[derive(Default)]
struct Seen {
    /// 26 for main, and for the window.
    lengths: [u64; 2],
    /// Screens that are accepted, by rotation and flag.
    screens: [[u64; 2]; 4],
    /// Points before the memory's first dword, in its last one, and in the one behind it.
    dwords: [u64; 3],
    /// Points of compiled screens, and of values that no compiling made.
    compiled: Places,
    any: Places,
}

const DEPTHS: [u32; 5] = [1, 2, 4, 8, 16];

/// Where points stand that are accepted.
#[derive(Default)]
struct Places {
    /// By depth, in the order of `DEPTHS`, and by the highest bit's place, 0 to 7.
    bits: [[u64; 8]; DEPTHS.len()],
    /// At depth 8, in a byte of odd address.
    odd: u64,
}

impl Places {
    fn count(&mut self, depth: u32, point: Point) {
        if let Point { number: 0, address, bit, .. } = point {
            self.bits[depth.trailing_zeros() as usize][bit as usize] += 1;
            self.odd += u64::from(depth == 8 && address % 2 == 1);
        }
    }

    /// For each depth the places that its pixels have, from 7 down.
    fn by_depth(&self) -> [Vec<u64>; DEPTHS.len()] {
        std::array::from_fn(|i| {
            let step = DEPTHS[i].min(8) as usize;
            self.bits[i].iter().rev().step_by(step).copied().collect()
        })
    }
}

/// Where the window is on a panel line that is accepted, by `place_of`; of a compiled screen the first
/// `COMPILED_PLACES` alone.
const PLACES: [&str; 12] = [
    "without the window",
    "above it",
    "below it",
    "window at the left edge",
    "in the middle",
    "at the right edge",
    "over the whole line",
    "window's first line",
    "its last line",
    "start past end",
    "start past the panel",
    "end past the panel",
];
const COMPILED_PLACES: usize = 9;

/// Which columns of a line alone are refused with 25, by `outside_of`. First and last are, at 0 and 180
/// degrees, a dword's.
const OUTSIDE: [&str; 7] = [
    "the first",
    "the last",
    "neither first nor last",
    "left of the window",
    "in the window, main on both sides",
    "right of the window",
    "all",
];

/// What a line may be refused with before its buffer's length is asked for.
const BEFORE_17: [u32; 9] = [18, 1, 2, 3, 4, 5, 21, 24, 25];

/// What else must be seen of a chip's panel lines.
#[derive(Default)]
struct Lines {
    /// Accepted, of compiled screens and of any values: by rotation and depth; and by rotation and in the order
    /// of `PLACES`.
    depths: [[[u64; DEPTHS.len()]; 4]; 2],
    places: [[[u64; PLACES.len()]; 4]; 2],
    /// 25 by rotation, in the order of `OUTSIDE`; and, at 90 and 270 degrees, for the first and for the last
    /// column of a window alone that has more of them, and main on both sides.
    outside: [[u64; OUTSIDE.len()]; 4],
    ends: [[u64; 2]; 2],
    /// 17 for a buffer one short, shorter, empty, one too long, longer.
    rooms: [u64; 5],
    /// Each number before 17, with a buffer of another length too.
    before_17: [u64; BEFORE_17.len()],
    /// 4 for no column, with an empty buffer, and for the most; 24 for the line below the panel, and for the
    /// last number. With no column: 18, 1, 2, 3.
    limits: [u64; 4],
    no_column: [u64; 4],
    /// Accepted: of 8 columns, of 1,024; main with offset 0 at 90 and 270 degrees.
    widths: [u64; 2],
    still: [u64; 2],
}

impl Lines {
    /// The counts with their names.
    fn rows(&self) -> Vec<(String, Vec<u64>)> {
        let of = ["compiled screens", "any values"];
        let mut rows = Vec::new();
        for (of, counts) in of.iter().zip(&self.depths) {
            rows.push((format!("of {of}, by rotation and depth"), counts.concat()));
        }
        for (i, of) in of.into_iter().enumerate() {
            for (place, what) in PLACES.iter().enumerate() {
                if i == 1 || place < COMPILED_PLACES {
                    let counts = self.places[i].iter().map(|counts| counts[place]);
                    rows.push((format!("of {of}, by rotation: {what}"), counts.collect()));
                }
            }
        }
        for (i, what) in OUTSIDE.iter().enumerate() {
            let counts = self.outside.iter().map(|counts| counts[i]);
            rows.push((format!("25 by rotation: {what}"), counts.collect()));
        }
        let mut row = |what: &str, counts: &[u64]| rows.push((what.into(), counts.to_vec()));
        row("25 at 90, 270 degrees: a window's first column, its last", &self.ends.concat());
        row("17 for one short, shorter, none, one too long, longer", &self.rooms);
        row("before 17: 18, 1 to 5, 21, 24, 25", &self.before_17);
        row("4 for width 0, 2^32 - 1; 24 for the height, 2^32 - 1", &self.limits);
        row("18, 1, 2, 3 for width 0", &self.no_column);
        row("of 8, 1,024 columns", &self.widths);
        row("with offset 0 at 90, 270 degrees", &self.still);
        rows
    }

    /// Counts an accepted line of a compiled screen (0) or of any values (1).
    fn count(&mut self, of: usize, settings: &Settings, q: u32) {
        let rotation = settings.rotation as usize;
        self.depths[of][rotation][settings.depth.trailing_zeros() as usize] += 1;
        for (count, there) in self.places[of][rotation].iter_mut().zip(place_of(settings, q)) {
            *count += u64::from(there);
        }
        for (count, width) in self.widths.iter_mut().zip([8, 1024]) {
            *count += u64::from(settings.width == width);
        }
        if rotation % 2 == 1 {
            self.still[rotation / 2] += u64::from(settings.values[1] == 0);
        }
    }

    /// Counts a line that is refused with a number; for 25, the columns where it is.
    fn count_refused(
        &mut self,
        settings: &Settings,
        q: u32,
        room: usize,
        number: u32,
        refused: &[bool],
    ) {
        let &Settings { rotation, width, height, .. } = settings;
        let columns = width as usize;
        if let Some(i) = BEFORE_17.iter().position(|&before| before == number) {
            self.before_17[i] += u64::from(room != columns);
            if let Some(count) = self.no_column.get_mut(i) {
                *count += u64::from(width == 0);
            }
        }
        let [none, most, below, last] = &mut self.limits;
        match number {
            4 => {
                *none += u64::from(width == 0 && room == 0);
                *most += u64::from(width == u32::MAX);
            }
            17 => {
                let [one, shorter, empty, more, longer] = &mut self.rooms;
                *one += u64::from(room + 1 == columns);
                *shorter += u64::from(room + 1 < columns);
                *empty += u64::from(room == 0);
                *more += u64::from(room == columns + 1);
                *longer += u64::from(room > columns + 1);
            }
            24 => {
                *below += u64::from(q == height);
                *last += u64::from(q == u32::MAX);
            }
            25 => {
                let places = outside_of(settings, q, refused);
                let counts = &mut self.outside[rotation as usize];
                for (count, there) in counts.iter_mut().zip(places) {
                    *count += u64::from(there);
                }
                let shown = in_window(settings, q);
                let (first, last) = (shown.iter().position(|&in_it| in_it), last_of(&shown));
                if let (1, true, Some(first)) = (rotation % 2, places[4], first) {
                    let alone = |at: usize| first < last && refused[at] && count_of(refused) == 1;
                    let [at_first, at_last] = &mut self.ends[rotation as usize / 2];
                    *at_first += u64::from(alone(first));
                    *at_last += u64::from(alone(last));
                }
            }
            _ => {}
        }
    }
}

/// How many of them are.
fn count_of(of: &[bool]) -> usize {
    of.iter().filter(|&&is| is).count()
}

/// The last of them that is; 0 where none is.
fn last_of(of: &[bool]) -> usize {
    of.iter().rposition(|&is| is).unwrap_or(0)
}

/// The window's X start and end, its Y start and end, and how many columns and lines a step of them is.
fn edges(settings: &Settings) -> ([u32; 4], (u32, u32)) {
    let (x, y) = (settings.values[4], settings.values[5]);
    let k = 32 / settings.depth;
    let steps = match settings.rotation {
        0 | 2 => (k, 1),
        _ => (1, k),
    };
    ([x % 65_536, x / 65_536, y % 65_536, y / 65_536], steps)
}

/// For each column of a panel line, whether it shows the window.
fn in_window(settings: &Settings, q: u32) -> Vec<bool> {
    let ([x_start, x_end, y_start, y_end], (across, down)) = edges(settings);
    let in_it = |p: u32| {
        let (x, y) = (p / across, q / down);
        settings.flag == 1 && x_start <= x && x <= x_end && y_start <= y && y <= y_end
    };
    (0..settings.width).map(in_it).collect()
}

/// Which of `PLACES` the window has on a panel line.
fn place_of(settings: &Settings, q: u32) -> [bool; PLACES.len()] {
    let ([x_start, x_end, y_start, y_end], (across, down)) = edges(settings);
    let &Settings { flag, width, .. } = settings;
    let shown = in_window(settings, q);
    let (first, last, count) = (shown[0], shown[shown.len() - 1], count_of(&shown));
    let some = count > 0;
    let on_panel = flag == 1 && x_start <= x_end && y_start <= y_end && x_start * across < width;
    let beside = flag == 1 && y_start <= q / down && q / down <= y_end;
    [
        flag == 0,
        on_panel && q / down < y_start,
        on_panel && q / down > y_end,
        first && !last,
        some && !first && !last,
        last && !first,
        count == shown.len(),
        some && q == y_start * down,
        some && q == y_end * down + down - 1,
        beside && x_start > x_end,
        beside && x_start <= x_end && x_start * across >= width,
        some && x_end * across >= width,
    ]
}

/// Which of `OUTSIDE` the refused columns of a panel line are.
fn outside_of(settings: &Settings, q: u32, refused: &[bool]) -> [bool; OUTSIDE.len()] {
    let (_, (across, _)) = edges(settings);
    let shown = in_window(settings, q);
    let (unit, width) = (across as usize, refused.len());
    let (first, last, count) = (refused[0], refused[width - 1], count_of(refused));
    let all = |alone: &dyn Fn(usize) -> bool| (0..width).all(|p| !refused[p] || alone(p));
    let (left, right) = (shown.iter().position(|&in_it| in_it), last_of(&shown));
    let some = left.is_some();
    let left = left.unwrap_or(0);
    [
        count == unit && unit < width && all(&|p| p < unit),
        count == unit && unit < width && all(&|p| p >= width - unit),
        !first && !last,
        some && all(&|p| p < left),
        some && !shown[0] && !shown[width - 1] && all(&|p| shown[p]),
        some && all(&|p| p > right),
        count == width,
    ]
}

/// What else must be seen of forms and turned lists.
#[derive(Default)]
struct Formed {
    /// 10 for each of `NO_FORMS`, by the functions of `LISTED`.
    no_forms: [[u64; NO_FORMS.len()]; LISTED.len()],
    /// With such a number: a memory, and a screen, that is refused before it; 10 for an empty list; 10
    /// where 11 holds too.
    no_form: [u64; 4],
    /// By form: 10 for a list that is whole in the other form alone; for 65 commands; where 11 holds too;
    /// and lists of 64 commands that are not 10.
    lengths: [[u64; 4]; 2],
    /// 11 for a long list with a byte past 31 that is not zero.
    eleven_past: u64,
    /// 12 for operations 3, 4, 5 and any above in the short form, and for one above 5 in the long form, and
    /// for nothing else.
    operations: [u64; 4],
    above: u64,
    /// 12 for one byte past 31 and nothing else, by the byte, and by the operation.
    past: [u64; 16],
    past_operation: [u64; 3],
    /// By form: refused commands that are the first of their list, and that are not.
    parts: [[u64; 2]; 2],
    /// By way: turned lists of no command and of 64; into targets of their length, and longer ones.
    turned: [[u64; 4]; 2],
    /// By way: 10 for no whole records; for more than 64; with a short target too. 17 for a byte.
    refused: [[u64; 4]; 2],
    /// 28 for one byte past 31 and nothing else, by the byte; for an operation alone; for the first of
    /// several commands alone, and for the last.
    not_short: [u64; 16],
    not_short_for: [u64; 3],
    /// 10 and 17 where 28 holds too.
    before_28: [u64; 2],
    /// Lists turned there and back, and back and there; and long ones that cannot come back.
    trips: [u64; 3],
    /// Lists beside the same turned long that are accepted with commands, and refused with 12 to 17 and
    /// for the screen; and that are drawn.
    both: [u64; 8],
    drawn: u64,
}

impl Formed {
    /// The counts with their names.
    fn rows(&self) -> Vec<(&'static str, Vec<u64>)> {
        vec![
            (
                "10 for no form 0, 31, 33, 47, 49, 96, 2^32 - 1 by compile",
                self.no_forms[0].to_vec(),
            ),
            ("the same by draw", self.no_forms[1].to_vec()),
            ("the same by compile06", self.no_forms[2].to_vec()),
            (
                "no form: after 18, a refused screen; of an empty list; before 11",
                self.no_form.to_vec(),
            ),
            ("short: 10 by the other form, for 65, before 11; 64", self.lengths[0].to_vec()),
            ("long: the same", self.lengths[1].to_vec()),
            ("11 before a byte past 31", vec![self.eleven_past]),
            ("short: 12 for operations 3, 4, 5, above alone", self.operations.to_vec()),
            ("long: 12 for an operation above 5 alone", vec![self.above]),
            ("12 for bytes 32 to 47 alone", self.past.to_vec()),
            ("12 for one of them by operation", self.past_operation.to_vec()),
            ("short: refused commands, first and later", self.parts[0].to_vec()),
            ("long: the same", self.parts[1].to_vec()),
            ("to long: no command, 64; exact target, longer", self.turned[0].to_vec()),
            ("to short: the same", self.turned[1].to_vec()),
            ("to long: 10 for no whole records, over 64, before 17; 17 for a byte", {
                self.refused[0].to_vec()
            }),
            ("to short: the same", self.refused[1].to_vec()),
            ("28 for bytes 32 to 47 alone", self.not_short.to_vec()),
            ("28 for an operation, the first command, the last alone", self.not_short_for.to_vec()),
            ("before 28: 10, 17", self.before_28.to_vec()),
            ("there and back, back and there, no way back", self.trips.to_vec()),
            ("both forms: accepted, 12 to 17, refused screens", self.both.to_vec()),
            ("both forms drawn", vec![self.drawn]),
        ]
    }
}

/// What else must be seen of the commands with operations 3 to 5, and of the chip's operations 5 to 7: by
/// operation, and by depth, 8 and 16.
#[derive(Default)]
struct Hatched {
    accepted: [[u64; 2]; 3],
    /// 12 for one of `FIELDS` and nothing else; and 13, 14 and 29.
    grounds: [[u64; FIELDS.len()]; 3],
    refused: [[u64; 2]; 3],
    clashes: [[u64; 2]; 3],
    /// Accepted: patterns inside the destination's span, and a pattern's end, and its start, at a line;
    /// moves to a greater address of overlapping spans; onto a part of the source, and onto all of it.
    patterns: [[u64; 2]; 3],
    moves: [[u64; 2]; 3],
    /// Pattern x and y of accepted commands.
    phases: [[u64; 8]; 2],
    /// Short lists with such an operation that are turned long: accepted, refused there with 29.
    turned: [u64; 2],
    /// Played: blits, those that keep and that store a pixel, and those that change what they are drawn from.
    blits: [[u64; 2]; 3],
    kept: [[u64; 2]; 3],
    stored: [[u64; 2]; 3],
    changed: [[u64; 2]; 3],
    /// Starts refused with 21 at depth 16, and with 22.
    starts: [[u64; 2]; 3],
}

impl Hatched {
    fn count_blit(&mut self, blit: &literal::Blit) {
        let (5..=7, deep) = (blit.operation, blit.pixel - 1) else { return };
        let row = blit.operation as usize - 5;
        self.blits[row][deep] += 1;
        self.kept[row][deep] += u64::from(blit.kept > 0);
        self.stored[row][deep] += u64::from(blit.stored > 0);
        self.changed[row][deep] += u64::from(blit.changed);
    }

    /// Counts a refused start of one of these operations: 21 for an odd address, and 22.
    fn count_start(&mut self, stream: &[u8], answer: Played) {
        let (21 | 22, place) = (answer.number, answer.place as usize) else { return };
        let registers = registers_after(&stream[..8 * place]);
        let (operation, source) = (registers[7] % 16, registers[8]);
        let (number, value) = record_at(&stream[8 * place..]);
        if number != 0x8000 || !(5..=7).contains(&operation) || ![1, 0x4_0001].contains(&value) {
            return;
        }
        // The source's alone, where it is 21.
        let [odd, outside] = &mut self.starts[operation as usize - 5];
        let odds = [source % 2, registers[9] % 2];
        *odd += u64::from(answer.number == 21 && odds == [1, 0]);
        *outside += u64::from(answer.number == 22);
    }

    /// The counts with their names.
    fn rows(&self) -> Vec<(String, Vec<u64>)> {
        let mut rows = vec![
            ("commands 3, 4, 5 by depth".into(), self.accepted.concat()),
            ("the same, 13 and 14".into(), self.refused.concat()),
            ("the same, 29 by depth".into(), self.clashes.concat()),
            (
                "patterns inside the span, ending, beginning at a line, by depth".into(),
                self.patterns.concat(),
            ),
            (
                "transparent moves to overlapping spans, a part of the source, all of it, by depth"
                    .into(),
                self.moves.concat(),
            ),
            ("pattern x from 0".into(), self.phases[0].to_vec()),
            ("pattern y from 0".into(), self.phases[1].to_vec()),
            ("turned long: accepted, 29".into(), self.turned.to_vec()),
            ("blits 5, 6, 7 by depth".into(), self.blits.concat()),
            ("the same with a stored pixel".into(), self.stored.concat()),
            ("5 and 7 with a kept pixel by depth".into(), [self.kept[0], self.kept[2]].concat()),
            ("5, 6, 7 that change their source or pattern".into(), self.changed.concat()),
            ("5, 6, 7 refused with 21, with 22".into(), self.starts.concat()),
        ];
        for (operation, grounds) in (3..).zip(self.grounds) {
            // A transparent move has a source, and of a pattern address zero.
            let asked =
                |i: &usize| operation != 5 || !["source", "pattern outside"].contains(&FIELDS[*i]);
            let asked: Vec<usize> = (0..FIELDS.len()).filter(asked).collect();
            let names: Vec<&str> = asked.iter().map(|&i| FIELDS[i]).collect();
            rows.push((
                format!("12 of operation {operation} alone for {}", names.join(", ")),
                asked.iter().map(|&i| grounds[i]).collect(),
            ));
        }
        rows
    }
}

/// What else must be seen of rings and strips.
#[derive(Default)]
struct Worn {
    /// Steps from the newest that are taken: 1, 511, 512; and refused, the height being right: 0, 513,
    /// one back. The first sample with a height above 100.
    taken: [u64; 3],
    refused: [u64; 3],
    first: u64,
    /// Rings that are empty; whose numbers have come round; with a sample of age 511; with a blank hour
    /// whose number a sample had on an earlier round. For the library's alone: of any numbers.
    rings: [u64; 4],
    any: u64,
    /// Strips refused with 27 for one ground alone, in the order of `GROUNDS`, and for the factory font
    /// with no digit to draw. A low bar's y is never alone: where there is a bar there are digits below.
    grounds: [u64; GROUNDS.len()],
    undrawn: u64,
    /// Strips refused with 17 for the list alone, the words alone, and for a byte or a word.
    short: [u64; 4],
    /// Strips that are made, with no number and with 1 to 5 digits, at depths 8 and 16.
    digits: [[u64; 6]; 2],
    /// Each digit, drawn with the factory's glyph; with the site's; and with the factory's where the
    /// site has it in part.
    glyphs: [[u64; 3]; 10],
    /// Pictures by depth, rotation and flag; and columns seen blank, of height 0 and of height 100.
    pictures: [[[u64; 2]; 4]; 2],
    columns: [u64; 3],
}

impl Worn {
    /// The counts with their names.
    fn rows(&self) -> Vec<(&'static str, Vec<u64>)> {
        let mut grounds = self.grounds.to_vec();
        grounds.remove(5);
        let mut rows = vec![
            ("samples 1, 511, 512 steps ahead, taken", self.taken.to_vec()),
            ("samples 0, 513, 65535 steps ahead, refused", self.refused.to_vec()),
            ("first samples refused", vec![self.first]),
            ("rings empty, come round, full, with an old number skipped", self.rings.to_vec()),
            ("27 for hours, column, factory, column's x, digit's x, digit's y alone", grounds),
            ("27 for a factory font that is not drawn with", vec![self.undrawn]),
            ("17 for list, words, a byte, a word", self.short.to_vec()),
            ("strips at depth 8 by digits from 0", self.digits[0].to_vec()),
            ("strips at depth 16 by digits from 0", self.digits[1].to_vec()),
            ("pictures at depth 8 by rotation and flag", self.pictures[0].concat()),
            ("pictures at depth 16 by rotation and flag", self.pictures[1].concat()),
            ("columns seen blank, of height 0, of height 100", self.columns.to_vec()),
        ];
        for (i, what) in [
            "digits drawn with the factory's glyph",
            "digits drawn with the site's",
            "digits drawn with the factory's, the site having a part",
        ]
        .into_iter()
        .enumerate()
        {
            rows.push((what, self.glyphs.map(|digit| digit[i]).to_vec()));
        }
        if LINKED {
            rows.push(("rings of any numbers", vec![self.any]));
        }
        rows
    }
}

/// A ring by the reference and by the library, and what its accepted samples say.
struct Rings {
    given: Vec<(u16, u32)>,
    ours: wear::Ring,
    theirs: unit::Ring,
    samples: Samples,
}

/// The list and the words of a strip, or its number.
type Made = Result<(Vec<u8>, Vec<u16>), u32>;

/// The colours of a panel line, or the number of its refusal.
type Line = Result<Vec<u16>, u32>;

/// A list in its other form, or the number of its refusal.
type Turned = Result<Vec<u8>, u32>;

/// A difference, in words and with the input.
type Checked = Result<(), String>;

struct Bench {
    /// Random bytes that memories and buffers begin with, stretches of few colours among them.
    pool: Vec<u8>,
    /// Memory and stream buffer of the reference, and of the library.
    memory: [Vec<u8>; 2],
    stream: [Vec<u8>; 2],
    /// A third memory, of the sheet or of pixel-by-pixel playing.
    third: Vec<u8>,
    /// How often each function gave each number.
    seen: [[u64; HIGHEST + 1]; FUNCTIONS.len()],
    /// How often those of `LISTED` did, by the list's form: 32, 48, any other number.
    by_form: [[[u64; HIGHEST + 1]; 3]; LISTED.len()],
    /// How often the rest was seen of each chip, and of its panel lines.
    chips: [Seen; 2],
    lines: [Lines; 2],
    /// And of forms, of patterns and transparent moves, and of rings and strips.
    formed: Formed,
    hatched: Hatched,
    worn: Worn,
}

/// One call of a player: the block's place in its bytes, and the length of the memory.
#[derive(Clone, Copy, Debug)]
enum Call {
    Block { at: usize, length: usize, memory: usize },
    End,
}

fn hex(bytes: &[u8]) -> String {
    let mut text = String::new();
    for byte in bytes {
        write!(text, "{byte:02x}").unwrap();
    }
    text
}

fn hex_words(words: &[u16]) -> String {
    hex(&words.iter().flat_map(|word| word.to_le_bytes()).collect::<Vec<u8>>())
}

fn same<T: PartialEq + Debug>(
    what: &str,
    ours: T,
    theirs: T,
    input: impl Fn() -> String,
) -> Checked {
    if ours == theirs {
        return Ok(());
    }
    Err(format!("{what}\n  reference: {ours:?}\n  other:     {theirs:?}\n{}", input()))
}

fn same_bytes(what: &str, ours: &[u8], theirs: &[u8], input: impl Fn() -> String) -> Checked {
    if ours == theirs {
        return Ok(());
    }
    let at = ours.iter().zip(theirs).position(|(a, b)| a != b);
    let at = at.unwrap_or(ours.len().min(theirs.len()));
    same(&format!("{what}, byte {at}"), ours.get(at), theirs.get(at), input)
}

fn drawing_text(drawing: &Drawing) -> String {
    format!(
        "  form: {}\n  screen: {}\n  list: {}\n  words (bytes): {}\n  stream buffer: {} bytes",
        drawing.form,
        hex(&drawing.screen),
        hex(&drawing.list),
        hex_words(&drawing.words),
        drawing.room
    )
}

fn asked_text(asked: &Asked) -> String {
    let Asked { form, site, factory, list_room, words_room } = asked;
    format!(
        "  {form:?}\n  site: {}\n  factory: {}\n  buffers: {list_room} bytes, {words_room} words",
        hex(site),
        hex(factory)
    )
}

/// What a strip gives, as the hours that are told say.
fn made(told: &Told, asked: &Asked) -> Made {
    let (list, words) = told.strip(&asked.form, &asked.site, &asked.factory)?;
    if list.len() > asked.list_room || words.len() > asked.words_room {
        return Err(17);
    }
    Ok((list, words))
}

/// A stream, compiled or foreign, whole or changed.
fn any_stream(rng: &mut Rng) -> Vec<u8> {
    let mut stream = if rng.one_in(3) {
        let Drawing { form, screen, list, words, room } = inputs::accepted(rng);
        let mut stream = vec![0; room];
        let answer = reference::compile(form, &screen, &list, &words, &mut stream);
        stream.truncate(answer.length as usize);
        stream
    } else {
        inputs::foreign(rng)
    };
    if rng.one_in(2) {
        for _ in 0..rng.pick(&[1, 1, 1, 2, 5]) {
            inputs::mutate(rng, &mut stream);
        }
    }
    stream
}

fn serial_text(begun: &Player, bytes: &[u8], calls: &[Call], pool_at: usize) -> String {
    format!(
        "  {begun:?}\n  bytes: {}\n  calls: {calls:?}\n  memory: pool from {pool_at}",
        hex(bytes)
    )
}

/// A memory's length: the chip's, or now and then a wrong one.
fn memory_length(rng: &mut Rng, chip: &Chip) -> usize {
    let size = chip.memory;
    match rng.below(32) {
        0 => rng.pick(&[0, 1, 100_000, size - 1, size + 1, MEMORY, older::MEMORY]),
        _ => size,
    }
}

/// What the point reader is told of a screen that is accepted.
fn settings(answer: Compiled, screen: &[u8], values: [u32; 6]) -> Settings {
    let Compiled { depth, rotation, flag, .. } = answer;
    let number = |at: usize| u16::from_le_bytes([screen[at], screen[at + 1]]).into();
    Settings { depth, rotation, flag, width: number(4), height: number(6), values }
}

/// Number and value of the record at a stream's front.
fn record_at(stream: &[u8]) -> (u32, u32) {
    let half = |at: usize| u32::from_le_bytes(stream[at..at + 4].try_into().unwrap());
    (half(0), half(4))
}

/// The registers as some records leave them, in rising number.
fn registers_after(records: &[u8]) -> [u32; 15] {
    let mut registers = [0; 15];
    for (number, value) in records.chunks(8).map(record_at) {
        if let Some(i) = inputs::NUMBERS[..15].iter().position(|&other| other == number) {
            registers[i] = value;
        }
    }
    registers
}

/// The values of the records at a stream's front.
fn record_values<const N: usize>(stream: &[u8]) -> [u32; N] {
    std::array::from_fn(|i| u32::from_le_bytes(stream[8 * i + 4..8 * i + 8].try_into().unwrap()))
}

/// The colour that stands in a memory at a byte: so many bits from a place down, at depth 16 all of
/// the byte, then the next one. Nothing where the bits are not there.
fn colour_at(memory: &[u8], depth: u32, address: u32, bit: u32) -> Option<u32> {
    let byte = |at: usize| memory.get(at).map(|&byte| u32::from(byte));
    let at = address as usize;
    match (depth, bit) {
        (16, 7) => Some(byte(at)? + 256 * byte(at + 1)?),
        (1..=8, 0..=7) => Some(byte(at)? >> (bit + 1).checked_sub(depth)? & ((1 << depth) - 1)),
        _ => None,
    }
}

impl Bench {
    fn new(seed: u64) -> Bench {
        let mut rng = Rng::new(seed, u64::MAX);
        let length = (2 * MEMORY + 1).max(inputs::MOST_ROOM);
        let mut pool = Vec::with_capacity(length + 4096);
        while pool.len() < length {
            let poor = rng.one_in(2);
            let byte = |_| if poor { rng.pick(&POOR) } else { rng.any() as u8 };
            pool.extend((0..4096).map(byte));
        }
        Bench {
            pool,
            memory: Default::default(),
            stream: Default::default(),
            third: Vec::new(),
            seen: [[0; HIGHEST + 1]; FUNCTIONS.len()],
            by_form: [[[0; HIGHEST + 1]; 3]; LISTED.len()],
            chips: Default::default(),
            lines: Default::default(),
            formed: Formed::default(),
            hatched: Hatched::default(),
            worn: Worn::default(),
        }
    }

    /// The same random bytes in both memories, from somewhere in the pool.
    fn prepare_memory(&mut self, rng: &mut Rng, length: usize) -> usize {
        let at = rng.below(MEMORY as u64) as usize;
        self.prepare_memory_at(at, length);
        at
    }

    fn prepare_memory_at(&mut self, at: usize, length: usize) {
        for memory in &mut self.memory {
            memory.clear();
            memory.extend_from_slice(&self.pool[at..at + length]);
        }
    }

    fn prepare_stream(&mut self, room: usize) {
        for stream in &mut self.stream {
            stream.clear();
            stream.extend_from_slice(&self.pool[..room]);
        }
    }

    fn drawing(&mut self, rng: &mut Rng) -> Drawing {
        let mut drawing = inputs::accepted(rng);
        if rng.one_in(2) {
            for _ in 0..rng.pick(&[1, 1, 1, 1, 2, 3]) {
                inputs::damage(rng, &mut drawing);
            }
        }
        drawing
    }

    /// Counts a number of compiling or drawing; 26 is main's where the screen gets it without its
    /// window too.
    fn count(
        &mut self,
        chip: &Chip,
        function: usize,
        drawing: &Drawing,
        (number, place): (u32, u64),
    ) {
        self.count_form(chip, function, drawing, (number, place));
        let screen = &drawing.screen;
        self.seen[function][number as usize] += 1;
        let seen = &mut self.chips[chip.index];
        match number {
            0 => seen.screens[usize::from(screen[1])][usize::from(screen[2])] += 1,
            26 => {
                let mut alone = screen.to_vec();
                alone[2] = 0;
                alone[12..24].fill(0);
                alone[26..28].fill(0);
                let main = chip.compile[0](SHORT, &alone, &[], &[], &mut [0; 48]).number == 26;
                seen.lengths[usize::from(!main)] += 1;
            }
            _ => {}
        }
    }

    /// Counts what a number of compiling or drawing says of the list's form.
    fn count_form(
        &mut self,
        chip: &Chip,
        function: usize,
        drawing: &Drawing,
        (number, place): (u32, u64),
    ) {
        let Drawing { form, screen, list, .. } = drawing;
        let listed = LISTED.iter().position(|&(of, _)| of == function).unwrap();
        let index = form_index(*form);
        self.by_form[listed][index][number as usize] += 1;
        let formed = &mut self.formed;
        let eleven = number == 10 && !list.is_empty() && (chip.index == 1 || screen[0] < 8);
        if index == 2 {
            if let (10, Some(i)) = (number, NO_FORMS.iter().position(|no_form| no_form == form)) {
                formed.no_forms[listed][i] += 1;
            }
            let [memory, screens, empty, before] = &mut formed.no_form;
            *memory += u64::from(number == 18);
            *screens += u64::from(!matches!(number, 10 | 18));
            *empty += u64::from(number == 10 && list.is_empty());
            *before += u64::from(eleven);
            return;
        }

        let (size, other) = (*form as usize, if *form == SHORT { 48 } else { 32 });
        let [by_other, over, before, most] = &mut formed.lengths[index];
        let other_alone = list.len() % size != 0 && list.len() % other == 0;
        *by_other += u64::from(number == 10 && other_alone && list.len() <= 64 * other);
        *over += u64::from(number == 10 && list.len() == 65 * size);
        *before += u64::from(eleven);
        *most += u64::from(number == 0 && list.len() == 64 * size);
        if number == 11 {
            let past = |part: &[u8]| part[32..].iter().any(|&byte| byte != 0);
            formed.eleven_past += u64::from(list.chunks(size).any(past));
        }
        if matches!(number, 12..=15 | 29) {
            formed.parts[index][usize::from(place > 0)] += 1;
            let part = &list[size * place as usize..][..size];
            match records::asked(part, screen[0]) {
                Some(asked) if index == 1 => self.count_refused(screen, part, asked, number),
                _ => self.count_part(index, screen, part, number),
            }
        }
        if number == 0 && index == 1 && chip.index == 0 {
            let new = |part: &&[u8]| (3..=5).contains(&part[0]);
            list.chunks(size).filter(new).for_each(|part| self.count_new(screen, part));
        }
    }

    /// Counts why a command with operation 3 to 5 is refused: for 12, where it is one field alone.
    fn count_refused(
        &mut self,
        screen: &[u8],
        part: &[u8],
        (grounds, stand_in): ([bool; FIELDS.len()], [u8; 32]),
        number: u32,
    ) {
        let hatched = &mut self.hatched;
        let operation = usize::from(part[0] - 3);
        match number {
            12 if grounds.iter().filter(|&&ground| ground).count() == 1 => {
                let stand_in = reference::compile(SHORT, screen, &stand_in, &[], &mut []);
                let i = grounds.iter().position(|&ground| ground).unwrap();
                hatched.grounds[operation][i] += u64::from(stand_in.number != 12);
            }
            13 | 14 => hatched.refused[operation][number as usize - 13] += 1,
            29 => hatched.clashes[operation][usize::from(screen[0] / 16)] += 1,
            _ => {}
        }
    }

    /// Counts an accepted command with operation 3 to 5.
    fn count_new(&mut self, screen: &[u8], part: &[u8]) {
        let hatched = &mut self.hatched;
        let (depth, deep) = (usize::from(screen[0]), usize::from(screen[0] / 16));
        let number = |at: usize| usize::from(u16::from_le_bytes([part[at], part[at + 1]]));
        let ((x, y), (width, height)) = ((number(4), number(6)), (number(8), number(10)));
        let source = (number(12), number(14));
        // Bytes from the first to the last of some lines.
        let span = |(x, y): (usize, usize), height: usize| {
            let last = sheet::address(screen, part, (x + width - 1, y + height - 1));
            sheet::address(screen, part, (x, y))..last + depth / 8
        };
        let overlap = |a: &Range<usize>, b: &Range<usize>| a.start < b.end && b.start < a.end;
        let drawn = span((x, y), height);
        hatched.accepted[usize::from(part[0] - 3)][deep] += 1;
        if part[0] == 5 {
            let read = span(source, height);
            let away = (x.abs_diff(source.0), y.abs_diff(source.1));
            let apart = away.0 >= width || away.1 >= height;
            let [spans, onto, whole] = &mut hatched.moves;
            spans[deep] += u64::from(apart && drawn.start > read.start && overlap(&drawn, &read));
            onto[deep] += u64::from(!apart && away != (0, 0));
            whole[deep] += u64::from(away == (0, 0));
            return;
        }
        let first = number(36) + 65_536 * number(38);
        let pattern = first..first + 8 * depth;
        let lines = || (0..height).map(|j| span((x, y + j), 1));
        let [inside, ending, beginning] = &mut hatched.patterns;
        inside[deep] += u64::from(overlap(&drawn, &pattern));
        ending[deep] += u64::from(lines().any(|line| line.start == pattern.end));
        beginning[deep] += u64::from(lines().any(|line| line.end == pattern.start));
        hatched.phases[0][usize::from(part[34])] += 1;
        hatched.phases[1][usize::from(part[35])] += 1;
    }

    /// Counts what a command is refused for alone: as a short one, put right, it is not refused with 12.
    fn count_part(&mut self, index: usize, screen: &[u8], part: &[u8], number: u32) {
        let formed = &mut self.formed;
        let (old, past) = part.split_at(32);
        let right = |operation: u8| {
            let old = [&[operation], &old[1..]].concat();
            reference::compile(SHORT, screen, &old, &[], &mut []).number != 12
        };
        let operation = old[0];
        let mut not_zero = (0..past.len()).filter(|&i| past[i] != 0);
        match (not_zero.next(), not_zero.next()) {
            (Some(i), None) if number == 12 && right(operation) => {
                formed.past[i] += 1;
                formed.past_operation[usize::from(operation)] += 1;
            }
            (None, None) if operation > 2 && (0..=2).any(right) => match index {
                0 => formed.operations[usize::from(operation - 3).min(3)] += 1,
                _ => formed.above += 1,
            },
            _ => {}
        }
    }

    /// Compiles by both.
    fn compile_on(&mut self, chip: &Chip, drawing: &Drawing) -> Result<Compiled, String> {
        self.prepare_stream(drawing.room);
        let &Drawing { form, ref screen, ref list, ref words, room } = drawing;
        let input = || format!("  {}\n{}", chip.name, drawing_text(drawing));
        let [stream, other] = &mut self.stream;
        let answer = chip.compile[0](form, screen, list, words, stream);
        let theirs = chip.compile[1](form, screen, list, words, other);
        same("compile", answer, theirs, input)?;
        same_bytes("compile's stream", stream, other, input)?;
        let told = records::told(form, screen, list, |list| {
            chip.compile[0](SHORT, screen, list, words, &mut vec![0; room])
        });
        same("compile, as short lists say", answer, told, input)?;
        // A refusal leaves the buffer, acceptance the bytes past the stream.
        let length = answer.length as usize;
        same_bytes("past the stream", &stream[length..], &self.pool[length..drawing.room], input)?;
        self.count(chip, chip.compiled, drawing, (answer.number, answer.place));
        Ok(answer)
    }

    /// One list: compiled, played and read.
    fn compile(&mut self, rng: &mut Rng) -> Checked {
        let drawing = self.drawing(rng);
        let answer = self.compile_on(&NEWER, &drawing)?;
        if answer.number != 0 {
            return Ok(());
        }
        self.stream[0].truncate(answer.length as usize);
        let length = memory_length(rng, &NEWER);
        let at = self.prepare_memory(rng, length);
        let number = self.play(at)?;
        if number != 0 {
            return Ok(());
        }
        self.third.clear();
        self.third.extend_from_slice(&self.pool[at..at + MEMORY]);
        let Drawing { form, screen, list, words, .. } = &drawing;
        sheet::draw(*form, screen, list, words, &mut self.third);
        same_bytes("the sheet", &self.memory[0], &self.third, || drawing_text(&drawing))?;
        // The six screen records stand first in the stream.
        let values = record_values(&self.stream[0]);
        self.against_sheet(rng, &NEWER, &drawing, settings(answer, screen, values))
    }

    /// One screen of the older chip: compiled, its bytes put together, and read.
    fn older(&mut self, rng: &mut Rng) -> Checked {
        let drawing = inputs::older(rng);
        let answer = self.compile_on(&OLDER, &drawing)?;
        if answer.number != 0 {
            return Ok(());
        }
        let screen = &drawing.screen;
        let bytes = record_values(&self.stream[1]).map(|value| value as u8);
        let values = unit::older::values(&bytes).values;
        let input = || format!("  bytes: {}\n{}", hex(&bytes), drawing_text(&drawing));
        same("values", older::values(&bytes).values, values, input)?;
        // They are the other chip's, which holds the screen too.
        let mut stream = [0; 48];
        reference::compile(SHORT, screen, &[], &[], &mut stream);
        same("the screen's values", record_values(&stream), values, input)?;
        // Without a list the sheet is the memory.
        let at = self.prepare_memory(rng, older::MEMORY);
        self.third.clear();
        self.third.extend_from_slice(&self.pool[at..at + older::MEMORY]);
        self.against_sheet(rng, &OLDER, &drawing, settings(answer, screen, values))
    }

    /// Plays the stream over both memories, which begin as the pool from `at`.
    fn play(&mut self, at: usize) -> Result<u32, String> {
        let stream = &self.stream[0];
        let input = || format!("  stream: {}\n  memory: pool from {at}", hex(stream));
        let [memory, other] = &mut self.memory;
        let answer = reference::play(stream, memory);
        let theirs = unit::play(stream, other);
        self.seen[PLAY][answer.number as usize] += 1;
        same("play", answer, theirs, input)?;
        same_bytes("play's memory", memory, other, input)?;
        if answer.number == 0 {
            self.third.clear();
            self.third.extend_from_slice(&self.pool[at..at + MEMORY]);
            let blits = literal::play(stream, &mut self.third);
            same_bytes("played pixel by pixel", memory, &self.third, input)?;
            blits.iter().for_each(|blit| self.hatched.count_blit(blit));
        } else {
            same_bytes("memory of a refusal", memory, &self.pool[at..at + memory.len()], input)?;
            self.hatched.count_start(stream, answer);
        }
        Ok(answer.number)
    }

    /// One point, read by both from the memory.
    fn read(
        &mut self,
        chip: &Chip,
        settings: &Settings,
        (p, q): (u32, u32),
        input: impl Fn() -> String,
    ) -> Result<Point, String> {
        let memory = &self.memory[0];
        let answer = chip.read_point[0](settings, p, q, memory);
        let theirs = chip.read_point[1](settings, p, q, memory);
        same("point", answer, theirs, &input)?;
        let Point { number, colour, address, bit } = answer;
        if number == 0 {
            let there = colour_at(memory, settings.depth, address, bit);
            same("the bits where a point stands", Some(colour), there, &input)?;
        } else {
            same("a refused point", answer, Point { number, ..Point::default() }, &input)?;
        }
        self.seen[chip.read][number as usize] += 1;
        if let (0 | 25, Ok((dword, _))) = (number, reference::walk(settings, p, q)) {
            let past = chip.memory as i64 / 4;
            let [before, last, behind] = &mut self.chips[chip.index].dwords;
            *before += u64::from(dword < 0);
            *last += u64::from(dword == past - 1);
            *behind += u64::from(dword == past);
        }
        Ok(answer)
    }

    /// The panel's points against the sheet, which is the third memory.
    fn against_sheet(
        &mut self,
        rng: &mut Rng,
        chip: &Chip,
        drawing: &Drawing,
        settings: Settings,
    ) -> Checked {
        let (width, height) = (settings.width, settings.height);
        let mut read = |p: u32, q: u32| -> Checked {
            let input =
                || format!("  {} {settings:?} ({p}, {q})\n{}", chip.name, drawing_text(drawing));
            let answer = self.read(chip, &settings, (p, q), input)?;
            let (p, q) = (p as usize, q as usize);
            let colour = sheet::shows(&drawing.screen, &self.third, p, q);
            let (address, bit) = sheet::stands(&drawing.screen, p, q);
            same("the sheet's point", answer, Point { number: 0, colour, address, bit }, input)?;
            self.chips[chip.index].compiled.count(settings.depth, answer);
            Ok(())
        };
        if width * height <= 4096 {
            for q in 0..height {
                for p in 0..width {
                    read(p, q)?;
                }
            }
        } else {
            for (p, q) in [(0, 0), (width - 1, 0), (0, height - 1), (width - 1, height - 1)] {
                read(p, q)?;
            }
            for _ in 0..200 {
                read(rng.below(width.into()) as u32, rng.below(height.into()) as u32)?;
            }
        }
        self.lines_against_sheet(rng, chip, drawing, &settings)
    }

    /// Some of the panel's lines against the sheet: the first, the last, those at the window's edges, others.
    fn lines_against_sheet(
        &mut self,
        rng: &mut Rng,
        chip: &Chip,
        drawing: &Drawing,
        settings: &Settings,
    ) -> Checked {
        let screen = &drawing.screen;
        let height = settings.height as usize;
        let mut any = || rng.below(height as u64) as usize;
        let mut lines = vec![0, height - 1, any(), any()];
        if settings.flag == 1 {
            let number = |at: usize| usize::from(u16::from_le_bytes([screen[at], screen[at + 1]]));
            let (x, y, width, lines_of) = (number(16), number(18), number(20), number(22));
            let corners = [(x, y), (x + width - 1, y + lines_of - 1)];
            let [a, b] = corners.map(|(u, v)| sheet::panel_point(screen, u, v).1);
            let (first, last) = (a.min(b), a.max(b));
            lines.extend([first.saturating_sub(1), first, last, (last + 1).min(height - 1)]);
        }
        for q in lines {
            let room = inputs::line_room(rng, settings.width as usize);
            let input = || {
                let name = chip.name;
                format!("  {name} {settings:?} line {q}, {room} colours\n{}", drawing_text(drawing))
            };
            let line = self.read_line(chip, settings, q as u32, room, input)?;
            let shown = sheet::line(screen, &self.third, q);
            let want = if room == shown.len() { Ok(shown) } else { Err(17) };
            same("the sheet's line", &line, &want, input)?;
            if line.is_ok() {
                self.lines[chip.index].count(0, settings, q as u32);
            }
        }
        Ok(())
    }

    /// One panel line, read by both from the memory into a buffer of so many colours, against its points: the
    /// answer, and every colour there and around it.
    fn read_line(
        &mut self,
        chip: &Chip,
        settings: &Settings,
        q: u32,
        room: usize,
        input: impl Fn() -> String,
    ) -> Result<Line, String> {
        const AROUND: usize = 8;
        let memory = &self.memory[0];
        let by_points =
            |read: Read| literal::line(settings.width, room, |p| read(settings, p, q, memory));
        let [line, others] = chip.read_point.map(by_points);
        same("points of a line", &line, &others, &input)?;
        let number = line.as_ref().map_or_else(|&number| number, |_| 0);
        let held: Vec<u16> = (0..room + 2 * AROUND).map(|i| 0xA5A5 ^ i as u16).collect();
        let mut want = held.clone();
        if let Ok(colours) = &line {
            want[AROUND..AROUND + room].copy_from_slice(colours);
        }
        for (side, read) in ["reference", "library"].into_iter().zip(chip.read_line) {
            let mut colours = held.clone();
            let answer = read(settings, q, memory, &mut colours[AROUND..AROUND + room]);
            same(&format!("line of the {side}, as its points say"), number, answer, &input)?;
            let differs = want.iter().zip(&colours).position(|(a, b)| a != b);
            let differs = differs.map(|at| (at as i64 - AROUND as i64, want[at], colours[at]));
            let what =
                format!("line of the {side}: first column that differs, as points say, and is");
            same(&what, None, differs, &input)?;
        }
        self.seen[chip.lined][number as usize] += 1;
        if number != 0 {
            let refused = |p: u32| chip.read_point[0](settings, p, q, memory).number != 0;
            let columns = if number == 25 { settings.width } else { 0 };
            let refused: Vec<bool> = (0..columns).map(refused).collect();
            self.lines[chip.index].count_refused(settings, q, room, number, &refused);
        }
        Ok(line)
    }

    /// A few panel lines of settings that no compiling made.
    fn lines(&mut self, rng: &mut Rng, chip: &Chip) -> Checked {
        let length = memory_length(rng, chip);
        let at = self.prepare_memory(rng, length);
        for _ in 0..16 {
            let (settings, q, room) = inputs::line(rng, chip.memory as u64);
            let line = self.read_line(chip, &settings, q, room, || {
                format!(
                    "  {} {settings:?} line {q}, {room} colours\n  memory: {length} bytes, pool from {at}",
                    chip.name
                )
            })?;
            if line.is_ok() {
                self.lines[chip.index].count(1, &settings, q);
            }
        }
        Ok(())
    }

    /// One list, compiled and played in one call.
    fn draw(&mut self, rng: &mut Rng) -> Checked {
        let drawing = self.drawing(rng);
        let (at, length) = (rng.below(MEMORY as u64) as usize, memory_length(rng, &NEWER));
        self.draw_on(&drawing, at, length).map(|_| ())
    }

    /// Draws by both, over memories of a length that begin as the pool from `at`.
    fn draw_on(&mut self, drawing: &Drawing, at: usize, length: usize) -> Result<Drawn, String> {
        self.prepare_stream(drawing.room);
        self.prepare_memory_at(at, length);
        let &Drawing { form, ref screen, ref list, ref words, .. } = drawing;
        let input =
            || format!("{}\n  memory: {length} bytes, pool from {at}", drawing_text(drawing));
        let [stream, other_stream] = &mut self.stream;
        let [memory, other_memory] = &mut self.memory;
        let answer = reference::draw(form, screen, list, words, stream, memory);
        let theirs = unit::draw(form, screen, list, words, other_stream, other_memory);
        same("draw", answer, theirs, input)?;
        same_bytes("draw's stream", stream, other_stream, input)?;
        same_bytes("draw's memory", memory, other_memory, input)?;
        self.count(&NEWER, DRAW, drawing, (answer.number, answer.place));
        Ok(answer)
    }

    /// Turns a list by both, against what its records say: the answer, and every byte of the target. Gives
    /// the turned list, or the number.
    fn turn_by(
        &mut self,
        rng: &mut Rng,
        way: &Way,
        list: &[u8],
        room: usize,
    ) -> Result<Turned, String> {
        let name = way.name;
        let at = rng.below(MEMORY as u64) as usize;
        let input = || format!("  {name}, {room} bytes, pool from {at}\n  list: {}", hex(list));
        let turned = records::turned(way.from, way.to, list, room);
        let mut held = self.pool[at..at + room].to_vec();
        let want = match &turned {
            Ok(new) => {
                held[..new.len()].copy_from_slice(new);
                List { number: 0, length: new.len() as u64 }
            }
            Err(number) => List { number: *number, length: 0 },
        };
        for (side, turn) in ["reference", "library"].into_iter().zip(way.turn) {
            let mut target = self.pool[at..at + room].to_vec();
            let answer = turn(list, &mut target);
            same(&format!("turned by the {side}, as records say"), want, answer, input)?;
            same_bytes(&format!("target of the {side}"), &held, &target, input)?;
        }
        self.seen[way.turned][want.number as usize] += 1;
        Ok(turned)
    }

    /// One list, turned into its other form and, where it is, back again.
    fn turn(&mut self, rng: &mut Rng) -> Checked {
        let (way, other) = rng.pick(&[(&THERE, &BACK), (&BACK, &THERE)]);
        let (list, room) = inputs::turning(rng, way.from);
        let turned = self.turn_by(rng, way, &list, room)?;
        self.count_turn(way, &list, room, &turned);
        let Ok(new) = turned else { return Ok(()) };
        let room = list.len() + rng.below(40) as usize;
        let again = self.turn_by(rng, other, &new, room)?;
        let above = records::any_above(way.from, &list);
        self.formed.trips[if above { 2 } else { way.index }] += 1;
        let want = if above { Err(28) } else { Ok(list.clone()) };
        same("turned and turned again", want, again, || format!("  list: {}", hex(&list)))
    }

    fn count_turn(&mut self, way: &Way, list: &[u8], room: usize, turned: &Turned) {
        let formed = &mut self.formed;
        let (from, to) = (way.from as usize, way.to as usize);
        let (count, over) = (list.len() / from, list.len() % from);
        let short = room < count * to;
        // The commands that have no short form: what is not zero past their byte 31, and the operation.
        let long = |part: &&[u8]| part[0] > 2 || part[32..].iter().any(|&byte| byte != 0);
        let stay: Vec<&[u8]> = match way.index {
            0 => Vec::new(),
            _ => list.chunks_exact(from).filter(long).collect(),
        };
        match turned {
            Ok(_) => {
                let [none, most, exact, longer] = &mut formed.turned[way.index];
                *none += u64::from(count == 0);
                *most += u64::from(count == 64);
                *exact += u64::from(room == count * to);
                *longer += u64::from(room > count * to);
            }
            Err(10) => {
                let [no_whole, too_many, before, _] = &mut formed.refused[way.index];
                *no_whole += u64::from(over != 0 && count < 64);
                *too_many += u64::from(over == 0);
                *before += u64::from(short);
                formed.before_28[0] += u64::from(!stay.is_empty());
            }
            Err(17) => {
                formed.refused[way.index][3] += u64::from(room + 1 == count * to);
                formed.before_28[1] += u64::from(!stay.is_empty());
            }
            Err(_) => {
                let &[part] = &stay[..] else { return };
                let (first, last) = (&list[..from], &list[list.len() - from..]);
                let [operation, at_first, at_last] = &mut formed.not_short_for;
                *at_first += u64::from(count > 1 && std::ptr::eq(part, first));
                *at_last += u64::from(count > 1 && std::ptr::eq(part, last));
                let mut not_zero = (0..16).filter(|&i| part[32 + i] != 0);
                match (part[0] > 2, not_zero.next(), not_zero.next()) {
                    (true, None, _) => *operation += 1,
                    (false, Some(i), None) => formed.not_short[i] += 1,
                    _ => {}
                }
            }
        }
    }

    /// One short list, whole or damaged, beside the same turned long: compiled for both chips, and drawn,
    /// unless an operation is above 2.
    fn both_forms(&mut self, rng: &mut Rng) -> Checked {
        let mut short = inputs::accepted_in(rng, SHORT);
        if rng.one_in(8) {
            inputs::make_new(rng, &mut short.list);
        } else if rng.one_in(2) {
            inputs::damage(rng, &mut short);
            short.form = SHORT;
        }
        let room = 48 * (short.list.len() / 32) + rng.below(100) as usize;
        let Ok(list) = self.turn_by(rng, &THERE, &short.list, room)? else { return Ok(()) };
        let Drawing { screen, words, room, .. } = &short;
        let (screen, words, room) = (screen.clone(), words.clone(), *room);
        let long = Drawing { form: LONG, screen, list, words, room };
        let input = || drawing_text(&long);
        if records::any_above(SHORT, &short.list) {
            let answer = self.compile_on(&NEWER, &short)?;
            let other = self.compile_on(&NEWER, &long)?;
            let [accepted, clash] = &mut self.hatched.turned;
            *accepted += u64::from(answer.number == 12 && other.number == 0);
            *clash += u64::from(answer.number == 12 && other.number == 29);
            return Ok(());
        }

        for chip in [NEWER, OLDER] {
            let answer = self.compile_on(&chip, &short)?;
            let stream = self.stream[1].clone();
            let other = self.compile_on(&chip, &long)?;
            let want = match answer.part_length {
                0 => answer,
                _ => Compiled { part_at: 48 * answer.place, part_length: 48, ..answer },
            };
            same("compiled in the long form", want, other, input)?;
            same_bytes("the long form's stream", &stream, &self.stream[1], input)?;
            let part = |list: &[u8], answer: Compiled| {
                let (at, length) = (answer.part_at as usize, answer.part_length as usize);
                list[at..at + length].to_vec()
            };
            let mut want = part(&short.list, answer);
            want.resize(other.part_length as usize, 0);
            same_bytes("the long form's part", &want, &part(&long.list, other), input)?;
            let both = &mut self.formed.both;
            match answer.number {
                _ if chip.index != NEWER.index => {}
                0 => both[0] += u64::from(!short.list.is_empty()),
                number @ 12..=17 => both[number as usize - 11] += 1,
                1..=9 | 26 => both[7] += 1,
                _ => {}
            }
        }

        let (at, length) = (rng.below(MEMORY as u64) as usize, memory_length(rng, &NEWER));
        let answer = self.draw_on(&short, at, length)?;
        let (stream, memory) = (self.stream[1].clone(), self.memory[1].clone());
        let other = self.draw_on(&long, at, length)?;
        same("drawn in the long form", answer, other, input)?;
        same_bytes("the drawn long form's stream", &stream, &self.stream[1], input)?;
        same_bytes("the drawn long form's memory", &memory, &self.memory[1], input)?;
        self.formed.drawn += u64::from(answer.number == 0 && !short.list.is_empty());
        Ok(())
    }

    /// One stream, compiled or foreign, whole or changed.
    fn stream(&mut self, rng: &mut Rng) -> Checked {
        self.stream[0] = any_stream(rng);
        let length = memory_length(rng, &NEWER);
        let at = self.prepare_memory(rng, length);
        self.play(at)?;
        Ok(())
    }

    /// One stream, fed in blocks to a new player or to one in any state, with calls that are refused
    /// among the blocks and with calls after the last answer.
    fn serial(&mut self, rng: &mut Rng) -> Checked {
        same("new player", serial::new_player(), unit::new_player(), String::new)?;
        let new = !rng.one_in(3);
        let (begun, stream) = match new {
            true => (serial::new_player(), any_stream(rng)),
            false => inputs::player(rng),
        };
        // A byte more than a memory, for one that is too long.
        let pool_at = rng.below(MEMORY as u64) as usize;
        for memory in &mut self.memory {
            memory.clear();
            memory.extend_from_slice(&self.pool[pool_at..pool_at + MEMORY + 1]);
        }
        // Past the stream come other bytes, for blocks that are too long or too late.
        let mut bytes = stream.clone();
        bytes.extend_from_slice(&self.pool[..200]);

        let largest = match rng.below(8) {
            _ if stream.len() > 20_000 => BLOCK as u64,
            0 => rng.pick(&[1, 3, 7, 8, 9]),
            1 | 2 => rng.between(1, BLOCK as u64),
            _ => BLOCK as u64,
        };
        let even = rng.one_in(3);
        // One call in so many is a refused one, or an end too early.
        let (odd, early) = (rng.pick(&[8, 40, 400]), rng.pick(&[20, 2000]));
        // Calls after the answer that is kept.
        let mut late = rng.below(5);
        let mut players = [begun; 2];
        let mut fed = 0;
        let mut calls = Vec::new();
        while players[0].kept == 0 || late > 0 {
            let kept = players[0].kept != 0;
            late -= u64::from(kept);
            let left = stream.len() - fed;
            let most = if even { largest } else { rng.below(largest + 1) };
            let (mut length, mut memory) = (left.min(most as usize), MEMORY);
            if kept || rng.one_in(odd) {
                let what = rng.between(u64::from(!kept), 3);
                if what & 1 != 0 {
                    length = rng.pick(&[BLOCK + 1, BLOCK + 2, BLOCK + 8, 2 * BLOCK, 200]);
                }
                if what & 2 != 0 {
                    memory = rng.pick(&[0, 1, 100_000, MEMORY - 1, MEMORY + 1]);
                }
            }
            let end = rng.one_in(if kept || left == 0 { 2 } else { early });
            let call = if end { Call::End } else { Call::Block { at: fed, length, memory } };
            calls.push(call);
            let input = || serial_text(&begun, &bytes, &calls, pool_at);
            let look = stream.len() <= 2_000 || rng.one_in(64);
            let answer = self.call(call, &bytes, &mut players, look, input)?;
            // What a state keeps is any number.
            if begun.kept == 0 {
                self.seen[if end { END } else { FEED }][answer.number as usize] += 1;
            }
            if !end && !kept && !matches!(answer.number, 18 | 32) {
                fed += length;
            }
        }
        let input = || serial_text(&begun, &bytes, &calls, pool_at);
        let [memory, other] = &self.memory;
        same_bytes("memory of all calls", memory, other, input)?;
        self.third.clear();
        self.third.extend_from_slice(&self.pool[pool_at..pool_at + MEMORY]);
        if new {
            self.against_whole(&stream[..fed], &players[0], pool_at, input)
        } else {
            self.against_cut(&stream[..fed], begun, &players[0], input)
        }
    }

    /// One call of both players, and what holds of it alone.
    fn call(
        &mut self,
        call: Call,
        bytes: &[u8],
        players: &mut [Player; 2],
        look: bool,
        input: impl Fn() -> String,
    ) -> Result<Played, String> {
        let before = players[0];
        let [player, other_player] = players;
        let [memory, other_memory] = &mut self.memory;
        let (what, answer, theirs) = match call {
            Call::Block { at, length, memory: size } => {
                let block = &bytes[at..at + length];
                let answer = serial::feed(player, block, &mut memory[..size]);
                ("feed", answer, unit::feed(other_player, block, &mut other_memory[..size]))
            }
            Call::End => ("end", serial::end(player), unit::end(other_player)),
        };
        same(what, answer, theirs, &input)?;
        same("player", *player, *other_player, &input)?;
        if look {
            same_bytes("memory of a call", memory, other_memory, &input)?;
        }
        if before.kept != 0 || matches!(answer.number, 18 | 32) {
            same("player of a call that changes nothing", before, *player, &input)?;
        }
        Ok(answer)
    }

    /// A new player that was fed some bytes and ended, against the whole player; the memory of the
    /// records that it took, against pixel-by-pixel playing.
    fn against_whole(
        &mut self,
        stream: &[u8],
        player: &Player,
        pool_at: usize,
        input: impl Fn() -> String,
    ) -> Checked {
        let records = &stream[..stream.len() / 8 * 8];
        let mut whole = reference::play(records, &mut self.third);
        let at_end = whole.number == 0 || whole.place == records.len() as u64 / 8;
        if at_end && records.len() < stream.len() {
            whole = Played { number: 19, ..Played::default() };
        }
        let ended = serial::end(&mut player.clone());
        same("the whole player", ended, whole, &input)?;
        let taken = if at_end { records } else { &records[..8 * whole.place as usize] };
        same("records taken", player.count, taken.len() as u64 / 8, &input)?;
        same("registers", player.registers, registers_after(taken), &input)?;
        let memory = &self.memory[0][..MEMORY];
        if whole.number == 0 {
            same_bytes("the whole player's memory", memory, &self.third, &input)?;
        }
        self.third.copy_from_slice(&self.pool[pool_at..pool_at + MEMORY]);
        literal::play(taken, &mut self.third);
        same_bytes("fed, then pixel by pixel", memory, &self.third, &input)
    }

    /// A player of any state that was fed some bytes and ended, against the same bytes cut elsewhere.
    fn against_cut(
        &mut self,
        stream: &[u8],
        mut begun: Player,
        player: &Player,
        input: impl Fn() -> String,
    ) -> Checked {
        // Without a block a state is not made plain.
        if stream.is_empty() {
            return Ok(());
        }
        for block in stream.chunks(BLOCK) {
            serial::feed(&mut begun, block, &mut self.third);
        }
        serial::end(&mut begun);
        same("player, cut elsewhere", *player, begun, &input)?;
        same_bytes("memory, cut elsewhere", &self.memory[0][..MEMORY], &self.third, &input)
    }

    /// A few points of settings that no compiling made.
    fn points(&mut self, rng: &mut Rng, chip: &Chip) -> Checked {
        let length = memory_length(rng, chip);
        let at = self.prepare_memory(rng, length);
        for _ in 0..16 {
            let (settings, p, q) = inputs::point(rng, chip.memory as u64);
            let answer = self.read(chip, &settings, (p, q), || {
                let name = chip.name;
                format!(
                    "  {name} {settings:?} ({p}, {q})\n  memory: {length} bytes, pool from {at}"
                )
            })?;
            self.chips[chip.index].any.count(settings.depth, answer);
        }
        Ok(())
    }

    /// A few values of bytes that no compiling made.
    fn values(&mut self, rng: &mut Rng) -> Checked {
        for _ in 0..16 {
            let bytes = inputs::older_bytes(rng);
            same("values", older::values(&bytes), unit::older::values(&bytes), || {
                format!("  bytes: {}", hex(&bytes))
            })?;
        }
        Ok(())
    }

    /// A ring that is given samples from empty on, with what holds of each.
    fn rings(&mut self, rng: &mut Rng) -> Result<Rings, String> {
        let (ours, theirs) = (wear::new_ring(), unit::new_ring());
        let mut rings = Rings { given: Vec::new(), ours, theirs, samples: Samples::default() };
        let look = rng.pick(&[20, 200, 2000]);
        for (sequence, height) in inputs::samples(rng) {
            rings.given.push((sequence, height));
            let (ours, theirs) = (rings.ours.clone(), rings.theirs.clone());
            let input = || format!("  samples: {:?}", rings.given);
            let number = rings.samples.take(sequence, height);
            same(
                "sample, as accepted samples say",
                wear::take_sample(&mut rings.ours, sequence, height),
                number,
                input,
            )?;
            let other = unit::take_sample(&mut rings.theirs, sequence, height);
            same("sample", number, other, input)?;
            if number != 0 {
                same("reference's ring of a refusal", &ours, &rings.ours, input)?;
                same("ring of a refusal", &theirs, &rings.theirs, input)?;
            }
            self.seen[SAMPLE][number as usize] += 1;
            let worn = &mut self.worn;
            match wear::newest(&ours).map(|newest| sequence.wrapping_sub(newest)) {
                None => worn.first += u64::from(number != 0),
                Some(steps) => {
                    let (row, at) = match number {
                        0 => (&mut worn.taken, [1, 511, 512]),
                        _ => (&mut worn.refused, [0, 513, 65_535]),
                    };
                    if let (Some(i), 0..=100) = (at.iter().position(|&at| at == steps), height) {
                        row[i] += 1;
                    }
                }
            }
            if rng.one_in(look) {
                self.hours(rng, &rings)?;
            }
        }
        self.hours(rng, &rings)?;
        Ok(rings)
    }

    /// Every hour of a ring, and ages that are refused.
    fn hours(&mut self, rng: &mut Rng, rings: &Rings) -> Checked {
        let told = rings.samples.told();
        let input = |age: u32| format!("  age {age}\n  samples: {:?}", rings.given);
        let newest = wear::newest(&rings.ours);
        same("the newest number", newest, told.newest, || input(0))?;
        let far = inputs::far_ages(rng);
        for age in (0..HOURS as u32).chain(far) {
            let answer = wear::hour_at(&rings.ours, age);
            let theirs = unit::hour_at(&rings.theirs, age);
            same("hour", answer, theirs, || input(age))?;
            let want = match told.heights.get(age as usize) {
                None => Hour { number: 27, ..Hour::default() },
                Some(None) => Hour::default(),
                Some(&Some(height)) => Hour { number: 0, sampled: 1, height },
            };
            same("hour, as accepted samples say", answer, want, || input(age))?;
            self.seen[HOUR][answer.number as usize] += 1;
        }
        let [empty, round, full, again] = &mut self.worn.rings;
        *empty += u64::from(told.newest.is_none());
        *round += u64::from(rings.samples.rounds() > 0);
        *full += u64::from(told.heights[HOURS - 1].is_some());
        *again += u64::from(rings.samples.skipped_again() > 0);
        Ok(())
    }

    /// A ring alone.
    fn ring(&mut self, rng: &mut Rng) -> Checked {
        self.rings(rng).map(|_| ())
    }

    /// A strip, drawn on a screen or not.
    fn strip(&mut self, rng: &mut Rng) -> Checked {
        let rings = self.rings(rng)?;
        let told = rings.samples.told();
        let (asked, screen) = inputs::asked(rng, &told);
        let input = || format!("{}\n  samples: {:?}", asked_text(&asked), rings.given);
        let ours = |list: &mut [u8], words: &mut [u16]| {
            wear::wear_strip(&rings.ours, &asked.form, &asked.site, &asked.factory, list, words)
        };
        let theirs = |list: &mut [u8], words: &mut [u16]| {
            unit::wear_strip(&rings.theirs, &asked.form, &asked.site, &asked.factory, list, words)
        };
        let made = made(&told, &asked);
        self.strip_by("strip of the reference", &asked, &made, ours, input)?;
        self.strip_by("strip", &asked, &made, theirs, input)?;
        self.count_strip(&told, &asked, &made);
        match (made, screen) {
            (Ok((list, words)), Some(screen)) => {
                let room = 48 + 72 * list.len() / 32 + 8 * words.len();
                let drawing = Drawing { form: SHORT, screen, list, words, room };
                self.picture(rng, &told, &asked, &drawing, input)
            }
            _ => Ok(()),
        }
    }

    /// A strip by one side, against what is to be made: the answer, and every byte and word of the
    /// buffers.
    fn strip_by(
        &self,
        what: &str,
        asked: &Asked,
        made: &Made,
        strip: impl Fn(&mut [u8], &mut [u16]) -> Strip,
        input: impl Fn() -> String,
    ) -> Checked {
        let &Asked { list_room, words_room, .. } = asked;
        let mut list = self.pool[..list_room].to_vec();
        let half = |bytes: &[u8]| u16::from_le_bytes([bytes[0], bytes[1]]);
        let mut words: Vec<u16> = self.pool.chunks(2).take(words_room).map(half).collect();
        let (mut want_list, mut want_words) = (list.clone(), words.clone());
        let want = match made {
            Ok((list, words)) => {
                want_list[..list.len()].copy_from_slice(list);
                want_words[..words.len()].copy_from_slice(words);
                let (list_length, words_length) = (list.len() as u64, words.len() as u64);
                Strip { number: 0, list_length, words_length }
            }
            Err(number) => Strip { number: *number, ..Strip::default() },
        };
        same(what, want, strip(&mut list, &mut words), &input)?;
        same_bytes(&format!("list of {what}"), &want_list, &list, &input)?;
        let differs = want_words.iter().zip(&words).position(|(a, b)| a != b);
        same(&format!("words of {what}: first that differs"), None, differs, &input)
    }

    fn count_strip(&mut self, told: &Told, asked: &Asked, made: &Made) {
        let Asked { form, site, factory, list_room, words_room } = asked;
        let worn = &mut self.worn;
        let digits = told.digits();
        self.seen[STRIP][made.as_ref().map_or_else(|&number| number as usize, |_| 0)] += 1;
        match made {
            Ok(_) => {
                worn.digits[usize::from(form.depth == 16)][digits.len()] += 1;
                for digit in digits {
                    let held = site.len().saturating_sub(8 * digit);
                    let which = if held >= 8 { 1 } else { 2 * usize::from(held > 0) };
                    worn.glyphs[digit][which] += 1;
                }
            }
            Err(27) => {
                let grounds = told.grounds(form, factory);
                if grounds.iter().filter(|&&ground| ground).count() == 1 {
                    let i = grounds.iter().position(|&ground| ground).unwrap();
                    worn.grounds[i] += 1;
                    worn.undrawn += u64::from(i == 2 && digits.is_empty());
                }
            }
            Err(17) => {
                let (list, words) = told.strip(form, site, factory).unwrap();
                let short = (
                    list.len().saturating_sub(*list_room),
                    words.len().saturating_sub(*words_room),
                );
                let [by_list, by_words, by_byte, by_word] = &mut worn.short;
                *by_list += u64::from(short.1 == 0);
                *by_words += u64::from(short.0 == 0);
                *by_byte += u64::from(short == (1, 0));
                *by_word += u64::from(short == (0, 1));
            }
            Err(_) => {}
        }
    }

    /// A strip that is drawn: compiled, played and read, and its picture, pixel by pixel.
    fn picture(
        &mut self,
        rng: &mut Rng,
        told: &Told,
        asked: &Asked,
        drawing: &Drawing,
        input: impl Fn() -> String,
    ) -> Checked {
        let &Drawing { form: list_form, ref screen, ref list, ref words, .. } = drawing;
        let input = || format!("{}\n{}", input(), drawing_text(drawing));
        let answer = self.compile_on(&NEWER, drawing)?;
        same("a strip's list compiles", answer.number, 0, input)?;
        let at = self.prepare_memory(rng, MEMORY);
        let number = self.play(at)?;
        same("a strip's stream plays", number, 0, input)?;
        self.third.clear();
        self.third.extend_from_slice(&self.pool[at..at + MEMORY]);
        sheet::draw(list_form, screen, list, words, &mut self.third);
        same_bytes("a strip on the sheet", &self.memory[0], &self.third, input)?;
        let settings = settings(answer, screen, record_values(&self.stream[0]));
        self.against_sheet(rng, &NEWER, drawing, settings)?;

        let Asked { form, site, factory, .. } = asked;
        for (u, v) in inputs::pixels(rng, told, form, screen) {
            let (p, q) = sheet::panel_point(screen, u, v);
            let input = || format!("  pixel ({u}, {v}), panel point ({p}, {q})\n{}", input());
            let point = self.read(&NEWER, &settings, (p as u32, q as u32), input)?;
            let (which, x, y) = sheet::seen(screen, p, q);
            if which == 0 {
                same("the pixel of a panel point", (u, v), (x, y), input)?;
                let before = sheet::shows(screen, &self.pool[at..at + MEMORY], p, q);
                let want = told.pixel(form, site, factory, u, v).unwrap_or(before);
                same("a strip's pixel", want, point.colour, input)?;
            }
        }
        let deep = usize::from(form.depth == 16);
        self.worn.pictures[deep][usize::from(screen[1])][usize::from(screen[2])] += 1;
        for age in 0..form.hours as usize {
            let [blank, zero, full] = &mut self.worn.columns;
            match told.heights[age] {
                None => *blank += 1,
                Some(0) => *zero += 1,
                Some(100) => *full += 1,
                _ => {}
            }
        }
        Ok(())
    }

    /// A few glyphs.
    fn glyphs(&mut self, rng: &mut Rng) -> Checked {
        for _ in 0..16 {
            let ([site, factory], digit) = (inputs::fonts(rng), inputs::digit(rng));
            let answer = wear::find_glyph(&site, &factory, digit);
            let theirs = unit::find_glyph(&site, &factory, digit);
            let input =
                || format!("  site: {}\n  factory: {}\n  digit {digit}", hex(&site), hex(&factory));
            same("glyph", answer, theirs, input)?;
            let (at, length) = (8 * u64::from(digit), 8);
            let want = match (factory.len(), site.len() as u64) {
                (0..=79, _) => Glyph { number: 27, ..Glyph::default() },
                _ if digit > 9 => Glyph { number: 27, ..Glyph::default() },
                (_, held) => Glyph { number: 0, site: (held >= at + 8).into(), at, length },
            };
            same("glyph, as the request says", answer, want, input)?;
            self.seen[GLYPH][answer.number as usize] += 1;
        }
        Ok(())
    }

    /// One of the library's rings that holds any numbers: what it tells before and after samples, that
    /// refused ones change nothing, and that a strip shows what it tells.
    fn any_ring(&mut self, rng: &mut Rng) -> Checked {
        let numbers = inputs::ring(rng);
        let mut ring = unit::ring_of(&numbers);
        let mut given = Vec::new();
        let mut told = self.told_by(rng, &ring, || format!("  ring: {}", hex_words(&numbers)))?;
        for _ in 0..rng.between(1, 8) {
            let (sequence, height) = inputs::sample(rng, told.newest);
            given.push((sequence, height));
            let input = || format!("  samples: {given:?}\n  ring: {}", hex_words(&numbers));
            let before = ring.clone();
            // The first sample leaves no other hour.
            let steps = told.newest.map_or(HOURS, |newest| sequence.wrapping_sub(newest).into());
            let good = (1..=HOURS).contains(&steps) && height <= 100;
            let number = unit::take_sample(&mut ring, sequence, height);
            same("sample for a ring of any numbers", if good { 0 } else { 27 }, number, input)?;
            if good {
                let mut heights = vec![None; steps];
                heights[0] = Some(height);
                heights.extend(&told.heights[..HOURS - steps]);
                told = Told { newest: Some(sequence), heights };
            } else {
                same("ring of a refusal", &before, &ring, input)?;
            }
            same("told by a ring of any numbers", &told, &self.told_by(rng, &ring, input)?, input)?;
        }
        let input = || format!("  samples: {given:?}\n  ring: {}", hex_words(&numbers));
        let (asked, _) = inputs::asked(rng, &told);
        let strip = |list: &mut [u8], words: &mut [u16]| {
            unit::wear_strip(&ring, &asked.form, &asked.site, &asked.factory, list, words)
        };
        let input = || format!("{}\n{}", asked_text(&asked), input());
        let made = made(&told, &asked);
        self.strip_by("strip of a ring of any numbers", &asked, &made, strip, input)?;
        self.worn.any += 1;
        Ok(())
    }

    /// What one of the library's rings tells.
    fn told_by(
        &self,
        rng: &mut Rng,
        ring: &unit::Ring,
        input: impl Fn() -> String,
    ) -> Result<Told, String> {
        for age in inputs::far_ages(rng) {
            let want = Hour { number: 27, ..Hour::default() };
            same("an hour that is refused", want, unit::hour_at(ring, age), &input)?;
        }
        let mut heights = Vec::new();
        for age in 0..HOURS as u32 {
            let hour = unit::hour_at(ring, age);
            let blank = Hour::default();
            let want = match hour {
                Hour { sampled: 1, height: 0..=100, .. } => Hour { number: 0, ..hour },
                _ => blank,
            };
            same(&format!("hour of age {age}"), want, hour, &input)?;
            heights.push((hour != blank).then_some(hour.height));
        }
        Ok(Told { newest: unit::newest(ring), heights })
    }

    fn input(&mut self, rng: &mut Rng) -> Checked {
        match rng.below(34) {
            0..=4 => self.compile(rng),
            5..=7 => self.draw(rng),
            8..=10 => self.stream(rng),
            11..=13 => self.serial(rng),
            14 => self.points(rng, &NEWER),
            15..=18 => self.older(rng),
            19 => self.points(rng, &OLDER),
            20 => self.values(rng),
            21 => self.ring(rng),
            22..=24 => self.strip(rng),
            25 => self.glyphs(rng),
            26 => self.any_ring(rng),
            27..=29 => self.turn(rng),
            30 => self.lines(rng, &NEWER),
            31 => self.lines(rng, &OLDER),
            _ => self.both_forms(rng),
        }
    }
}

fn main() -> ExitCode {
    let (flags, numbers): (Vec<String>, Vec<String>) =
        std::env::args().skip(1).partition(|argument| argument.starts_with('-'));
    let reference_only = flags == ["--reference-only"];
    let numbers: Result<Vec<u64>, _> = numbers.iter().map(|number| number.parse()).collect();
    let (count, seed, first) = match numbers.as_deref() {
        Ok(&[]) => (100_000, 1, 0),
        Ok(&[count]) => (count, 1, 0),
        Ok(&[count, seed]) => (count, seed, 0),
        Ok(&[count, seed, first]) => (count, seed, first),
        _ => (0, 0, 0),
    };
    if count == 0 || !reference_only && !flags.is_empty() {
        eprintln!("compare [--reference-only] [COUNT [SEED [FIRST]]]");
        return ExitCode::FAILURE;
    }
    if !LINKED && !reference_only {
        eprintln!("compare: built without libs1d.a (build.rs); --reference-only runs without it");
        return ExitCode::FAILURE;
    }
    if !LINKED {
        println!(
            "the library is not linked: only the reference, the sheet and pixel-by-pixel playing"
        );
    }

    let begun = Instant::now();
    let mut bench = Bench::new(seed);
    for index in first..first + count {
        if let Err(difference) = bench.input(&mut Rng::new(seed, index)) {
            println!("input {index} of seed {seed} differs: {difference}");
            return ExitCode::FAILURE;
        }
    }
    let seconds = begun.elapsed().as_secs_f64();
    let mut report = format!(
        "{count} inputs from {first}, seed {seed}: no difference ({seconds:.0} s)\n\nnumber{}\n",
        FUNCTIONS.map(|name| format!("{name:>10}")).concat()
    );
    let mut unseen = Vec::new();
    for number in (0..=HIGHEST).filter(|number| !FREE.contains(number)) {
        let row = bench.seen.map(|seen| seen[number]);
        let times = row.map(|times| format!("{times:>10}")).concat();
        report += &format!("{number:>6}{times}\n");
        let missed = |&(function, numbers): &(usize, &[usize])| {
            row[function] == 0 && numbers.contains(&number)
        };
        if row.iter().all(|&times| times == 0) || GIVEN.iter().any(missed) {
            unseen.push(number);
        }
    }
    report += &format!(
        "\nby the list's form: 32, 48, none\nnumber{}\n",
        LISTED.map(|(function, _)| format!("{:>30}", FUNCTIONS[function])).concat()
    );
    for number in (0..=HIGHEST).filter(|number| LISTED.iter().any(|(_, of)| of.contains(number))) {
        report += &format!("{number:>6}");
        for ((_, numbers), forms) in LISTED.iter().zip(&bench.by_form) {
            let row = forms.map(|seen| seen[number]);
            report += &row.map(|times| format!("{times:>10}")).concat();
            let must = if number == LONG_ALONE { &row[1..2] } else { &row[..2] };
            if numbers.contains(&number) && must.contains(&0) && !unseen.contains(&number) {
                unseen.push(number);
            }
        }
        report += "\n";
    }
    println!("{report}");
    let mut missed = !unseen.is_empty();
    for (chip, seen) in [NEWER, OLDER].iter().zip(&bench.chips) {
        let Seen { lengths, screens, dwords, compiled, any } = seen;
        println!("{}: 26 for main and for the window {lengths:?}", chip.name);
        println!("  accepted by rotation, without and with the window {screens:?}");
        println!("  points before the first dword, in the last, behind it {dwords:?}");
        missed |= lengths.iter().chain(screens.as_flattened()).chain(dwords).any(|&n| n == 0);
        for (of, places) in [("compiled screens", compiled), ("any values", any)] {
            let (bits, odd) = (places.by_depth(), places.odd);
            println!("  points of {of} by depth, and by place from 7 down {bits:?}");
            println!("    at depth 8 in a byte of odd address {odd}");
            missed |= odd == 0 || bits.iter().any(|bits| bits.contains(&0));
        }
    }
    for (chip, lines) in [NEWER, OLDER].iter().zip(&bench.lines) {
        println!("Panel lines of the {}:", chip.name);
        for (what, counts) in lines.rows() {
            println!("  {what} {counts:?}");
            missed |= counts.contains(&0);
        }
    }
    println!("Forms of a list:");
    for (what, counts) in bench.formed.rows() {
        println!("  {what} {counts:?}");
        missed |= counts.contains(&0);
    }
    println!("Patterns and transparent moves:");
    for (what, counts) in bench.hatched.rows() {
        println!("  {what} {counts:?}");
        missed |= counts.contains(&0);
    }
    println!("Rings and strips:");
    for (what, counts) in bench.worn.rows() {
        println!("  {what} {counts:?}");
        missed |= counts.contains(&0);
    }
    if missed {
        println!("\nnot all seen; numbers {unseen:?}");
        return ExitCode::FAILURE;
    }
    ExitCode::SUCCESS
}
