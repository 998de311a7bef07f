//! Paper 01's cases S1 to S9 and B1 to B4, cases of paper 02's requests a) and c) to i), 001's examples 1 to
//! 8 and 002's examples 15 to 17, on the reference, and on the library where it is linked.

use host::answers::{
    Compiled, Drawn, Form, Glyph, Hour, List, Played, Player, Point, Settings, Strip,
};
use host::chart::Samples;
use host::inputs::long_command;
use host::reference::MEMORY;
use host::serial::BLOCK;
use host::{forms, literal, older, records as turning, reference, serial, sheet, unit, wear};

#[derive(Clone, Copy)]
struct Screen {
    depth: u8,
    rotation: u8,
    panel: (u16, u16),
    base: u32,
    /// x, y, width, height, base.
    window: Option<(u16, u16, u16, u16, u32)>,
    /// Line lengths of main and of the window, as the record has them.
    lengths: (u16, u16),
}

const S1: Screen =
    Screen { depth: 4, rotation: 0, panel: (320, 240), base: 0, window: None, lengths: (0, 0) };

impl Screen {
    fn record(&self) -> Vec<u8> {
        let (flag, (x, y, w, h, base)) = match self.window {
            Some(window) => (1, window),
            None => (0, (0, 0, 0, 0, 0)),
        };
        let mut record = vec![self.depth, self.rotation, flag, 0];
        let mut put = |bytes: &[u8]| record.extend_from_slice(bytes);
        put(&self.panel.0.to_le_bytes());
        put(&self.panel.1.to_le_bytes());
        put(&self.base.to_le_bytes());
        put(&base.to_le_bytes());
        for number in [x, y, w, h, self.lengths.0, self.lengths.1] {
            put(&number.to_le_bytes());
        }
        put(&[0; 4]);
        record
    }

    /// What the point reader is told.
    fn settings(&self, values: [u32; 6]) -> Settings {
        let (width, height) = self.panel;
        Settings {
            depth: self.depth.into(),
            rotation: self.rotation.into(),
            flag: self.window.is_some().into(),
            width: width.into(),
            height: height.into(),
            values,
        }
    }
}

/// A command: operation, surface, code, then x, y, width, height, source x, source y, colour.
fn command(operation: u8, surface: u8, code: u8, numbers: [u16; 7]) -> Vec<u8> {
    let mut part = vec![operation, surface, code, 0];
    part.extend(numbers.iter().flat_map(|number| number.to_le_bytes()));
    part.resize(32, 0);
    part
}

/// Number and value.
type Record = (u32, u32);

type Compile = fn(u32, &[u8], &[u8], &[u16], &mut [u8]) -> Compiled;
type Draw = fn(u32, &[u8], &[u8], &[u16], &mut [u8], &mut [u8]) -> Drawn;
type Read = fn(&Settings, u32, u32, &[u8]) -> Point;

const COMPILE: [Compile; 2] = [reference::compile, unit::compile];
const DRAW: [Draw; 2] = [reference::draw, unit::draw];
const READ: [Read; 2] = [reference::read_point, unit::read_point];

/// Compiles a short list by both; the answer and the stream's records.
fn compile(screen: &Screen, list: &[u8], words: &[u16]) -> (Compiled, Vec<Record>) {
    compile_by(COMPILE, 32, screen, list, words, 4096)
}

/// Compiles a list in a form by two functions into a buffer of so many bytes.
fn compile_by(
    [ours, theirs]: [Compile; 2],
    form: u32,
    screen: &Screen,
    list: &[u8],
    words: &[u16],
    room: usize,
) -> (Compiled, Vec<Record>) {
    let mut stream = vec![0xA5; room];
    let mut other = stream.clone();
    let answer = ours(form, &screen.record(), list, words, &mut stream);
    assert_eq!(answer, theirs(form, &screen.record(), list, words, &mut other));
    assert_eq!(stream, other);
    let half = |bytes: &[u8]| u32::from_le_bytes(bytes.try_into().unwrap());
    let length = answer.length as usize;
    assert!(stream[length..].iter().all(|&byte| byte == 0xA5));
    (answer, stream[..length].chunks(8).map(|r| (half(&r[..4]), half(&r[4..]))).collect())
}

fn values(screen: &Screen) -> Vec<u32> {
    let (answer, records) = compile(screen, &[], &[]);
    assert_eq!(answer.number, 0);
    assert_eq!((answer.depth, answer.rotation), (screen.depth.into(), screen.rotation.into()));
    assert_eq!(
        records.iter().map(|r| r.0).collect::<Vec<_>>(),
        [0x40, 0x44, 0x50, 0x54, 0x58, 0x5C]
    );
    records.iter().map(|r| r.1).collect()
}

#[test]
fn s1_to_s4() {
    let want = [(0, 0x28), (0x1D, 0x1E), (0x257F, 0x28), (0x2562, 0x1E)];
    for (rotation, (start, offset)) in (0..).zip(want) {
        assert_eq!(values(&Screen { rotation, ..S1 }), [start, offset, 0, 0, 0, 0]);
    }
}

#[test]
fn s5_to_s7() {
    let tall = Some((64, 80, 120, 160, 0));
    let wide = Some((80, 60, 160, 120, 0));
    let positions = |rotation, window| values(&Screen { rotation, window, ..S1 })[4..].to_vec();
    assert_eq!(positions(1, tall), [0xEF_0050, 0x15_0007]);
    assert_eq!(positions(3, tall), [0xEF_0050, 0x16_0008]);
    assert_eq!(positions(2, wide), [0x1D_000A, 0xB3_003C]);
}

/// The number of a screen.
fn number(screen: &Screen) -> u32 {
    compile(screen, &[], &[]).0.number
}

#[test]
fn s8_and_s9() {
    assert_eq!(number(&Screen { window: Some((4, 0, 8, 1, 0)), ..S1 }), 8);
    let large = Screen { depth: 2, panel: (1024, 1024), ..S1 };
    assert_eq!(number(&large), 0);
    assert_eq!(number(&Screen { base: 4, ..large }), 6);
}

#[test]
fn b1() {
    let screen = Screen { depth: 8, ..S1 };
    let list = command(0, 0, 0, [10, 20, 100, 150, 0, 0, 1]);
    let (answer, records) = compile(&screen, &list, &[]);
    assert_eq!((answer.number, answer.length), (0, 15 * 8));
    let (numbers, values): (Vec<u32>, Vec<u32>) = records.into_iter().unzip();
    let want = [
        0x40, 0x44, 0x50, 0x54, 0x58, 0x5C, 0x8008, 0x800C, 0x8010, 0x8014, 0x8018, 0x801C, 0x8020,
        0x8024, 0x8000,
    ];
    assert_eq!(numbers, want);
    assert_eq!(values, [0, 0x50, 0, 0, 0, 0, 0x0C, 0, 0x190A, 0xA0, 0x63, 0x95, 0, 1, 1]);
}

/// An 8 by 1 screen whose line holds 1 to 8, with one move of 7 pixels.
fn move_line(from: u16, to: u16) -> (Vec<(u32, u32)>, Vec<u8>) {
    let screen = Screen { depth: 8, panel: (8, 1), ..S1 };
    let list = command(1, 0, 0xC, [to, 0, 7, 1, from, 0, 0]);
    let (_, records) = compile(&screen, &list, &[]);
    let mut stream = vec![0; 15 * 8];
    let mut memory = vec![0; MEMORY];
    (1..=8).zip(&mut memory).for_each(|(pixel, byte)| *byte = pixel);
    let mut drawn = sheet_of(&screen, &list, &memory);
    for draw in DRAW {
        let mut after = memory.clone();
        let answer = draw(32, &screen.record(), &list, &[], &mut stream, &mut after);
        let want = Drawn { length: 15 * 8, values: [0, 2, 0, 0, 0, 0], ..Drawn::default() };
        assert_eq!(answer, want);
        assert_eq!(after, drawn);
    }
    drawn.truncate(8);
    (records, drawn)
}

fn sheet_of(screen: &Screen, list: &[u8], memory: &[u8]) -> Vec<u8> {
    let mut drawn = memory.to_vec();
    sheet::draw(32, &screen.record(), list, &[], &mut drawn);
    drawn
}

#[test]
fn b2_and_b3() {
    let (records, line) = move_line(0, 1);
    assert_eq!(line, [1, 1, 2, 3, 4, 5, 6, 7]);
    assert_eq!(records[6..9], [(0x8008, 0xC_0003), (0x800C, 6), (0x8010, 7)]);
    let (records, line) = move_line(1, 0);
    assert_eq!(line, [2, 3, 4, 5, 6, 7, 8, 8]);
    assert_eq!(records[6..9], [(0x8008, 0xC_0002), (0x800C, 1), (0x8010, 0)]);
}

#[test]
fn b4() {
    let (answer, records) = compile(&Screen { depth: 1, panel: (320, 240), ..S1 }, &[], &[]);
    let want = Compiled { length: 48, depth: 1, ..Compiled::default() };
    assert_eq!(answer, want);
    assert_eq!(records, [(0x40, 0), (0x44, 10), (0x50, 0), (0x54, 0), (0x58, 0), (0x5C, 0)]);
}

/// A refused command is handed back as its part of the list; a later refusal of the list is not.
#[test]
fn parts() {
    let screen = Screen { depth: 8, ..S1 };
    let fill = command(0, 0, 0, [0, 0, 1, 1, 0, 0, 7]);
    let outside = command(0, 0, 0, [319, 0, 2, 1, 0, 0, 7]);
    let (answer, _) = compile(&screen, &[fill.clone(), outside].concat(), &[]);
    let want =
        Compiled { number: 14, place: 1, part_at: 32, part_length: 32, ..Compiled::default() };
    assert_eq!(answer, want);
    let (answer, _) = compile(&screen, &fill, &[0]);
    assert_eq!(answer, Compiled { number: 16, ..Compiled::default() });
}

/// An odd line at depth 8 leaves its last high byte, and the next line begins with a new word.
#[test]
fn odd_lines() {
    let screen = Screen { depth: 8, panel: (8, 2), ..S1 };
    let list = command(2, 0, 0xC, [1, 0, 3, 2, 0, 0, 0]);
    let words = [0x0201, 0xEE03, 0x0504, 0xEE06];
    let mut stream = vec![0; 19 * 8];
    for draw in DRAW {
        let mut memory = vec![9; MEMORY];
        let answer = draw(32, &screen.record(), &list, &words, &mut stream, &mut memory);
        assert_eq!((answer.number, answer.length), (0, 19 * 8));
        assert_eq!(memory[..16], [9, 1, 2, 3, 9, 9, 9, 9, 9, 4, 5, 6, 9, 9, 9, 9]);
    }
}

fn record(number: u32, value: u32) -> Vec<u8> {
    [number.to_le_bytes(), value.to_le_bytes()].concat()
}

fn records(records: &[Record]) -> Vec<u8> {
    records.iter().flat_map(|&(number, value)| record(number, value)).collect()
}

/// The stream's end while a word is due: the place is the number of records.
#[test]
fn end_at_fault() {
    let stream = [record(0x44, 3), record(0x8000, 1)].concat();
    for play in [reference::play, unit::play] {
        let mut memory = vec![9; MEMORY];
        let answer = play(&stream, &mut memory);
        assert_eq!(answer, Played { number: 23, place: 2, ..Played::default() });
        // One word ends it: operation 0, one pixel, raster code 0.
        let answer = play(&[&stream[..], &record(0x10000, 0xFFFF)].concat(), &mut memory);
        assert_eq!(answer, Played { values: [0, 3, 0, 0, 0, 0], ..Played::default() });
        assert_eq!(memory[..2], [0, 9]);
    }
}

/// The corners of S1's panel, at each rotation, on lines of so many pixels.
fn corners_on(length: u16) {
    let values = |screen: &Screen| values(screen).try_into().unwrap();
    corners_by(READ, MEMORY, length, values);
}

/// The same by two point readers, over a memory of `size` bytes.
fn corners_by(both: [Read; 2], size: usize, length: u16, values: impl Fn(&Screen) -> [u32; 6]) {
    // Seen from the panel: upper left, upper right, lower left, lower right.
    let want = [[1, 2, 3, 4], [2, 4, 1, 3], [4, 3, 2, 1], [3, 1, 4, 2]];
    for (rotation, want) in (0..).zip(want) {
        let screen = Screen { rotation, lengths: (length, 0), ..S1 };
        let (shown, lines) = if rotation % 2 == 0 { (160, 240) } else { (120, 320) };
        let line = if length == 0 { shown } else { usize::from(length) / 2 };
        // The view's corner pixels: 1 and 2 above, 3 and 4 below.
        let mut memory = vec![0; size];
        let last = (lines - 1) * line;
        memory[0] = 0x10;
        memory[shown - 1] = 0x02;
        memory[last] = 0x30;
        memory[last + shown - 1] = 0x04;
        let settings = screen.settings(values(&screen));
        for read in both {
            let shown = [(0, 0), (319, 0), (0, 239), (319, 239)]
                .map(|(p, q)| read(&settings, p, q, &memory).colour);
            assert_eq!(shown, want, "rotation {rotation}");
        }
    }
}

/// High nibble first at depth 4, and each corner of the panel at each rotation.
#[test]
fn corners() {
    corners_on(0);
}

// ---- Request c) of 02 ----

/// S1 to S4 on lines of 640 pixels.
#[test]
fn starts_of_long_lines() {
    for (rotation, start) in (0..).zip([0, 0x1D, 0x4AD7, 0x63B0]) {
        let screen = Screen { rotation, lengths: (640, 0), ..S1 };
        assert_eq!(values(&screen), [start, 0x50, 0, 0, 0, 0]);
    }
}

#[test]
fn corners_of_long_lines() {
    corners_on(640);
}

/// Windows of S5 to S7 on lines of 640 pixels: the edges stay, and main has lines of its own.
#[test]
fn window_starts_of_long_lines() {
    let tall = Some((64, 80, 120, 160, 38_400));
    let wide = Some((80, 60, 160, 120, 38_400));
    let short_starts = [(0, 0x28), (0x1D, 0x1E), (0x257F, 0x28), (0x2562, 0x1E)];
    let long_starts = [0, 0x1D, 0x4AD7, 0x63B0];
    for (rotation, window, start, x, y) in [
        (0, tall, 0x2580, 0x16_0008, 0xEF_0050),
        (1, tall, 0x258E, 0xEF_0050, 0x15_0007),
        (2, wide, 0x4AC3, 0x1D_000A, 0xB3_003C),
        (3, tall, 0x5730, 0xEF_0050, 0x16_0008),
    ] {
        let screen = Screen { rotation, window, lengths: (0, 640), ..S1 };
        let (main, offset) = short_starts[usize::from(rotation)];
        assert_eq!(values(&screen), [main, offset, start, 0x50, x, y]);
        let screen = Screen { lengths: (640, 640), ..screen };
        let main = long_starts[usize::from(rotation)];
        assert_eq!(values(&screen), [main, 0x50, start, 0x50, x, y]);
    }
}

/// The image ends with its last shown pixel.
#[test]
fn last_bases() {
    let long = Screen { lengths: (640, 0), ..S1 };
    // 239 lines of 320 bytes and 160 bytes; at 90 degrees 319 lines and 120 bytes.
    for (rotation, last) in [(0, 185_504), (1, 159_944), (2, 185_504), (3, 159_944)] {
        assert_eq!(number(&Screen { rotation, base: last, ..long }), 0);
        assert_eq!(number(&Screen { rotation, base: last + 4, ..long }), 6);
    }
    // 119 lines of 320 bytes and 80 bytes.
    let window = |base| Screen { window: Some((80, 60, 160, 120, base)), lengths: (0, 640), ..S1 };
    assert_eq!(number(&window(223_984)), 0);
    assert_eq!(number(&window(223_988)), 9);
    // 64 lines of 4,092 bytes and the 4 shown of the next fit, 65 lines do not.
    let tall = Screen { depth: 1, panel: (32, 65), lengths: (32_736, 0), ..S1 };
    assert_eq!(values(&tall), [0, 0x3FF, 0, 0, 0, 0]);
    assert_eq!(number(&Screen { panel: (32, 66), ..tall }), 6);
}

/// Each ground of 26, for main and for the window.
#[test]
fn lengths() {
    // Lengths of lines that show 320 pixels at depth 4: 40 dwords of 8.
    let main = |length| number(&Screen { lengths: (length, 0), ..S1 });
    for length in [0, 320, 328, 640] {
        assert_eq!(main(length), 0, "{length}");
    }
    for length in [1, 8, 160, 312, 319, 321, 324, 327, 644, 8192, 65_528, 65_535] {
        assert_eq!(main(length), 26, "{length}");
    }
    // The shown width is the view's.
    assert_eq!(number(&Screen { rotation: 1, lengths: (240, 0), ..S1 }), 0);
    assert_eq!(number(&Screen { rotation: 1, lengths: (232, 0), ..S1 }), 26);

    // The window's is its own, below main's too.
    let window =
        |length| number(&Screen { window: Some((8, 8, 16, 2, 0)), lengths: (0, length), ..S1 });
    for length in [0, 16, 24, 320, 640, 8184] {
        assert_eq!(window(length), 0, "{length}");
    }
    for length in [1, 8, 15, 17, 20, 8180, 8185, 8192, 65_528, 65_535] {
        assert_eq!(window(length), 26, "{length}");
    }

    // The longest line, 1,023 dwords, at each depth.
    for (depth, longest, over) in [
        (1, 32_736, 32_768),
        (2, 16_368, 16_384),
        (4, 8184, 8192),
        (8, 4092, 4096),
        (16, 2046, 2048),
    ] {
        let window = Some((0, 0, 32, 1, 0));
        let screen = |lengths| Screen { depth, panel: (32, 1), window, lengths, ..S1 };
        let both = values(&screen((longest, longest)));
        assert_eq!((both[1], both[3]), (0x3FF, 0x3FF));
        assert_eq!(number(&screen((over, 0))), 26);
        assert_eq!(number(&screen((0, over))), 26);
    }
}

/// A length of 1 is never taken; what is checked before it shows.
#[test]
fn order_of_26() {
    let main = Screen { lengths: (1, 0), ..S1 };
    assert_eq!(number(&Screen { lengths: (1, 8), ..main }), 1);
    assert_eq!(number(&Screen { depth: 3, ..main }), 2);
    assert_eq!(number(&Screen { rotation: 4, ..main }), 3);
    assert_eq!(number(&Screen { panel: (321, 240), ..main }), 4);
    assert_eq!(number(&Screen { rotation: 1, panel: (320, 241), ..main }), 5);
    assert_eq!(number(&Screen { base: 2, ..main }), 26);
    assert_eq!(number(&Screen { base: 262_144, ..main }), 26);
    assert_eq!(number(&Screen { window: Some((0, 0, 0, 0, 0)), ..main }), 26);

    let window =
        |x, y, w, h, base| Screen { window: Some((x, y, w, h, base)), lengths: (0, 1), ..S1 };
    assert_eq!(number(&Screen { base: 2, ..window(0, 0, 8, 1, 0) }), 6);
    assert_eq!(number(&window(0, 0, 0, 1, 0)), 7);
    assert_eq!(number(&window(320, 0, 8, 1, 0)), 7);
    assert_eq!(number(&window(4, 0, 8, 1, 0)), 8);
    assert_eq!(number(&window(0, 0, 4, 1, 0)), 8);
    assert_eq!(number(&window(0, 0, 8, 1, 2)), 26);
    assert_eq!(number(&window(0, 0, 8, 1, 262_144)), 26);
    assert_eq!(number(&Screen { lengths: (0, 8), ..window(0, 0, 8, 1, 262_144) }), 9);

    // A refused screen comes before its list, and its place is 0.
    let outside = command(0, 0, 0, [640, 0, 1, 1, 0, 0, 1]);
    let (answer, _) = compile(&Screen { depth: 8, ..main }, &outside, &[0]);
    assert_eq!(answer, Compiled { number: 26, ..Compiled::default() });
}

/// A window length needs a window, and the last four bytes stay zero.
#[test]
fn zero_bytes() {
    assert_eq!(number(&Screen { lengths: (0, 640), ..S1 }), 1);
    assert_eq!(number(&Screen { lengths: (640, 640), ..S1 }), 1);
    // 1 in the low byte is a pixel, and in the high byte 256: enough for the window alone.
    for (window, want) in
        [(None, [26, 26, 1, 1, 1, 1, 1, 1]), (Some((8, 8, 16, 2, 0)), [26, 26, 26, 0, 1, 1, 1, 1])]
    {
        for (at, want) in (24..).zip(want) {
            let mut record = Screen { window, ..S1 }.record();
            record[at] = 1;
            for compile in COMPILE {
                assert_eq!(compile(32, &record, &[], &[], &mut [0; 48]).number, want, "byte {at}");
            }
        }
    }
}

/// B1 on lines of 640 pixels.
#[test]
fn b1_on_long_lines() {
    let screen = Screen { depth: 8, lengths: (640, 0), ..S1 };
    let list = command(0, 0, 0, [10, 20, 100, 150, 0, 0, 1]);
    let (answer, records) = compile(&screen, &list, &[]);
    assert_eq!((answer.number, answer.length), (0, 15 * 8));
    let values: Vec<u32> = records.into_iter().map(|record| record.1).collect();
    assert_eq!(values, [0, 0xA0, 0, 0, 0, 0, 0x0C, 0, 0x320A, 0x140, 0x63, 0x95, 0, 1, 1]);
}

/// A move down by a line of 16 bytes: both addresses are the lower right pixels'.
#[test]
fn move_on_long_lines() {
    let screen = Screen { depth: 8, panel: (8, 3), lengths: (16, 0), ..S1 };
    let list = command(1, 0, 0xC, [1, 1, 7, 2, 0, 0, 0]);
    let (_, records) = compile(&screen, &list, &[]);
    // (6, 1) and (7, 2).
    assert_eq!(records[6..9], [(0x8008, 0xC_0003), (0x800C, 22), (0x8010, 39)]);
    assert_eq!(records[9], (0x8014, 8));
    let memory: Vec<u8> = (0..MEMORY).map(|at| at as u8).collect();
    let mut want = memory.clone();
    want[17..24].copy_from_slice(&[0, 1, 2, 3, 4, 5, 6]);
    want[33..40].copy_from_slice(&[16, 17, 18, 19, 20, 21, 22]);
    assert_eq!(sheet_of(&screen, &list, &memory), want);
    for draw in DRAW {
        let mut after = memory.clone();
        let answer = draw(32, &screen.record(), &list, &[], &mut [0; 120], &mut after);
        assert_eq!((answer.number, answer.values), (0, [0, 4, 0, 0, 0, 0]));
        assert_eq!(after, want);
    }
}

/// Drawing stays inside the shown part, at its destination and at a move's source.
#[test]
fn drawing_inside_the_shown_part() {
    let window = Some((8, 8, 16, 2, 0));
    let screen = Screen { depth: 8, window, lengths: (640, 640), ..S1 };
    for (surface, width, height) in [(0, 320, 240), (1, 16, 2)] {
        let fill = |x, y, w, h| {
            compile(&screen, &command(0, surface, 0, [x, y, w, h, 0, 0, 1]), &[]).0.number
        };
        assert_eq!(fill(0, 0, width, height), 0);
        assert_eq!(fill(width - 1, 0, 1, 1), 0);
        assert_eq!(fill(width, 0, 1, 1), 14);
        assert_eq!(fill(0, 0, width + 1, 1), 14);
        assert_eq!(fill(0, 1, 1, height), 14);
        let source =
            |x| compile(&screen, &command(1, surface, 0xC, [0, 0, 2, 1, x, 0, 0]), &[]).0.number;
        assert_eq!(source(width - 2), 0);
        assert_eq!(source(width - 1), 14);
    }
}

/// A window in main's gap: a fill of the one leaves the other, at each rotation.
#[test]
fn window_in_the_gap() {
    for rotation in 0..4 {
        let (width, height) = if rotation % 2 == 0 { (64, 48) } else { (48, 64) };
        // Main's lines have 80 pixels; the window is 12 by 10, at line 5, behind the shown part.
        let base = 400 + 5 * 80 + u32::from(width);
        let window = Some((8, 4, 12, 10, base));
        let lengths = (80, 80);
        let screen = Screen { depth: 8, rotation, panel: (64, 48), base: 400, window, lengths };
        let all_main = command(0, 0, 0, [0, 0, width, height, 0, 0, 1]);
        let all_window = command(0, 1, 0, [0, 0, 12, 10, 0, 0, 2]);
        let pixels = usize::from(width * height);
        let both = [&all_main[..], &all_window].concat();
        for (list, main, inside) in [(&all_main, 1, 9), (&all_window, 9, 2), (&both, 1, 2)] {
            let memory = vec![9; MEMORY];
            let drawn = sheet_of(&screen, list, &memory);
            let count = |colour| drawn.iter().filter(|&&byte| byte == colour).count();
            assert_eq!(count(1), if main == 1 { pixels } else { 0 });
            assert_eq!(count(2), if inside == 2 { 120 } else { 0 });
            for (draw, read) in DRAW.into_iter().zip(READ) {
                let mut after = memory.clone();
                let answer = draw(32, &screen.record(), list, &[], &mut [0; 192], &mut after);
                assert_eq!(answer.number, 0);
                assert_eq!(after, drawn);
                let settings = screen.settings(answer.values);
                let mut in_window = 0;
                for (p, q) in (0..64).flat_map(|p| (0..48).map(move |q| (p, q))) {
                    let (u, v) =
                        [(p, q), (47 - q, p), (63 - p, 47 - q), (q, 63 - p)][usize::from(rotation)];
                    let is_inside = (8..20).contains(&u) && (4..14).contains(&v);
                    in_window += u32::from(is_inside);
                    let want = if is_inside { inside } else { main };
                    assert_eq!(read(&settings, p, q, &after).colour, want);
                    let shown = sheet::shows(&screen.record(), &drawn, p as usize, q as usize);
                    assert_eq!(shown, want);
                }
                assert_eq!(in_window, 120);
            }
        }
    }
}

// ---- Request a) of 02 ----

type Feed = fn(&mut Player, &[u8], &mut [u8]) -> Played;
type End = fn(&mut Player) -> Played;

/// The reference and the library.
const SERIAL: [(Feed, End); 2] = [(serial::feed, serial::end), (unit::feed, unit::end)];

const TAKEN: Played = Played { number: 0, place: 0, values: [0; 6] };

fn refused(number: u32, place: u64) -> Played {
    Played { number, place, ..TAKEN }
}

/// A fill of the byte at `at`, on a chip whose registers are 0.
fn dot(at: u32, colour: u32) -> Vec<u8> {
    records(&[(0x8008, 0xC), (0x8010, at), (0x8024, colour), (0x8000, 1)])
}

/// What comes after an answer that is kept: it is repeated, whatever is lent, and nothing changes.
fn repeats((feed, end): (Feed, End), player: &mut Player, memory: &mut [u8], answer: Played) {
    let (before, drawn) = (*player, memory.to_vec());
    assert_eq!(feed(player, &[], memory), answer);
    assert_eq!(feed(player, &dot(0, 0x77), memory), answer);
    assert_eq!(feed(player, &[0; BLOCK + 1], memory), answer);
    assert_eq!(feed(player, &[], &mut memory[1..]), answer);
    assert_eq!(end(player), answer);
    assert_eq!(*player, before);
    assert_eq!(memory, drawn);
}

/// B1's stream, cut into blocks of each size, with an empty one between them.
#[test]
fn b1_in_blocks() {
    let screen = Screen { depth: 8, ..S1 };
    let list = command(0, 0, 0, [10, 20, 100, 150, 0, 0, 1]);
    let stream = records(&compile(&screen, &list, &[]).1);
    let mut drawn = vec![9; MEMORY];
    let answer = reference::play(&stream, &mut drawn);
    assert_eq!(answer, Played { values: [0, 0x50, 0, 0, 0, 0], ..TAKEN });
    assert_eq!(drawn.iter().filter(|&&byte| byte == 1).count(), 100 * 150);
    assert_eq!(unit::new_player(), Player::default());
    for (feed, end) in SERIAL {
        for size in 1..=BLOCK {
            let (mut player, mut memory) = (serial::new_player(), vec![9; MEMORY]);
            for (i, block) in stream.chunks(size).enumerate() {
                assert_eq!(feed(&mut player, block, &mut memory), TAKEN);
                let fed = size * i + block.len();
                assert_eq!((player.count, player.held), (fed as u64 / 8, fed as u8 % 8));
                assert_eq!(feed(&mut player, &[], &mut memory), TAKEN);
            }
            assert_eq!(end(&mut player), answer);
            assert_eq!(memory, drawn);
            let want = Player {
                registers: [0, 0x50, 0, 0, 0, 0, 1, 0xC, 0, 0x190A, 0xA0, 0x63, 0x95, 0, 1],
                count: 15,
                kept: 1,
                ..Player::default()
            };
            assert_eq!(player, want);
            repeats((feed, end), &mut player, &mut memory, answer);
        }
    }
}

/// A write that is cut within its words, at both depths: each word is drawn when it is whole.
#[test]
fn words_in_blocks() {
    // 3 by 2 pixels of a byte, and 2 by 2 of two.
    for (control, at, width, want) in [
        (1, 1, 3, [9, 1, 2, 3, 9, 4, 5, 6, 9]),
        (0x4_0001, 0, 2, [1, 2, 3, 0xEE, 4, 5, 6, 0xEE, 9]),
    ] {
        let start = records(&[
            (0x8008, 0xC_0000),
            (0x8010, at),
            (0x8014, 2),
            (0x8018, width - 1),
            (0x801C, 1),
            (0x8000, control),
        ]);
        let words = records(&[0x0201, 0xEE03, 0x0504, 0xEE06].map(|word| (0x10000, word)));
        for (feed, end) in SERIAL {
            let (mut player, mut memory) = (serial::new_player(), vec![9; MEMORY]);
            for (block, count, due, line, word) in [
                (&start[..], 6, 1, 0, 0),
                (&words[..15], 7, 1, 0, 1),
                (&words[15..16], 8, 1, 1, 0),
                (&words[16..], 10, 0, 0, 0),
            ] {
                assert_eq!(feed(&mut player, block, &mut memory), TAKEN);
                assert_eq!(player.count, count);
                assert_eq!((player.due, player.line, player.word), (due, line, word));
                assert_eq!(memory[at as usize + 2] == 3, count > 7);
            }
            assert_eq!(memory[..9], want);
            assert_eq!(end(&mut player), TAKEN);
            repeats((feed, end), &mut player, &mut memory, TAKEN);
        }
    }
}

/// A refused record: what was drawn before it stays, what follows it is dropped.
#[test]
fn refused_records() {
    // A number, what comes before the record, and the record itself.
    let due = [(0x8008, 0), (0x8000, 1)];
    let cases: [(u32, &[Record], Record); 9] = [
        (20, &[], (0x48, 0)),
        (21, &[], (0x44, 0x400)),
        (21, &[], (0x10000, 0x1_0000)),
        (21, &[(0x8008, 4), (0x8000, 0)], (0x8000, 1)),
        (22, &[(0x8018, 1), (0x8010, 0x3_FFFF), (0x8000, 0)], (0x8000, 1)),
        (23, &[], (0x10000, 0)),
        (23, &[(0x8010, 0), due[0], due[1]], (0x44, 1)),
        (21, &[(0x8010, 0), due[0], due[1]], (0x44, 0x400)),
        (20, &[(0x8010, 0), due[0], due[1]], (0x48, 0)),
    ];
    for (number, before, bad) in cases {
        let stream = [dot(5, 7), records(before), records(&[bad]), dot(6, 8)].concat();
        let place = 4 + before.len() as u64;
        let answer = refused(number, place);
        for (feed, end) in SERIAL {
            for size in [64, 40, 13, 1] {
                let (mut player, mut memory) = (serial::new_player(), vec![9; MEMORY]);
                for (i, block) in stream.chunks(size).enumerate() {
                    let past = (size * i + block.len()) as u64;
                    let want = if past < 8 * (place + 1) { TAKEN } else { answer };
                    assert_eq!(feed(&mut player, block, &mut memory), want);
                }
                assert_eq!(memory[4..8], [9, 7, 9, 9]);
                // The registers are as the records before it left them, and nothing is half read.
                let mut taken = serial::new_player();
                for block in stream[..8 * place as usize].chunks(BLOCK) {
                    assert_eq!(feed(&mut taken, block, &mut memory), TAKEN);
                }
                assert_eq!(player, Player { kept: 1, number, place, ..taken });
                repeats((feed, end), &mut player, &mut memory, answer);
            }
        }
    }
}

/// 18 comes before 32; neither is kept, and neither changes anything.
#[test]
fn memory_before_block() {
    for (feed, end) in SERIAL {
        let (mut player, mut memory) = (serial::new_player(), vec![9; MEMORY + 1]);
        let stream = dot(5, 7);
        assert_eq!(feed(&mut player, &stream[..29], &mut memory[..MEMORY]), TAKEN);
        let half_read = player;
        let long = [0; BLOCK + 1];
        for (block, length, number) in [
            (&long[..], MEMORY - 1, 18),
            (&long[..], MEMORY + 1, 18),
            (&long[..], MEMORY, 32),
            (&stream[29..], 0, 18),
            (&stream[29..], MEMORY + 1, 18),
            (&[], MEMORY - 1, 18),
        ] {
            assert_eq!(feed(&mut player, block, &mut memory[..length]), refused(number, 0));
            assert_eq!(player, half_read);
            assert!(memory.iter().all(|&byte| byte == 9));
        }
        assert_eq!(feed(&mut player, &stream[29..], &mut memory[..MEMORY]), TAKEN);
        assert_eq!(memory[4..7], [9, 7, 9]);
        assert_eq!(end(&mut player), TAKEN);
    }
}

/// The end: 19 before 23, whose place is the record count. It is kept.
#[test]
fn ends() {
    // One word is due: operation 0, one pixel, raster code 0.
    let stream = records(&[(0x44, 3), (0x8000, 1), (0x10000, 0xFFFF)]);
    let values = [0, 3, 0, 0, 0, 0];
    for (feed, end) in SERIAL {
        for (length, answer) in [
            (0, TAKEN),
            (1, refused(19, 0)),
            (8, Played { values, ..TAKEN }),
            (15, refused(19, 0)),
            (16, refused(23, 2)),
            (17, refused(19, 0)),
            (23, refused(19, 0)),
            (24, Played { values, ..TAKEN }),
        ] {
            let (mut player, mut memory) = (serial::new_player(), vec![9; MEMORY]);
            assert_eq!(feed(&mut player, &stream[..length], &mut memory), TAKEN);
            let ended = Player { kept: 1, number: answer.number, place: answer.place, ..player };
            assert_eq!(end(&mut player), answer);
            assert_eq!(player, ended);
            repeats((feed, end), &mut player, &mut memory, answer);
            assert_eq!(memory[0], if length == 24 { 0 } else { 9 });
        }
    }
}

/// The count stops at 2^64 - 1, and records go on being taken.
#[test]
fn count_stops() {
    for (feed, end) in SERIAL {
        let mut memory = vec![9; MEMORY];
        let mut player = Player { count: u64::MAX - 1, ..serial::new_player() };
        for (at, colour) in [(5, 7), (6, 8)] {
            assert_eq!(feed(&mut player, &dot(at, colour), &mut memory), TAKEN);
            assert_eq!(player.count, u64::MAX);
        }
        assert_eq!(memory[4..8], [9, 7, 8, 9]);
        let answer = refused(20, u64::MAX);
        assert_eq!(feed(&mut player, &record(0x48, 0), &mut memory), answer);
        repeats((feed, end), &mut player, &mut memory, answer);
    }
}

/// States that no stream leads to: more than 7 bytes held means 7, and any number but 0 is a yes.
#[test]
fn any_state() {
    let half = *record(0x44, 3).first_chunk().unwrap();
    for (feed, end) in SERIAL {
        let mut memory = vec![9; MEMORY];
        let state = Player { half, held: 200, number: 5, place: 6, ..serial::new_player() };
        let mut player = state;
        assert_eq!(feed(&mut player, &[], &mut memory), TAKEN);
        assert_eq!(player, Player { half, held: 7, ..serial::new_player() });
        player = state;
        assert_eq!(feed(&mut player, &[0, 0x58], &mut memory), TAKEN);
        let mut want = Player { held: 1, count: 1, ..serial::new_player() };
        (want.registers[1], want.half[0]) = (3, 0x58);
        assert_eq!(player, want);
        player = state;
        assert_eq!(end(&mut player), refused(19, 0));
        assert_eq!(player, Player { kept: 1, number: 19, place: 0, ..state });

        let mut player = Player { due: 0x100, count: 4, ..serial::new_player() };
        assert_eq!(feed(&mut player, &record(0x44, 3), &mut memory), refused(23, 4));
        assert_eq!(player.due, 1);
        let kept = Player { kept: 0x100, number: 5, place: 6, ..state };
        repeats((feed, end), &mut { kept }, &mut memory, refused(5, 6));
        // A kept 0 has the values, and place 0.
        let mut ended = Player { number: 0, ..kept };
        ended.registers[3] = 0xFFFF_FFFF;
        let values = [0, 0, 0, 0xFFFF_FFFF, 0, 0];
        repeats((feed, end), &mut ended, &mut memory, Played { values, ..TAKEN });

        // A word past the memory's end is taken, and not stored.
        let mut player = Player { due: 1, ..serial::new_player() };
        (player.registers[7], player.registers[9]) = (0xC_0000, 0x3_FFFF);
        player.registers[11] = 2;
        let word = record(0x10000, 0x0201);
        assert_eq!(feed(&mut player, &[&word[..], &word].concat(), &mut memory), TAKEN);
        assert_eq!((player.due, player.count), (0, 2));
        assert_eq!(memory[MEMORY - 2..], [9, 1]);
    }
}

// ---- Request d) of 02 ----

const OLDER_COMPILE: [Compile; 2] = [older::compile, unit::older::compile];
const OLDER_READ: [Read; 2] = [older::read_point, unit::older::read_point];

/// The registers' bytes for a screen that is accepted.
fn older_bytes(screen: &Screen) -> [u8; 18] {
    let (answer, records) = compile_by(OLDER_COMPILE, 32, screen, &[], &[], 150);
    let want = Compiled {
        length: 144,
        depth: screen.depth.into(),
        rotation: screen.rotation.into(),
        flag: screen.window.is_some().into(),
        ..Compiled::default()
    };
    assert_eq!(answer, want);
    let (registers, bytes): (Vec<u32>, Vec<u32>) = records.into_iter().unzip();
    let want = [
        0x74, 0x75, 0x76, 0x78, 0x79, 0x7C, 0x7D, 0x7E, 0x80, 0x81, 0x84, 0x85, 0x88, 0x89, 0x8C,
        0x8D, 0x90, 0x91,
    ];
    assert_eq!(registers, want);
    let bytes: Vec<u8> = bytes.into_iter().map(|byte| byte.try_into().unwrap()).collect();
    bytes.try_into().unwrap()
}

/// The six values that they make, which are the other chip's.
fn older_values(screen: &Screen) -> [u32; 6] {
    let bytes = older_bytes(screen);
    for put_together in [older::values, unit::older::values] {
        assert_eq!(put_together(&bytes).values[..], values(screen));
    }
    older::values(&bytes).values
}

/// 001's examples 1 to 4: 74h to 76h and 78h to 79h, and no window.
#[test]
fn examples_1_to_4() {
    for (rotation, main) in (0..).zip([
        [0x00, 0x00, 0x00, 0x28, 0x00],
        [0x1D, 0x00, 0x00, 0x1E, 0x00],
        [0x7F, 0x25, 0x00, 0x28, 0x00],
        [0x62, 0x25, 0x00, 0x1E, 0x00],
    ]) {
        let screen = Screen { rotation, ..S1 };
        let bytes = older_bytes(&screen);
        assert_eq!(bytes[..5], main);
        assert_eq!(bytes[5..], [0; 13]);
        older_values(&screen);
    }
}

/// 001's examples 5 to 8, main at 0 and the window behind it, at 9600h.
#[test]
fn examples_5_to_8() {
    let wide = Some((80, 60, 160, 120, 0x9600));
    let tall = Some((64, 80, 120, 160, 0x9600));
    // Main start, main offset, window start, window offset, X start, Y start, X end, Y end.
    let examples = [
        [
            0x00, 0x00, 0x00, 0x28, 0x00, 0x80, 0x25, 0x00, 0x14, 0x00, 0x0A, 0x00, 0x3C, 0x00,
            0x1D, 0x00, 0xB3, 0x00,
        ],
        [
            0x1D, 0x00, 0x00, 0x1E, 0x00, 0x8E, 0x25, 0x00, 0x0F, 0x00, 0x50, 0x00, 0x07, 0x00,
            0xEF, 0x00, 0x15, 0x00,
        ],
        [
            0x7F, 0x25, 0x00, 0x28, 0x00, 0xDF, 0x2E, 0x00, 0x14, 0x00, 0x0A, 0x00, 0x3C, 0x00,
            0x1D, 0x00, 0xB3, 0x00,
        ],
        [
            0x62, 0x25, 0x00, 0x1E, 0x00, 0xD1, 0x2E, 0x00, 0x0F, 0x00, 0x50, 0x00, 0x08, 0x00,
            0xEF, 0x00, 0x16, 0x00,
        ],
    ];
    for ((rotation, window), bytes) in (0..).zip([wide, tall, wide, tall]).zip(examples) {
        let screen = Screen { rotation, window, ..S1 };
        assert_eq!(older_bytes(&screen), bytes);
        older_values(&screen);
    }
}

/// High bytes: the longest lines, and a window whose edges are past 255.
#[test]
fn high_bytes() {
    let window = Some((0, 600, 32, 20, 0));
    let screen = Screen { depth: 1, panel: (32, 640), window, lengths: (0, 32_736), ..S1 };
    let want = [0, 0, 0, 1, 0, 0, 0, 0, 0xFF, 3, 0, 0, 0x58, 2, 0, 0, 0x6B, 2];
    assert_eq!(older_bytes(&screen), want);
    assert_eq!(older_values(&screen), [0, 1, 0, 0x3FF, 0, 0x26B_0258]);
    let window = Some((0, 10, 32, 20, 0));
    let screen = Screen { depth: 1, panel: (640, 32), rotation: 3, window, ..S1 };
    let want = [0x7F, 2, 0, 1, 0, 19, 0, 0, 1, 0, 0x62, 2, 0, 0, 0x75, 2, 0, 0];
    assert_eq!(older_bytes(&screen), want);
    assert_eq!(older_values(&screen), [0x27F, 1, 19, 1, 0x275_0262, 0]);
}

/// Bytes that no screen makes: nothing is masked.
#[test]
fn any_bytes() {
    for values in [older::values, unit::older::values] {
        let bytes = std::array::from_fn(|i| i as u8 + 1);
        let want = [0x03_0201, 0x0504, 0x08_0706, 0x0A09, 0x100F_0C0B, 0x1211_0E0D];
        assert_eq!(values(&bytes).values, want);
        let most = [0xFF_FFFF, 0xFFFF, 0xFF_FFFF, 0xFFFF, 0xFFFF_FFFF, 0xFFFF_FFFF];
        assert_eq!(values(&[0xFF; 18]).values, most);
        assert_eq!(values(&[0; 18]).values, [0; 6]);
    }
}

/// The older chip's number of a screen, with a short list, words and a buffer of so many bytes.
fn older_number(screen: &Screen, list: &[u8], words: &[u16], room: usize) -> u32 {
    older_number_in(32, screen, list, words, room)
}

fn older_number_in(form: u32, screen: &Screen, list: &[u8], words: &[u16], room: usize) -> u32 {
    let (answer, _) = compile_by(OLDER_COMPILE, form, screen, list, words, room);
    if answer.number != 0 {
        assert_eq!(answer, Compiled { number: answer.number, ..Compiled::default() });
    }
    answer.number
}

/// Images that end at byte 81,920, and a dword further, where the other chip takes them.
#[test]
fn last_bases_of_older() {
    let ends = |screen: Screen, further: Screen, number: u32| {
        older_values(&screen);
        assert_eq!(older_number(&further, &[], &[], 144), number);
        values(&further);
    };
    for rotation in 0..4 {
        let full = Screen { depth: 8, rotation, panel: (320, 256), ..S1 };
        ends(full, Screen { base: 4, ..full }, 6);
        // At 90 and 270 degrees 128 lines too: 127 of 640 bytes, and 320 bytes.
        let panel = if rotation % 2 == 0 { (320, 128) } else { (128, 320) };
        let long = Screen { panel, lengths: (640, 0), ..full };
        ends(Screen { base: 320, ..long }, Screen { base: 324, ..long }, 6);
        // 128 lines of 64 bytes; a line of 4,092 bytes, and 64.
        let window = |height, base, length| {
            let window = Some((0, 0, 64, height, base));
            Screen { window, lengths: (0, length), ..full }
        };
        ends(window(128, 73_728, 0), window(128, 73_732, 0), 9);
        ends(window(2, 77_764, 4092), window(2, 77_768, 4092), 9);
    }
    assert_eq!(older_values(&Screen { depth: 8, rotation: 2, panel: (320, 256), ..S1 })[0], 0x4FFF);
}

/// A list is refused at any depth, before host words, and they before a short buffer.
#[test]
fn nothing_but_a_screen() {
    let fill = command(0, 0, 0, [0, 0, 1, 1, 0, 0, 1]);
    for depth in [1, 2, 4, 8, 16] {
        let screen = Screen { depth, panel: (64, 64), ..S1 };
        for (list, number) in [
            (&[][..], 0),
            (&fill, 11),
            (&fill.repeat(64), 11),
            (&fill[..31], 10),
            (&fill.repeat(2)[..33], 10),
            (&fill.repeat(65), 10),
        ] {
            let first = |others: u32| if number == 0 { others } else { number };
            assert_eq!(older_number(&screen, list, &[], 144), number);
            assert_eq!(older_number(&screen, list, &[], 145), number);
            assert_eq!(older_number(&screen, list, &[7], 144), first(16));
            assert_eq!(older_number(&screen, list, &[7], 143), first(16));
            assert_eq!(older_number(&screen, list, &[], 143), first(17));
            assert_eq!(older_number(&screen, list, &[], 0), first(17));
            // A refused screen comes before all of them.
            for (bad, number) in [
                (Screen { lengths: (1, 0), ..screen }, 26),
                (Screen { base: 81_920, ..screen }, 6),
                (Screen { window: Some((0, 0, 32, 1, 0)), lengths: (0, 1), ..screen }, 26),
                (Screen { window: Some((0, 0, 32, 1, 81_920)), ..screen }, 9),
                (Screen { window: Some((0, 0, 32, 1, 0)), base: 81_920, ..screen }, 6),
            ] {
                assert_eq!(older_number(&bad, list, &[7], 0), number);
            }
        }
    }
}

/// 26 comes before 6 for main, and before 9 for the window.
#[test]
fn order_of_26_on_older() {
    let number = |screen| older_number(&screen, &[], &[], 144);
    assert_eq!(number(Screen { lengths: (1, 0), base: 81_920, ..S1 }), 26);
    assert_eq!(number(Screen { lengths: (1, 0), base: 2, ..S1 }), 26);
    let window = Some((0, 0, 8, 1, 81_920));
    assert_eq!(number(Screen { window, lengths: (0, 1), ..S1 }), 26);
    assert_eq!(number(Screen { window, lengths: (0, 8), ..S1 }), 9);
    assert_eq!(number(Screen { lengths: (0, 8), ..S1 }), 1);
}

#[test]
fn corners_of_older() {
    corners_by(OLDER_READ, older::MEMORY, 0, older_values);
}

/// The last dword is 20,479; the fields are the other chip's.
#[test]
fn dwords_of_older() {
    let mut memory = vec![0; MEMORY];
    memory[81_916..81_924].copy_from_slice(&[1, 2, 3, 4, 5, 6, 7, 8]);
    let number = |number| Point { number, ..Point::default() };
    let last = Point { number: 0, colour: 4, address: 81_919, bit: 7 };
    for (rotation, start, p, want) in [
        (0, 20_479, 3, last),
        (0, 20_479, 4, number(25)),
        (0, 20_480, 0, number(25)),
        (0, 65_535, 0, number(25)),
        (0, 65_536, 0, number(21)),
        (2, 20_480, 0, number(25)),
        (2, 20_480, 4, last),
        (2, 0, 3, Point { bit: 7, ..number(0) }),
        (2, 0, 4, number(25)),
        (2, 0, 8, number(24)),
    ] {
        let values = [start, 2, 0, 0, 0, 0];
        let screen = Settings { depth: 8, rotation, flag: 0, width: 8, height: 1, values };
        for read in OLDER_READ {
            assert_eq!(read(&screen, p, 0, &memory[..81_920]), want);
            // 18 comes first.
            for size in [0, 81_919, 81_921, 262_144] {
                assert_eq!(read(&screen, p, 0, &memory[..size]), number(18));
                let odd = Settings { flag: 2, ..screen };
                assert_eq!(read(&odd, p, 0, &memory[..size]), number(18));
                assert_eq!(read(&odd, p, 0, &memory[..81_920]), number(1));
            }
        }
        if want == number(25) && rotation == 0 {
            for read in READ {
                assert_eq!(read(&screen, p, 0, &memory).number, 0);
            }
        }
    }
}

// ---- Request e) of 02 ----

/// Panel point (p, q), and what reading it gives: address, bit, colour.
type Reading = ((u32, u32), (u32, u32, u32));

/// Reads points of a screen that both chips take, from a memory that is 0 but for some bytes; the
/// sheet says the same of them.
fn reads(screen: &Screen, held: &[(u32, u8)], readings: &[Reading]) {
    let mut memory = vec![0; MEMORY];
    for &(at, byte) in held {
        memory[at as usize] = byte;
    }
    let (settings, record) = (screen.settings(older_values(screen)), screen.record());
    for &((p, q), (address, bit, colour)) in readings {
        let want = Point { number: 0, colour, address, bit };
        for (both, size) in [(READ, MEMORY), (OLDER_READ, older::MEMORY)] {
            for read in both {
                assert_eq!(read(&settings, p, q, &memory[..size]), want, "({p}, {q})");
            }
        }
        let (p, q) = (p as usize, q as usize);
        assert_eq!(sheet::stands(&record, p, q), (address, bit));
        assert_eq!(sheet::shows(&record, &memory, p, q), colour);
    }
}

/// The panel's first and last point on S1 to S4.
#[test]
fn places_of_s1_to_s4() {
    let (first, last) = ((0, 0), (319, 239));
    // At 0 and 180 degrees 240 lines of 160 bytes, at 90 and 270 degrees 320 lines of 120 bytes.
    for (rotation, point, at, bit, byte) in [
        (0, first, 0, 7, 0x50),
        (1, first, 119, 3, 0x05),
        (2, first, 38_399, 3, 0x05),
        (3, first, 38_280, 7, 0x50),
        (0, last, 38_399, 3, 0x05),
        (1, last, 38_280, 7, 0x50),
        (2, last, 0, 7, 0x50),
        (3, last, 119, 3, 0x05),
    ] {
        reads(&Screen { rotation, ..S1 }, &[(at, byte)], &[(point, (at, bit, 5))]);
    }
}

/// The pixels of a byte from the left, and the next byte's first, at each depth up to 8.
#[test]
fn places_in_a_byte() {
    for (depth, colours) in
        [(1, &[1, 0, 1, 0, 0, 1, 0, 1][..]), (2, &[2, 2, 1, 1]), (4, &[0xA, 5]), (8, &[0xA5])]
    {
        let screen = Screen { depth, panel: (32, 1), ..S1 };
        let bits = [7, 6, 5, 4, 3, 2, 1, 0].into_iter().step_by(depth.into());
        let mut readings: Vec<Reading> = (0..)
            .zip(bits.zip(colours))
            .map(|(p, (bit, &colour))| ((p, 0), (0, bit, colour)))
            .collect();
        readings.push(((colours.len() as u32, 0), (1, 7, 0)));
        reads(&screen, &[(0, 0xA5)], &readings);
    }
}

#[test]
fn places_at_each_depth() {
    // Line 2 of 40 bytes behind byte 8, its byte 1, and pixel 5 of 8.
    let screen = Screen { depth: 1, base: 8, ..S1 };
    reads(&screen, &[(89, 0x04)], &[((13, 2), (89, 2, 1)), ((12, 2), (89, 3, 0))]);
    // View pixel (318, 239): byte 79 of the last line of 80, pixel 2 of 4.
    let screen = Screen { depth: 2, rotation: 2, ..S1 };
    reads(&screen, &[(19_199, 0x08)], &[((1, 0), (19_199, 3, 2)), ((0, 0), (19_199, 1, 0))]);
    // View pixel (7, 314), on lines of 240 bytes.
    let screen = Screen { depth: 8, rotation: 3, ..S1 };
    reads(&screen, &[(75_367, 0xC3)], &[((5, 7), (75_367, 7, 0xC3))]);
    // View pixel (237, 3), on lines of 480 bytes.
    let screen = Screen { depth: 16, rotation: 1, panel: (160, 240), ..S1 };
    reads(&screen, &[(1914, 0x34), (1915, 0x12)], &[((3, 2), (1914, 7, 0x1234))]);
}

/// S5's window behind main, on its own lines and on longer ones, and main beside it.
#[test]
fn places_in_the_window() {
    // Window pixels (119, 0) and (0, 1); main's (183, 79).
    let (corner, second, beside) = ((80, 56), (81, 175), (79, 56));
    let window = Some((64, 80, 120, 160, 38_400));
    // Main's and the window's line length, then the bytes of the last two.
    for (lengths, second_at, beside_at) in
        [((0, 0), 38_460, 9571), ((0, 240), 38_520, 9571), ((480, 240), 38_520, 19_051)]
    {
        reads(
            &Screen { rotation: 1, window, lengths, ..S1 },
            &[(38_459, 0x05), (second_at, 0x60), (beside_at, 0x07)],
            &[(corner, (38_459, 3, 5)), (second, (second_at, 7, 6)), (beside, (beside_at, 3, 7))],
        );
    }
}

/// A refused point has neither colour nor place.
#[test]
fn refused_points() {
    let memory = vec![0xFF; MEMORY];
    let s1 = S1.settings([0, 0x28, 0, 0, 0, 0]);
    for (screen, (p, q), number) in [
        (Settings { flag: 2, ..s1 }, (9, 9), 1),
        (Settings { depth: 3, ..s1 }, (9, 9), 2),
        (Settings { rotation: 4, ..s1 }, (9, 9), 3),
        (Settings { width: 321, ..s1 }, (9, 9), 4),
        (Settings { rotation: 1, height: 241, ..s1 }, (9, 9), 5),
        (Settings { values: [0, 0x400, 0, 0, 0, 0], ..s1 }, (9, 9), 21),
        (s1, (320, 0), 24),
        (s1, (0, 240), 24),
        (Settings { values: [0xFFFF, 0x28, 0, 0, 0, 0], ..s1 }, (9, 0), 25),
        (Settings { rotation: 2, values: [0, 0x28, 0, 0, 0, 0], ..s1 }, (9, 0), 25),
    ] {
        for (both, size) in [(READ, MEMORY), (OLDER_READ, older::MEMORY)] {
            for read in both {
                let refused = |number| Point { number, ..Point::default() };
                assert_eq!(read(&screen, p, q, &memory[..size]), refused(number));
                assert_eq!(read(&screen, p, q, &memory[..size - 1]), refused(18));
            }
        }
    }
}

// ---- Request f) of 02 ----

/// A ring by the reference and by the library, and the samples that it has accepted.
struct Rings {
    ours: wear::Ring,
    theirs: unit::Ring,
    samples: Samples,
}

const BLANK: Hour = Hour { number: 0, sampled: 0, height: 0 };

fn sampled(height: u32) -> Hour {
    Hour { number: 0, sampled: 1, height }
}

impl Rings {
    fn new() -> Rings {
        let (ours, theirs) = (wear::new_ring(), unit::new_ring());
        Rings { ours, theirs, samples: Samples::default() }
    }

    /// A ring that has taken some samples.
    fn of(samples: &[(u16, u32)]) -> Rings {
        let mut rings = Rings::new();
        for &(sequence, height) in samples {
            rings.takes(sequence, height);
        }
        rings
    }

    fn take(&mut self, sequence: u16, height: u32) -> u32 {
        let number = self.samples.take(sequence, height);
        assert_eq!(wear::take_sample(&mut self.ours, sequence, height), number);
        assert_eq!(unit::take_sample(&mut self.theirs, sequence, height), number);
        number
    }

    fn takes(&mut self, sequence: u16, height: u32) {
        assert_eq!(self.take(sequence, height), 0, "{sequence}");
    }

    /// A sample that is refused, and nothing of the rings changes.
    fn refuses(&mut self, sequence: u16, height: u32) {
        let (ours, theirs) = (self.ours.clone(), self.theirs.clone());
        assert_eq!(self.take(sequence, height), 27, "{sequence}");
        assert_eq!(ours, self.ours);
        assert_eq!(theirs, self.theirs);
    }

    fn hour(&self, age: u32) -> Hour {
        let hour = wear::hour_at(&self.ours, age);
        assert_eq!(unit::hour_at(&self.theirs, age), hour);
        hour
    }

    /// Every age: those named have a sample, all others are blank.
    fn tells(&self, heights: &[(u32, u32)]) {
        let mut hours = vec![BLANK; 512];
        for &(age, height) in heights {
            hours[age as usize] = sampled(height);
        }
        let told: Vec<Hour> = (0..512).map(|age| self.hour(age)).collect();
        assert_eq!(told, hours);
        let heights = self.samples.told().heights;
        assert_eq!(heights, hours.iter().map(height_of).collect::<Vec<_>>());
    }

    /// The strip by both, in buffers of so many bytes and words; what lies past it is kept.
    fn strip_in(
        &self,
        form: &Form,
        [site, factory]: [&[u8]; 2],
        list_room: usize,
        words_room: usize,
    ) -> (Strip, Vec<u8>, Vec<u16>) {
        let (mut list, mut words) = (vec![0xA5; list_room], vec![0xA5A5; words_room]);
        let (mut other_list, mut other_words) = (list.clone(), words.clone());
        let answer = wear::wear_strip(&self.ours, form, site, factory, &mut list, &mut words);
        let theirs =
            unit::wear_strip(&self.theirs, form, site, factory, &mut other_list, &mut other_words);
        assert_eq!(answer, theirs);
        assert_eq!(list, other_list);
        assert_eq!(words, other_words);
        if answer.number != 0 {
            assert_eq!(answer, Strip { number: answer.number, ..Strip::default() });
        }
        let past = list.split_off(answer.list_length as usize);
        assert!(past.iter().all(|&byte| byte == 0xA5));
        let past = words.split_off(answer.words_length as usize);
        assert!(past.iter().all(|&word| word == 0xA5A5));
        (answer, list, words)
    }

    /// The strip with room enough, and no site font.
    fn strip(&self, form: &Form) -> (Strip, Vec<u8>, Vec<u16>) {
        self.strip_in(form, [&[], &font()], 64 * 32, 5 * 64)
    }

    fn number(&self, form: &Form) -> u32 {
        self.strip(form).0.number
    }
}

fn height_of(hour: &Hour) -> Option<u32> {
    (hour.sampled == 1).then_some(hour.height)
}

/// A font of 80 bytes: line j of digit d is 16 d + j.
fn font() -> Vec<u8> {
    (0..10).flat_map(|digit| (0..8).map(move |j| 16 * digit + j)).collect()
}

const FORM: Form = Form { hours: 1, depth: 8, x: 0, y: 0, column: 1, bar: 1, background: 0 };

#[test]
fn an_empty_ring() {
    let mut rings = Rings::new();
    rings.tells(&[]);
    for age in [512, 513, 1024, 65_535, 65_536, u32::MAX] {
        assert_eq!(rings.hour(age), Hour { number: 27, ..Hour::default() });
    }
    // Any number may be the first, with a height that is right.
    for height in [101, 256, 65_536, 65_636, u32::MAX] {
        rings.refuses(7, height);
    }
    rings.tells(&[]);
    for first in [0, 1, 511, 512, 32_768, 65_535] {
        for height in [0, 1, 100] {
            Rings::of(&[(first, height)]).tells(&[(0, height)]);
        }
    }
}

#[test]
fn steps_of_a_sample() {
    for first in [0u16, 5, 511, 512, 40_000, 65_023, 65_024, 65_535] {
        let after = |steps: u16| first.wrapping_add(steps);
        for steps in [1, 2, 255, 256, 511, 512] {
            let mut rings = Rings::of(&[(first, 60)]);
            rings.refuses(after(steps), 101);
            rings.takes(after(steps), 40);
            match steps {
                512 => rings.tells(&[(0, 40)]),
                _ => rings.tells(&[(0, 40), (steps.into(), 60)]),
            }
        }
        let mut rings = Rings::of(&[(first, 60)]);
        for steps in [0, 513, 514, 1024, 32_768, 65_023, 65_024, 65_025, 65_535] {
            rings.refuses(after(steps), 40);
            rings.refuses(after(steps), 101);
        }
        rings.tells(&[(0, 60)]);
    }
}

/// 600 samples, hour by hour past 65,535: the last 512 are there.
#[test]
fn hour_by_hour() {
    let mut rings = Rings::new();
    for i in 0..600u16 {
        rings.takes(65_300u16.wrapping_add(i), u32::from(i) % 101);
    }
    let heights: Vec<(u32, u32)> = (0..512).map(|age| (age, (599 - age) % 101)).collect();
    rings.tells(&heights);
}

#[test]
fn skipped_hours_are_blank() {
    let mut rings = Rings::new();
    for i in 0..512 {
        rings.takes(i, 50);
    }
    rings.takes(514, 51);
    let mut heights: Vec<(u32, u32)> = (3..512).map(|age| (age, 50)).collect();
    heights.push((0, 51));
    rings.tells(&heights);
    // 511 steps leave the hour before the last skipped ones, 512 nothing.
    rings.takes(1025, 52);
    rings.tells(&[(0, 52), (511, 51)]);
    rings.takes(1026, 0);
    rings.tells(&[(0, 0), (1, 52)]);
    rings.takes(1538, 100);
    rings.tells(&[(0, 100)]);
}

/// Once round by jumps that meet none of the first numbers: none of the first samples comes back.
#[test]
fn old_samples_stay_away() {
    for jump in [2, 3, 64, 255, 256, 257, 511, 512] {
        let mut rings = Rings::new();
        // Samples at every number up to 512.
        for i in 0..=512 {
            rings.takes(i, 99);
        }
        let mut newest = 512u32;
        while newest < 3 * 65_536 {
            newest += jump;
            rings.takes(newest as u16, newest % 99);
        }
        let heights: Vec<(u32, u32)> =
            (0..512).step_by(jump as usize).map(|age| (age, (newest - age) % 99)).collect();
        rings.tells(&heights);
    }
}

/// The bytes of a fill and of a write.
fn fill(numbers: [u16; 4], colour: u16) -> Vec<u8> {
    let [x, y, width, height] = numbers;
    command(0, 0, 0, [x, y, width, height, 0, 0, colour])
}

fn digit(x: u16, y: u16) -> Vec<u8> {
    command(2, 0, 0xC, [x, y, 8, 8, 0, 0, 0])
}

#[test]
fn commands_of_a_strip() {
    // Ages 4 to 0: no hour yet, 30, blank, 0, 100.
    let rings = Rings::of(&[(65_534, 30), (0, 0), (1, 100)]);
    let form = Form { hours: 5, x: 10, y: 20, column: 7, bar: 9, background: 4, ..FORM };
    let (answer, list, words) = rings.strip(&form);
    let want = [
        fill([10, 20, 7, 100], 4),
        fill([17, 20, 7, 100], 4),
        fill([17, 90, 7, 30], 9),
        fill([24, 20, 7, 100], 4),
        fill([31, 20, 7, 100], 4),
        fill([38, 20, 7, 100], 4),
        fill([38, 20, 7, 100], 9),
        digit(10, 120),
    ];
    assert_eq!(list, want.concat());
    assert_eq!(answer, Strip { number: 0, list_length: 256, words_length: 32 });
    // Lines 10h to 17h: one pixel, then the three bits of j; the low byte is the left pixel.
    for (j, line) in words.chunks(4).enumerate() {
        let (third, fourth) = ([0x0404, 0x0904][j / 4], [0x0404, 0x0904, 0x0409, 0x0909][j % 4]);
        assert_eq!(line, [0x0404, 0x0904, third, fourth]);
    }
}

/// An empty ring has background alone, and no number.
#[test]
fn a_strip_of_an_empty_ring() {
    let form = Form { hours: 24, x: 3, column: 16, background: 7, ..FORM };
    let (answer, list, _) = Rings::new().strip(&form);
    assert_eq!(answer, Strip { number: 0, list_length: 24 * 32, words_length: 0 });
    let want: Vec<u8> = (0..24).flat_map(|c| fill([3 + 16 * c, 0, 16, 100], 7)).collect();
    assert_eq!(list, want);
}

#[test]
fn numbers_of_a_strip() {
    for (number, digits) in [
        (0, &[0][..]),
        (7, &[7]),
        (10, &[1, 0]),
        (99, &[9, 9]),
        (100, &[1, 0, 0]),
        (1000, &[1, 0, 0, 0]),
        (9999, &[9, 9, 9, 9]),
        (10_000, &[1, 0, 0, 0, 0]),
        (12_345, &[1, 2, 3, 4, 5]),
        (65_535, &[6, 5, 5, 3, 5]),
    ] {
        let form = Form { depth: 16, x: 5, y: 6, bar: 0xFFFF, background: 0x1234, ..FORM };
        let (answer, list, words) = Rings::of(&[(number, 0)]).strip(&form);
        assert_eq!(answer.number, 0);
        let count = digits.len();
        assert_eq!((list.len(), words.len()), (32 + 32 * count, 64 * count));
        for (i, (part, &value)) in list[32..].chunks(32).zip(digits).enumerate() {
            assert_eq!(part, digit(5 + 8 * i as u16, 106));
            for (j, line) in words[64 * i..64 * i + 64].chunks(8).enumerate() {
                let pixels = line.iter().map(|&word| match word {
                    0xFFFF => 1,
                    0x1234 => 0,
                    _ => panic!("{word}"),
                });
                let byte = pixels.fold(0, |byte, bit| 2 * byte + bit);
                assert_eq!(byte, 16 * value + j);
            }
        }
    }
}

/// A strip on a screen at each rotation: the newest hour on the right, bars on the lowest line, and
/// the number below, by the point reader.
#[test]
fn a_strip_on_the_panel() {
    let rings = Rings::of(&[(65_534, 1), (0, 100), (1, 40)]);
    let form = Form { hours: 4, x: 3, y: 2, column: 5, bar: 7, background: 2, ..FORM };
    let (_, list, words) = rings.strip(&form);
    // A column's highest line of the bar, from the top; 100 for none.
    let tops = [99, 100, 0, 60];
    let ink: Vec<usize> = font()[8..16].iter().map(|&byte| byte.into()).collect();
    for rotation in 0..4 {
        let panel = if rotation % 2 == 0 { (32, 112) } else { (112, 32) };
        let screen = Screen { depth: 8, rotation, panel, ..S1 };
        for (draw, read) in DRAW.into_iter().zip(READ) {
            let (mut memory, mut stream) = (vec![0xEE; MEMORY], vec![0; 4096]);
            let drawn = draw(32, &screen.record(), &list, &words, &mut stream, &mut memory);
            assert_eq!(drawn.number, 0);
            let settings = screen.settings(drawn.values);
            for v in 0..112 {
                for u in 0..32 {
                    let (right, below) = (u - 3, v - 2);
                    let want = match below {
                        0..=99 if (0..20).contains(&right) => {
                            if below >= tops[right as usize / 5] {
                                7
                            } else {
                                2
                            }
                        }
                        100..=107 if (0..8).contains(&right) => {
                            [2, 7][ink[below as usize - 100] >> (7 - right) & 1]
                        }
                        _ => 0xEE,
                    };
                    let (w, h) = (i32::from(panel.0), i32::from(panel.1));
                    let (p, q) = [(u, v), (v, h - 1 - u), (w - 1 - u, h - 1 - v), (w - 1 - v, u)]
                        [usize::from(rotation)];
                    let point = read(&settings, p as u32, q as u32, &memory);
                    assert_eq!((point.number, point.colour), (0, want), "({u}, {v})");
                }
            }
        }
    }
}

/// Each ground of refusal, and what is checked before it.
#[test]
fn order_of_a_strips_checks() {
    let rings = Rings::of(&[(12_345, 50)]);
    let good = Form { hours: 24, column: 16, ..FORM };
    assert_eq!(rings.number(&good), 0);
    // All that is wrong; then from the last check on one thing is put right after the other.
    let bad =
        Form { hours: 25, depth: 3, x: 65_535, y: 65_535, column: 17, bar: 256, background: 256 };
    let all = |form: &Form, factory: &[u8], list, words| {
        rings.strip_in(form, [&[], factory], list, words).0.number
    };
    let font = font();
    for depth in [0, 3, 5, 6, 7, 9, 12, 15, 17, 32, 256, 264, 65_544, u32::MAX] {
        assert_eq!(all(&Form { depth, ..bad }, &[], 0, 0), 2, "{depth}");
        assert_eq!(rings.number(&Form { depth, ..good }), 2, "{depth}");
    }
    for depth in [1, 2, 4] {
        assert_eq!(all(&Form { depth, ..bad }, &[], 0, 0), 11);
        assert_eq!(rings.number(&Form { depth, ..good }), 11);
    }
    for (bar, background) in [(256, 0), (0, 256), (65_535, 65_535)] {
        assert_eq!(all(&Form { depth: 8, bar, background, ..bad }, &[], 0, 0), 12);
        assert_eq!(rings.number(&Form { bar, background, ..good }), 12);
        assert_eq!(all(&Form { depth: 16, bar, background, ..bad }, &[], 0, 0), 27);
        assert_eq!(rings.number(&Form { depth: 16, bar, background, ..good }), 0);
    }
    for hours in [0, 25, 26, 255, 256, 257, 65_537, u32::MAX] {
        assert_eq!(rings.number(&Form { hours, ..good }), 27, "{hours}");
        assert_eq!(all(&Form { hours, ..good }, &font, 0, 0), 27, "{hours}");
    }
    for column in [0, 17, 18, 256, 272, 65_537, u32::MAX] {
        assert_eq!(rings.number(&Form { column, ..good }), 27, "{column}");
        assert_eq!(all(&Form { column, ..good }, &font, 0, 0), 27, "{column}");
    }
    for length in [0, 1, 72, 79] {
        assert_eq!(all(&good, &font[..length], 64 * 32, 160), 27, "{length}");
        assert_eq!(all(&good, &font[..length], 0, 0), 27, "{length}");
        // A whole site font is none of the factory's, and digits need not be drawn.
        let (answer, ..) = rings.strip_in(&good, [&font, &font[..length]], 64 * 32, 160);
        assert_eq!(answer.number, 27);
        let (answer, ..) = Rings::new().strip_in(&good, [&font, &font[..length]], 64 * 32, 160);
        assert_eq!(answer.number, 27);
    }
    // 24 columns, one bar and five digits; 160 words.
    let (list, words) = (30 * 32, 160);
    assert_eq!(all(&good, &font, list, words), 0);
    for (list, words) in [(list - 1, words), (list, words - 1), (list - 32, 0), (0, words), (0, 0)]
    {
        assert_eq!(all(&good, &font, list, words), 17);
        assert_eq!(all(&Form { y: 65_436, ..good }, &font, list, words), 27);
    }
    let longer = [font.clone(), vec![0]].concat();
    assert_eq!(all(&good, &longer, list, words), 0);
}

/// Fields past 65,535, of commands that are written alone.
#[test]
fn last_places_of_a_strip() {
    let (empty, five) = (Rings::new(), Rings::of(&[(12_345, 1)]));
    let number =
        |rings: &Rings, hours, column, x, y| rings.number(&Form { hours, column, x, y, ..FORM });
    // The last column, the last digit; a column may go further.
    assert_eq!(number(&empty, 24, 16, 65_167, 0), 0);
    assert_eq!(number(&empty, 24, 16, 65_168, 0), 27);
    assert_eq!(number(&empty, 1, 16, 65_535, 65_535), 0);
    assert_eq!(number(&five, 24, 16, 65_167, 0), 0);
    assert_eq!(number(&five, 24, 16, 65_168, 0), 27);
    assert_eq!(number(&five, 1, 16, 65_503, 0), 0);
    assert_eq!(number(&five, 1, 16, 65_504, 0), 27);
    assert_eq!(number(&five, 5, 8, 65_503, 0), 0);
    assert_eq!(number(&Rings::of(&[(9, 1)]), 1, 16, 65_535, 0), 0);
    assert_eq!(number(&Rings::of(&[(10, 1)]), 1, 16, 65_527, 0), 0);
    assert_eq!(number(&Rings::of(&[(10, 1)]), 1, 16, 65_528, 0), 27);
    // The digits' line.
    for height in [0, 1, 50, 100] {
        let rings = Rings::of(&[(9, height)]);
        assert_eq!(number(&rings, 1, 1, 0, 65_435), 0);
        assert_eq!(number(&rings, 1, 1, 0, 65_436), 27);
    }
}

#[test]
fn glyphs() {
    let glyph = |site: usize, factory: usize, digit| {
        let (site, factory) = (vec![1; site], vec![2; factory]);
        let answer = wear::find_glyph(&site, &factory, digit);
        assert_eq!(unit::find_glyph(&site, &factory, digit), answer);
        answer
    };
    let refused = Glyph { number: 27, ..Glyph::default() };
    for factory in [80, 81, 200] {
        for digit in 0..10 {
            let part = |site| Glyph { number: 0, site, at: u64::from(8 * digit), length: 8 };
            let whole = 8 * digit as usize + 8;
            for site in 0..100 {
                assert_eq!(glyph(site, factory, digit), part(u32::from(site >= whole)));
            }
        }
        for digit in [10, 11, 255, 256, 65_536, 1 << 29, u32::MAX] {
            assert_eq!(glyph(80, factory, digit), refused);
            assert_eq!(glyph(0, factory, digit), refused);
        }
    }
    for factory in 0..80 {
        for digit in [0, 9, 10] {
            assert_eq!(glyph(80, factory, digit), refused);
        }
    }
}

/// A site font that ends inside a glyph: the digits that it has whole are its own.
#[test]
fn fonts_of_a_strip() {
    let rings = Rings::of(&[(10_234, 0)]);
    let site = [0xFF; 80];
    let form = Form { depth: 16, ..FORM };
    for length in 0..=80 {
        let (answer, _, words) = rings.strip_in(&form, [&site[..length], &font()], 64 * 32, 5 * 64);
        assert_eq!(answer.number, 0);
        for (digit, words) in [1, 0, 2, 3, 4].into_iter().zip(words.chunks(64)) {
            // The first line of the factory's is 16 d, with no right half.
            let own = words[7] == 1;
            assert_eq!(own, 8 * digit + 8 <= length);
        }
    }
}

// ---- Request g) of 02 ----

type Turn = fn(&[u8], &mut [u8]) -> List;

/// A form, the other one, and turning a list by the reference and by the library.
type Way = (u32, u32, [Turn; 2]);

const TO_LONG: Way = (32, 48, [forms::to_long, unit::to_long]);
const TO_SHORT: Way = (48, 32, [forms::to_short, unit::to_short]);

/// Numbers that are no form.
const NO_FORMS: [u32; 12] = [0, 1, 16, 31, 33, 47, 49, 64, 96, 32 + 256, 48 + 65_536, u32::MAX];

/// Turns a list by both into a target of so many bytes, which keeps what lies past the list; and by its
/// records.
fn turn((from, to, both): Way, list: &[u8], room: usize) -> Result<Vec<u8>, u32> {
    let [mut target, mut other] = [(); 2].map(|()| vec![0xA5; room]);
    let answer = both[0](list, &mut target);
    assert_eq!(answer, both[1](list, &mut other));
    assert_eq!(target, other);
    let past = target.split_off(answer.length as usize);
    assert!(past.iter().all(|&byte| byte == 0xA5));
    let turned = match answer {
        List { number: 0, .. } => Ok(target),
        List { number, length } => {
            assert_eq!(length, 0);
            Err(number)
        }
    };
    assert_eq!(turned, turning::turned(from, to, list, room));
    turned
}

/// A command with 16 zeros behind it.
fn long(short: &[u8]) -> Vec<u8> {
    [short, &[0; 16]].concat()
}

/// A long list of the same command.
fn longs(short: &[u8], count: usize) -> Vec<u8> {
    long(short).repeat(count)
}

/// The number of a list in a form on a screen of depth 8.
fn number_in(form: u32, list: &[u8]) -> u32 {
    compile_by(COMPILE, form, &Screen { depth: 8, ..S1 }, list, &[], 8192).0.number
}

/// B1's fill in 48 bytes: the same stream.
#[test]
fn b1_in_the_long_form() {
    let screen = Screen { depth: 8, ..S1 };
    let mut list = vec![0, 0, 0, 0, 10, 0, 20, 0, 100, 0, 150, 0, 0, 0, 0, 0, 1];
    list.resize(48, 0);
    let (answer, records) = compile_by(COMPILE, 48, &screen, &list, &[], 4096);
    assert_eq!(answer, Compiled { length: 120, depth: 8, ..Compiled::default() });
    assert_eq!(records, compile(&screen, &list[..32], &[]).1);
    let values: Vec<u32> = records.into_iter().map(|record| record.1).collect();
    assert_eq!(values, [0, 0x50, 0, 0, 0, 0, 0x0C, 0, 0x190A, 0xA0, 0x63, 0x95, 0, 1, 1]);
}

/// A refused command comes back as its 32 or 48 bytes.
#[test]
fn parts_in_either_form() {
    let screen = Screen { depth: 8, ..S1 };
    let fill = command(0, 0, 0, [0, 0, 1, 1, 0, 0, 7]);
    let write = command(2, 0, 0xC, [0, 0, 2, 1, 0, 0, 0]);
    for (number, bad) in [
        (12, command(3, 0, 0, [0, 0, 1, 1, 0, 0, 7])),
        (13, command(0, 0, 0, [0, 0, 0, 1, 0, 0, 7])),
        (14, command(0, 0, 0, [319, 0, 2, 1, 0, 0, 7])),
        (15, write),
    ] {
        for place in [0, 1, 2, 63] {
            let mut list = fill.repeat(place);
            list.extend(&bad);
            let long: Vec<u8> = list.chunks(32).flat_map(long).collect();
            for (form, list) in [(32, list), (48, long)] {
                let (answer, _) = compile_by(COMPILE, form, &screen, &list, &[], 8192);
                let (place, size) = (place as u64, u64::from(form));
                let (part_at, part_length) = (place * size, size);
                let want = Compiled { number, place, part_at, part_length, ..Compiled::default() };
                assert_eq!(answer, want);
                let part = &list[part_at as usize..][..form as usize];
                assert_eq!(part[..32], bad);
                assert!(part[32..].iter().all(|&byte| byte == 0));
                for draw in DRAW {
                    let (mut stream, mut memory) = (vec![0xA5; 8192], vec![9; MEMORY]);
                    let record = screen.record();
                    let answer = draw(form, &record, &list, &[], &mut stream, &mut memory);
                    assert_eq!(answer, Drawn { number, place, ..Drawn::default() });
                    assert!(stream.iter().all(|&byte| byte == 0xA5));
                    assert!(memory.iter().all(|&byte| byte == 9));
                }
            }
        }
    }
    // 65 commands, and a word too many: the part is empty.
    for (list, words, number) in [(longs(&fill, 65), &[][..], 10), (long(&fill), &[0], 16)] {
        let (answer, _) = compile_by(COMPILE, 48, &screen, &list, words, 8192);
        assert_eq!(answer, Compiled { number, ..Compiled::default() });
    }
}

/// Bytes 32 to 47 are zero for each operation; else 12, before 13 to 15, and after an earlier command's.
#[test]
fn bytes_past_31() {
    let screen = Screen { depth: 8, ..S1 };
    let write = command(2, 0, 0xC, [0, 0, 2, 1, 0, 0, 0]);
    let commands = [
        command(0, 0, 0, [0, 0, 1, 1, 0, 0, 7]),
        command(1, 0, 0xC, [1, 0, 1, 1, 0, 0, 0]),
        write.clone(),
        command(0, 0, 0, [0, 0, 0, 1, 0, 0, 7]),
        command(0, 0, 0, [320, 0, 1, 1, 0, 0, 7]),
        [write.clone(), write.clone()].concat(),
    ];
    // The words are enough for one write.
    let numbers = [16, 16, 0, 13, 14, 15];
    for (commands, number) in commands.iter().zip(numbers) {
        let list: Vec<u8> = commands.chunks(32).flat_map(long).collect();
        assert_eq!(compile_by(COMPILE, 48, &screen, &list, &[0], 8192).0.number, number);
        for byte in 32..48 {
            for value in [1, 128, 255] {
                let mut list = list.clone();
                let place = list.len() / 48 - 1;
                list[48 * place + byte] = value;
                let (answer, _) = compile_by(COMPILE, 48, &screen, &list, &[0], 8192);
                assert_eq!((answer.number, answer.place), (12, place as u64), "byte {byte}");
                // Behind a refused command it is not looked at.
                let list = [longs(&command(0, 0, 0, [0; 7]), 1), list].concat();
                let (answer, _) = compile_by(COMPILE, 48, &screen, &list, &[0], 8192);
                assert_eq!((answer.number, answer.place), (13, 0), "byte {byte}");
            }
        }
    }
}

/// Operations above 2 are 12 in the short form, and above 5 in the long one, whatever lies past byte 31.
#[test]
fn operations_above_2() {
    for operation in 0..=255 {
        // All fields 0 but a rectangle of one pixel: right for a fill, a move and a write, also a
        // transparent one. A pattern at 0 has that pixel too.
        let short = command(operation, 0, 0, [0, 0, 1, 1, 0, 0, 0]);
        let (want, want_long) = match operation {
            0 | 1 => (0, 0),
            2 => (15, 15),
            3 | 4 => (12, 29),
            5 => (12, 0),
            _ => (12, 12),
        };
        assert_eq!(number_in(32, &short), want);
        assert_eq!(number_in(48, &long(&short)), want_long);
        for byte in [32, 34, 35, 36, 39, 47] {
            let mut list = long(&short);
            list[byte] = 1;
            let used = matches!((operation, byte), (3, 34 | 35) | (4, 32 | 34 | 35) | (5, 32));
            assert_eq!(number_in(48, &list), if used { want_long } else { 12 });
        }
    }
}

/// Lengths in either form, of records that are all zero: a fill of width 0.
#[test]
fn lengths_of_lists() {
    for (length, short, long) in [
        (0, 0, 0),
        (1, 10, 10),
        (16, 10, 10),
        (31, 10, 10),
        (32, 13, 10),
        (33, 10, 10),
        (47, 10, 10),
        (48, 10, 13),
        (49, 10, 10),
        (64, 13, 10),
        (96, 13, 13),
        (144, 10, 13),
        // 64 short ones, 43 long ones, 65 short ones.
        (2048, 13, 10),
        (2064, 10, 13),
        (2080, 10, 10),
        // 66 short or 44 long ones; 96 short or 64 long ones.
        (2112, 10, 13),
        (3072, 10, 13),
        // 65 and 66 long ones.
        (3120, 10, 10),
        (3168, 10, 10),
    ] {
        let list = vec![0; length];
        // At depth 4, and on the older chip, a command is 11; 10 comes before it.
        let eleven = |number| if number == 13 { 11 } else { number };
        for (form, want) in [(32, short), (48, long)] {
            assert_eq!(number_in(form, &list), want, "{length} bytes in {form}");
            let (answer, _) = compile_by(COMPILE, form, &S1, &list, &[], 8192);
            assert_eq!(
                answer,
                match want {
                    0 => Compiled { length: 48, depth: 4, ..Compiled::default() },
                    _ => Compiled { number: eleven(want), ..Compiled::default() },
                }
            );
            assert_eq!(older_number_in(form, &S1, &list, &[], 144), eleven(want));
        }
    }
}

/// Any other number is no form: 10, with any list, behind the screen's refusals and before all others.
#[test]
fn no_forms() {
    let fill = command(0, 0, 0, [0, 0, 1, 1, 0, 0, 1]);
    let lists = [vec![], fill.clone(), long(&fill), vec![0; 96], vec![0; 31], vec![0; 3120]];
    for form in NO_FORMS {
        for list in &lists {
            for depth in [4, 8] {
                let screen = Screen { depth, panel: (64, 64), ..S1 };
                let (answer, _) = compile_by(COMPILE, form, &screen, list, &[7], 0);
                assert_eq!(answer, Compiled { number: 10, ..Compiled::default() });
                assert_eq!(older_number_in(form, &screen, list, &[7], 0), 10);
                for draw in DRAW {
                    let mut memory = vec![9; MEMORY];
                    let answer = draw(form, &screen.record(), list, &[7], &mut [], &mut memory);
                    assert_eq!(answer, Drawn { number: 10, ..Drawn::default() });
                    assert!(memory.iter().all(|&byte| byte == 9));
                    // 18 comes first.
                    let answer =
                        draw(form, &screen.record(), list, &[7], &mut [], &mut memory[1..]);
                    assert_eq!(answer, Drawn { number: 18, ..Drawn::default() });
                }
                let window = Some((0, 0, 32, 1, 0));
                for (bad, number) in [
                    (Screen { depth: 3, ..screen }, 2),
                    (Screen { base: 2, ..screen }, 6),
                    (Screen { lengths: (1, 0), ..screen }, 26),
                    (Screen { window, lengths: (0, 1), ..screen }, 26),
                    (Screen { window: Some((0, 0, 32, 1, 2)), ..screen }, 9),
                ] {
                    let (answer, _) = compile_by(COMPILE, form, &bad, list, &[7], 0);
                    assert_eq!(answer, Compiled { number, ..Compiled::default() });
                    assert_eq!(older_number_in(form, &bad, list, &[7], 0), number);
                }
            }
        }
    }
}

/// Three records of 32 bytes are no two of 48.
#[test]
fn same_bytes_in_the_other_form() {
    let fill = command(0, 0, 0, [0, 0, 1, 1, 0, 0, 1]);
    let (short, long) = (fill.repeat(3), longs(&fill, 2));
    assert_eq!(number_in(32, &short), 0);
    assert_eq!(number_in(48, &long), 0);
    // The second fill's width is byte 40 of the first long record, and byte 24 of the second short one.
    let screen = Screen { depth: 8, ..S1 };
    let (answer, _) = compile_by(COMPILE, 48, &screen, &short, &[], 8192);
    assert_eq!((answer.number, answer.place, answer.part_at), (12, 0, 0));
    let (answer, _) = compile_by(COMPILE, 32, &screen, &long, &[], 8192);
    assert_eq!((answer.number, answer.place, answer.part_at), (12, 1, 32));
}

/// A fill, a move and a write in both forms: the same stream, and the same memory.
#[test]
fn a_list_in_both_forms() {
    let screen = Screen { depth: 8, panel: (8, 2), ..S1 };
    let short = [
        command(0, 0, 0, [0, 0, 2, 2, 0, 0, 5]),
        command(1, 0, 0xC, [1, 0, 2, 2, 0, 0, 0]),
        command(2, 0, 0xC, [4, 1, 3, 1, 0, 0, 0]),
    ]
    .concat();
    let long = turn(TO_LONG, &short, 144).unwrap();
    let words = [0x0201, 0xEE03];
    let (answer, records) = compile_by(COMPILE, 32, &screen, &short, &words, 4096);
    assert_eq!(answer.length, 8 * (6 + 27 + 2));
    let both = compile_by(COMPILE, 48, &screen, &long, &words, 4096);
    assert_eq!(both, (answer, records));
    let mut drawings = Vec::new();
    for draw in DRAW {
        for (form, list) in [(32, &short), (48, &long)] {
            let (mut stream, mut memory) = (vec![0; 300], vec![9; MEMORY]);
            let record = screen.record();
            let answer = draw(form, &record, list, &words, &mut stream, &mut memory);
            assert_eq!((answer.number, answer.length), (0, 280));
            assert_eq!(memory[..16], [5, 5, 5, 9, 9, 9, 9, 9, 5, 5, 5, 9, 1, 2, 3, 9]);
            let mut sheet = vec![9; MEMORY];
            sheet::draw(form, &record, list, &words, &mut sheet);
            assert_eq!(memory, sheet);
            drawings.push((answer, stream));
        }
    }
    assert!(drawings.iter().all(|drawing| *drawing == drawings[0]));
}

/// Two records there and back: byte 32 n + i goes to 48 n + i.
#[test]
fn turned_bytes() {
    let short: Vec<u8> = (0..64).map(|i| if i % 32 == 0 { 2 } else { 100 + i }).collect();
    let mut want = short[..32].to_vec();
    want.extend([0; 16]);
    want.extend(&short[32..]);
    want.extend([0; 16]);
    for room in [96, 97, 112, 144, 1000] {
        assert_eq!(turn(TO_LONG, &short, room), Ok(want.clone()));
    }
    for room in [64, 65, 96, 1000] {
        assert_eq!(turn(TO_SHORT, &want, room), Ok(short.clone()));
    }
    for room in [0, 1, 64, 95] {
        assert_eq!(turn(TO_LONG, &short, room), Err(17));
    }
    for room in [0, 1, 32, 63] {
        assert_eq!(turn(TO_SHORT, &want, room), Err(17));
    }
}

/// Whole records, and at most 64 of them, by the form that a list is turned from; else 10, before 17.
#[test]
fn lengths_of_turned_lists() {
    for count in [0, 1, 2, 43, 63, 64] {
        assert_eq!(
            turn(TO_LONG, &vec![1; 32 * count], 48 * count).map(|new| new.len()),
            Ok(48 * count)
        );
        let long = longs(&[1; 32], count);
        assert_eq!(turn(TO_SHORT, &long, 32 * count), Ok(vec![1; 32 * count]));
    }
    for length in [1, 31, 33, 48, 80, 144, 2047, 2049, 2080, 2112, 3072, 4096] {
        for room in [0, 10_000] {
            assert_eq!(turn(TO_LONG, &vec![1; length], room), Err(10), "{length}");
        }
    }
    for length in [1, 32, 47, 49, 64, 128, 2048, 3071, 3073, 3120, 3168, 6144] {
        for room in [0, 10_000] {
            assert_eq!(turn(TO_SHORT, &vec![1; length], room), Err(10), "{length}");
        }
    }
}

/// Going back: 28 for an operation above 2 and for each byte past 31, in any of the commands, behind 10
/// and 17.
#[test]
fn no_way_back() {
    let fill = command(0, 0, 0, [0, 0, 1, 1, 0, 0, 1]);
    for count in [1, 2, 5, 64] {
        let list = longs(&fill, count);
        assert_eq!(turn(TO_SHORT, &list, 32 * count), Ok(fill.repeat(count)));
        for place in [0, count / 2, count - 1] {
            let changed = |byte: usize, value: u8| {
                let mut list = list.clone();
                list[48 * place + byte] = value;
                list
            };
            let mut bad = vec![changed(0, 3), changed(0, 4), changed(0, 5), changed(0, 255)];
            for byte in 32..48 {
                bad.extend([1, 128, 255].map(|value| changed(byte, value)));
            }
            for bad in bad {
                for room in [32 * count, 32 * count + 1, 48 * count] {
                    assert_eq!(turn(TO_SHORT, &bad, room), Err(28));
                }
                assert_eq!(turn(TO_SHORT, &bad, 32 * count - 1), Err(17));
                assert_eq!(turn(TO_SHORT, &bad[1..], 0), Err(10));
            }
            // Any other byte comes with it, also one that compiling would refuse.
            for byte in 1..32 {
                let new = turn(TO_SHORT, &changed(byte, 255), 32 * count).unwrap();
                assert_eq!(new[32 * place + byte], 255);
            }
        }
    }
}

/// Any short list is turned long, and comes back unless an operation is above 2.
#[test]
fn there_and_back() {
    for operation in 0..=255 {
        let short = [vec![1; 32], vec![operation; 32], vec![2; 32]].concat();
        let long = turn(TO_LONG, &short, 144).unwrap();
        assert_eq!(long.len(), 144);
        let back = turn(TO_SHORT, &long, 96);
        assert_eq!(back, if operation > 2 { Err(28) } else { Ok(short) });
    }
}

// ---- Request h) of 02 ----

/// A pattern fill with raster code, one with key colour, and a transparent move, on main.
fn hatch(code: u8, [x, y, w, h]: [u16; 4], first: (u8, u8), pattern: u32) -> Vec<u8> {
    long_command(command(3, 0, code, [x, y, w, h, 0, 0, 0]), 0, first, pattern)
}

fn keyed(key: u16, [x, y, w, h]: [u16; 4], first: (u8, u8), pattern: u32) -> Vec<u8> {
    long_command(command(4, 0, 0, [x, y, w, h, 0, 0, 0]), key, first, pattern)
}

fn clear(key: u16, [x, y, w, h]: [u16; 4], source: (u16, u16)) -> Vec<u8> {
    long_command(command(5, 0, 0, [x, y, w, h, source.0, source.1, 0]), key, (0, 0), 0)
}

/// Number, place and part of a long list on a screen.
fn refusal(screen: &Screen, list: &[u8]) -> (u32, u64, u64, u64) {
    let (answer, _) = compile_by(COMPILE, 48, screen, list, &[], 8192);
    (answer.number, answer.place, answer.part_at, answer.part_length)
}

fn clash(screen: &Screen, command: &[u8]) -> u32 {
    refusal(screen, command).0
}

/// A memory of any bytes.
fn any_memory() -> Vec<u8> {
    (0..MEMORY as u32).map(|i| (i.wrapping_mul(2_654_435_761) >> 13) as u8).collect()
}

/// Draws a long list by both, on the sheet and pixel by pixel, which all leave the same memory.
fn drawn_long(screen: &Screen, list: &[u8], memory: &[u8]) -> Vec<u8> {
    let record = screen.record();
    let mut sheet = memory.to_vec();
    sheet::draw(48, &record, list, &[], &mut sheet);
    for draw in DRAW {
        let (mut stream, mut after) = (vec![0; 8192], memory.to_vec());
        let answer = draw(48, &record, list, &[], &mut stream, &mut after);
        assert_eq!((answer.number, answer.length), (0, 48 + 72 * (list.len() / 48) as u64));
        assert!(after == sheet);
        let mut played = memory.to_vec();
        literal::play(&stream[..answer.length as usize], &mut played);
        assert!(played == sheet);
    }
    sheet
}

/// Plays records by both, and pixel by pixel, over a memory; the number, and the memory.
fn played_on(stream: &[Record], memory: &[u8]) -> (u32, Vec<u8>) {
    let stream = records(stream);
    let mut literally = memory.to_vec();
    let [(answer, after), other] = [reference::play, unit::play].map(|play| {
        let mut after = memory.to_vec();
        (play(&stream, &mut after), after)
    });
    assert!((answer, &after) == (other.0, &other.1));
    if answer.number == 0 {
        literal::play(&stream, &mut literally);
    }
    assert!(after == literally);
    (answer.number, after)
}

/// The nine records of a blit: 8008h and so on to 8000h.
fn blit(values: [u32; 9]) -> Vec<Record> {
    [0x8008, 0x800C, 0x8010, 0x8014, 0x8018, 0x801C, 0x8020, 0x8024, 0x8000]
        .into_iter()
        .zip(values)
        .collect()
}

/// 002's example 15: the spans of source and destination overlap, and their pixels do not.
#[test]
fn example_15() {
    let screen = Screen { depth: 16, ..S1 };
    let list = clear(0x1F, [200, 20, 9, 101], (100, 10));
    let (answer, records) = compile_by(COMPILE, 48, &screen, &list, &[], 4096);
    assert_eq!((answer.number, answer.length), (0, 120));
    let want = [5, 0x19C8, 0x3390, 0x140, 8, 0x64, 0x1F, 0, 0x4_0001];
    assert_eq!(records[6..], blit(want));
    // A source of blue and red, in turn.
    let mut memory = any_memory();
    for (i, pixel) in memory.chunks_mut(2).enumerate() {
        if i % 320 < 150 {
            pixel.copy_from_slice(&[[0x1F, 0], [0, 0xF8]][i % 2]);
        }
    }
    let after = drawn_long(&screen, &list, &memory);
    // Pixel 100 of line 10 is blue.
    assert_eq!(after[0x3390..0x3392], memory[0x3390..0x3392]);
    assert_eq!(after[0x3392..0x3394], [0, 0xF8]);
}

/// The address of pattern pixel (column, row) from pixel (3, 4) on, at 3C000h and depth 8.
fn from_3_4(i: usize, j: usize) -> usize {
    0x3_C000 + (4 + j) % 8 * 8 + (3 + i) % 8
}

/// 002's example 16.
#[test]
fn example_16() {
    let screen = Screen { depth: 8, ..S1 };
    let list = hatch(0xC, [10, 20, 100, 150], (3, 4), 0x3_C000);
    let (answer, records) = compile_by(COMPILE, 48, &screen, &list, &[], 4096);
    assert_eq!((answer.number, answer.length), (0, 120));
    let want = [0xC_0006, 0x3_C023, 0x190A, 0xA0, 0x63, 0x95, 0, 0, 1];
    assert_eq!(records[6..], blit(want));
    let memory = any_memory();
    let after = drawn_long(&screen, &list, &memory);
    for (at, &byte) in after.iter().enumerate() {
        let (x, y) = (at % 320, at / 320);
        let inside = (10..110).contains(&x) && (20..170).contains(&y);
        let from = if inside { from_3_4(x - 10, y - 20) } else { at };
        assert_eq!(byte, memory[from]);
    }
}

/// 002's example 17, whose source start is 3C023h by its own arithmetic; what it prints, 3C0023h, is
/// outside its field.
#[test]
fn example_17() {
    let screen = Screen { depth: 8, ..S1 };
    let list = keyed(1, [10, 20, 100, 150], (3, 4), 0x3_C000);
    let (answer, records) = compile_by(COMPILE, 48, &screen, &list, &[], 4096);
    assert_eq!((answer.number, answer.length), (0, 120));
    let want = [7, 0x3_C023, 0x190A, 0xA0, 0x63, 0x95, 1, 0, 1];
    assert_eq!(records[6..], blit(want));
    // Stripes: pixels of even columns are blue.
    let mut memory = any_memory();
    (0x3_C000..0x3_C040).step_by(2).for_each(|at| memory[at] = 1);
    let after = drawn_long(&screen, &list, &memory);
    for (i, j) in [(0, 0), (1, 0), (2, 7), (7, 149), (98, 1), (99, 149)] {
        let (at, from) = (0x190A + 320 * j + i, from_3_4(i, j));
        assert_eq!(after[at], memory[if memory[from] == 1 { at } else { from }]);
    }
    let printed = blit([7, 0x3C_0023, 0x190A, 0xA0, 0x63, 0x95, 1, 0, 1]);
    assert_eq!(played_on(&printed, &memory).0, 21);
}

/// Every first pixel, at both depths, over a rectangle that repeats the pattern both ways.
#[test]
fn phases() {
    let memory = any_memory();
    for (depth, pattern) in [(8, 0x3_FFC0), (16, 0x3_FF80)] {
        let screen = Screen { depth, panel: (24, 20), ..S1 };
        let pixel = usize::from(depth / 8);
        for (px, py) in (0..8).flat_map(|x| (0..8).map(move |y| (x, y))) {
            let list = hatch(0xC, [2, 1, 19, 18], (px, py), pattern);
            let after = drawn_long(&screen, &list, &memory);
            for (i, j) in (0..19).flat_map(|i| (0..18).map(move |j| (i, j))) {
                let (column, row) = ((usize::from(px) + i) % 8, (usize::from(py) + j) % 8);
                let from = pattern as usize + pixel * (8 * row + column);
                let to = pixel * (24 * (1 + j) + 2 + i);
                assert_eq!(after[to..to + pixel], memory[from..from + pixel]);
            }
        }
    }
}

/// A pattern under each raster code: bit 2s + d.
#[test]
fn codes_of_a_pattern() {
    let screen = Screen { depth: 8, panel: (8, 1), ..S1 };
    let mut memory = vec![0; MEMORY];
    memory[0] = 0b0101;
    memory[64] = 0b0011;
    for code in 0..16 {
        let after = drawn_long(&screen, &hatch(code, [0, 0, 1, 1], (0, 0), 64), &memory);
        // Bits from the lowest: s, d = 1 1, 1 0, 0 1, 0 0.
        let want = (0..4).map(|bit| (code >> (3 - bit) & 1) << bit).sum::<u8>();
        assert_eq!(after[0] & 0xF, want, "code {code}");
    }
}

/// The key is a whole pixel: at depth 16 both bytes.
#[test]
fn keys() {
    let screen = Screen { depth: 16, panel: (8, 2), ..S1 };
    let mut memory = vec![9; MEMORY];
    let line = [0x34, 0x12, 0x34, 0x13, 0x35, 0x12, 0x12, 0x34];
    memory[128..136].copy_from_slice(&line);
    memory[16..24].copy_from_slice(&line);
    let want = [9, 9, 0x34, 0x13, 0x35, 0x12, 0x12, 0x34];
    let after = drawn_long(&screen, &keyed(0x1234, [0, 0, 4, 1], (0, 0), 128), &memory);
    assert_eq!(after[..8], want);
    let after = drawn_long(&screen, &clear(0x1234, [0, 0, 4, 1], (0, 1)), &memory);
    assert_eq!(after[..8], want);
}

/// B3 and B2 with a transparent move: to the left it is drawn, to the right refused, unless the pixels
/// are not the same ones.
#[test]
fn transparent_moves() {
    let screen = Screen { depth: 8, panel: (8, 1), ..S1 };
    let mut memory = vec![0; MEMORY];
    (1..=8).zip(&mut memory).for_each(|(pixel, byte)| *byte = pixel);
    let line = |list: &[u8]| drawn_long(&screen, list, &memory)[..8].to_vec();
    assert_eq!(line(&clear(4, [0, 0, 7, 1], (1, 0))), [2, 3, 3, 5, 6, 7, 8, 8]);
    assert_eq!(line(&clear(4, [0, 0, 8, 1], (0, 0))), [1, 2, 3, 4, 5, 6, 7, 8]);
    assert_eq!(line(&clear(2, [4, 0, 4, 1], (0, 0))), [1, 2, 3, 4, 1, 6, 3, 4]);
    for (to, width) in [(1, 7), (1, 2), (6, 7)] {
        let command = clear(4, [to.min(8 - width), 0, width, 1], (0, 0));
        assert_eq!(refusal(&screen, &command), (29, 0, 0, 48));
    }

    // By lines and pixels: a step to the side of the width, or up and down of the height, shares none.
    let screen = Screen { depth: 8, panel: (64, 64), ..S1 };
    let step = |x: i32, y: i32| {
        let to = [(20 + x) as u16, (20 + y) as u16, 10, 5];
        clash(&screen, &clear(0, to, (20, 20)))
    };
    for (x, y, number) in [
        (0, 0, 0),
        (1, 0, 29),
        (9, 0, 29),
        (10, 0, 0),
        (-1, 0, 0),
        (0, 4, 29),
        (0, 5, 0),
        (9, 4, 29),
        (10, 4, 0),
        (-9, 4, 29),
        (-10, 4, 0),
        (-9, 5, 0),
        (9, -4, 0),
    ] {
        assert_eq!(step(x, y), number, "({x}, {y})");
    }
}

/// Lines of 32 shown pixels, 96 bytes apart: patterns lie between them, and share a byte or none.
#[test]
fn patterns_between_lines() {
    let screen = Screen { depth: 8, panel: (32, 8), lengths: (96, 0), ..S1 };
    for (rectangle, patterns, number) in [
        // Lines 0 to 2: bytes 0 to 31, 96 to 127, 192 to 223.
        ([0, 0, 32, 3], &[0, 64, 192][..], 29),
        ([0, 0, 32, 3], &[128, 256, 0x3_FFC0], 0),
        // One byte: the pattern's last, and its first.
        ([31, 1, 1, 1], &[64], 29),
        ([31, 1, 1, 1], &[0, 128], 0),
        ([0, 2, 1, 1], &[192], 29),
        ([0, 2, 1, 1], &[128, 256], 0),
        // The last of many lines, and none of them.
        ([0, 0, 1, 8], &[640], 29),
        ([0, 0, 1, 7], &[640], 0),
        ([31, 0, 1, 8], &[512], 0),
    ] {
        for &pattern in patterns {
            for list in
                [hatch(0xC, rectangle, (0, 0), pattern), keyed(0, rectangle, (7, 7), pattern)]
            {
                assert_eq!(clash(&screen, &list), number, "{rectangle:?}, {pattern}");
            }
        }
    }
    // A pattern of 128 bytes, of which line 1 has the last 32.
    let screen = Screen { depth: 16, panel: (16, 2), lengths: (112, 0), ..S1 };
    assert_eq!(clash(&screen, &hatch(0xC, [0, 1, 8, 1], (0, 0), 128)), 29);
    assert_eq!(clash(&screen, &hatch(0xC, [0, 0, 16, 1], (0, 0), 128)), 0);
}

/// Unused fields, the key, the pattern's first pixel and its address: 12, before all else.
#[test]
fn fields_of_new_operations() {
    let deep = |depth| Screen { depth, panel: (64, 64), base: 0x1_0000, ..S1 };
    let rectangle = [0, 0, 8, 8];
    let commands = [
        hatch(6, rectangle, (7, 7), 0),
        keyed(255, rectangle, (7, 7), 0),
        clear(255, rectangle, (9, 9)),
    ];
    // Byte and value that each command refuses at depth 8, by operation from 3, and at depth 16.
    let both = [true; 3];
    for (byte, value, at_8, at_16) in [
        (1, 1, both, both),
        (2, 16, both, both),
        (2, 255, both, both),
        (2, 1, [false, true, true], [false, true, true]),
        (3, 1, both, both),
        (12, 1, [true, true, false], [true, true, false]),
        (15, 1, [true, true, true], [true, true, true]),
        (16, 1, both, both),
        (17, 1, both, both),
        (18, 1, both, both),
        (31, 1, both, both),
        (32, 1, [true, false, false], [true, false, false]),
        (33, 1, both, [true, false, false]),
        (34, 8, both, both),
        (34, 1, [false, false, true], [false, false, true]),
        (35, 8, both, both),
        (35, 255, both, both),
        (35, 1, [false, false, true], [false, false, true]),
        (36, 1, both, both),
        (36, 32, both, both),
        (36, 64, [false, false, true], both),
        (36, 128, [false, false, true], [false, false, true]),
        (38, 4, both, both),
        (39, 1, both, both),
        (40, 1, both, both),
        (47, 128, both, both),
    ] {
        for (depth, want) in [(8, at_8), (16, at_16)] {
            for (command, want) in commands.iter().zip(want) {
                let mut list = command.clone();
                assert_eq!(clash(&deep(depth), &list), 0);
                list[byte] = value;
                // A source 256 lines down is 14.
                let number = match (byte, list[0]) {
                    (15, 5) => 14,
                    _ if want => 12,
                    _ => 0,
                };
                assert_eq!(clash(&deep(depth), &list), number, "{} {byte} {value}", list[0]);
            }
        }
    }
    // The first key that depth 8 has not.
    for list in [keyed(256, rectangle, (7, 7), 0), clear(256, rectangle, (9, 9))] {
        assert_eq!([8, 16].map(|depth| clash(&deep(depth), &list)), [12, 0]);
    }
    // The last pattern, and the first that is not inside.
    for (depth, last) in [(8, 0x3_FFC0), (16, 0x3_FF80)] {
        for pattern in [last, last + 64, last + 128, 0xFFFF_FF80] {
            let want = if pattern == last { 0 } else { 12 };
            assert_eq!(clash(&deep(depth), &hatch(0, rectangle, (0, 0), pattern)), want);
            assert_eq!(clash(&deep(depth), &keyed(0, rectangle, (0, 0), pattern)), want);
        }
    }
}

/// In one command 12, 13, 14, 29; with its place and its 48 bytes; a later command's 12 comes later.
#[test]
fn order_of_29() {
    let screen = Screen { depth: 8, panel: (64, 64), ..S1 };
    let good = hatch(0xC, [0, 0, 8, 8], (0, 0), 0x2_0000);
    let bad = hatch(0xC, [0, 0, 8, 8], (0, 0), 64);
    let twelve = keyed(256, [0, 0, 8, 8], (0, 0), 0x2_0000);
    assert_eq!(refusal(&screen, &[good.clone(), bad.clone(), twelve].concat()), (29, 1, 48, 48));
    assert_eq!(clash(&screen, &hatch(0xC, [0, 0, 8, 8], (8, 0), 64)), 12);
    assert_eq!(clash(&screen, &hatch(0xC, [0, 0, 8, 0], (0, 0), 64)), 13);
    assert_eq!(clash(&screen, &hatch(0xC, [57, 0, 8, 8], (0, 0), 64)), 14);
    assert_eq!(clash(&screen, &clear(0, [57, 0, 8, 8], (56, 0))), 14);
    assert_eq!(clash(&screen, &clear(0, [56, 0, 8, 8], (57, 0))), 14);
    assert_eq!(clash(&screen, &clear(0, [1, 0, 0, 8], (0, 0))), 13);
    assert_eq!(clash(&screen, &clear(0, [1, 0, 8, 8], (0, 0))), 29);
    // Words that are left over, and a stream buffer without room, come after it.
    let (answer, _) = compile_by(COMPILE, 48, &screen, &bad, &[0], 0);
    assert_eq!(answer.number, 29);
    for draw in DRAW {
        let (mut stream, mut memory) = (vec![0xA5; 200], vec![9; MEMORY]);
        let answer = draw(48, &screen.record(), &bad, &[], &mut stream, &mut memory);
        assert_eq!(answer, Drawn { number: 29, ..Drawn::default() });
        assert!(stream.iter().all(|&byte| byte == 0xA5) && memory.iter().all(|&byte| byte == 9));
    }
    // At depth 4, and on the older chip, a command is 11.
    assert_eq!(clash(&S1, &bad), 11);
    assert_eq!(older_number_in(48, &S1, &bad, &[], 144), 11);
}

/// The window's commands take the window's lines; a pattern may lie in the other image.
#[test]
fn patterns_on_the_window() {
    let window = Some((0, 0, 32, 8, 0x1_0000));
    let screen = Screen { depth: 8, panel: (64, 64), window, lengths: (0, 96), ..S1 };
    let on_window = |mut list: Vec<u8>| {
        list[1] = 1;
        list
    };
    let memory = any_memory();
    let list = on_window(hatch(0xC, [1, 1, 30, 7], (1, 2), 0x80));
    let after = drawn_long(&screen, &list, &memory);
    assert_eq!(after[0x1_0000 + 96 + 1], memory[0x80 + 2 * 8 + 1]);
    assert_eq!(clash(&screen, &on_window(hatch(0xC, [0, 0, 32, 8], (0, 0), 0x1_0000))), 29);
    assert_eq!(clash(&screen, &on_window(hatch(0xC, [0, 0, 32, 8], (0, 0), 0x1_0080))), 0);
    assert_eq!(clash(&screen, &on_window(clear(0, [4, 4, 8, 2], (0, 3)))), 29);
    assert_eq!(clash(&screen, &on_window(clear(0, [8, 4, 8, 2], (0, 3)))), 0);
}

/// A list draws a pattern, and then with it.
#[test]
fn a_pattern_that_is_drawn() {
    let screen = Screen { depth: 8, panel: (64, 4), ..S1 };
    let list = [
        long(&command(0, 0, 0, [0, 0, 64, 1, 0, 0, 3])),
        long(&command(0, 0, 0, [8, 0, 1, 1, 0, 0, 5])),
        hatch(0xC, [0, 2, 64, 2], (0, 1), 0),
        keyed(3, [0, 1, 9, 1], (0, 1), 0),
    ]
    .concat();
    let after = drawn_long(&screen, &list, &[9; MEMORY]);
    // Row 1 of the pattern begins with 5, row 2 is all 3.
    assert_eq!(after[128..138], [5, 3, 3, 3, 3, 3, 3, 3, 5, 3]);
    assert_eq!(after[192..202], [3; 10]);
    assert_eq!(after[64..74], [5, 9, 9, 9, 9, 9, 9, 9, 5, 9]);
}

/// What a foreign stream may ask of operations 5 to 7.
#[test]
fn starts_of_5_to_7() {
    let memory = any_memory();
    for operation in 5..=7 {
        let start = |source: u32, destination: u32, width: u32, control: u32| {
            let values = [operation, source, destination, 0, width - 1, 0, 0, 0, control];
            played_on(&blit(values), &memory).0
        };
        // Odd addresses at depth 16, the source's too.
        assert_eq!(start(0x100, 0x200, 4, 0x4_0001), 0);
        assert_eq!(start(0x101, 0x200, 4, 0x4_0001), 21);
        assert_eq!(start(0x100, 0x201, 4, 0x4_0001), 21);
        assert_eq!(start(0x101, 0x201, 4, 1), 0);
        // Past the memory's end.
        assert_eq!(start(0, 0x3_FFFC, 4, 1), 0);
        assert_eq!(start(0, 0x3_FFFD, 4, 1), 22);
        assert_eq!(start(0, 0x3_FFF8, 4, 0x4_0001), 0);
        assert_eq!(start(0, 0x3_FFFA, 4, 0x4_0001), 22);
        // A move's source reaches as far as its destination, a pattern is inside wherever it begins.
        let want = if operation == 5 { 22 } else { 0 };
        assert_eq!(start(0x3_FFFF, 0, 4, 1), want);
        assert_eq!(start(0x3_FFFE, 0, 4, 0x4_0001), want);
    }
    // 21 before 22, and pixels that are kept are touched.
    let all_key = vec![7; MEMORY];
    for operation in [5, 7] {
        let values = [operation, 0, 0x3_FFFD, 0, 3, 0, 7, 0, 1];
        assert_eq!(played_on(&blit(values), &all_key).0, 22);
        let values = [operation, 0, 0x3_FFFD, 0, 3, 0, 7, 0, 0x4_0001];
        assert_eq!(played_on(&blit(values), &all_key).0, 21);
    }
    // Those that the model has no operation for.
    for operation in [1, 4, 8, 9, 10, 11, 13, 14, 15] {
        assert_eq!(played_on(&blit([operation, 0, 0, 0, 0, 0, 0, 0, 1]), &memory).0, 21);
    }
}

/// 5 and 7 look at no raster code and, at depth 8, at no high byte of the key.
#[test]
fn what_5_and_7_ignore() {
    let mut memory = vec![9; MEMORY];
    memory[64..72].copy_from_slice(&[1, 2, 3, 4, 1, 2, 3, 4]);
    for operation in [5, 7] {
        for (code, key) in [(0, 2), (6, 0xFF02), (0xC, 2), (0xF, 0x102)] {
            let values = [operation + code * 0x1_0000, 64, 0, 4, 7, 0, key, 0xFFFF, 1];
            let (number, after) = played_on(&blit(values), &memory);
            assert_eq!((number, &after[..9]), (0, &[1, 9, 3, 4, 1, 9, 3, 4, 9][..]));
        }
        // At depth 16 it is looked at.
        for (key, want) in [(0x201, [9, 9, 3, 4]), (1, [1, 2, 3, 4]), (0x401, [1, 2, 3, 4])] {
            let values = [operation, 64, 0, 4, 1, 0, key, 0, 0x4_0001];
            let (number, after) = played_on(&blit(values), &memory);
            assert_eq!((number, &after[..4]), (0, &want[..]));
        }
    }
}

/// A pattern is read whole before the first pixel; a transparent move reads what it has stored.
#[test]
fn patterns_and_moves_onto_themselves() {
    let mut memory = vec![0; MEMORY];
    (0..64).for_each(|i| memory[i] = i as u8);
    // From pixel (1, 0) on over the pattern itself: 16 by 4, in lines of 16 bytes.
    for operation in [6, 7] {
        let values = [operation + 0xC_0000, 1, 0, 8, 15, 3, 0xFF, 0, 1];
        let (number, after) = played_on(&blit(values), &memory);
        assert_eq!(number, 0);
        for (at, &byte) in after[..64].iter().enumerate() {
            assert_eq!(usize::from(byte), at / 16 * 8 + (1 + at) % 8);
        }
    }
    // One pixel on, it smears, but for the key.
    let (number, after) = played_on(&blit([5, 1, 2, 0, 5, 0, 9, 0, 1]), &memory);
    assert_eq!((number, &after[..9]), (0, &[0, 1, 1, 1, 1, 1, 1, 1, 8][..]));
    let (number, after) = played_on(&blit([5, 1, 2, 0, 5, 0, 1, 0, 1]), &memory);
    assert_eq!((number, &after[..9]), (0, &[0, 1, 2, 2, 2, 2, 2, 2, 8][..]));
    // A line further up it reads what the line above has stored: lines of 4 bytes.
    let (number, after) = played_on(&blit([5, 0, 4, 2, 3, 2, 99, 0, 1]), &memory);
    assert_eq!((number, &after[..16]), (0, &[0, 1, 2, 3].repeat(4)[..]));
}

/// Short lists with operations 3 to 5 are 12; turned long they may be right, and do not come back.
#[test]
fn new_operations_turned_long() {
    let screen = Screen { depth: 8, panel: (64, 64), ..S1 };
    for (operation, code, number) in [(3, 6, 0), (4, 0, 0), (5, 0, 29)] {
        let short = command(operation, 0, code, [8, 8, 8, 8, 0, 0, 0]);
        let short = if operation == 5 { command(5, 0, 0, [1, 0, 8, 8, 0, 0, 0]) } else { short };
        let (answer, _) = compile_by(COMPILE, 32, &screen, &short, &[], 4096);
        assert_eq!((answer.number, answer.part_length), (12, 32));
        let long = turn(TO_LONG, &short, 48).unwrap();
        assert_eq!(clash(&screen, &long), number);
        assert_eq!(turn(TO_SHORT, &long, 32), Err(28));
    }
}

/// A stream of patterns in blocks, cut anywhere.
#[test]
fn patterns_in_blocks() {
    let screen = Screen { depth: 16, panel: (64, 16), ..S1 };
    let list = [
        hatch(6, [1, 1, 60, 14], (3, 5), 0x3_FF80),
        keyed(0x1234, [0, 0, 64, 8], (1, 1), 0x2_0000),
        clear(0, [0, 0, 30, 8], (20, 4)),
    ]
    .concat();
    let memory = any_memory();
    let drawn = drawn_long(&screen, &list, &memory);
    let mut stream = vec![0; 48 + 3 * 72];
    assert_eq!(reference::compile(48, &screen.record(), &list, &[], &mut stream).number, 0);
    for size in [1, 7, 8, 60, BLOCK] {
        for (mut player, feed, end) in [
            (serial::new_player(), serial::feed as Feed, serial::end as End),
            (unit::new_player(), unit::feed, unit::end),
        ] {
            let mut after = memory.clone();
            for block in stream.chunks(size) {
                assert_eq!(feed(&mut player, block, &mut after), Played::default());
            }
            assert_eq!(end(&mut player).number, 0);
            assert!(after == drawn);
        }
    }
}

// ---- Request i) of 02 ----

type ReadLine = fn(&Settings, u32, &[u8], &mut [u16]) -> u32;

/// A chip's functions by the reference and by the library, and the size of its memory.
type LineChip = ([ReadLine; 2], [Read; 2], usize);

const NEWER_LINES: LineChip = ([reference::read_line, unit::read_line], READ, MEMORY);
const OLDER_LINES: LineChip =
    ([older::read_line, unit::older::read_line], OLDER_READ, older::MEMORY);

/// The colours of a panel line, or the number, by all functions of a chip, from so many bytes of a memory into
/// a buffer of so many colours; and by points. A refusal leaves the buffer, and nothing around it changes.
fn line_into(
    (lines, points, _): LineChip,
    settings: &Settings,
    q: u32,
    memory: &[u8],
    room: usize,
) -> Result<Vec<u16>, u32> {
    let [told, others] =
        points.map(|read| literal::line(settings.width, room, |p| read(settings, p, q, memory)));
    assert_eq!(told, others, "{settings:?} line {q}");
    let held: Vec<u16> = (0..room + 8).map(|i| 0xA5A5 ^ i as u16).collect();
    for read in lines {
        let mut colours = held.clone();
        let number = read(settings, q, memory, &mut colours[4..4 + room]);
        let mut want = held.clone();
        if let Ok(line) = &told {
            want[4..4 + room].copy_from_slice(line);
        }
        assert_eq!(number, told.as_ref().err().copied().unwrap_or(0), "{settings:?} line {q}");
        assert_eq!(colours, want, "{settings:?} line {q}");
    }
    told
}

/// The same from the chip's memory into a buffer of the right length.
fn line_by(chip: LineChip, settings: &Settings, q: u32, memory: &[u8]) -> Result<Vec<u16>, u32> {
    line_into(chip, settings, q, &memory[..chip.2], settings.width as usize)
}

/// The colours of a panel line on a screen that both chips take; the sheet has the same.
fn line_of(screen: &Screen, memory: &[u8], q: u32) -> Vec<u16> {
    let settings = screen.settings(older_values(screen));
    let [line, other] = [NEWER_LINES, OLDER_LINES].map(|chip| line_by(chip, &settings, q, memory));
    assert_eq!(line, other);
    let line = line.unwrap();
    assert_eq!(line, sheet::line(&screen.record(), memory, q as usize));
    line
}

/// A memory that is 0 but for some bytes.
fn memory_of(held: &[(usize, u8)]) -> Vec<u8> {
    let mut memory = vec![0; MEMORY];
    held.iter().for_each(|&(at, byte)| memory[at] = byte);
    memory
}

/// The columns that are not 0, and their colours.
fn not_zero(line: &[u16]) -> Vec<(usize, u16)> {
    line.iter().copied().enumerate().filter(|&(_, colour)| colour != 0).collect()
}

/// Line 2 of S1 to S4's panel, and line 3 at 90 and 270 degrees, which shows the other half of the bytes.
#[test]
fn lines_of_s1_to_s4() {
    // View line 2, from left to right: bytes 320 to 479.
    let memory = memory_of(&[(319, 0xFF), (320, 0x12), (321, 0x34), (479, 0x56), (480, 0xFF)]);
    let line = line_of(&S1, &memory, 2);
    assert_eq!(not_zero(&line), [(0, 1), (1, 2), (2, 3), (3, 4), (318, 5), (319, 6)]);
    // View column 237, from the top down: byte 118 of each of 320 lines of 120, its right pixel.
    let memory = memory_of(&[(118, 0x71), (238, 0x82), (38_398, 0x93), (117, 0xFF), (119, 0xFF)]);
    let screen = Screen { rotation: 1, ..S1 };
    assert_eq!(not_zero(&line_of(&screen, &memory, 2)), [(0, 1), (1, 2), (319, 3)]);
    assert_eq!(not_zero(&line_of(&screen, &memory, 3)), [(0, 7), (1, 8), (319, 9)]);
    // View line 237, from right to left: bytes 37,920 to 38,079.
    let held = [(37_919, 0xFF), (37_920, 0x56), (38_078, 0x34), (38_079, 0x12), (38_080, 0xFF)];
    let line = line_of(&Screen { rotation: 2, ..S1 }, &memory_of(&held), 2);
    assert_eq!(not_zero(&line), [(0, 2), (1, 1), (2, 4), (3, 3), (318, 6), (319, 5)]);
    // View column 2, from below: byte 1 of each line, its left pixel.
    let memory = memory_of(&[(38_281, 0x17), (38_161, 0x28), (1, 0x39), (0, 0xFF), (2, 0xFF)]);
    let screen = Screen { rotation: 3, ..S1 };
    assert_eq!(not_zero(&line_of(&screen, &memory, 2)), [(0, 1), (1, 2), (319, 3)]);
    assert_eq!(not_zero(&line_of(&screen, &memory, 3)), [(0, 7), (1, 8), (319, 9)]);
}

/// S9's last line is the memory's end; the older chip's memory ends with line 319.
#[test]
fn lines_of_s9() {
    let mut memory = vec![0; MEMORY];
    memory[MEMORY - 256] = 0x80;
    memory[MEMORY - 1] = 0x1B;
    let screen = Screen { depth: 2, panel: (1024, 1024), ..S1 };
    let settings = screen.settings(values(&screen).try_into().unwrap());
    let line = line_by(NEWER_LINES, &settings, 1023, &memory).unwrap();
    assert_eq!(not_zero(&line), [(0, 2), (1021, 1), (1022, 2), (1023, 3)]);
    assert_eq!(not_zero(&line_by(NEWER_LINES, &settings, 1022, &memory).unwrap()), []);
    assert_eq!(line_by(NEWER_LINES, &settings, 1024, &memory), Err(24));
    assert_eq!(line_by(OLDER_LINES, &settings, 319, &memory).map(|line| line.len()), Ok(1024));
    assert_eq!(line_by(OLDER_LINES, &settings, 320, &memory), Err(25));
}

/// A line of each depth, there and, at 180 degrees, back.
#[test]
fn lines_at_each_depth() {
    let cases: [(u8, u16, &[u8], &[u16]); 5] = [
        (
            1,
            32,
            &[0xA5, 0x0F, 0x01, 0x80],
            &[
                1, 0, 1, 0, 0, 1, 0, 1, 0, 0, 0, 0, 1, 1, 1, 1, 0, 0, 0, 0, 0, 0, 0, 1, 1, 0, 0, 0,
                0, 0, 0, 0,
            ],
        ),
        (2, 16, &[0x1B, 0xE4, 0x02, 0x40], &[0, 1, 2, 3, 3, 2, 1, 0, 0, 0, 0, 2, 1, 0, 0, 0]),
        (4, 8, &[0x12, 0x34, 0x5F, 0xA0], &[1, 2, 3, 4, 5, 15, 10, 0]),
        (8, 8, &[1, 2, 3, 0xFF, 0x80, 6, 7, 8], &[1, 2, 3, 255, 128, 6, 7, 8]),
        (
            16,
            8,
            &[1, 2, 3, 0xFF, 0x80, 6, 7, 8, 0, 0, 0xFF, 0xFF, 0, 1, 2, 0],
            &[0x201, 0xFF03, 0x680, 0x807, 0, 0xFFFF, 0x100, 2],
        ),
    ];
    for (depth, width, bytes, want) in cases {
        let mut memory = vec![0x5A; MEMORY];
        memory[400..400 + bytes.len()].copy_from_slice(bytes);
        let screen = Screen { depth, panel: (width, 1), base: 400, ..S1 };
        assert_eq!(line_of(&screen, &memory, 0), want);
        let back: Vec<u16> = want.iter().rev().copied().collect();
        assert_eq!(line_of(&Screen { rotation: 2, ..screen }, &memory, 0), back);
    }
}

/// At 90 and 270 degrees: a view a dword wide and eight lines high, on lines of two dwords.
#[test]
fn turned_lines_at_each_depth() {
    for depth in [1, 2, 4, 8, 16] {
        let k = 32 / depth;
        let memory: Vec<u8> = (0..MEMORY).map(|i| (i * 37 + i / 8) as u8).collect();
        let number =
            |line: usize| u32::from_be_bytes(memory[400 + 8 * line..][..4].try_into().unwrap());
        // Pixel x from the left of a line; 16-bit pixels have their low byte first.
        let pixel = |x: u16, line: usize| {
            let colour = number(line) >> (32 - depth * (x + 1)) & ((1u64 << depth) - 1) as u32;
            if depth == 16 {
                (colour as u16).swap_bytes()
            } else {
                colour as u16
            }
        };
        let depth = depth as u8;
        let lengths = (2 * k, 0);
        let screen = Screen { depth, rotation: 1, panel: (8, k), base: 400, lengths, ..S1 };
        for q in 0..k {
            let down: Vec<u16> = (0..8).map(|line| pixel(k - 1 - q, line)).collect();
            assert_eq!(line_of(&screen, &memory, q.into()), down);
            let up: Vec<u16> = (0..8).rev().map(|line| pixel(q, line)).collect();
            assert_eq!(line_of(&Screen { rotation: 3, ..screen }, &memory, q.into()), up);
        }
    }
}

/// The windows of S5 to S7, and S7's at 0 degrees: main is 1, the window 2; the lines at its upper and lower
/// edge, and the columns at its left and right edge.
#[test]
fn lines_across_the_window() {
    let mut memory = vec![0xFF; MEMORY];
    memory[..38_400].fill(0x11);
    memory[38_400..48_000].fill(0x22);
    let tall = (64, 80, 120, 160, 38_400);
    let wide = (80, 60, 160, 120, 38_400);
    for (rotation, window, first, last) in
        [(0, wide, 60, 179), (1, tall, 56, 175), (2, wide, 60, 179), (3, tall, 64, 183)]
    {
        let screen = Screen { rotation, window: Some(window), ..S1 };
        for q in [0, first - 1, first, first + 1, last - 1, last, last + 1, 239] {
            let columns = if (first..=last).contains(&q) { 80..240 } else { 0..0 };
            let want: Vec<u16> = (0..320).map(|p| 1 + u16::from(columns.contains(&p))).collect();
            assert_eq!(line_of(&screen, &memory, q), want, "rotation {rotation}, line {q}");
        }
    }
}

/// Windows at the panel's edges, over it and past it, and none: 16 columns by 4 lines at depth 8.
#[test]
fn windows_on_a_line() {
    let memory: Vec<u8> = (0..MEMORY).map(|i| i as u8).collect();
    let lines = |settings: &Settings, q: u32| {
        let line = line_by(NEWER_LINES, settings, q, &memory);
        assert_eq!(line, line_by(OLDER_LINES, settings, q, &memory));
        line.unwrap()
    };
    let main = [
        [0, 1, 2, 3, 4, 5, 6, 7, 8, 9, 10, 11, 12, 13, 14, 15],
        [3, 7, 11, 15, 19, 23, 27, 31, 35, 39, 43, 47, 51, 55, 59, 63],
        [63, 62, 61, 60, 59, 58, 57, 56, 55, 54, 53, 52, 51, 50, 49, 48],
        [60, 56, 52, 48, 44, 40, 36, 32, 28, 24, 20, 16, 12, 8, 4, 0],
    ];
    // The window's pixels from its first column on, at byte 100 and before or behind.
    let window: [[u16; 16]; 4] = [
        std::array::from_fn(|i| 100 + i as u16),
        std::array::from_fn(|i| 103 + 4 * i as u16),
        std::array::from_fn(|i| 103 - i as u16),
        std::array::from_fn(|i| 100 - 4 * i as u16),
    ];
    for (rotation, start, offset, step) in
        [(0, 0, 4, 4), (1, 0, 1, 1), (2, 15, 4, 4), (3, 15, 1, 1)]
    {
        // In steps: the edges, and the columns.
        let most = 16 / step;
        for (x_start, x_end, columns) in [
            (1, 2, 1..3),
            (0, 0, 0..1),
            (0, 1, 0..2),
            (most - 1, most - 1, most - 1..most),
            (1, most - 1, 1..most),
            (0, most - 2, 0..most - 1),
            (0, most - 1, 0..most),
            (0, 0x3FF, 0..most),
            (2, most, 2..most),
            (2, 0x3FF, 2..most),
            (most, most, 0..0),
            (most, 0x3FF, 0..0),
            (2, 1, 0..0),
            (0x3FF, 0, 0..0),
        ] {
            let values = [start, offset, 25, 1, x_start | x_end << 16, 0];
            let settings = Settings { depth: 8, rotation, flag: 1, width: 16, height: 4, values };
            let turn = rotation as usize;
            let mut want = main[turn];
            let columns = (columns.start * step) as usize..(columns.end * step) as usize;
            want[columns.clone()].copy_from_slice(&window[turn][..columns.len()]);
            assert_eq!(lines(&settings, 0), want, "rotation {rotation}, X {x_start} to {x_end}");
            let without = Settings { flag: 0, ..settings };
            assert_eq!(lines(&without, 0), main[turn]);
            // Y 1 to 2 is below line 0, Y 2 to 1 nowhere.
            for y in [1 | 2 << 16, 2 | 1 << 16] {
                let mut below = settings;
                below.values[5] = y;
                assert_eq!(lines(&below, 0), main[turn]);
            }
        }
    }
}

/// With offset 0 each column shows the same pixel at 90 and 270 degrees.
#[test]
fn lines_with_offset_0() {
    let mut memory = vec![0; MEMORY];
    memory[80..84].copy_from_slice(&[1, 2, 3, 4]);
    for (rotation, want) in [(1, [4, 3, 2, 1]), (3, [1, 2, 3, 4])] {
        let values = [20, 0, 0, 0, 0, 0];
        let settings = Settings { depth: 8, rotation, flag: 0, width: 8, height: 4, values };
        for (q, colour) in (0..).zip(want) {
            for chip in [NEWER_LINES, OLDER_LINES] {
                assert_eq!(line_by(chip, &settings, q, &memory), Ok(vec![colour; 8]));
            }
        }
    }
}

/// Everything is wrong, and put right one thing after the other.
#[test]
fn order_of_a_lines_checks() {
    let bytes = vec![0xFF; MEMORY + 1];
    for chip in [NEWER_LINES, OLDER_LINES] {
        let (_, _, size) = chip;
        let mut settings = Settings {
            depth: 3,
            rotation: 4,
            flag: 2,
            width: 12,
            height: 12,
            values: [0, 0x400, 0, 0, 0, 0],
        };
        let (mut memory, mut q, mut room) = (&bytes[..size + 1], 16, 15);
        for number in [18, 1, 2, 3, 4, 5, 21, 24, 25, 17] {
            assert_eq!(line_into(chip, &settings, q, memory, room), Err(number));
            match number {
                18 => memory = &bytes[..size],
                1 => settings.flag = 1,
                2 => settings.depth = 4,
                3 => settings.rotation = 1,
                4 => settings.width = 16,
                5 => settings.height = 16,
                21 => settings.values[1] = 0x3FF,
                24 => q = 12,
                25 => settings.values[0] = 1,
                _ => room = 16,
            }
        }
        assert_eq!(line_into(chip, &settings, q, memory, room), Ok(vec![15; 16]));
    }
}

/// A panel of width 0 has the refusals of column 0; one that is too wide is 4 too.
#[test]
fn lines_of_no_column() {
    let memory = vec![0; MEMORY + 1];
    let s1 = S1.settings([0, 0x28, 0, 0, 0, 0]);
    for chip in [NEWER_LINES, OLDER_LINES] {
        for width in [0, 1, 7, 9, 1023, 1025, 1032, 0x8000_0008, u32::MAX - 7, u32::MAX] {
            let settings = Settings { width, ..s1 };
            let right = width.min(5000) as usize;
            for room in [0, 1, 8, right, 1024] {
                let number = |settings: Settings, size: usize| {
                    line_into(chip, &settings, 240, &memory[..size], room).unwrap_err()
                };
                assert_eq!(number(settings, chip.2), 4);
                assert_eq!(number(Settings { rotation: 4, ..settings }, chip.2), 3);
                assert_eq!(number(Settings { depth: 0, ..settings }, chip.2), 2);
                assert_eq!(number(Settings { flag: 2, ..settings }, chip.2), 1);
                assert_eq!(number(settings, chip.2 + 1), 18);
                assert_eq!(number(settings, chip.2 - 1), 18);
            }
        }
    }
}

/// Buffers of another length, and the last line and those below it.
#[test]
fn rooms_of_a_line() {
    let memory = vec![0x77; MEMORY];
    let s1 = S1.settings([0, 0x28, 0, 0, 0, 0]);
    for chip in [NEWER_LINES, OLDER_LINES] {
        let memory = &memory[..chip.2];
        for q in [0, 239] {
            assert_eq!(line_into(chip, &s1, q, memory, 320), Ok(vec![7; 320]));
            for room in [0, 1, 8, 160, 312, 319, 321, 328, 640, 1024] {
                assert_eq!(line_into(chip, &s1, q, memory, room), Err(17));
            }
        }
        for q in [240, 241, 256, 65_536, u32::MAX] {
            for room in [0, 319, 320, 321] {
                assert_eq!(line_into(chip, &s1, q, memory, room), Err(24));
            }
        }
    }
}

/// Lines that leave the memory in a part alone, by a dword, and lines that just stay in it: panels of 16 columns
/// at depth 8, the window being columns 4 to 11.
#[test]
fn lines_out_of_memory() {
    let memory = vec![9; MEMORY];
    for chip in [NEWER_LINES, OLDER_LINES] {
        let last = chip.2 as u32 / 4 - 1;
        // Rotation, line, start and offset of main and of the window; those that stay, then that do not.
        let both = |rotation: u32, q: u32, inside: [u32; 4], outside: [u32; 4]| {
            let (x, y) = match rotation % 2 {
                0 => (1 | 2 << 16, 7 << 16),
                _ => (4 | 11 << 16, 1 << 16),
            };
            for (values, number) in [(inside, 0), (outside, 25)] {
                let [a, b, c, d] = values;
                let values = [a, b, c, d, x, y];
                let settings =
                    Settings { depth: 8, rotation, flag: 1, width: 16, height: 8, values };
                let line = line_by(chip, &settings, q, &memory);
                assert_eq!(line, if number == 0 { Ok(vec![9; 16]) } else { Err(number) });
                for room in [0, 15, 17] {
                    let number = if number == 0 { 17 } else { number };
                    let line = line_into(chip, &settings, q, &memory[..chip.2], room);
                    assert_eq!(line, Err(number));
                }
            }
        };
        // The last dword alone, right of the window; on line 1, too.
        both(0, 0, [last - 3, 0, 0, 0], [last - 2, 0, 0, 0]);
        both(0, 1, [last - 4, 1, 0, 0], [last - 4, 2, 0, 0]);
        // The window alone, its last dword and both.
        both(0, 0, [0, 0, last - 1, 0], [0, 0, last, 0]);
        both(0, 1, [0, 0, last - 2, 1], [0, 0, last - 2, 3]);
        both(2, 0, [3, 0, 9, 0], [2, 0, 9, 0]);
        both(2, 1, [4, 1, 9, 0], [4, 2, 9, 0]);
        both(2, 0, [9, 0, 1, 0], [9, 0, 0, 0]);
        // The first column alone, line 4 being a dword back; and the last alone.
        both(1, 4, [1, 1, 9, 0], [0, 1, 9, 0]);
        both(1, 0, [last - 15, 1, 0, 0], [last - 14, 1, 0, 0]);
        both(1, 0, [last - 30, 2, 0, 0], [last - 29, 2, 0, 0]);
        both(3, 4, [last - 1, 1, 0, 0], [last, 1, 0, 0]);
        both(3, 0, [15, 1, 0, 0], [14, 1, 0, 0]);
        // The window's first column alone, and its last.
        both(1, 4, [9, 0, 1, 1], [9, 0, 0, 1]);
        both(1, 0, [9, 0, last - 7, 1], [9, 0, last - 6, 1]);
        both(3, 4, [9, 0, last - 1, 1], [9, 0, last, 1]);
        both(3, 0, [9, 0, 7, 1], [9, 0, 6, 1]);
        // Main is not looked at where the window is shown.
        let x = 1 | 3 << 16;
        let values = [last, 0, 0, 0, x, 0];
        let settings = Settings { depth: 8, rotation: 0, flag: 1, width: 16, height: 1, values };
        assert_eq!(line_by(chip, &settings, 0, &memory), Ok(vec![9; 16]));
        // Nor is the window past the panel, or where the flag is 0.
        let values = [0, 0, last - 1, 0, 2 | 0x3FF << 16, 0];
        let settings = Settings { values, ..settings };
        assert_eq!(line_by(chip, &settings, 0, &memory), Ok(vec![9; 16]));
        let values = [0, 0, last, 0, 2 | 0x3FF << 16, 0];
        let settings = Settings { values, ..settings };
        assert_eq!(line_by(chip, &settings, 0, &memory), Err(25));
        let settings = Settings { flag: 0, ..settings };
        assert_eq!(line_by(chip, &settings, 0, &memory), Ok(vec![9; 16]));
    }
    // On the older chip a start may be past the memory: main left of the window alone, and the first dword of
    // the window alone at 180 degrees.
    let values = [20_480, 0, 0, 0, 1 | 3 << 16, 0];
    let settings = Settings { depth: 8, rotation: 0, flag: 1, width: 16, height: 1, values };
    assert_eq!(line_by(OLDER_LINES, &settings, 0, &memory), Err(25));
    assert_eq!(line_by(NEWER_LINES, &settings, 0, &memory), Ok(vec![9; 16]));
    let values = [9, 0, 20_480, 0, 1 | 2 << 16, 0];
    let settings = Settings { rotation: 2, values, ..settings };
    assert_eq!(line_by(OLDER_LINES, &settings, 0, &memory), Err(25));
    assert_eq!(line_by(NEWER_LINES, &settings, 0, &memory), Ok(vec![9; 16]));
}
