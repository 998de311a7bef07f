//! Times the reference and the library side by side, with memset or memmove of as many bytes beside
//! them, and prints a Markdown table.
//!
//!     timing [ROUNDS]
//!
//! Inputs and buffers are made and warmed before; each round times one after the other, and the best
//! round of each counts.

use std::hint::black_box;
use std::time::Instant;

use host::answers::{Form, List, Played, Player, Point, Settings};
use host::inputs::{long_command, Rng, POOR};
use host::reference::{LONG, MEMORY, SHORT};
use host::serial::{self, BLOCK};
use host::wear::{self, HOURS};
use host::{forms, reference, unit, LINKED};

/// memset or memmove on a memory.
type Plain<'a> = Option<&'a dyn Fn(&mut [u8])>;

/// What a row counts.
#[derive(Clone, Copy)]
enum Of {
    Bytes,
    Points,
    Commands,
    Samples,
    Hours,
    Strips,
}

/// Seconds of a call: the best of the rounds, for each function in turn.
fn best<const N: usize>(rounds: u32, functions: &mut [&mut dyn FnMut(); N]) -> [f64; N] {
    let time = |function: &mut dyn FnMut(), times: u32| {
        let begun = Instant::now();
        (0..times).for_each(|_| function());
        begun.elapsed().as_secs_f64() / f64::from(times)
    };
    // Rounds are kept short, so that some are not disturbed; one call warms up.
    let times = functions.each_mut().map(|function| {
        function();
        (4e-4 / time(function, 1)).clamp(1.0, 1e5) as u32
    });
    let mut least = [f64::INFINITY; N];
    for _ in 0..rounds {
        for (i, function) in functions.iter_mut().enumerate() {
            least[i] = least[i].min(time(function, times[i]));
        }
    }
    least
}

/// How many of something in a second.
fn speed(of: Of, amount: usize, seconds: f64) -> String {
    let per_second = amount as f64 / seconds;
    match of {
        Of::Bytes => format!("{:.2} GB/s", per_second / 1e9),
        Of::Points => format!("{:.0} M points/s", per_second / 1e6),
        Of::Commands => format!("{:.1} M commands/s", per_second / 1e6),
        Of::Samples => format!("{:.1} M samples/s", per_second / 1e6),
        Of::Hours => format!("{:.0} M hours/s", per_second / 1e6),
        Of::Strips => format!("{:.2} M strips/s", per_second / 1e6),
    }
}

fn row(what: &str, of: Of, amount: usize, plain: Option<f64>, ours: f64, theirs: f64) {
    let plain = plain.map_or("–".into(), |seconds| speed(of, amount, seconds));
    let rust = speed(of, amount, ours);
    let (library, ratio) = if LINKED {
        (speed(of, amount, theirs), format!("{:.2}", ours / theirs))
    } else {
        ("–".into(), "–".into())
    };
    println!("| {what} | {plain} | {rust} | {library} | {ratio} |");
}

/// A screen of `width` by `height`, rotation 0, no window, base 0.
fn screen(depth: u8, width: u16, height: u16) -> Vec<u8> {
    let mut record = vec![0; 32];
    record[0] = depth;
    record[4..6].copy_from_slice(&width.to_le_bytes());
    record[6..8].copy_from_slice(&height.to_le_bytes());
    record
}

/// A short command on main: operation, code, then x, y, width, height, source x, source y, colour.
fn command(operation: u8, code: u8, numbers: [u16; 7]) -> Vec<u8> {
    let mut part = vec![operation, 0, code, 0];
    part.extend(numbers.iter().flat_map(|number| number.to_le_bytes()));
    part.resize(32, 0);
    part
}

/// A short list's stream.
fn compiled(screen: &[u8], list: &[u8], words: &[u16]) -> Vec<u8> {
    compiled_in(SHORT, screen, list, words)
}

fn compiled_in(form: u32, screen: &[u8], list: &[u8], words: &[u16]) -> Vec<u8> {
    let mut stream = vec![0; 48 + 72 * (list.len() / form as usize) + 8 * words.len()];
    let answer = reference::compile(form, screen, list, words, &mut stream);
    assert_eq!((answer.number, answer.length), (0, stream.len() as u64));
    stream
}

type Turn = fn(&[u8], &mut [u8]) -> List;
type Feed = fn(&mut Player, &[u8], &mut [u8]) -> Played;
type End = fn(&mut Player) -> Played;

/// Plays a stream in blocks, from a new player to its end.
fn fed(mut player: Player, feed: Feed, end: End, stream: &[u8], memory: &mut [u8]) -> Played {
    for block in stream.chunks(BLOCK) {
        black_box(feed(&mut player, block, memory));
    }
    end(&mut player)
}

/// Gives a ring 1,024 samples, so many steps apart, on from a number; gives the last one's.
fn taken<R>(take: fn(&mut R, u16, u32) -> u32, ring: &mut R, mut sequence: u16, steps: u16) -> u16 {
    for i in 0..1024 {
        sequence = sequence.wrapping_add(steps);
        assert_eq!(take(ring, sequence, i % 64), 0);
    }
    sequence
}

struct Timing {
    rounds: u32,
    rng: Rng,
}

impl Timing {
    fn memory(&mut self) -> Vec<u8> {
        (0..MEMORY).map(|_| self.rng.any() as u8).collect()
    }

    /// A memory of two bytes, so that many pixels are of one colour.
    fn poor_memory(&mut self) -> Vec<u8> {
        (0..MEMORY).map(|_| self.rng.pick(&POOR)).collect()
    }

    fn compile(
        &mut self,
        what: &str,
        of: Of,
        screen: &[u8],
        (form, list): (u32, &[u8]),
        words: &[u16],
    ) {
        let mut stream = compiled_in(form, screen, list, words);
        let mut other = stream.clone();
        let amount = match of {
            Of::Commands => list.len() / form as usize,
            _ => stream.len(),
        };
        let [ours, theirs] = best(
            self.rounds,
            &mut [
                &mut || {
                    let screen = black_box(screen);
                    black_box(reference::compile(form, screen, list, words, &mut stream));
                },
                &mut || {
                    black_box(unit::compile(form, black_box(screen), list, words, &mut other));
                },
            ],
        );
        assert_eq!(stream, other);
        row(what, of, amount, None, ours, theirs);
    }

    /// Turns a list into one of so many bytes.
    fn turn(&mut self, what: &str, [ours, theirs]: [Turn; 2], list: &[u8], length: usize) {
        let (mut target, mut other) = (vec![0; length], vec![0; length]);
        let answer = ours(list, &mut target);
        assert_eq!(answer, List { number: 0, length: length as u64 });
        assert_eq!(answer, theirs(list, &mut other));
        let [ours, theirs] = best(
            self.rounds,
            &mut [
                &mut || {
                    black_box(ours(black_box(list), black_box(&mut target)));
                },
                &mut || {
                    black_box(theirs(black_box(list), black_box(&mut other)));
                },
            ],
        );
        assert_eq!(target, other);
        row(what, Of::Commands, list.len().max(length) / LONG as usize, None, ours, theirs);
    }

    /// Plays commands that cover `bytes` bytes, with the plain form of the same beside it.
    fn play(&mut self, what: &str, stream: &[u8], bytes: usize, plain: Plain) {
        let memory = self.memory();
        self.play_on(memory, what, stream, bytes, plain);
    }

    fn play_on(
        &mut self,
        mut memory: Vec<u8>,
        what: &str,
        stream: &[u8],
        bytes: usize,
        plain: Plain,
    ) {
        let (mut other, mut third) = (memory.clone(), memory.clone());
        assert_eq!(reference::play(stream, &mut memory), unit::play(stream, &mut other));
        assert_eq!(memory, other);
        let [least, ours, theirs] = best(
            self.rounds,
            &mut [
                &mut || {
                    if let Some(plain) = plain {
                        plain(black_box(&mut third));
                    }
                },
                &mut || {
                    black_box(reference::play(black_box(stream), &mut memory));
                },
                &mut || {
                    black_box(unit::play(black_box(stream), &mut other));
                },
            ],
        );
        row(what, Of::Bytes, bytes, plain.map(|_| least), ours, theirs);
    }

    /// Plays a stream whole, and in blocks; the rows count its bytes.
    fn play_in_blocks(&mut self, what: &str, stream: &[u8]) {
        let mut memory = self.memory();
        let mut memories = [memory.clone(), memory.clone(), memory.clone()];
        let answer = reference::play(stream, &mut memory);
        assert_eq!(answer.number, 0);
        let [second, third, fourth] = &mut memories;
        let mut ours_fed = || fed(serial::new_player(), serial::feed, serial::end, stream, second);
        let mut theirs_fed = || fed(unit::new_player(), unit::feed, unit::end, stream, third);
        assert_eq!((ours_fed(), theirs_fed()), (answer, answer));
        let [ours, theirs, ours_cut, theirs_cut] = best(
            self.rounds,
            &mut [
                &mut || {
                    black_box(reference::play(black_box(stream), &mut memory));
                },
                &mut || {
                    black_box(unit::play(black_box(stream), fourth));
                },
                &mut || {
                    black_box(ours_fed());
                },
                &mut || {
                    black_box(theirs_fed());
                },
            ],
        );
        let bytes = stream.len();
        row(&format!("{what} (stream bytes)"), Of::Bytes, bytes, None, ours, theirs);
        let what = format!("{what} in blocks of {BLOCK} (stream bytes)");
        row(&what, Of::Bytes, bytes, None, ours_cut, theirs_cut);
        assert!(memories.iter().all(|other| *other == memory));
    }

    /// Reads each point of a panel by a call, 16 lines at a time.
    fn panel(&mut self, what: &str, settings: &Settings) {
        type Read = fn(&Settings, u32, u32, &[u8]) -> Point;
        let memory = self.memory();
        let (width, height) = (settings.width, settings.height);
        let band = |read: Read, first: u32| {
            let mut sum = 0u64;
            for q in first..first + 16 {
                for p in 0..width {
                    let Point { number, colour, address, bit } = read(settings, p, q, &memory);
                    sum += u64::from(colour) + u64::from(address) + u64::from(bit);
                    sum += u64::from(number) << 48;
                }
            }
            sum
        };
        let (mut ours, mut theirs) = (0.0, 0.0);
        for first in (0..height).step_by(16) {
            let sum = band(reference::read_point, first);
            assert!(sum < 1 << 48 && sum == band(unit::read_point, first));
            let times = best(
                self.rounds / 4 + 1,
                &mut [
                    &mut || {
                        black_box(band(reference::read_point, first));
                    },
                    &mut || {
                        black_box(band(unit::read_point, first));
                    },
                ],
            );
            ours += times[0];
            theirs += times[1];
        }
        row(what, Of::Points, (width * height) as usize, None, ours, theirs);
    }

    /// Reads each line of a panel by a call, 16 lines at a time.
    fn lines(&mut self, what: &str, settings: &Settings) {
        type Read = fn(&Settings, u32, &[u8], &mut [u16]) -> u32;
        let memory = self.memory();
        let (width, height) = (settings.width, settings.height);
        let mut lines = [vec![0; 16 * width as usize], vec![1; 16 * width as usize]];
        let band = |read: Read, first: u32, lines: &mut [u16]| {
            for (q, line) in (first..).zip(lines.chunks_exact_mut(width as usize)) {
                assert_eq!(read(settings, q, &memory, line), 0);
            }
        };
        let (mut ours, mut theirs) = (0.0, 0.0);
        for first in (0..height).step_by(16) {
            let [line, other] = &mut lines;
            let times = best(
                self.rounds / 4 + 1,
                &mut [&mut || band(reference::read_line, first, black_box(line)), &mut || {
                    band(unit::read_line, first, black_box(other))
                }],
            );
            assert_eq!(line, other);
            ours += times[0];
            theirs += times[1];
        }
        row(what, Of::Points, (width * height) as usize, None, ours, theirs);
    }

    /// Takes samples, so many steps apart, by a call each.
    fn samples(&mut self, what: &str, steps: u16) {
        let (mut ring, mut other) = (wear::new_ring(), unit::new_ring());
        let (mut at, mut other_at) = (0, 0);
        let [ours, theirs] = best(
            self.rounds,
            &mut [
                &mut || at = taken(wear::take_sample, black_box(&mut ring), at, steps),
                &mut || {
                    other_at = taken(unit::take_sample, black_box(&mut other), other_at, steps);
                },
            ],
        );
        row(what, Of::Samples, 1024, None, ours, theirs);
    }

    /// Asks for each hour of a ring by a call.
    fn hours(&mut self, what: &str, ring: &wear::Ring, other: &unit::Ring) {
        let mut sums = [0; 2];
        let [sum, other_sum] = &mut sums;
        let [ours, theirs] = best(
            self.rounds,
            &mut [
                &mut || {
                    let hour = |age: u32| wear::hour_at(black_box(ring), age);
                    *sum = (0..HOURS as u32).map(|age| hour(age).height).sum();
                },
                &mut || {
                    let hour = |age: u32| unit::hour_at(black_box(other), age);
                    *other_sum = (0..HOURS as u32).map(|age| hour(age).height).sum();
                },
            ],
        );
        assert_eq!(sums[0], sums[1]);
        row(what, Of::Hours, HOURS, None, ours, theirs);
    }

    fn strip(&mut self, what: &str, form: &Form, ring: &wear::Ring, other: &unit::Ring) {
        let font: Vec<u8> = (0..80).map(|_| self.rng.any() as u8).collect();
        // Half of the digits are the site's.
        let site = &font[..40];
        let (mut list, mut words) = (vec![0; 64 * 32], vec![0; 5 * 64]);
        let (mut other_list, mut other_words) = (list.clone(), words.clone());
        let answer = wear::wear_strip(ring, form, site, &font, &mut list, &mut words);
        assert_eq!((answer.number, answer.list_length), (0, 53 * 32));
        let [ours, theirs] = best(
            self.rounds,
            &mut [
                &mut || {
                    let form = black_box(form);
                    black_box(wear::wear_strip(ring, form, site, &font, &mut list, &mut words));
                },
                &mut || {
                    let (form, list, words) = (black_box(form), &mut other_list, &mut other_words);
                    black_box(unit::wear_strip(other, form, site, &font, list, words));
                },
            ],
        );
        assert_eq!((list, words), (other_list, other_words));
        row(what, Of::Strips, 1, None, ours, theirs);
    }
}

fn main() {
    let rounds = std::env::args().nth(1).map_or(Ok(60), |text| text.parse());
    let Ok(rounds @ 1..) = rounds else {
        eprintln!("timing [ROUNDS]");
        std::process::exit(1);
    };
    let mut timing = Timing { rounds, rng: Rng::new(1, 0) };
    if !LINKED {
        eprintln!("timing: built without libs1d.a (build.rs): Rust alone");
    }
    println!("| What | memset, memmove | Rust | library | library ÷ Rust |");
    println!("|---|---|---|---|---|");

    let (bytes, words) = (screen(8, 512, 512), screen(16, 256, 512));
    let mixed: Vec<u8> = (0..64)
        .flat_map(|i| match i % 2 {
            0 => command(0, 0, [4 * i, 3 * i, 40, 30, 0, 0, i]),
            _ => command(1, 0xC, [4 * i, 3 * i, 40, 30, 3 * i, 4 * i, 0]),
        })
        .collect();
    let mut long = vec![0; 64 * 48];
    forms::to_long(&mixed, &mut long);
    let what = "compile 64 fills and moves";
    timing.compile(what, Of::Commands, &bytes, (SHORT, &mixed), &[]);
    let what = "compile 64 fills and moves, long form";
    timing.compile(what, Of::Commands, &bytes, (LONG, &long), &[]);
    let pixels = timing.rng.words(248 * 496);
    let write = command(2, 0xC, [8, 8, 496, 496, 0, 0, 0]);
    timing.compile(
        "compile a write of 123,008 words (stream bytes)",
        Of::Bytes,
        &bytes,
        (SHORT, &write),
        &pixels,
    );
    let (to_long, to_short) =
        ([forms::to_long as Turn, unit::to_long], [forms::to_short as Turn, unit::to_short]);
    timing.turn("turn 64 commands long", to_long, &mixed, long.len());
    timing.turn("turn 64 commands short", to_short, &long, mixed.len());

    const RECTANGLE: usize = 496 * 496;
    const HALF: usize = 496 * 248;
    let fill = |memory: &mut [u8]| memory[..RECTANGLE].fill(0x5A);
    for (depth, screen, numbers) in
        [(8, &bytes, [8, 8, 496, 496, 0, 0, 0x5A]), (16, &words, [4, 8, 248, 496, 0, 0, 0x1234])]
    {
        let stream = compiled(screen, &command(0, 0, numbers), &[]);
        timing.play(&format!("fill, depth {depth}"), &stream, RECTANGLE, Some(&fill));
    }

    // Half the screen by 257 lines and a pixel; or all but a frame by a line and a pixel.
    const FAR: usize = 257 * 512 + 1;
    let far_up = |memory: &mut [u8]| memory.copy_within(FAR..FAR + HALF, 0);
    let far_down = |memory: &mut [u8]| memory.copy_within(..HALF, FAR);
    let near_up = |memory: &mut [u8]| memory.copy_within(513..513 + RECTANGLE, 0);
    let near_down = |memory: &mut [u8]| memory.copy_within(..RECTANGLE, 513);
    let moves: [(&str, [u16; 6], usize, Plain); 4] = [
        ("up, no overlap", [8, 4, 496, 248, 9, 261], HALF, Some(&far_up)),
        ("down, no overlap", [9, 261, 496, 248, 8, 4], HALF, Some(&far_down)),
        ("up and left by one, overlap", [8, 8, 496, 496, 9, 9], RECTANGLE, Some(&near_up)),
        ("down and right by one, overlap", [9, 9, 496, 496, 8, 8], RECTANGLE, Some(&near_down)),
    ];
    for (way, [x, y, w, h, sx, sy], size, plain) in moves {
        let stream = compiled(&bytes, &command(1, 0xC, [x, y, w, h, sx, sy, 0]), &[]);
        timing.play(&format!("move {way}"), &stream, size, plain);
    }
    for (code, name) in [(6, "exclusive or"), (1, "code 1"), (7, "code 7")] {
        // As many bytes at both depths; the step to the side is a pixel.
        for (depth, screen, pixel) in [(8, &bytes, 1), (16, &words, 2)] {
            for (way, [x, y, w, h, sx, sy], size, _) in [moves[1], moves[3]] {
                let numbers = [x / pixel, y, w / pixel, h, x / pixel + sx - x, sy, 0];
                let stream = compiled(screen, &command(1, code, numbers), &[]);
                timing.play(&format!("{name} {way}, depth {depth}"), &stream, size, None);
            }
        }
    }

    // The pattern lies in the first lines, above the rectangle. Where there is a key colour, half of its
    // pixels have it at depth 8, a quarter at 16; and so have those that are moved.
    let key = |depth: u8| u16::from_le_bytes([POOR[1], if depth == 8 { 0 } else { POOR[1] }]);
    for (code, name) in [(0xC, ""), (6, " under exclusive or")] {
        for (depth, screen, x, width) in [(8, &bytes, 8, 496), (16, &words, 4, 248)] {
            let short = command(3, code, [x, 8, width, 496, 0, 0, 0]);
            let stream = compiled_in(LONG, screen, &long_command(short, 0, (3, 4), 1024), &[]);
            timing.play(&format!("pattern fill{name}, depth {depth}"), &stream, RECTANGLE, None);
        }
    }
    for (depth, screen, x, width) in [(8, &bytes, 8, 496), (16, &words, 4, 248)] {
        let short = command(4, 0, [x, 8, width, 496, 0, 0, 0]);
        let list = long_command(short, key(depth), (3, 4), 1024);
        let (memory, stream) = (timing.poor_memory(), compiled_in(LONG, screen, &list, &[]));
        let what = format!("pattern fill with key colour, depth {depth}");
        timing.play_on(memory, &what, &stream, RECTANGLE, None);
    }
    for (depth, screen, pixel) in [(8, &bytes, 1), (16, &words, 2)] {
        let (way, [x, y, w, h, _, sy], size, _) = moves[0];
        let short = command(5, 0, [x / pixel, y, w / pixel, h, x / pixel + 1, sy, 0]);
        let list = long_command(short, key(depth), (0, 0), 0);
        let (memory, stream) = (timing.poor_memory(), compiled_in(LONG, screen, &list, &[]));
        timing.play_on(
            memory,
            &format!("transparent move {way}, depth {depth}"),
            &stream,
            size,
            None,
        );
    }

    let written = compiled(&bytes, &write, &pixels);
    for (code, name) in [(0xC, ""), (6, " under exclusive or")] {
        for (depth, screen, x, width) in [(8, &bytes, 8, 496), (16, &words, 4, 248)] {
            let write = command(2, code, [x, 8, width, 496, 0, 0, 0]);
            let stream = compiled(screen, &write, &pixels);
            timing.play(&format!("write{name}, depth {depth}"), &stream, RECTANGLE, None);
        }
    }

    // A line has six words, the last with a spare byte.
    let columns: Vec<u8> =
        (0..40).flat_map(|i| command(2, 0xC, [12 * i, 8, 11, 480, 0, 0, 0])).collect();
    let stream = compiled(&bytes, &columns, &pixels[..40 * 480 * 6]);
    timing.play("write of short odd lines, depth 8", &stream, 40 * 480 * 11, None);

    let fills: Vec<u8> = (0..64)
        .flat_map(|i| command(0, 0, [i % 8 * 50 + i, i / 8 * 50 + i, 8, 8, 0, 0, i]))
        .collect();
    let fills = compiled(&bytes, &fills, &[]).repeat(16);
    timing.play_in_blocks("a stream of small fills", &fills);
    timing.play_in_blocks("a stream of writes", &written);

    let settings = Settings {
        depth: 2,
        rotation: 0,
        flag: 0,
        width: 1024,
        height: 1024,
        values: [0, 64, 0, 0, 0, 0],
    };
    timing.panel("read 1,024 × 1,024 points", &settings);
    let values = [0, 64, 0, 32, 16 | 47 << 16, 256 | 767 << 16];
    let windowed = Settings { flag: 1, values, ..settings };
    timing.panel("read 1,024 × 1,024 points, window", &windowed);
    let turned = Settings {
        rotation: 1,
        flag: 1,
        values: [63, 64, 31, 32, 256 | 767 << 16, 16 | 47 << 16],
        ..settings
    };
    timing.panel("read 1,024 × 1,024 points, 90 degrees, window", &turned);
    timing.lines("read 1,024 lines of 1,024 points", &settings);
    timing.lines("read 1,024 lines of 1,024 points, window", &windowed);
    timing.lines("read 1,024 lines of 1,024 points, 90 degrees, window", &turned);
    let back = Settings { rotation: 2, values: [65_535, 64, 0, 0, 0, 0], ..settings };
    timing.lines("read 1,024 lines of 1,024 points, 180 degrees", &back);
    for (depth, width) in [(8, 512), (16, 256)] {
        let values = [0, 128, 0, 0, 0, 0];
        let settings = Settings { depth, width, height: 512, values, ..settings };
        timing.lines(&format!("read 512 lines of {width} points, depth {depth}"), &settings);
    }

    timing.samples("take a sample, one step", 1);
    timing.samples("take a sample, 512 steps", 512);
    // Each of the last hours has a bar, and the number five digits.
    let (mut ring, mut other) = (wear::new_ring(), unit::new_ring());
    for (i, sequence) in (0..).zip(12_000..12_600) {
        let height = 1 + 7 * i % 100;
        wear::take_sample(&mut ring, sequence, height);
        unit::take_sample(&mut other, sequence, height);
    }
    timing.hours("tell an hour", &ring, &other);
    for depth in [8, 16] {
        let form = Form { hours: 24, depth, x: 8, y: 8, column: 12, bar: 200, background: 3 };
        let what = format!("wear strip of 24 hours, depth {depth}");
        timing.strip(&what, &form, &ring, &other);
    }
}
