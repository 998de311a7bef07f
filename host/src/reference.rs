//! Paper 01 with requests c), e), g), h) and i) of paper 02, in plain Rust: compiling, playing, the point
//! reader, panel lines. Playing in blocks is in `serial`, the older chip in `older`, turning a list in
//! `forms`; the screen, the point and the line are read here for a memory of any size.
//!
//! `compile`, `play`, `draw`, `read_point` and `read_line` are not inlined, so that timing them beside the
//! library is fair.

use std::ops::Range;

use crate::answers::{Compiled, Drawn, Played, Point, Settings};

/// Bytes of the display memory.
pub const MEMORY: usize = 262_144;

/// Most commands of a list.
const COMMANDS: usize = 64;

/// The forms of a list, by the bytes of a command.
pub const SHORT: u32 = 32;
pub const LONG: u32 = 48;

/// The number of a stream record that holds a host data word.
const DATA: u32 = 0x1_0000;

/// A refusal: number and place.
type Refusal = (u32, u64);

fn u16_at(bytes: &[u8], at: usize) -> u32 {
    u16::from_le_bytes([bytes[at], bytes[at + 1]]).into()
}

fn u32_at(bytes: &[u8], at: usize) -> u32 {
    u32::from_le_bytes([bytes[at], bytes[at + 1], bytes[at + 2], bytes[at + 3]])
}

fn all_zero(bytes: &[u8]) -> bool {
    bytes.iter().fold(0, |any, &byte| any | byte) == 0
}

// ---- The screen ----

/// A surface's image in memory: base in bytes, shown size in pixels.
#[derive(Clone, Copy, Default)]
struct Image {
    base: u32,
    width: u32,
    height: u32,
    /// Line length in pixels.
    length: u32,
}

impl Image {
    /// Line length in bytes.
    fn line(&self, depth: u32) -> u32 {
        self.length * depth / 8
    }

    /// Whether it lies in a memory of so many bytes.
    fn fits(&self, depth: u32, memory: usize) -> bool {
        // To the end of the last shown pixel.
        let size = (self.height - 1) * self.line(depth) + self.width * depth / 8;
        self.base % 4 == 0 && u64::from(self.base) + u64::from(size) <= memory as u64
    }

    /// The start register, in dwords.
    fn start(&self, depth: u32, rotation: u32) -> u32 {
        let shown = self.width * depth / 8;
        let last_line = (self.height - 1) * self.line(depth);
        match rotation {
            0 => self.base / 4,
            1 => (self.base + shown) / 4 - 1,
            2 => (self.base + last_line + shown) / 4 - 1,
            _ => (self.base + last_line) / 4,
        }
    }

    /// Byte address of pixel (x, y), at depth 8 or 16.
    fn address(&self, depth: u32, x: u32, y: u32) -> u32 {
        self.base + y * self.line(depth) + x * depth / 8
    }

    fn holds(&self, x: u32, y: u32, width: u32, height: u32) -> bool {
        x + width <= self.width && y + height <= self.height
    }
}

pub(crate) struct Screen {
    depth: u32,
    rotation: u32,
    flag: u32,
    /// The panel's size.
    width: u32,
    height: u32,
    main: Image,
    window: Image,
    /// The window's place in the view.
    x: u32,
    y: u32,
}

/// The size of the view on a panel, or refusal 2 to 5.
fn view(depth: u32, rotation: u32, width: u32, height: u32) -> Result<(u32, u32), u32> {
    if !matches!(depth, 1 | 2 | 4 | 8 | 16) {
        return Err(2);
    }
    if rotation > 3 {
        return Err(3);
    }
    if width % 8 != 0 || !(8..=1024).contains(&width) || !(1..=1024).contains(&height) {
        return Err(4);
    }
    let view = if rotation % 2 == 0 { (width, height) } else { (height, width) };
    if view.0 % (32 / depth) != 0 {
        return Err(5);
    }
    Ok(view)
}

/// The line length of an image, in pixels, from the number in the record; or refusal 26.
fn length(given: u32, width: u32, depth: u32) -> Result<u32, u32> {
    let k = 32 / depth;
    match given {
        0 => Ok(width),
        _ if given < width || given % k != 0 || given / k > 1023 => Err(26),
        _ => Ok(given),
    }
}

impl Screen {
    /// The screen of a record, on a chip with a memory of so many bytes; or refusal 1 to 9 or 26.
    pub fn read(record: &[u8], memory: usize) -> Result<Screen, u32> {
        if record.len() != 32 {
            return Err(1);
        }
        let flag = u32::from(record[2]);
        if flag > 1
            || record[3] != 0
            || !all_zero(&record[28..])
            || flag == 0 && !(all_zero(&record[12..24]) && all_zero(&record[26..28]))
        {
            return Err(1);
        }
        let (depth, rotation) = (record[0].into(), record[1].into());
        let (width, height) = (u16_at(record, 4), u16_at(record, 6));
        let (view_width, view_height) = view(depth, rotation, width, height)?;
        let main = Image {
            base: u32_at(record, 8),
            width: view_width,
            height: view_height,
            length: length(u16_at(record, 24), view_width, depth)?,
        };
        if !main.fits(depth, memory) {
            return Err(6);
        }
        let mut window = Image {
            base: u32_at(record, 12),
            width: u16_at(record, 20),
            height: u16_at(record, 22),
            length: 0,
        };
        let (x, y) = (u16_at(record, 16), u16_at(record, 18));
        if flag == 1 {
            let (w, h) = (window.width, window.height);
            if w == 0 || h == 0 || !main.holds(x, y, w, h) {
                return Err(7);
            }
            if x % (32 / depth) != 0 || w % (32 / depth) != 0 {
                return Err(8);
            }
            window.length = length(u16_at(record, 26), w, depth)?;
            if !window.fits(depth, memory) {
                return Err(9);
            }
        }
        Ok(Screen { depth, rotation, flag, width, height, main, window, x, y })
    }

    /// Main start and offset, window start and offset, X, Y.
    pub fn values(&self) -> [u32; 6] {
        let start = |image: &Image| image.start(self.depth, self.rotation);
        let offset = |image: &Image| image.line(self.depth) / 4;
        let main = [start(&self.main), offset(&self.main)];
        if self.flag == 0 {
            return [main[0], main[1], 0, 0, 0, 0];
        }
        let k = 32 / self.depth;
        let (x, y, w, h) = (self.x, self.y, self.window.width, self.window.height);
        let (across, down) = (self.width, self.height);
        let (x_start, x_end, y_start, y_end) = match self.rotation {
            0 => (x / k, (x + w - 1) / k, y, y + h - 1),
            1 => (y, y + h - 1, (down - x - w) / k, (down - x) / k - 1),
            2 => ((across - x - w) / k, (across - x - 1) / k, down - y - h, down - y - 1),
            _ => (across - y - h, across - y - 1, x / k, (x + w - 1) / k),
        };
        let edges = |start: u32, end: u32| start | end << 16;
        [
            main[0],
            main[1],
            start(&self.window),
            offset(&self.window),
            edges(x_start, x_end),
            edges(y_start, y_end),
        ]
    }

    /// Compiling's answer, where it accepts with a stream of so many bytes.
    pub fn accepted(&self, length: usize) -> Compiled {
        let &Screen { depth, rotation, flag, .. } = self;
        Compiled { length: length as u64, depth, rotation, flag, ..Compiled::default() }
    }
}

// ---- Compiling ----

#[derive(Clone, Copy, Default)]
struct Command {
    operation: u8,
    code: u32,
    image: Image,
    x: u32,
    y: u32,
    width: u32,
    height: u32,
    source_x: u32,
    source_y: u32,
    colour: u32,
    key: u32,
    /// The address of the pattern's first pixel.
    pattern: u32,
}

const FILL: u8 = 0;
const MOVE: u8 = 1;
const WRITE: u8 = 2;
/// Pattern fills with raster code and with key colour, and the transparent move: in the long form alone.
const PATTERN: u8 = 3;
const KEYED: u8 = 4;
const CLEAR: u8 = 5;

/// Bytes of a pattern, eight lines of eight pixels.
const fn pattern_size(depth: u32) -> u32 {
    8 * depth
}

impl Command {
    /// A command of the list, in either form, or refusal 12 to 14.
    fn read(part: &[u8], screen: &Screen) -> Result<Command, u32> {
        let (operation, surface, code) = (part[0], part[1], part[2]);
        let source_zero = all_zero(&part[12..16]);
        let colour = u16_at(part, 16);
        let past = part.get(32..48).map_or(0, |past| u128::from_le_bytes(past.try_into().unwrap()));
        let mut further = Further::default();
        let right = match operation {
            FILL => code == 0 && source_zero && past == 0,
            MOVE => colour == 0 && past == 0,
            WRITE => source_zero && colour == 0 && past == 0,
            PATTERN | KEYED | CLEAR if part.len() == LONG as usize => {
                further = Further::read(part);
                further.right(operation, code, screen.depth)
                    && colour == 0
                    && (operation == CLEAR || source_zero)
                    && all_zero(&part[40..])
            }
            _ => return Err(12),
        };
        if u32::from(surface) > screen.flag
            || code > 15
            || screen.depth == 8 && colour > 255
            || !right
            || part[3] != 0
            || u128::from_le_bytes(part[16..32].try_into().unwrap()) >> 16 != 0
        {
            return Err(12);
        }
        let command = Command {
            operation,
            code: code.into(),
            image: if surface == 0 { screen.main } else { screen.window },
            x: u16_at(part, 4),
            y: u16_at(part, 6),
            width: u16_at(part, 8),
            height: u16_at(part, 10),
            source_x: u16_at(part, 12),
            source_y: u16_at(part, 14),
            colour,
            key: further.key,
            pattern: further.pattern + (8 * further.y + further.x) * screen.depth / 8,
        };
        let Command { image, x, y, width, height, source_x, source_y, .. } = command;
        if width == 0 || height == 0 {
            return Err(13);
        }
        // Without a move the source is (0, 0), and fits wherever the destination does.
        if !image.holds(x, y, width, height) || !image.holds(source_x, source_y, width, height) {
            return Err(14);
        }
        Ok(command)
    }

    /// Whether refusal 29 holds.
    fn clashes(&self, depth: u32) -> bool {
        match self.operation {
            PATTERN | KEYED => self.meets_pattern(depth),
            CLEAR => self.meets_source() && (self.y, self.x) > (self.source_y, self.source_x),
            _ => false,
        }
    }

    /// Whether the pattern shares a byte with the destination: the first line that does not end before
    /// the pattern begins before the pattern ends.
    fn meets_pattern(&self, depth: u32) -> bool {
        let size = pattern_size(depth);
        let pattern = self.pattern / size * size;
        let line = self.image.line(depth);
        let first = self.image.address(depth, self.x, self.y);
        let end = first + self.width * depth / 8;
        let j = if end > pattern { 0 } else { (pattern - end) / line + 1 };
        j < self.height && first + j * line < pattern + size
    }

    /// Whether source and destination share a byte, which pixels of one surface do where they are one.
    fn meets_source(&self) -> bool {
        self.x.abs_diff(self.source_x) < self.width && self.y.abs_diff(self.source_y) < self.height
    }

    /// Host words that the command takes.
    fn words(&self, depth: u32) -> usize {
        match self.operation {
            WRITE => ((self.width * depth / 8).div_ceil(2) * self.height) as usize,
            _ => 0,
        }
    }
}

/// What a long record has from byte 32 on, up to byte 39.
#[derive(Clone, Copy, Default)]
struct Further {
    key: u32,
    /// The pattern's first pixel, and its address.
    x: u32,
    y: u32,
    pattern: u32,
}

impl Further {
    fn read(part: &[u8]) -> Further {
        let (x, y) = (part[34].into(), part[35].into());
        Further { key: u16_at(part, 32), x, y, pattern: u32_at(part, 36) }
    }

    /// Whether an operation takes them with its raster code.
    fn right(&self, operation: u8, code: u8, depth: u32) -> bool {
        let has_key = depth == 16 || self.key <= 255;
        match operation {
            PATTERN => self.key == 0 && self.has_pattern(depth),
            KEYED => code == 0 && has_key && self.has_pattern(depth),
            _ => code == 0 && has_key && (self.x, self.y, self.pattern) == (0, 0, 0),
        }
    }

    /// Whether there is such a pixel, and such a pattern in the memory.
    fn has_pattern(&self, depth: u32) -> bool {
        let size = pattern_size(depth);
        let inside = u64::from(self.pattern) + u64::from(size) <= MEMORY as u64;
        self.x < 8 && self.y < 8 && self.pattern % size == 0 && inside
    }
}

/// A list that is accepted, and the length of its stream.
struct Plan {
    screen: Screen,
    commands: [Command; COMMANDS],
    count: usize,
    length: usize,
}

/// How many commands a list has in the form that is named, or refusal 10.
pub(crate) fn count(form: u32, list: &[u8]) -> Result<usize, u32> {
    let size = match form {
        SHORT | LONG => form as usize,
        _ => return Err(10),
    };
    let count = list.len() / size;
    if list.len() % size != 0 || count > COMMANDS {
        return Err(10);
    }
    Ok(count)
}

/// The plan of a list, or refusal 1 to 17, 26 or 29.
fn plan(form: u32, screen: &[u8], list: &[u8], words: usize, room: usize) -> Result<Plan, Refusal> {
    let whole = |number| (number, 0);
    let screen = Screen::read(screen, MEMORY).map_err(whole)?;
    let count = count(form, list).map_err(whole)?;
    if count > 0 && screen.depth < 8 {
        return Err((11, 0));
    }
    let mut commands = [Command::default(); COMMANDS];
    let mut used = 0;
    let parts = list.chunks_exact(form as usize);
    for (i, (command, part)) in commands.iter_mut().zip(parts).enumerate() {
        *command = Command::read(part, &screen).map_err(|number| (number, i as u64))?;
        if command.clashes(screen.depth) {
            return Err((29, i as u64));
        }
        used += command.words(screen.depth);
        if used > words {
            return Err((15, i as u64));
        }
    }
    if used < words {
        return Err((16, 0));
    }
    let length = 8 * (6 + 9 * count + used);
    if length > room {
        return Err((17, 0));
    }
    Ok(Plan { screen, commands, count, length })
}

/// Puts a record into eight bytes of the stream.
pub(crate) fn put_record(record: &mut [u8], number: u32, value: u32) {
    let both = u64::from(number) | u64::from(value) << 32;
    record.copy_from_slice(&both.to_le_bytes());
}

impl Plan {
    /// Writes the stream to the front of a buffer that holds it.
    fn write(&self, mut words: &[u16], stream: &mut [u8]) {
        let mut records = stream.chunks_exact_mut(8);
        let mut put = |number: u32, value: u32| put_record(records.next().unwrap(), number, value);
        let depth = self.screen.depth;
        for (number, value) in
            [0x40, 0x44, 0x50, 0x54, 0x58, 0x5C].into_iter().zip(self.screen.values())
        {
            put(number, value);
        }
        for c in &self.commands[..self.count] {
            let first = c.image.address(depth, c.x, c.y);
            let first_source = c.image.address(depth, c.source_x, c.source_y);
            // From the upper left pixel to the lower right one.
            let span = c.image.address(depth, c.width - 1, c.height - 1) - c.image.base;
            let (operation, source, destination) = match c.operation {
                FILL => (0xC, 0, first),
                WRITE => (0, 0, first),
                PATTERN => (6, c.pattern, first),
                KEYED => (7, c.pattern, first),
                CLEAR => (5, first_source, first),
                _ if first > first_source => (3, first_source + span, first + span),
                _ => (2, first_source, first),
            };
            put(0x8008, operation | c.code << 16);
            put(0x800C, source);
            put(0x8010, destination);
            put(0x8014, c.image.line(depth) / 2);
            put(0x8018, c.width - 1);
            put(0x801C, c.height - 1);
            put(0x8020, c.key);
            put(0x8024, c.colour);
            put(0x8000, 1 | u32::from(depth == 16) << 18);
            let (data, rest) = words.split_at(c.words(depth));
            for &word in data {
                put(DATA, word.into());
            }
            words = rest;
        }
    }
}

/// Compiles a list into the front of the stream buffer.
#[inline(never)]
pub fn compile(
    form: u32,
    screen: &[u8],
    list: &[u8],
    words: &[u16],
    stream: &mut [u8],
) -> Compiled {
    match plan(form, screen, list, words.len(), stream.len()) {
        Ok(plan) => {
            plan.write(words, stream);
            plan.screen.accepted(plan.length)
        }
        Err((number, place)) => {
            let size = u64::from(form);
            let (part_at, part_length) =
                if matches!(number, 12..=15 | 29) { (size * place, size) } else { (0, 0) };
            Compiled { number, place, part_at, part_length, ..Compiled::default() }
        }
    }
}

// ---- Playing ----

/// The registers in the order of `slot`, and the bits that each has.
const FIELDS: [u32; 15] = [
    0xFFFF,     // 40h main start
    0x3FF,      // 44h main offset
    0xFFFF,     // 50h window start
    0x3FF,      // 54h window offset
    0x3FF_03FF, // 58h X
    0x3FF_03FF, // 5Ch Y
    0x4_0001,   // 8000h colour format, start
    0xF_000F,   // 8008h raster code, operation
    0x3_FFFF,   // 800Ch source start
    0x3_FFFF,   // 8010h destination start
    0x7FF,      // 8014h memory offset
    0x3FF,      // 8018h width
    0x3FF,      // 801Ch height
    0xFFFF,     // 8020h background
    0xFFFF,     // 8024h foreground
];

pub(crate) const CONTROL: usize = 6;

/// The registers as last written, in the order of `slot`.
pub(crate) type Registers = [u32; 15];

fn slot(number: u32) -> Option<usize> {
    Some(match number {
        0x40 => 0,
        0x44 => 1,
        0x50 => 2,
        0x54 => 3,
        0x58 => 4,
        0x5C => 5,
        0x8000 => CONTROL,
        0x8008 => 7,
        0x800C => 8,
        0x8010 => 9,
        0x8014 => 10,
        0x8018 => 11,
        0x801C => 12,
        0x8020 => 13,
        0x8024 => 14,
        _ => return None,
    })
}

#[derive(Clone, Copy, PartialEq, Eq)]
pub(crate) enum Kind {
    Fill,
    Forward,
    Backward,
    Write,
    /// The transparent move, and pattern fills with raster code and with key colour.
    Clear,
    Pattern,
    Keyed,
}

/// Room for a line's source: 1,024 pixels of two bytes.
const LINE: [u8; 2048] = [0; 2048];

/// A blit, as the registers have it.
pub(crate) struct Blit {
    pub kind: Kind,
    pub code: u32,
    source: usize,
    pub destination: usize,
    /// Bytes from line to line.
    pub stride: usize,
    /// Bytes of a pixel and of a line's pixels.
    pub pixel: usize,
    pub line: usize,
    pub lines: usize,
    colour: u16,
    key: u16,
}

impl Blit {
    /// Each register is read by the bits of its field alone.
    pub fn new(kind: Kind, registers: &Registers, control: u32) -> Blit {
        let register = |i: usize| (registers[i] & FIELDS[i]) as usize;
        let pixel = if control >> 18 & 1 == 1 { 2 } else { 1 };
        Blit {
            kind,
            code: registers[7] >> 16 & 0xF,
            source: register(8),
            destination: register(9),
            stride: 2 * register(10),
            pixel,
            line: (register(11) + 1) * pixel,
            lines: register(12) + 1,
            colour: registers[14] as u16,
            key: registers[13] as u16,
        }
    }

    /// The blit that a write of `control` to 8000h starts, or refusal 21 or 22.
    fn start(registers: &Registers, control: u32) -> Result<Blit, u32> {
        let kind = match registers[7] & 0xF {
            0 => Kind::Write,
            2 => Kind::Forward,
            3 => Kind::Backward,
            5 => Kind::Clear,
            6 => Kind::Pattern,
            7 => Kind::Keyed,
            0xC => Kind::Fill,
            _ => return Err(21),
        };
        let blit = Blit::new(kind, registers, control);
        let Blit { source, destination, pixel, .. } = blit;
        let moves = matches!(kind, Kind::Forward | Kind::Backward | Kind::Clear);
        if destination % pixel != 0
            || kind != Kind::Fill && source % pixel != 0
            || kind == Kind::Write && source != 0
        {
            return Err(21);
        }
        // A pattern is inside: 800Ch has 18 bits, and the lowest are its first pixel.
        if !blit.inside(destination) || moves && !blit.inside(source) {
            return Err(22);
        }
        Ok(blit)
    }

    /// Whether the rectangle that starts at an address lies in the memory.
    fn inside(&self, at: usize) -> bool {
        let reach = (self.lines - 1) * self.stride + self.line;
        match self.kind {
            Kind::Backward => at + self.pixel <= MEMORY && reach <= at + self.pixel,
            _ => at + reach <= MEMORY,
        }
    }

    /// Data words of a line: at depth 8 two pixels each, at 16 one.
    pub fn words(&self) -> usize {
        self.line.div_ceil(2)
    }

    /// Lowest address of line j of the rectangle that starts at an address.
    fn line_at(&self, at: usize, j: usize) -> usize {
        match self.kind {
            Kind::Backward => at + self.pixel - self.line - j * self.stride,
            _ => at + j * self.stride,
        }
    }

    /// Draws the blit; a write's words are in the data records.
    pub fn run(&self, data: &[u8], memory: &mut [u8]) {
        match self.kind {
            Kind::Fill => self.fill(memory),
            Kind::Write => self.write(data, memory),
            Kind::Forward | Kind::Backward | Kind::Clear => self.shift(memory),
            Kind::Pattern | Kind::Keyed => self.hatch(memory),
        }
    }

    fn fill(&self, memory: &mut [u8]) {
        let colour = self.colour.to_le_bytes();
        for j in 0..self.lines {
            let to = self.line_at(self.destination, j);
            let line = &mut memory[to..to + self.line];
            if self.pixel == 1 {
                line.fill(colour[0]);
            } else {
                line.chunks_exact_mut(2).for_each(|pixel| pixel.copy_from_slice(&colour));
            }
        }
    }

    fn write(&self, data: &[u8], memory: &mut [u8]) {
        let mut source = LINE;
        for (j, records) in data.chunks(8 * self.words()).take(self.lines).enumerate() {
            let to = self.line_at(self.destination, j);
            for (pair, record) in source.chunks_exact_mut(2).zip(records.chunks_exact(8)) {
                pair.copy_from_slice(&record[4..6]);
            }
            combine(self.code, &mut memory[to..to + self.line], &source[..self.line]);
        }
    }

    /// A pattern fill. The pattern is read before the first pixel.
    fn hatch(&self, memory: &mut [u8]) {
        let tiles = self.tiles(memory);
        for j in 0..self.lines {
            let to = self.line_at(self.destination, j);
            let line = &mut memory[to..to + self.line];
            let (tile, kept) = &tiles[j % 8];
            match self.kind {
                Kind::Keyed => keep(line, tile, kept),
                _ => combine(self.code, line, tile),
            }
        }
    }

    /// The lines of the pattern in the order of the rectangle's lines, each with all ones where it has the
    /// key colour.
    fn tiles(&self, memory: &[u8]) -> [(Tile, Tile); 8] {
        let line = 8 * self.pixel;
        let (base, first) = (self.source / (8 * line) * (8 * line), self.source / line);
        let key = &self.key.to_le_bytes()[..self.pixel];
        std::array::from_fn(|j| {
            let row = &memory[base + (first + j) % 8 * line..][..line];
            let tile: Tile = std::array::from_fn(|i| row[(self.source + i) % line]);
            let kept = |i: usize| &tile[i / self.pixel * self.pixel..][..self.pixel] == key;
            (tile, std::array::from_fn(|i| if kept(i) { 0xFF } else { 0 }))
        })
    }

    fn shift(&self, memory: &mut [u8]) {
        let mut source = LINE;
        for j in 0..self.lines {
            let to = self.line_at(self.destination, j);
            let from = self.line_at(self.source, j);
            let smears = match self.kind {
                Kind::Backward => to < from && from < to + self.line,
                _ => from < to && to < from + self.line,
            };
            if smears {
                self.smear(memory, from, to);
            } else if self.code == 0xC && self.kind != Kind::Clear {
                memory.copy_within(from..from + self.line, to);
            } else {
                source[..self.line].copy_from_slice(&memory[from..from + self.line]);
                self.mix(&mut memory[to..to + self.line], &source[..self.line]);
            }
        }
    }

    /// Some of a move's pixels from their source.
    #[inline(always)]
    fn mix(&self, line: &mut [u8], source: &[u8]) {
        match self.kind {
            Kind::Clear => store_but(self.key, self.pixel, line, source),
            _ => combine(self.code, line, source),
        }
    }

    /// A line whose later pixels read what the earlier ones wrote.
    fn smear(&self, memory: &mut [u8], from: usize, to: usize) {
        let mut pixel = |at: usize| {
            let mut source = [0; 2];
            let source = &mut source[..self.pixel];
            source.copy_from_slice(&memory[from + at..][..self.pixel]);
            self.mix(&mut memory[to + at..][..self.pixel], source);
        };
        let offsets = (0..self.line).step_by(self.pixel);
        match self.kind {
            Kind::Backward => offsets.rev().for_each(&mut pixel),
            _ => offsets.for_each(&mut pixel),
        }
    }
}

/// Source bytes of a line: as many as it has, or those of a pattern's line, over and over.
pub(crate) trait Source {
    fn each(self, line: &mut [u8], mix: impl Fn(u8, u8) -> u8);
}

impl Source for &[u8] {
    #[inline(always)]
    fn each(self, line: &mut [u8], mix: impl Fn(u8, u8) -> u8) {
        for (d, &s) in line.iter_mut().zip(self) {
            *d = mix(s, *d);
        }
    }
}

/// A pattern's line from its first pixel on: at depth 8 twice, at depth 16 once.
type Tile = [u8; 16];

impl Source for &Tile {
    #[inline(always)]
    fn each(self, line: &mut [u8], mix: impl Fn(u8, u8) -> u8) {
        let mut chunks = line.chunks_exact_mut(size_of::<Tile>());
        for chunk in &mut chunks {
            self[..].each(chunk, &mix);
        }
        self[..].each(chunks.into_remainder(), mix);
    }
}

/// Combines a line with its source under a raster code (002, table 9-2). A code works bit by bit, so
/// bytes do at both depths.
#[inline]
pub(crate) fn combine(code: u32, line: &mut [u8], source: impl Source) {
    match code {
        0 => line.fill(0),
        1 => source.each(line, |s, d| !(s | d)),
        2 => source.each(line, |s, d| !s & d),
        3 => source.each(line, |s, _| !s),
        4 => source.each(line, |s, d| s & !d),
        5 => source.each(line, |_, d| !d),
        6 => source.each(line, |s, d| s ^ d),
        7 => source.each(line, |s, d| !(s & d)),
        8 => source.each(line, |s, d| s & d),
        9 => source.each(line, |s, d| !(s ^ d)),
        10 => {}
        11 => source.each(line, |s, d| !s | d),
        12 => source.each(line, |s, _| s),
        13 => source.each(line, |s, d| s | !d),
        14 => source.each(line, |s, d| s | d),
        _ => line.fill(0xFF),
    }
}

/// Stores a tile over and over, but for its bytes that are kept.
#[inline(always)]
fn keep(line: &mut [u8], tile: &Tile, kept: &Tile) {
    let each = |line: &mut [u8]| {
        for (d, (s, kept)) in line.iter_mut().zip(tile.iter().zip(kept)) {
            *d = *d & kept | s & !kept;
        }
    };
    let mut chunks = line.chunks_exact_mut(size_of::<Tile>());
    chunks.by_ref().for_each(each);
    each(chunks.into_remainder());
}

/// Stores the source's pixels but those of the key colour, of which a pixel's bytes count.
#[inline(always)]
fn store_but(key: u16, pixel: usize, line: &mut [u8], source: &[u8]) {
    if pixel == 1 {
        source.each(line, |s, d| if s == key as u8 { d } else { s });
    } else {
        let key = key.to_le_bytes();
        for (d, s) in line.chunks_exact_mut(2).zip(source.chunks_exact(2)) {
            let kept = [d[0], d[1]];
            d.copy_from_slice(if s == key { &kept } else { s });
        }
    }
}

/// Number and value of a stream record.
fn read_record(record: &[u8]) -> (u32, u32) {
    let record = u64::from_le_bytes(record.try_into().unwrap());
    (record as u32, (record >> 32) as u32)
}

/// What a record that is no due data word writes: a register's slot, its value, and the blit that it
/// starts; or refusal 20 to 23. Inlined, since what it gives back is large.
#[inline(always)]
pub(crate) fn admit(
    record: &[u8],
    registers: &Registers,
    due: bool,
) -> Result<(usize, u32, Option<Blit>), u32> {
    let (number, value) = read_record(record);
    if number == DATA {
        return Err(if value > 0xFFFF { 21 } else { 23 });
    }
    let slot = slot(number).ok_or(20u32)?;
    if value & !FIELDS[slot] != 0 {
        return Err(21);
    }
    let starts = slot == CONTROL && value & 1 == 1;
    let blit = if starts { Some(Blit::start(registers, value)?) } else { None };
    if due {
        return Err(23);
    }
    Ok((slot, value, blit))
}

/// How many data words stand at the front of some records, `most` at most.
pub(crate) fn words_in(records: &[u8], most: usize) -> usize {
    let good = |&record: &&[u8]| matches!(read_record(record), (DATA, 0..=0xFFFF));
    records.chunks_exact(8).take(most).take_while(good).count()
}

/// The last six screen values, and the blits, each with the place where its data records begin.
type Checked = ([u32; 6], Vec<(Blit, usize)>);

/// What a stream holds, or refusal 19 to 23.
fn check(stream: &[u8]) -> Result<Checked, Refusal> {
    if stream.len() % 8 != 0 {
        return Err((19, 0));
    }
    let mut registers = [0; 15];
    let mut blits = Vec::new();
    let mut due = 0;
    let mut at = 0;
    loop {
        // Due data words are taken as far as they go.
        let taken = words_in(&stream[at..], due);
        due -= taken;
        at += 8 * taken;
        if at == stream.len() {
            break;
        }
        let (slot, value, started) = admit(&stream[at..at + 8], &registers, due > 0)
            .map_err(|number| (number, at as u64 / 8))?;
        registers[slot] = value;
        at += 8;
        if let Some(blit) = started {
            if blit.kind == Kind::Write {
                due = blit.words() * blit.lines;
            }
            blits.push((blit, at));
        }
    }
    if due > 0 {
        return Err((23, at as u64 / 8));
    }
    let [a, b, c, d, e, f, ..] = registers;
    Ok(([a, b, c, d, e, f], blits))
}

/// Plays a stream over the memory.
#[inline(never)]
pub fn play(stream: &[u8], memory: &mut [u8]) -> Played {
    let checked = if memory.len() != MEMORY { Err((18, 0)) } else { check(stream) };
    match checked {
        Ok((values, blits)) => {
            for (blit, data_at) in blits {
                blit.run(&stream[data_at..], memory);
            }
            Played { values, ..Played::default() }
        }
        Err((number, place)) => Played { number, place, ..Played::default() },
    }
}

/// Compiles and plays: 18, then compiling's refusals, and only then changes a buffer.
#[inline(never)]
pub fn draw(
    form: u32,
    screen: &[u8],
    list: &[u8],
    words: &[u16],
    stream: &mut [u8],
    memory: &mut [u8],
) -> Drawn {
    let planned = if memory.len() != MEMORY {
        Err((18, 0))
    } else {
        plan(form, screen, list, words.len(), stream.len())
    };
    match planned {
        Ok(plan) => {
            plan.write(words, stream);
            let Played { number, place, values } = play(&stream[..plan.length], memory);
            Drawn { number, place, length: plan.length as u64, values }
        }
        Err((number, place)) => Drawn { number, place, ..Drawn::default() },
    }
}

// ---- The point reader ----

/// The colour that a panel point shows, and where it stands.
#[inline(never)]
pub fn read_point(screen: &Settings, p: u32, q: u32, memory: &[u8]) -> Point {
    read_point_in(MEMORY, screen, p, q, memory)
}

/// The same, on a chip with a memory of `size` bytes.
#[inline(always)]
pub(crate) fn read_point_in(
    size: usize,
    screen: &Settings,
    p: u32,
    q: u32,
    memory: &[u8],
) -> Point {
    found(size, screen, p, q, memory).unwrap_or_else(|number| Point { number, ..Point::default() })
}

/// The point, or refusal 1 to 5, 18, 21, 24 or 25.
#[inline(always)]
fn found(size: usize, screen: &Settings, p: u32, q: u32, memory: &[u8]) -> Result<Point, u32> {
    if memory.len() != size {
        return Err(18);
    }
    let (dword, pixel) = walk(screen, p, q)?;
    if !(0..size as i64 / 4).contains(&dword) {
        return Err(25);
    }
    let depth = screen.depth;
    // Bits of the dword's earlier pixels.
    let before = depth * pixel;
    let (address, bit) = (4 * dword as u32 + before / 8, 7 - before % 8);
    let byte = |at: u32| u32::from(memory[at as usize]);
    let colour = match depth {
        16 => byte(address) | byte(address + 1) << 8,
        _ => byte(address) >> (bit + 1 - depth) & ((1 << depth) - 1),
    };
    Ok(Point { number: 0, colour, address, bit })
}

/// Refusal 1 to 5 or 21 of what the point reader is told of the screen.
#[inline(always)]
fn accept(screen: &Settings) -> Result<(), u32> {
    let &Settings { depth, rotation, flag, width, height, values } = screen;
    if flag > 1 {
        return Err(1);
    }
    view(depth, rotation, width, height)?;
    if values.iter().zip(FIELDS).any(|(value, field)| value & !field != 0) {
        return Err(21);
    }
    Ok(())
}

/// The window's edges, and how many columns and lines a step of them is.
struct Edges {
    x_start: u32,
    x_end: u32,
    x_step: u32,
    y_start: u32,
    y_end: u32,
    y_step: u32,
}

#[inline(always)]
fn edges(screen: &Settings) -> Edges {
    let halves = |value: u32| (value & 0x3FF, value >> 16);
    let ((x_start, x_end), (y_start, y_end)) = (halves(screen.values[4]), halves(screen.values[5]));
    // X is counted in dwords at 0 and 180 degrees, Y at 90 and 270.
    let k = 32 / screen.depth;
    let (x_step, y_step) = if screen.rotation % 2 == 0 { (k, 1) } else { (1, k) };
    Edges { x_start, x_end, x_step, y_start, y_end, y_step }
}

/// The dword where the chip's walk finds a point, inside the memory or not, and the pixel in it; or
/// refusal 1 to 5, 21 or 24.
#[inline(always)]
pub fn walk(screen: &Settings, p: u32, q: u32) -> Result<(i64, u32), u32> {
    accept(screen)?;
    let &Settings { depth, rotation, width, height, values, .. } = screen;
    if p >= width || q >= height {
        return Err(24);
    }

    let k = 32 / depth;
    let Edges { x_start, x_end, x_step, y_start, y_end, y_step } = edges(screen);
    let in_window = screen.flag == 1
        && (x_start..=x_end).contains(&(p / x_step))
        && (y_start..=y_end).contains(&(q / y_step));
    let (start, offset, p, q) = if in_window {
        (values[2], values[3], p - x_start * x_step, q - y_start * y_step)
    } else {
        (values[0], values[1], p, q)
    };

    let (s, o) = (i64::from(start), i64::from(offset));
    let (along, across) = (|n: u32| i64::from(n / k), |n: u32| i64::from(n) * o);
    Ok(match rotation {
        0 => (s + across(q) + along(p), p % k),
        1 => (s + across(p) - along(q), k - 1 - q % k),
        2 => (s - across(q) - along(p), k - 1 - p % k),
        _ => (s - across(p) + along(q), q % k),
    })
}

// ---- A panel line ----

/// Fills a line with the colours that panel line q shows, one for each column. Gives 0, or the refusal,
/// and then the line is as it was.
#[inline(never)]
pub fn read_line(screen: &Settings, q: u32, memory: &[u8], line: &mut [u16]) -> u32 {
    read_line_in(MEMORY, screen, q, memory, line)
}

/// The same, on a chip with a memory of `size` bytes.
#[inline(always)]
pub(crate) fn read_line_in(
    size: usize,
    screen: &Settings,
    q: u32,
    memory: &[u8],
    line: &mut [u16],
) -> u32 {
    if memory.len() != size {
        return 18;
    }
    match runs(size, screen, q, line.len()) {
        Ok(runs) => {
            for run in runs {
                run.show(screen.depth, memory, &mut line[run.columns.clone()]);
            }
            0
        }
        Err(number) => number,
    }
}

/// Columns side by side that show one image. Pixels are counted from the memory's first.
struct Run {
    columns: Range<usize>,
    /// The pixel of the first column, and the way from column to column.
    first: i64,
    step: i64,
}

/// Main left of the window, the window, and main right of it; or refusal 1 to 5, 17, 21, 24 or 25.
fn runs(size: usize, screen: &Settings, q: u32, room: usize) -> Result<[Run; 3], u32> {
    accept(screen)?;
    let &Settings { depth, rotation, flag, width, height, values } = screen;
    if q >= height {
        return Err(24);
    }

    let Edges { x_start, x_end, x_step, y_start, y_end, y_step } = edges(screen);
    let (x, y) = (x_start * x_step, y_start * y_step);
    let (left, right) = (x.min(width), ((x_end + 1) * x_step).min(width));
    let in_window = flag == 1 && left < right && (y_start..=y_end).contains(&(q / y_step));
    let (left, right) = if in_window { (left, right) } else { (0, 0) };

    let k = i64::from(32 / depth);
    // Columns of an image that begins at column x and line y.
    let run = |columns: Range<u32>, start: u32, offset: u32, x: u32, y: u32| {
        let (s, o) = (k * i64::from(start), k * i64::from(offset));
        let (p, q) = (i64::from(columns.start) - i64::from(x), i64::from(q) - i64::from(y));
        let (first, step) = match rotation {
            0 => (s + q * o + p, 1),
            1 => (s + p * o + k - 1 - q, o),
            2 => (s - q * o + k - 1 - p, -1),
            _ => (s - p * o + q, -o),
        };
        Run { columns: columns.start as usize..columns.end as usize, first, step }
    };
    let main = |columns: Range<u32>| run(columns, values[0], values[1], 0, 0);
    let window = run(left..right, values[2], values[3], x, y);
    let runs = [main(0..left), window, main(right..width)];
    if !runs.iter().all(|run| run.inside(k * size as i64 / 4)) {
        return Err(25);
    }
    if room != width as usize {
        return Err(17);
    }
    Ok(runs)
}

impl Run {
    /// Whether its pixels are all among so many: they go one way, so the two at the ends say it.
    fn inside(&self, pixels: i64) -> bool {
        let last = self.first + (self.columns.len() as i64 - 1) * self.step;
        let pixels = 0..pixels;
        self.columns.is_empty() || pixels.contains(&self.first) && pixels.contains(&last)
    }

    /// Puts its colours into its part of the line.
    fn show(&self, depth: u32, memory: &[u8], line: &mut [u16]) {
        match self.step {
            _ if line.is_empty() => {}
            1 => beside(depth, self.dwords(depth, self.first, memory), line),
            -1 => {
                let last = self.first + 1 - line.len() as i64;
                beside_back(depth, self.dwords(depth, last, memory), line);
            }
            _ => self.apart(depth, memory, line),
        }
    }

    /// The bytes of its pixels, which are side by side from one on: whole dwords.
    fn dwords<'a>(&self, depth: u32, from: i64, memory: &'a [u8]) -> &'a [u8] {
        let byte = |pixels: usize| pixels * depth as usize / 8;
        &memory[byte(from as usize)..][..byte(self.columns.len())]
    }

    /// Colours of pixels that stand at one place of dwords.
    fn apart(&self, depth: u32, memory: &[u8], line: &mut [u16]) {
        let bit = depth * self.first as u32;
        let mut at = (bit / 8) as usize;
        let step = (self.step * i64::from(depth) / 8) as usize;
        let (shift, mask) = ((8 - bit % 8).saturating_sub(depth), (1u32 << depth) - 1);
        for colour in line {
            *colour = match depth {
                16 => u16::from_le_bytes([memory[at], memory[at + 1]]),
                _ => u16::from(memory[at]) >> shift & mask as u16,
            };
            at = at.wrapping_add(step);
        }
    }
}

/// The pixels of some bytes, from the left.
fn beside(depth: u32, bytes: &[u8], line: &mut [u16]) {
    match depth {
        1 => split::<1, 8>(bytes.iter(), line, |i| 7 - i),
        2 => split::<2, 4>(bytes.iter(), line, |i| 6 - 2 * i),
        4 => split::<4, 2>(bytes.iter(), line, |i| 4 - 4 * i),
        8 => split::<8, 1>(bytes.iter(), line, |_| 0),
        _ => join(bytes.chunks_exact(2), line),
    }
}

/// The pixels of some bytes, from the right.
fn beside_back(depth: u32, bytes: &[u8], line: &mut [u16]) {
    match depth {
        1 => split::<1, 8>(bytes.iter().rev(), line, |i| i),
        2 => split::<2, 4>(bytes.iter().rev(), line, |i| 2 * i),
        4 => split::<4, 2>(bytes.iter().rev(), line, |i| 4 * i),
        8 => split::<8, 1>(bytes.iter().rev(), line, |_| 0),
        _ => join(bytes.chunks_exact(2).rev(), line),
    }
}

/// The pixels of each byte, of DEPTH bits, the i-th from a place on.
#[inline(always)]
fn split<'a, const DEPTH: u32, const PIXELS: usize>(
    bytes: impl Iterator<Item = &'a u8>,
    line: &mut [u16],
    place: impl Fn(usize) -> usize,
) {
    for (colours, &byte) in line.chunks_exact_mut(PIXELS).zip(bytes) {
        for (i, colour) in colours.iter_mut().enumerate() {
            *colour = u16::from(byte) >> place(i) & ((1 << DEPTH) - 1);
        }
    }
}

/// The pixel of each two bytes.
#[inline(always)]
fn join<'a>(pairs: impl Iterator<Item = &'a [u8]>, line: &mut [u16]) {
    for (colour, pair) in line.iter_mut().zip(pairs) {
        *colour = u16::from_le_bytes([pair[0], pair[1]]);
    }
}
