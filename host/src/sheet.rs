//! The plain sheet of paper 01, with the line lengths of paper 02's request c), the places of its request
//! e), the operations of its request h) and the panel lines of its request i), from the records themselves. It
//! is fed accepted input only.

fn number(bytes: &[u8], at: usize) -> usize {
    usize::from(bytes[at]) + 256 * usize::from(bytes[at + 1])
}

struct Surface {
    base: usize,
    width: usize,
    height: usize,
    /// Line length in pixels.
    length: usize,
    depth: usize,
}

/// Main (0) or the window (1).
fn surface(screen: &[u8], which: u8) -> Surface {
    let depth = screen[0].into();
    let (base_at, length_at) = if which == 1 { (12, 26) } else { (8, 24) };
    let base = number(screen, base_at) + 65_536 * number(screen, base_at + 2);
    let (width, height) = match (which, screen[1]) {
        (1, _) => (number(screen, 20), number(screen, 22)),
        (_, 0 | 2) => (number(screen, 4), number(screen, 6)),
        _ => (number(screen, 6), number(screen, 4)),
    };
    let length = match number(screen, length_at) {
        0 => width,
        given => given,
    };
    Surface { base, width, height, length, depth }
}

impl Surface {
    fn address(&self, x: usize, y: usize) -> usize {
        self.base + y * (self.length * self.depth / 8) + x * self.depth / 8
    }

    fn pixel(&self, bytes: &[u8], x: usize, y: usize) -> u32 {
        let at = self.address(x, y);
        match self.depth {
            depth @ (8 | 16) => whole_pixel(bytes, depth, at),
            depth => {
                let right = 8 / depth - 1 - x % (8 / depth);
                u32::from(bytes[at]) / 2u32.pow((right * depth) as u32) % 2u32.pow(depth as u32)
            }
        }
    }

    /// The byte that a pixel stands in, at depth 16 its low byte, and the place of its highest bit
    /// there.
    fn place(&self, x: usize, y: usize) -> (u32, u32) {
        let left = match self.depth {
            8 | 16 => 0,
            depth => x % (8 / depth),
        };
        (self.address(x, y) as u32, 7 - (left * self.depth) as u32)
    }

    fn set(&self, bytes: &mut [u8], x: usize, y: usize, pixel: u32) {
        let at = self.address(x, y);
        bytes[at] = (pixel % 256) as u8;
        if self.depth == 16 {
            bytes[at + 1] = (pixel / 256) as u8;
        }
    }
}

/// The pixel at an address, at depth 8 or 16.
fn whole_pixel(bytes: &[u8], depth: usize, at: usize) -> u32 {
    match depth {
        16 => u32::from(bytes[at]) + 256 * u32::from(bytes[at + 1]),
        _ => bytes[at].into(),
    }
}

/// The pixels of the pattern that a command names, row by row.
fn pattern(bytes: &[u8], depth: usize, command: &[u8]) -> [[u32; 8]; 8] {
    let first = number(command, 36) + 65_536 * number(command, 38);
    let pixel = |column: usize, row: usize| {
        whole_pixel(bytes, depth, first + (8 * row + column) * depth / 8)
    };
    std::array::from_fn(|row| std::array::from_fn(|column| pixel(column, row)))
}

/// s, or d where s is the key.
fn keyed(key: u32, s: u32, d: u32) -> u32 {
    if s == key {
        d
    } else {
        s
    }
}

/// s and d combined: each bit of the result is bit 2s + d of the code.
fn combined(code: u8, s: u32, d: u32) -> u32 {
    (0..16)
        .map(|bit| {
            let (s, d) = (s >> bit & 1, d >> bit & 1);
            (u32::from(code) >> (2 * s + d) & 1) << bit
        })
        .sum()
}

/// Which bytes of a memory of so many the pixels of a command's rectangle take, its upper left pixel on the
/// surface being (x, y).
pub fn bytes_of(screen: &[u8], command: &[u8], (x, y): (usize, usize), memory: usize) -> Vec<bool> {
    let on = surface(screen, command[1]);
    let mut taken = vec![false; memory];
    for j in 0..number(command, 10) {
        for i in 0..number(command, 8) {
            let at = on.address(x + i, y + j);
            taken[at..at + on.depth / 8].fill(true);
        }
    }
    taken
}

/// The address of a pixel of a command's surface.
pub fn address(screen: &[u8], command: &[u8], (x, y): (usize, usize)) -> usize {
    surface(screen, command[1]).address(x, y)
}

/// Draws a list, in the form that is named, on the sheet, each command changing all its pixels at once.
pub fn draw(form: u32, screen: &[u8], list: &[u8], words: &[u16], sheet: &mut [u8]) {
    let mut words = words.iter();
    let mut before = Vec::new();
    for command in list.chunks(form as usize) {
        let on = surface(screen, command[1]);
        let code = command[2];
        let (x, y) = (number(command, 4), number(command, 6));
        let (width, height) = (number(command, 8), number(command, 10));
        let (source_x, source_y) = (number(command, 12), number(command, 14));
        let colour = number(command, 16) as u32;
        // What the surface held just before: the sheet up to its end.
        before.clear();
        before.extend_from_slice(&sheet[..on.address(on.width, on.height - 1)]);
        let moved = |i: usize, j: usize| on.pixel(&before, source_x + i, source_y + j);
        let pattern = match command[0] {
            3 | 4 => pattern(sheet, on.depth, command),
            _ => [[0; 8]; 8],
        };
        let hatch = |i: usize, j: usize| {
            let (column, row) = (usize::from(command[34]) + i, usize::from(command[35]) + j);
            pattern[row % 8][column % 8]
        };
        let key = || number(command, 32) as u32;
        for j in 0..height {
            let line: Vec<u16> = match command[0] {
                2 => words.by_ref().take((width * on.depth / 8 + 1) / 2).copied().collect(),
                _ => Vec::new(),
            };
            for i in 0..width {
                let d = on.pixel(&before, x + i, y + j);
                let pixel = match command[0] {
                    0 => colour,
                    1 => combined(code, moved(i, j), d),
                    2 if on.depth == 16 => combined(code, line[i].into(), d),
                    2 => combined(code, line[i / 2].to_le_bytes()[i % 2].into(), d),
                    3 => combined(code, hatch(i, j), d),
                    4 => keyed(key(), hatch(i, j), d),
                    _ => keyed(key(), moved(i, j), d),
                };
                on.set(sheet, x + i, y + j, pixel % 2u32.pow(on.depth as u32));
            }
        }
    }
}

/// The surface that panel point (p, q) shows, main (0) or the window (1), and the pixel of it.
pub fn seen(screen: &[u8], p: usize, q: usize) -> (u8, usize, usize) {
    let (panel_width, panel_height) = (number(screen, 4), number(screen, 6));
    let (u, v) = match screen[1] {
        0 => (p, q),
        1 => (panel_height - 1 - q, p),
        2 => (panel_width - 1 - p, panel_height - 1 - q),
        _ => (q, panel_width - 1 - p),
    };
    let window = surface(screen, 1);
    let (x, y) = (number(screen, 16), number(screen, 18));
    let in_window =
        screen[2] == 1 && (x..x + window.width).contains(&u) && (y..y + window.height).contains(&v);
    if in_window {
        (1, u - x, v - y)
    } else {
        (0, u, v)
    }
}

/// The panel point of a view's pixel (u, v).
pub fn panel_point(screen: &[u8], u: usize, v: usize) -> (usize, usize) {
    let (panel_width, panel_height) = (number(screen, 4), number(screen, 6));
    match screen[1] {
        0 => (u, v),
        1 => (v, panel_height - 1 - u),
        2 => (panel_width - 1 - u, panel_height - 1 - v),
        _ => (panel_width - 1 - v, u),
    }
}

/// The same as `seen`, with the surface itself.
fn shown(screen: &[u8], p: usize, q: usize) -> (Surface, usize, usize) {
    let (which, x, y) = seen(screen, p, q);
    (surface(screen, which), x, y)
}

/// What the sheet shows at panel point (p, q).
pub fn shows(screen: &[u8], sheet: &[u8], p: usize, q: usize) -> u32 {
    let (on, x, y) = shown(screen, p, q);
    on.pixel(sheet, x, y)
}

/// What the sheet shows on panel line q, one pixel for each column.
pub fn line(screen: &[u8], sheet: &[u8], q: usize) -> Vec<u16> {
    (0..number(screen, 4)).map(|p| shows(screen, sheet, p, q).try_into().unwrap()).collect()
}

/// Where the pixel that panel point (p, q) shows stands: its byte, at depth 16 the low one, and the
/// place of its highest bit there.
pub fn stands(screen: &[u8], p: usize, q: usize) -> (u32, u32) {
    let (on, x, y) = shown(screen, p, q);
    on.place(x, y)
}
