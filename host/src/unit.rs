//! The proved library, by the functions of include/s1d.h.

use crate::answers::{
    Compiled, Drawn, Form, Glyph, Hour, List, Played, Player, Point, Settings, Strip, Values,
};

/// The library's ring. Any numbers are a ring.
#[repr(C)]
#[derive(Clone, Debug, PartialEq, Eq)]
pub struct Ring {
    any: u16,
    newest: u16,
    numbers: [u16; 512],
    heights: [u16; 512],
}

extern "C" {
    fn s1d_compile(
        form: u32,
        screen: *const u8,
        screen_length: usize,
        list: *const u8,
        list_length: usize,
        words: *const u16,
        words_length: usize,
        stream: *mut u8,
        stream_length: usize,
    ) -> Compiled;

    fn s1d_play(
        stream: *const u8,
        stream_length: usize,
        memory: *mut u8,
        memory_length: usize,
    ) -> Played;

    fn s1d_new_player() -> Player;

    fn s1d_feed(
        player: *mut Player,
        block: *const u8,
        block_length: usize,
        memory: *mut u8,
        memory_length: usize,
    ) -> Played;

    fn s1d_end(player: *mut Player) -> Played;

    fn s1d_read_point(
        depth: u32,
        rotation: u32,
        flag: u32,
        width: u32,
        height: u32,
        values: *const u32,
        p: u32,
        q: u32,
        memory: *const u8,
        memory_length: usize,
    ) -> Point;

    fn s1d_read_line(
        depth: u32,
        rotation: u32,
        flag: u32,
        width: u32,
        height: u32,
        values: *const u32,
        q: u32,
        memory: *const u8,
        memory_length: usize,
        line: *mut u16,
        line_length: usize,
    ) -> u32;

    fn s1d_draw(
        form: u32,
        screen: *const u8,
        screen_length: usize,
        list: *const u8,
        list_length: usize,
        words: *const u16,
        words_length: usize,
        stream: *mut u8,
        stream_length: usize,
        memory: *mut u8,
        memory_length: usize,
    ) -> Drawn;

    fn s1d_to_long(
        list: *const u8,
        list_length: usize,
        target: *mut u8,
        target_length: usize,
    ) -> List;

    fn s1d_to_short(
        list: *const u8,
        list_length: usize,
        target: *mut u8,
        target_length: usize,
    ) -> List;

    fn s1d_new_ring() -> Ring;

    fn s1d_take_sample(ring: *mut Ring, sequence: u16, height: u32) -> u32;

    fn s1d_hour_at(ring: *const Ring, age: u32) -> Hour;

    fn s1d_wear_strip(
        ring: *const Ring,
        hours: u32,
        depth: u32,
        x: u16,
        y: u16,
        column: u32,
        bar: u16,
        background: u16,
        site: *const u8,
        site_length: usize,
        factory: *const u8,
        factory_length: usize,
        list: *mut u8,
        list_room: usize,
        words: *mut u16,
        words_room: usize,
    ) -> Strip;

    fn s1d_find_glyph(
        site: *const u8,
        site_length: usize,
        factory: *const u8,
        factory_length: usize,
        digit: u32,
    ) -> Glyph;

    fn s1d06_compile(
        form: u32,
        screen: *const u8,
        screen_length: usize,
        list: *const u8,
        list_length: usize,
        words: *const u16,
        words_length: usize,
        stream: *mut u8,
        stream_length: usize,
    ) -> Compiled;

    fn s1d06_values(bytes: *const u8) -> Values;

    fn s1d06_read_point(
        depth: u32,
        rotation: u32,
        flag: u32,
        width: u32,
        height: u32,
        values: *const u32,
        p: u32,
        q: u32,
        memory: *const u8,
        memory_length: usize,
    ) -> Point;

    fn s1d06_read_line(
        depth: u32,
        rotation: u32,
        flag: u32,
        width: u32,
        height: u32,
        values: *const u32,
        q: u32,
        memory: *const u8,
        memory_length: usize,
        line: *mut u16,
        line_length: usize,
    ) -> u32;
}

/// Compiling, the point reader and panel lines, of either chip.
type Compile = unsafe extern "C" fn(
    u32,
    *const u8,
    usize,
    *const u8,
    usize,
    *const u16,
    usize,
    *mut u8,
    usize,
) -> Compiled;
type ReadPoint =
    unsafe extern "C" fn(u32, u32, u32, u32, u32, *const u32, u32, u32, *const u8, usize) -> Point;
type ReadLine = unsafe extern "C" fn(
    u32,
    u32,
    u32,
    u32,
    u32,
    *const u32,
    u32,
    *const u8,
    usize,
    *mut u16,
    usize,
) -> u32;

// Each pointer below comes from a slice with its length, and a slice lent for writing is lent to
// nobody else.

fn compile_by(
    function: Compile,
    form: u32,
    screen: &[u8],
    list: &[u8],
    words: &[u16],
    stream: &mut [u8],
) -> Compiled {
    unsafe {
        function(
            form,
            screen.as_ptr(),
            screen.len(),
            list.as_ptr(),
            list.len(),
            words.as_ptr(),
            words.len(),
            stream.as_mut_ptr(),
            stream.len(),
        )
    }
}

pub fn compile(
    form: u32,
    screen: &[u8],
    list: &[u8],
    words: &[u16],
    stream: &mut [u8],
) -> Compiled {
    compile_by(s1d_compile, form, screen, list, words, stream)
}

pub fn play(stream: &[u8], memory: &mut [u8]) -> Played {
    unsafe { s1d_play(stream.as_ptr(), stream.len(), memory.as_mut_ptr(), memory.len()) }
}

pub fn new_player() -> Player {
    unsafe { s1d_new_player() }
}

pub fn feed(player: &mut Player, block: &[u8], memory: &mut [u8]) -> Played {
    unsafe { s1d_feed(player, block.as_ptr(), block.len(), memory.as_mut_ptr(), memory.len()) }
}

pub fn end(player: &mut Player) -> Played {
    unsafe { s1d_end(player) }
}

fn read_point_by(function: ReadPoint, screen: &Settings, p: u32, q: u32, memory: &[u8]) -> Point {
    unsafe {
        function(
            screen.depth,
            screen.rotation,
            screen.flag,
            screen.width,
            screen.height,
            screen.values.as_ptr(),
            p,
            q,
            memory.as_ptr(),
            memory.len(),
        )
    }
}

pub fn read_point(screen: &Settings, p: u32, q: u32, memory: &[u8]) -> Point {
    read_point_by(s1d_read_point, screen, p, q, memory)
}

fn read_line_by(
    function: ReadLine,
    screen: &Settings,
    q: u32,
    memory: &[u8],
    line: &mut [u16],
) -> u32 {
    unsafe {
        function(
            screen.depth,
            screen.rotation,
            screen.flag,
            screen.width,
            screen.height,
            screen.values.as_ptr(),
            q,
            memory.as_ptr(),
            memory.len(),
            line.as_mut_ptr(),
            line.len(),
        )
    }
}

pub fn read_line(screen: &Settings, q: u32, memory: &[u8], line: &mut [u16]) -> u32 {
    read_line_by(s1d_read_line, screen, q, memory, line)
}

pub fn draw(
    form: u32,
    screen: &[u8],
    list: &[u8],
    words: &[u16],
    stream: &mut [u8],
    memory: &mut [u8],
) -> Drawn {
    unsafe {
        s1d_draw(
            form,
            screen.as_ptr(),
            screen.len(),
            list.as_ptr(),
            list.len(),
            words.as_ptr(),
            words.len(),
            stream.as_mut_ptr(),
            stream.len(),
            memory.as_mut_ptr(),
            memory.len(),
        )
    }
}

pub fn to_long(list: &[u8], target: &mut [u8]) -> List {
    unsafe { s1d_to_long(list.as_ptr(), list.len(), target.as_mut_ptr(), target.len()) }
}

pub fn to_short(list: &[u8], target: &mut [u8]) -> List {
    unsafe { s1d_to_short(list.as_ptr(), list.len(), target.as_mut_ptr(), target.len()) }
}

pub fn new_ring() -> Ring {
    unsafe { s1d_new_ring() }
}

/// A ring of any numbers.
pub fn ring_of(numbers: &[u16; 1026]) -> Ring {
    Ring {
        any: numbers[0],
        newest: numbers[1],
        numbers: numbers[2..514].try_into().unwrap(),
        heights: numbers[514..].try_into().unwrap(),
    }
}

/// The newest sample's number.
pub fn newest(ring: &Ring) -> Option<u16> {
    (ring.any != 0).then_some(ring.newest)
}

pub fn take_sample(ring: &mut Ring, sequence: u16, height: u32) -> u32 {
    unsafe { s1d_take_sample(ring, sequence, height) }
}

pub fn hour_at(ring: &Ring, age: u32) -> Hour {
    unsafe { s1d_hour_at(ring, age) }
}

pub fn wear_strip(
    ring: &Ring,
    form: &Form,
    site: &[u8],
    factory: &[u8],
    list: &mut [u8],
    words: &mut [u16],
) -> Strip {
    unsafe {
        s1d_wear_strip(
            ring,
            form.hours,
            form.depth,
            form.x,
            form.y,
            form.column,
            form.bar,
            form.background,
            site.as_ptr(),
            site.len(),
            factory.as_ptr(),
            factory.len(),
            list.as_mut_ptr(),
            list.len(),
            words.as_mut_ptr(),
            words.len(),
        )
    }
}

pub fn find_glyph(site: &[u8], factory: &[u8], digit: u32) -> Glyph {
    unsafe { s1d_find_glyph(site.as_ptr(), site.len(), factory.as_ptr(), factory.len(), digit) }
}

/// The older chip's functions.
pub mod older {
    use super::{
        compile_by, read_line_by, read_point_by, s1d06_compile, s1d06_read_line, s1d06_read_point,
        s1d06_values,
    };
    use crate::answers::{Compiled, Point, Settings, Values};
    use crate::older::REGISTERS;

    pub fn compile(
        form: u32,
        screen: &[u8],
        list: &[u8],
        words: &[u16],
        stream: &mut [u8],
    ) -> Compiled {
        compile_by(s1d06_compile, form, screen, list, words, stream)
    }

    pub fn values(bytes: &[u8; REGISTERS]) -> Values {
        unsafe { s1d06_values(bytes.as_ptr()) }
    }

    pub fn read_point(screen: &Settings, p: u32, q: u32, memory: &[u8]) -> Point {
        read_point_by(s1d06_read_point, screen, p, q, memory)
    }

    pub fn read_line(screen: &Settings, q: u32, memory: &[u8], line: &mut [u16]) -> u32 {
        read_line_by(s1d06_read_line, screen, q, memory, line)
    }
}
