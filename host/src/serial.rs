//! Request a) of paper 02 in plain Rust: playing a stream that comes in blocks, cut anywhere.
//!
//! `feed` and `end` are not inlined, so that timing them beside the library is fair.

use crate::answers::{Played, Player};
use crate::reference::{admit, combine, words_in, Blit, Kind, CONTROL, MEMORY};

/// Most bytes of a block.
pub const BLOCK: usize = 64;

/// Bytes of a stream record.
const RECORD: usize = 8;

/// The player at a stream's start.
pub fn new_player() -> Player {
    Player::default()
}

/// Plays the next block of the stream over the memory as the earlier blocks left it.
#[inline(never)]
pub fn feed(player: &mut Player, block: &[u8], memory: &mut [u8]) -> Played {
    if player.kept != 0 {
        return kept(player);
    }
    if memory.len() != MEMORY {
        return Played { number: 18, ..Played::default() };
    }
    if block.len() > BLOCK {
        return Played { number: 32, ..Played::default() };
    }
    match take_block(player, block, memory) {
        Ok(()) => Played::default(),
        Err(number) => keep(player, number, player.count),
    }
}

/// Ends the stream.
#[inline(never)]
pub fn end(player: &mut Player) -> Played {
    if player.kept != 0 {
        kept(player)
    } else if player.held != 0 {
        keep(player, 19, 0)
    } else if player.due != 0 {
        keep(player, 23, player.count)
    } else {
        keep(player, 0, 0)
    }
}

fn keep(player: &mut Player, number: u32, place: u64) -> Played {
    (player.kept, player.number, player.place) = (1, number, place);
    kept(player)
}

/// The answer that is kept. With number 0 it is the end's, with the last six screen values.
fn kept(player: &Player) -> Played {
    match player.number {
        0 => {
            let [a, b, c, d, e, f, ..] = player.registers;
            Played { values: [a, b, c, d, e, f], ..Played::default() }
        }
        number => Played { number, place: player.place, ..Played::default() },
    }
}

/// Takes the records that the block completes, up to one that is refused, and holds the bytes left
/// over.
fn take_block(player: &mut Player, block: &[u8], memory: &mut [u8]) -> Result<(), u32> {
    let held = usize::from(player.held.min(7));
    let mut first = [0; RECORD];
    first[..held].copy_from_slice(&player.half[..held]);
    player.due = u32::from(player.due != 0);
    (player.half, player.held) = ([0; 7], 0);
    (player.number, player.place) = (0, 0);

    let mut rest = block;
    if held > 0 {
        let (head, tail) = block.split_at(block.len().min(RECORD - held));
        let filled = held + head.len();
        first[held..filled].copy_from_slice(head);
        if filled < RECORD {
            hold(player, &first[..filled]);
            return Ok(());
        }
        take_records(player, &first, memory)?;
        rest = tail;
    }
    let (whole, left) = rest.split_at(rest.len() / RECORD * RECORD);
    take_records(player, whole, memory)?;
    hold(player, left);
    Ok(())
}

/// Holds the bytes of a half-read record, where nothing is held.
fn hold(player: &mut Player, bytes: &[u8]) {
    player.half[..bytes.len()].copy_from_slice(bytes);
    player.held = bytes.len() as u8;
}

/// Takes whole records, up to one that is refused.
fn take_records(player: &mut Player, mut records: &[u8], memory: &mut [u8]) -> Result<(), u32> {
    while !records.is_empty() {
        let due = player.due != 0;
        let mut taken = if due { take_words(player, records, memory) } else { 0 };
        if taken == 0 {
            taken = 1;
            let (slot, value, started) = admit(&records[..RECORD], &player.registers, due)?;
            player.registers[slot] = value;
            (player.due, player.line, player.word) = (0, 0, 0);
            match started {
                Some(Blit { kind: Kind::Write, .. }) => player.due = 1,
                Some(blit) => blit.run(&[], memory),
                None => {}
            }
        }
        player.count = player.count.saturating_add(taken as u64);
        records = &records[RECORD * taken..];
    }
    Ok(())
}

/// Draws the due data words at the front of the records, no further than the line goes. Gives how
/// many they are.
fn take_words(player: &mut Player, records: &[u8], memory: &mut [u8]) -> usize {
    let blit = Blit::new(Kind::Write, &player.registers, player.registers[CONTROL]);
    let (line, word, words) = (usize::from(player.line), usize::from(player.word), blit.words());
    // No stream leads past a line's end, but a state may stand there: the word then draws nothing.
    let left = words.saturating_sub(word).max(1);
    let left_bytes = blit.line.saturating_sub(2 * word);
    let taken = words_in(records, left);
    if taken == 0 {
        return 0;
    }

    let mut source = [0; 2 * (BLOCK / RECORD)];
    for (pair, record) in source.chunks_exact_mut(2).zip(records.chunks_exact(RECORD)) {
        pair.copy_from_slice(&record[4..6]);
    }
    // Nor past the memory's end: there nothing is stored.
    let to = blit.destination + line * blit.stride + 2 * word;
    let past = (to + left_bytes.min(2 * taken)).min(MEMORY);
    if to < past {
        combine(blit.code, &mut memory[to..past], &source[..past - to]);
    }

    (player.due, player.line, player.word) = if word + taken < words {
        (1, player.line, (word + taken) as u16)
    } else if line + 1 < blit.lines {
        (1, player.line + 1, 0)
    } else {
        (0, 0, 0)
    };
    taken
}
