//! Request g) of paper 02 in plain Rust: turning a list of 32-byte commands into one of 48-byte commands,
//! and back. Compiling either form is in `reference`.
//!
//! `to_long` and `to_short` are not inlined, so that timing them beside the library is fair.

use crate::answers::List;
use crate::reference::{count, LONG, SHORT};

/// Turns a short list into a long one, at the front of the target.
#[inline(never)]
pub fn to_long(list: &[u8], target: &mut [u8]) -> List {
    match length(SHORT, LONG, list, target.len()) {
        Ok(length) => {
            for (new, old) in target.chunks_exact_mut(48).zip(list.chunks_exact(32)) {
                new[..32].copy_from_slice(old);
                new[32..].fill(0);
            }
            List { number: 0, length: length as u64 }
        }
        Err(number) => List { number, length: 0 },
    }
}

/// Turns a long list into a short one, at the front of the target.
#[inline(never)]
pub fn to_short(list: &[u8], target: &mut [u8]) -> List {
    match length(LONG, SHORT, list, target.len()) {
        Ok(_) if !list.chunks_exact(48).all(has_short) => List { number: 28, length: 0 },
        Ok(length) => {
            for (new, old) in target.chunks_exact_mut(32).zip(list.chunks_exact(48)) {
                new.copy_from_slice(&old[..32]);
            }
            List { number: 0, length: length as u64 }
        }
        Err(number) => List { number, length: 0 },
    }
}

/// The length of a list that is turned, in bytes; or refusal 10 or 17.
fn length(from: u32, to: u32, list: &[u8], room: usize) -> Result<usize, u32> {
    let length = count(from, list)? * to as usize;
    if room < length {
        return Err(17);
    }
    Ok(length)
}

/// Whether a long command is a short one with zeros behind it.
fn has_short(part: &[u8]) -> bool {
    let past = u128::from_le_bytes(part[32..48].try_into().unwrap());
    part[0] <= 2 && past == 0
}
