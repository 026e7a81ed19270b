//! Calls as nobody should send them, and as everybody may.

use super::estate::{Estate, MOST_CENTS};
use super::random::Random;

/// The bytes of some call at an estate: mostly one that can be read, otherwise one that was changed, or any bytes.
pub fn any_call(random: &mut Random, estate: &Estate) -> Vec<u8> {
    match random.up_to(9) {
        0 => any_bytes(random),
        1 => changed(random, estate),
        _ => readable(random, estate),
    }
}

/// The bytes of a call that can be read.
fn readable(random: &mut Random, estate: &Estate) -> Vec<u8> {
    let kind = random.one_of(&[0, 0, 1, 1, 1, 2, 2, 3, 4]);
    let numbers = match kind {
        0 | 2 => vec![any_cents(random)],
        1 => vec![any_place(random, estate), any_cents(random)],
        _ => vec![],
    };
    let mut bytes = vec![kind];
    bytes.extend(numbers.iter().flat_map(|number| number.to_le_bytes()));
    bytes
}

/// Cents: few, many, as many as there may be, more, or too many.
pub fn any_cents(random: &mut Random) -> u64 {
    match random.up_to(9) {
        0 => random.one_of(&[MOST_CENTS, MOST_CENTS + 1, MOST_CENTS - 1]),
        1 => random.one_of(&[u64::MAX, 1 << 63, (1 << 63) - 1, 1 << 32, MOST_CENTS << 32]),
        2 => random.any_size(),
        3..5 => random.up_to(3),
        5..7 => random.up_to(1000),
        _ => random.up_to(MOST_CENTS),
    }
}

/// A place: one where a claim is, one close by, or one that is only in its low bits where a claim is.
fn any_place(random: &mut Random, estate: &Estate) -> u64 {
    let count = estate.claims.len() as u64;
    match random.up_to(7) {
        0 => count + random.up_to(1),
        1 => estate.limit as u64 + random.up_to(1),
        2 => (random.any_size() << 32) + random.up_to(count),
        3 => random.one_of(&[u64::MAX, u64::from(u32::MAX), 1 << 32, 1 << 61, 1 << 63]),
        4 => random.any_size(),
        _ => random.up_to(count.saturating_sub(1)),
    }
}

/// A call that was changed: cut, made longer, or with another byte somewhere.
fn changed(random: &mut Random, estate: &Estate) -> Vec<u8> {
    let mut bytes = readable(random, estate);
    let place = random.size(bytes.len() - 1);
    match random.up_to(3) {
        0 => bytes.truncate(place),
        1 => {
            let more = random.size(23);
            bytes.extend(random.bytes(more));
        }
        2 => bytes[0] = random.one_of(&[0, 1, 2, 3, 4, 5, 128, 255]),
        _ => bytes[place] ^= 1 << random.up_to(7),
    }
    bytes
}

/// From 0 to 40 bytes, which begin as a call does or as none does.
fn any_bytes(random: &mut Random) -> Vec<u8> {
    let length = random.size(40);
    let mut bytes = random.bytes(length);
    if let Some(first) = bytes.first_mut().filter(|_| !random.one_in(4)) {
        *first %= 6;
    }
    bytes
}
