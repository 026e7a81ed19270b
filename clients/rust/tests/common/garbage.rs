//! Estates, and words that no desk has left.

use super::asking::any_cents;
use super::estate::{Estate, HEAD, MOST_CENTS, MOST_CREDITORS, MOST_THERE, words_for};
use super::random::Random;

/// Some estate of up to so many creditors, within the limits.
pub fn any_estate(random: &mut Random, most: usize) -> Estate {
    let limit = random.size(most);
    let count = if random.one_in(3) {
        limit
    } else {
        random.size(limit)
    };
    let claims = (0..count)
        .map(|_| any_cents(random).min(MOST_CENTS))
        .collect();
    let there = match random.up_to(3) {
        0 => MOST_THERE - random.up_to(2 * MOST_CENTS),
        1 => random.up_to(1000),
        _ => random.any_size().min(MOST_THERE),
    };
    Estate {
        limit,
        there,
        claims,
    }
}

/// The words of a desk, of which a few are others.
pub fn flipped(random: &mut Random, most: usize) -> Vec<u64> {
    let mut words = any_estate(random, most).words();
    for _ in 0..random.between(1, 4) {
        let place = some_place(random, words.len());
        words[place] = another(random, words[place]);
    }
    words
}

/// A place of the first ones, or of all, or of those behind the head.
fn some_place(random: &mut Random, length: usize) -> usize {
    match random.up_to(3) {
        0 => random.size(2),
        1 => random.size(length - 1),
        _ => random.between(HEAD.min(length - 1) as u64, length as u64 - 1) as usize,
    }
}

/// Another word than this one.
fn another(random: &mut Random, word: u64) -> u64 {
    match random.up_to(5) {
        0 => word ^ (1 << random.up_to(63)),
        1 => word.wrapping_add(1),
        2 => word.wrapping_sub(1),
        3 => !word,
        4 if word != 0 => 0,
        _ => word ^ random.word().max(1),
    }
}

/// Words of which the first may be a desk's, or are not, and the others are anything; of up to so many creditors.
pub fn anything(random: &mut Random, most: usize) -> Vec<u64> {
    let limit = any_limit(random, most);
    let room = limit.min(most as u64) as usize;
    let exact = words_for(room);
    let length = match random.up_to(7) {
        0 => random.size(exact),
        1 => random.size(HEAD + 2),
        2 => exact - 1,
        3 => exact + random.size(8),
        _ => exact,
    };
    let digits = random.between(1, 64);
    let head = [limit, any_there(random), any_count(random, limit)];
    let rest = (0..length).map(|_| any_word(random, digits));
    head.into_iter().chain(rest).take(length).collect()
}

/// A limit: of so many creditors, of more, or one at which what a desk asks for passes a word.
pub fn any_limit(random: &mut Random, most: usize) -> u64 {
    match random.up_to(15) {
        0 => MOST_CREDITORS + 1,
        1 => random.one_of(&[u64::MAX, 1 << 61, 1 << 63, u64::MAX / 3 - 20, 1 << 32]),
        2 => random.any_size(),
        _ => random.up_to(most as u64),
    }
}

/// What is there, or more than there may be.
fn any_there(random: &mut Random) -> u64 {
    match random.up_to(7) {
        0 => MOST_THERE + random.up_to(1),
        1 => random.one_of(&[u64::MAX, u64::MAX - MOST_CENTS, 1 << 63]),
        2 => MOST_THERE - random.up_to(2 * MOST_CENTS),
        _ => random.any_size().min(MOST_THERE),
    }
}

/// A count of claims up to the limit, or above it.
fn any_count(random: &mut Random, limit: u64) -> u64 {
    match random.up_to(7) {
        0 => limit.wrapping_add(1),
        1 => random.any_size(),
        2 => limit,
        _ => random.up_to(limit),
    }
}

/// A word of up to so many digits, or one at the ends.
fn any_word(random: &mut Random, digits: u64) -> u64 {
    match random.up_to(15) {
        0 => u64::MAX,
        1 => 0,
        _ => random.word() >> (64 - digits),
    }
}
