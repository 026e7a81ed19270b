//! The library and both rivals answer alike, byte for byte: estates of seeds, with calls that are refused among them.

#[path = "../benches/calls/mod.rs"]
mod calls;
#[allow(dead_code)]
#[path = "../benches/estates/mod.rs"]
mod estates;
#[allow(dead_code)]
#[path = "../benches/library/mod.rs"]
mod library;
#[allow(dead_code)]
#[path = "../benches/plain/mod.rs"]
mod plain;
#[allow(dead_code)]
#[path = "../benches/tuned/mod.rs"]
mod tuned;

use calls::MOST_CREDITORS;
use estates::{CENTS, KINDS, Kind, SHARES, Seed, claim, come, prove};
use library::Library;
use plain::Plain;
use tuned::Tuned;

/// A call, or bytes that are none.
fn call_of(kind: Kind, limit: usize, seed: &mut Seed) -> Vec<u8> {
    let mut call = match seed.below(16) {
        0..6 => claim(kind.claim(seed)),
        6..9 => prove(seed.below(limit as u64 + 1), kind.claim(seed)),
        9..11 => come(kind.claim(seed) * (limit as u64 + 1) / 8 % 1_000_000_001),
        11..13 => SHARES.to_vec(),
        13..15 => CENTS.to_vec(),
        _ => match seed.below(4) {
            0 => claim(seed.word()),
            1 => prove(seed.word(), kind.claim(seed)),
            2 => prove(seed.below(limit as u64 + 1), seed.word()),
            _ => come(1_000_000_000 + seed.below(3)),
        },
    };
    if seed.below(16) == 0 {
        match seed.below(3) {
            0 => call.truncate(seed.below(call.len() as u64) as usize),
            1 => call.extend((0..=seed.below(9)).map(|_| seed.word() as u8)),
            _ => call[0] = seed.word() as u8,
        }
    }
    call
}

#[test]
fn equal_answers() {
    let mut refusals = [0; 6];
    for number in 0..2_000 {
        let mut seed = Seed::new(number);
        let kind = KINDS[number as usize % 4];
        let limit = match number % 50 {
            0 => MOST_CREDITORS,
            1..5 => seed.below(200) as usize,
            _ => seed.below(24) as usize,
        };
        let mut library = Library::open(limit).expect("a desk");
        let mut plain = Plain::open(limit).expect("a desk");
        let mut tuned = Tuned::open(limit).expect("a desk");
        let [mut first, mut second, mut third] = [0; 3].map(|_| vec![0xa5; 8 * limit + 40]);
        for _ in 0..4 * limit + 40 {
            let call = call_of(kind, limit, &mut seed);
            let lent = if seed.below(64) == 0 {
                seed.below(first.len() as u64) as usize
            } else {
                first.len()
            };
            let answered = library.call(&call, &mut first[..lent]);
            assert_eq!(
                answered,
                plain.call(&call, &mut second[..lent]),
                "plain, estate {number}: {call:?}"
            );
            assert_eq!(
                answered,
                tuned.call(&call, &mut third[..lent]),
                "tuned, estate {number}: {call:?}"
            );
            assert_eq!(first, second, "plain, estate {number}: {call:?}");
            assert_eq!(first, third, "tuned, estate {number}: {call:?}");
            if answered < 0 {
                refusals[(-answered >> 32) as usize] += 1;
            }
        }
    }
    assert!(
        refusals[1..].iter().all(|&count| count > 1_000),
        "{refusals:?}"
    );
}

#[test]
fn too_many_creditors() {
    for limit in [MOST_CREDITORS + 1, usize::MAX] {
        let refused = Some(-(3 << 32));
        assert_eq!(Library::open(limit).err(), refused);
        assert_eq!(Plain::open(limit).err(), refused);
        assert_eq!(Tuned::open(limit).err(), refused);
    }
}

#[test]
fn most_there() {
    let mut library = Library::open(0).expect("a desk");
    let mut plain = Plain::open(0).expect("a desk");
    let mut tuned = Tuned::open(0).expect("a desk");
    let mut answer = [0; 24];
    let mut all_answer = |cents: u64, answered: i64| {
        assert_eq!(library.call(&come(cents), &mut answer), answered);
        assert_eq!(plain.call(&come(cents), &mut answer), answered);
        assert_eq!(tuned.call(&come(cents), &mut answer), answered);
    };
    for _ in 0..1_000 {
        all_answer(1_000_000_000, 9);
    }
    all_answer(1, -(5 << 32));
    all_answer(0, 9);
}
