//! Larger estates, up to 1,024 creditors: what the desk answers is held to the rule two by two, whole cents to their own.

mod common;

use common::estate::{MOST_CENTS, MOST_CREDITORS, MOST_THERE};
use common::random::Random;
use common::rule::{hold_cents, hold_shares};
use common::work;
use vullades::{Answer, Call, Desk};

const ESTATES: usize = 10_000;

/// How often each is asked, after cents came and claims were changed.
const TIMES: usize = 3;

#[test]
fn each_two_divide_as_two_do() {
    let creditors: usize = work::shared(ESTATES, go_through).into_iter().sum();
    assert!(
        creditors > 100 * 1024 + 900 * 200,
        "many have many creditors"
    );
}

/// Goes through one estate, and says how many creditors it has.
fn go_through(job: usize) -> usize {
    let random = &mut Random::new(job as u64);
    let mut held = Held::open(random, job);
    let mut wanted: Vec<u64> = (0..TIMES).map(|_| random.up_to(8)).collect();
    wanted.sort();
    for kind in wanted {
        held.change_some(random);
        held.bring_up_to(random, kind);
        held.hold();
    }
    held.claims.len()
}

/// A desk, and what was claimed and came there.
struct Held {
    desk: Desk,
    claims: Vec<u64>,
    there: u64,
}

impl Held {
    /// A desk for as many creditors as claim, or for more.
    fn open(random: &mut Random, job: usize) -> Held {
        let claims = some_claims(random, job);
        let count = claims.len() as u64;
        let more = random.between(count, MOST_CREDITORS);
        let limit = random.one_of(&[count, count, more, MOST_CREDITORS]);
        let mut desk = Desk::open(limit as usize).expect("a desk");
        for (place, &claim) in claims.iter().enumerate() {
            assert_eq!(
                desk.call(&Call::Claim(claim)),
                Ok(Answer::Number(place as u64))
            );
        }
        Held {
            desk,
            claims,
            there: 0,
        }
    }

    /// Changes the claims of some.
    fn change_some(&mut self, random: &mut Random) {
        let most = self.claims.len().min(20);
        for _ in 0..random.size(most) {
            let place = random.size(self.claims.len() - 1);
            let most = random.one_of(&[9, MOST_CENTS]);
            let any = random.up_to(most);
            let claim = random.one_of(&[self.claims[0], any]);
            self.claims[place] = claim;
            let place = place as u64;
            assert_eq!(
                self.desk.call(&Call::Prove(place, claim)),
                Ok(Answer::Number(place))
            );
        }
    }

    /// Has cents come, some at a time, up to what is wanted. What is there already stays.
    fn bring_up_to(&mut self, random: &mut Random, kind: u64) {
        let wanted = some_there(random, self.claims.iter().sum(), kind);
        while self.there < wanted {
            let left = (wanted - self.there).min(MOST_CENTS);
            let some = random.between(1, left);
            let cents = random.one_of(&[left, left, left, some]);
            self.there += cents;
            assert_eq!(
                self.desk.call(&Call::Come(cents)),
                Ok(Answer::Number(self.there))
            );
        }
    }

    /// Holds shares and whole cents to the rule.
    fn hold(&mut self) {
        let Ok(Answer::Parts { per_cent, shares }) = self.desk.call(&Call::Shares) else {
            panic!("no shares");
        };
        hold_shares(&self.claims, self.there, per_cent, &shares);
        let Ok(Answer::Amounts(cents)) = self.desk.call(&Call::Cents) else {
            panic!("no cents");
        };
        hold_cents(per_cent, &shares, &cents);
    }
}

/// How many creditors a job has: of a hundred one has the most, nine have many, ten some, the others few.
fn some_creditors(random: &mut Random, job: usize) -> u64 {
    match job % 100 {
        0 => MOST_CREDITORS,
        1..10 => random.between(200, MOST_CREDITORS),
        10..20 => random.between(41, 199),
        _ => random.up_to(40),
    }
}

/// Claims of one kind, or of several.
fn some_claims(random: &mut Random, job: usize) -> Vec<u64> {
    let kinds = random.between(1, 3);
    let first = random.up_to(8);
    let base = random.any_size().min(MOST_CENTS);
    let places = 0..some_creditors(random, job);
    places
        .map(|place| some_claim(random, (first + place % kinds) % 9, base, place))
        .collect()
}

/// A claim of a kind: equal ones, close ones, powers of two, none, the most, one that is huge, small ones, or any.
fn some_claim(random: &mut Random, kind: u64, base: u64, place: u64) -> u64 {
    match kind {
        0 => base,
        1 => (base + random.up_to(2)).min(MOST_CENTS),
        2 => 1 << (place % 30),
        3 => random.up_to(1) * base,
        4 => MOST_CENTS,
        5 if place == 0 => MOST_CENTS,
        5 | 6 => random.up_to(9),
        7 => random.any_size().min(MOST_CENTS),
        _ => random.up_to(MOST_CENTS),
    }
}

/// How much is there, of a kind: from nothing to the most, around half and all of what is claimed, and in between.
fn some_there(random: &mut Random, claimed: u64, kind: u64) -> u64 {
    let close = random.up_to(4);
    let there = match kind {
        0 => 0,
        1 => 1,
        2 => random.up_to(claimed / 2),
        3 | 4 => (claimed / 2 + close).saturating_sub(2),
        5 => random.between(claimed / 2, claimed),
        6 => (claimed + close).saturating_sub(2),
        7 => claimed + random.up_to(MOST_CENTS),
        _ => MOST_THERE,
    };
    there.min(MOST_THERE)
}
