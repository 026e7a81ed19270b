//! The rival that the library is measured against: the same desk in plain Rust, written from the definition, and proved by
//! nobody. It shares no code with the library.
#![forbid(unsafe_code)]

use std::cmp::Reverse;

use crate::calls::{Call, MOST_CREDITORS, MOST_THERE, Refusal, decoded, number};

pub struct Plain {
    limit: usize,
    there: u64,
    /// The claims as they came.
    claims: Vec<u64>,
    /// The same, ascending.
    sorted: Vec<u64>,
    /// At `k` the sum of the `k` smallest; one more than there are claims.
    sums: Vec<u64>,
    /// What each share lacks when it is rounded down, and places; kept from call to call so that cents take no new memory.
    lacks: Vec<u64>,
    places: Vec<usize>,
}

/// What all shares depend on besides the claims.
struct Terms {
    /// What is divided.
    divided: u64,
    /// Whether it is more than half of what is claimed, so that losses are levelled.
    losses: bool,
    /// Up to the level, `spread / (2 * among)`, each gets, or loses, half of its claim.
    spread: u64,
    among: u64,
}

impl Terms {
    /// How many parts a cent has.
    fn parts(&self) -> u64 {
        (2 * self.among).max(1)
    }

    /// What a claim gets, in these parts.
    fn share(&self, claim: u64) -> u64 {
        let levelled = (self.among * claim).min(self.spread);
        if self.losses {
            2 * self.among * claim - levelled
        } else {
            levelled
        }
    }
}

impl Plain {
    /// A desk without claims, in which nothing is there; or the refusal.
    pub fn open(limit: usize) -> Result<Plain, i64> {
        if limit > MOST_CREDITORS {
            return Err(Refusal(3, 0).signed());
        }
        let mut sums = Vec::with_capacity(limit + 1);
        sums.push(0);
        Ok(Plain {
            limit,
            there: 0,
            claims: Vec::with_capacity(limit),
            sorted: Vec::with_capacity(limit),
            sums,
            lacks: Vec::with_capacity(limit),
            places: Vec::with_capacity(limit),
        })
    }

    /// As it was when it was opened.
    pub fn reopen(&mut self) {
        self.there = 0;
        self.claims.clear();
        self.sorted.clear();
        self.sums.truncate(1);
    }

    /// Answers a call: how long the answer is, or the refusal.
    #[inline(never)]
    pub fn call(&mut self, call: &[u8], answer: &mut [u8]) -> i64 {
        match self.answered(call, answer) {
            Ok(length) => length as i64,
            Err(refusal) => refusal.signed(),
        }
    }

    fn answered(&mut self, call: &[u8], answer: &mut [u8]) -> Result<usize, Refusal> {
        let call = decoded(call)?;
        if answer.len() < 24 + 8 * self.limit {
            return Err(Refusal(3, 1));
        }
        match call {
            Call::Claim(cents) => {
                let place = self.claims.len();
                if place >= self.limit {
                    return Err(Refusal(5, 0));
                }
                self.claim(cents);
                Ok(number(place as u64, answer))
            }
            Call::Prove(place, cents) => {
                let claim = usize::try_from(place)
                    .ok()
                    .and_then(|place| self.claims.get_mut(place));
                let old = std::mem::replace(claim.ok_or(Refusal(4, 0))?, cents);
                self.replace(old, cents);
                Ok(number(place, answer))
            }
            Call::Come(cents) => {
                let there = self.there + cents;
                if there > MOST_THERE {
                    return Err(Refusal(5, 0));
                }
                self.there = there;
                Ok(number(there, answer))
            }
            Call::Shares => Ok(self.shares(answer)),
            Call::Cents => Ok(self.cents(answer)),
        }
    }

    fn claim(&mut self, cents: u64) {
        self.claims.push(cents);
        let place = self.sorted.partition_point(|&claim| claim <= cents);
        self.sorted.insert(place, cents);
        self.sum_from(place);
    }

    /// A claim of `old` is one of `new` from now on.
    fn replace(&mut self, old: u64, new: u64) {
        let from = self.sorted.partition_point(|&claim| claim < old);
        self.sorted.remove(from);
        let to = self.sorted.partition_point(|&claim| claim <= new);
        self.sorted.insert(to, new);
        self.sum_from(from.min(to));
    }

    /// Finds the sums anew that have the claim at a place, or one behind it.
    fn sum_from(&mut self, place: usize) {
        self.sums.resize(self.sorted.len() + 1, 0);
        let mut sum = self.sums[place];
        for (next, &claim) in self.sums[place + 1..].iter_mut().zip(&self.sorted[place..]) {
            sum += claim;
            *next = sum;
        }
    }

    /// The level where so much is there: what is spread, and among how many.
    #[inline(never)]
    pub fn level_of(&self, there: u64) -> (u64, u64) {
        let terms = self.terms(there);
        (terms.spread, terms.among)
    }

    fn terms(&self, there: u64) -> Terms {
        let count = self.sorted.len();
        let all = self.sums[count];
        let divided = there.min(all);
        let target = 2 * divided.min(all - divided);
        // How many are filled before the others are level: as long as all of them, filled up to the next claim, hold less.
        let (mut low, mut high) = (0, count);
        while low < high {
            let middle = (low + high) / 2;
            if self.sums[middle] + (count - middle) as u64 * self.sorted[middle] < target {
                low = middle + 1;
            } else {
                high = middle;
            }
        }
        let losses = divided > all - divided;
        Terms {
            divided,
            losses,
            spread: target - self.sums[low],
            among: (count - low) as u64,
        }
    }

    fn shares(&self, answer: &mut [u8]) -> usize {
        let terms = self.terms(self.there);
        let length = 17 + 8 * self.claims.len();
        answer[0] = 2;
        answer[1..9].copy_from_slice(&terms.parts().to_le_bytes());
        answer[9..17].copy_from_slice(&(self.claims.len() as u64).to_le_bytes());
        let (rows, _) = answer[17..length].as_chunks_mut();
        for (row, &claim) in rows.iter_mut().zip(&self.claims) {
            *row = terms.share(claim).to_le_bytes();
        }
        length
    }

    /// Each share rounded down, and the cents that are left to those who lack most, of equals the first.
    fn cents(&mut self, answer: &mut [u8]) -> usize {
        let terms = self.terms(self.there);
        let parts = terms.parts();
        let length = 9 + 8 * self.claims.len();
        answer[0] = 3;
        answer[1..9].copy_from_slice(&(self.claims.len() as u64).to_le_bytes());
        let (rows, _) = answer[9..length].as_chunks_mut();
        let mut left = terms.divided;
        self.lacks.clear();
        for (row, &claim) in rows.iter_mut().zip(&self.claims) {
            let share = terms.share(claim);
            let cents = share / parts;
            *row = cents.to_le_bytes();
            left -= cents;
            self.lacks.push(share % parts);
        }
        if left > 0 {
            let left = left as usize;
            self.places.clear();
            self.places.extend(0..self.claims.len());
            self.places
                .select_nth_unstable_by_key(left - 1, |&place| (Reverse(self.lacks[place]), place));
            for &place in &self.places[..left] {
                rows[place] = (u64::from_le_bytes(rows[place]) + 1).to_le_bytes();
            }
        }
        length
    }
}
