//! The tuned rival: the same desk, written for speed with special cases made by hand, and proved by nobody. It shares no
//! code with the library.
//!
//! Claims are at most 10^9, so they are kept in 32 bits; sums over them need 64. Whole cents take no division for each
//! creditor: what a share lacks of a whole cent is nothing, half a cent, or the same as at all who are level.

use crate::calls::{Call, MOST_CREDITORS, MOST_THERE, Refusal, decoded, number};

/// What all shares depend on besides the claims.
struct Terms {
    /// Whether less than half of what is claimed is missing, so that losses are levelled.
    losses: bool,
    /// What is spread, and among how many: all who claim `from` or more.
    spread: u64,
    among: u64,
    from: u32,
}

pub struct Tuned {
    limit: usize,
    there: u64,
    /// The claims as they came.
    claims: Vec<u32>,
    /// The same, ascending.
    sorted: Vec<u32>,
    /// At `k` the sum of the `k` smallest; one more than there are claims.
    sums: Vec<u64>,
}

impl Tuned {
    /// A desk without claims, in which nothing is there; or the refusal.
    pub fn open(limit: usize) -> Result<Tuned, i64> {
        if limit > MOST_CREDITORS {
            return Err(Refusal(3, 0).signed());
        }
        let mut sums = Vec::with_capacity(limit + 1);
        sums.push(0);
        Ok(Tuned {
            limit,
            there: 0,
            claims: Vec::with_capacity(limit),
            sorted: Vec::with_capacity(limit),
            sums,
        })
    }

    /// As it was when it was opened.
    pub fn reopen(&mut self) {
        self.there = 0;
        self.claims.clear();
        self.sorted.clear();
        self.sums.truncate(1);
    }

    /// Answers a call: how long the answer is, or the refusal.
    #[inline(never)]
    pub fn call(&mut self, call: &[u8], answer: &mut [u8]) -> i64 {
        match self.answered(call, answer) {
            Ok(length) => length as i64,
            Err(refusal) => refusal.signed(),
        }
    }

    fn answered(&mut self, call: &[u8], answer: &mut [u8]) -> Result<usize, Refusal> {
        let call = decoded(call)?;
        if answer.len() < 24 + 8 * self.limit {
            return Err(Refusal(3, 1));
        }
        match call {
            Call::Claim(cents) => {
                let place = self.claims.len();
                if place >= self.limit {
                    return Err(Refusal(5, 0));
                }
                self.claim(cents as u32);
                Ok(number(place as u64, answer))
            }
            Call::Prove(place, cents) => {
                let claim = usize::try_from(place)
                    .ok()
                    .and_then(|place| self.claims.get_mut(place));
                let old = std::mem::replace(claim.ok_or(Refusal(4, 0))?, cents as u32);
                self.moved(old, cents as u32);
                Ok(number(place, answer))
            }
            Call::Come(cents) => {
                let there = self.there + cents;
                if there > MOST_THERE {
                    return Err(Refusal(5, 0));
                }
                self.there = there;
                Ok(number(there, answer))
            }
            Call::Shares => Ok(self.shares(answer)),
            Call::Cents => Ok(self.cents(answer)),
        }
    }

    #[inline(never)]
    fn claim(&mut self, cents: u32) {
        let at = self.sorted.partition_point(|&claim| claim <= cents);
        self.claims.push(cents);
        self.sorted.insert(at, cents);
        let mut before = self.sums[at];
        self.sums.push(0);
        for sum in &mut self.sums[at + 1..] {
            before = std::mem::replace(sum, before + u64::from(cents));
        }
    }

    /// A claim of `old` is one of `new` from now on: keeps the order and the sums.
    #[inline(never)]
    fn moved(&mut self, old: u32, new: u32) {
        if old < new {
            let from = self.sorted.partition_point(|&claim| claim <= old) - 1;
            let to = self.sorted.partition_point(|&claim| claim < new) - 1;
            self.sorted.copy_within(from + 1..=to, from);
            self.sorted[to] = new;
            let mut after = self.sums[to + 1];
            for sum in self.sums[from + 1..=to].iter_mut().rev() {
                after = std::mem::replace(sum, after - u64::from(old));
            }
            for sum in &mut self.sums[to + 1..] {
                *sum += u64::from(new - old);
            }
        } else {
            let from = self.sorted.partition_point(|&claim| claim < old);
            let to = self.sorted.partition_point(|&claim| claim <= new).min(from);
            self.sorted.copy_within(to..from, to + 1);
            self.sorted[to] = new;
            let mut before = self.sums[to];
            for sum in &mut self.sums[to + 1..=from] {
                before = std::mem::replace(sum, before + u64::from(new));
            }
            for sum in &mut self.sums[from + 1..] {
                *sum -= u64::from(old - new);
            }
        }
    }

    /// The level where so much is there: what is spread, and among how many.
    #[inline(never)]
    pub fn level_of(&self, there: u64) -> (u64, u64) {
        let terms = self.terms(there);
        (terms.spread, terms.among)
    }

    #[inline]
    fn terms(&self, there: u64) -> Terms {
        let count = self.sorted.len();
        let sums = &self.sums[..count + 1];
        let all = sums[count];
        let divided = there.min(all);
        let target = 2 * divided.min(all - divided);
        // How many are filled before the others are level: the least k for which what all have, filled up to the next
        // claim, is not too little.
        let sorted = &self.sorted[..];
        let too_little = |k: usize| sums[k] + (count - k) as u64 * u64::from(sorted[k]) < target;
        let (mut k, mut rest) = (0, count);
        while rest > 1 {
            let half = rest / 2;
            k = std::hint::select_unpredictable(too_little(k + half), k + half, k);
            rest -= half;
        }
        k += usize::from(k < count && too_little(k));
        Terms {
            losses: divided > all - divided,
            spread: target - sums[k],
            among: (count - k) as u64,
            from: self.sorted.get(k).copied().unwrap_or(0),
        }
    }

    #[inline(never)]
    fn shares(&self, answer: &mut [u8]) -> usize {
        let Terms {
            losses,
            spread,
            among,
            from,
        } = self.terms(self.there);
        answer[0] = 2;
        answer[1..9].copy_from_slice(&(2 * among).max(1).to_le_bytes());
        answer[9..17].copy_from_slice(&(self.claims.len() as u64).to_le_bytes());
        let among = among as u32;
        let rows = &mut answer[17..];
        let all_of = |claim: u32| u64::from(claim) * u64::from(among);
        if losses {
            list(&self.claims, rows, |c| {
                2 * all_of(c) - if c < from { all_of(c) } else { spread }
            });
        } else {
            list(&self.claims, rows, |c| {
                if c < from { all_of(c) } else { spread }
            });
        }
        17 + 8 * self.claims.len()
    }

    #[inline(never)]
    fn cents(&self, answer: &mut [u8]) -> usize {
        let Terms {
            losses,
            spread,
            among,
            from,
        } = self.terms(self.there);
        let count = self.claims.len();
        answer[0] = 3;
        answer[1..9].copy_from_slice(&(count as u64).to_le_bytes());
        if count == 0 {
            return 9;
        }
        // Who claims less than `from` has half of its claim, and lacks half a cent where that is odd. All others have a
        // whole amount, or their claims but a whole amount, and lack the same part of a cent.
        let parts = 2 * among;
        let (level, lack) = if losses {
            let level = spread.div_ceil(parts);
            (level as u32, level * parts - spread)
        } else {
            ((spread / parts) as u32, spread % parts)
        };
        let halves: u32 = self.sorted[..count - among as usize]
            .iter()
            .map(|claim| claim & 1)
            .sum();
        let left = (lack as u32 + halves) / 2;
        // Up to a place one cent goes to all of a kind, and behind it to none of it: the kinds, and what they have before
        // the place and behind it.
        let is_half = |c: u32| c < from && c & 1 == 1;
        let is_level = |c: u32| c >= from;
        let (place, before, behind) = match lack.cmp(&among) {
            std::cmp::Ordering::Equal => (
                self.place(left, |c| is_half(c) || is_level(c)),
                (1, 1),
                (0, 0),
            ),
            std::cmp::Ordering::Less if left <= halves => {
                (self.place(left, is_half), (1, 0), (0, 0))
            }
            std::cmp::Ordering::Less => (self.place(left - halves, is_level), (1, 1), (1, 0)),
            std::cmp::Ordering::Greater if left <= among as u32 => {
                (self.place(left, is_level), (0, 1), (0, 0))
            }
            std::cmp::Ordering::Greater => {
                (self.place(left - among as u32, is_half), (1, 1), (0, 1))
            }
        };
        let (first, last) = self.claims.split_at(place);
        let (first_rows, last_rows) = answer[9..].split_at_mut(8 * place);
        for (claims, rows, (half, more)) in [(first, first_rows, before), (last, last_rows, behind)]
        {
            if losses {
                let less = level - more;
                list(claims, rows, |c| {
                    u64::from(if c < from {
                        (c + half) >> 1
                    } else {
                        c.wrapping_sub(less)
                    })
                });
            } else {
                let level = level + more;
                list(claims, rows, |c| {
                    u64::from(if c < from { (c + half) >> 1 } else { level })
                });
            }
        }
        9 + 8 * count
    }

    /// How many claims from the first on have so many of a kind.
    #[inline]
    fn place(&self, mut left: u32, kind: impl Fn(u32) -> bool) -> usize {
        const BLOCK: usize = 64;
        let mut place = 0;
        for block in self.claims.chunks(BLOCK) {
            let some: u32 = block.iter().map(|&claim| u32::from(kind(claim))).sum();
            if some >= left {
                break;
            }
            left -= some;
            place += block.len();
        }
        for &claim in &self.claims[place..] {
            if left == 0 {
                break;
            }
            left -= u32::from(kind(claim));
            place += 1;
        }
        place
    }
}

/// Writes a number for each claim.
#[inline]
fn list(claims: &[u32], rows: &mut [u8], of: impl Fn(u32) -> u64) {
    for (row, &claim) in rows.as_chunks_mut().0.iter_mut().zip(claims) {
        *row = of(claim).to_le_bytes();
    }
}
