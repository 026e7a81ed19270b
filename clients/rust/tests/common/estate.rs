//! An estate, what a call does to it, and what a desk leaves of it in memory: written after the list of calls and refusals.

pub const MOST_CREDITORS: u64 = 1024;
pub const MOST_CENTS: u64 = 1_000_000_000;
pub const MOST_THERE: u64 = 1_000_000_000_000;

/// How many words stand before the claims.
pub const HEAD: usize = 64;

/// How many words a desk for so many creditors has.
pub fn words_for(limit: usize) -> usize {
    HEAD + 3 * limit
}

/// How many bytes its answers may have.
pub fn bytes_for(limit: usize) -> usize {
    24 + 8 * limit
}

/// What a call is to be answered by.
#[derive(Clone, Copy, Debug, PartialEq, Eq)]
pub enum Reply {
    Number(u64),
    Shares,
    Cents,
    Refused(u32, u32),
}

pub const NOT_LENT: Reply = Reply::Refused(3, 1);
pub const NOT_THERE: Reply = Reply::Refused(4, 0);
pub const NO_ROOM: Reply = Reply::Refused(5, 0);

impl Reply {
    /// The number that says a refusal.
    pub fn refusal(self) -> Option<i64> {
        match self {
            Reply::Refused(why, place) => Some(-((i64::from(why) << 32) + i64::from(place))),
            _ => None,
        }
    }
}

/// A call that can be read, and may be answered by some desk.
#[derive(Clone, Copy, Debug, PartialEq, Eq)]
pub enum Asked {
    Claim(u64),
    Prove(u64, u64),
    Come(u64),
    Shares,
    Cents,
}

/// The number that begins at a byte.
fn number_at(bytes: &[u8], at: usize) -> u64 {
    let row = bytes[at..at + 8].try_into();
    u64::from_le_bytes(row.expect("there are eight bytes"))
}

/// What the bytes of a call ask, or how it is refused on every desk.
pub fn read(bytes: &[u8]) -> Result<Asked, Reply> {
    let whole = match bytes.first() {
        Some(0 | 2) => 9,
        Some(1) => 17,
        Some(3 | 4) => 1,
        _ => return Err(Reply::Refused(1, 0)),
    };
    if bytes.len() != whole {
        return Err(Reply::Refused(1, bytes.len().min(whole) as u32));
    }
    match bytes[0] {
        0 => few(number_at(bytes, 1), 0).map(Asked::Claim),
        1 => few(number_at(bytes, 9), 1).map(|cents| Asked::Prove(number_at(bytes, 1), cents)),
        2 => few(number_at(bytes, 1), 0).map(Asked::Come),
        3 => Ok(Asked::Shares),
        _ => Ok(Asked::Cents),
    }
}

/// So many cents, or that they are too many, at a place.
fn few(cents: u64, place: u32) -> Result<u64, Reply> {
    if cents > MOST_CENTS {
        Err(Reply::Refused(2, place))
    } else {
        Ok(cents)
    }
}

/// An estate, and for how many creditors its desk is.
#[derive(Clone, Debug, PartialEq, Eq)]
pub struct Estate {
    pub limit: usize,
    pub there: u64,
    pub claims: Vec<u64>,
}

impl Estate {
    pub fn new(limit: usize) -> Estate {
        let claims = Vec::new();
        Estate {
            limit,
            there: 0,
            claims,
        }
    }

    /// Does what is asked, and says how it is answered. What is refused changes nothing.
    pub fn reply(&mut self, asked: Asked) -> Reply {
        match asked {
            Asked::Claim(cents) => self.claim(cents),
            Asked::Prove(place, cents) => self.prove(place, cents),
            Asked::Come(cents) => self.come(cents),
            Asked::Shares => Reply::Shares,
            Asked::Cents => Reply::Cents,
        }
    }

    fn claim(&mut self, cents: u64) -> Reply {
        if self.claims.len() >= self.limit {
            return NO_ROOM;
        }
        self.claims.push(cents);
        Reply::Number(self.claims.len() as u64 - 1)
    }

    fn prove(&mut self, place: u64, cents: u64) -> Reply {
        if place >= self.claims.len() as u64 {
            return NOT_THERE;
        }
        self.claims[place as usize] = cents;
        Reply::Number(place)
    }

    fn come(&mut self, cents: u64) -> Reply {
        if self.there + cents > MOST_THERE {
            return NO_ROOM;
        }
        self.there += cents;
        Reply::Number(self.there)
    }

    /// The words that a desk leaves of it.
    pub fn words(&self) -> Vec<u64> {
        let mut ordered = self.claims.clone();
        ordered.sort();
        let parts = [&self.claims, &ordered, &sums(&ordered)];
        let mut words = vec![0; words_for(self.limit)];
        words[..3].copy_from_slice(&[self.limit as u64, self.there, self.claims.len() as u64]);
        for (place, part) in parts.into_iter().enumerate() {
            let from = HEAD + place * self.limit;
            words[from..from + part.len()].copy_from_slice(part);
        }
        words
    }

    /// What words tell of an estate: nothing, where no desk can be in them.
    pub fn told(words: &[u64]) -> Option<Estate> {
        let &[limit, there, count, ..] = words else {
            return None;
        };
        let may_be = limit <= MOST_CREDITORS && there <= MOST_THERE && count <= limit;
        if !may_be || words.len() < words_for(limit as usize) {
            return None;
        }
        let claims = words[HEAD..HEAD + count as usize].to_vec();
        Some(Estate {
            limit: limit as usize,
            there,
            claims,
        })
    }
}

/// The sums over claims in order: at each place those up to it.
fn sums(ordered: &[u64]) -> Vec<u64> {
    let sum = |place: usize| ordered[..=place].iter().sum();
    (0..ordered.len()).map(sum).collect()
}
