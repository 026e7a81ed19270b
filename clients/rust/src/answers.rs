//! What a desk says.

/// An answer to a call that was not turned away.
#[derive(Clone, Debug, PartialEq, Eq, Hash)]
pub enum Answer {
    /// A place, or how many cents are there.
    Number(u64),
    /// What each creditor has, in parts of a cent.
    Parts {
        /// How many parts a cent has.
        per_cent: u64,
        /// How many of them each creditor has, in the order in which claims came.
        shares: Vec<u64>,
    },
    /// How many cents each creditor has, in the order in which claims came.
    Amounts(Vec<u64>),
}

impl Answer {
    /// The answer that these bytes are, if they are one.
    pub fn read(bytes: &[u8]) -> Option<Answer> {
        let (kind, rest) = bytes.split_first()?;
        let (rows, []) = rest.as_chunks() else {
            return None;
        };
        let numbers: Vec<u64> = rows.iter().map(|row| u64::from_le_bytes(*row)).collect();
        match (kind, numbers.as_slice()) {
            (1, &[number]) => Some(Answer::Number(number)),
            (2, &[per_cent, count, ref shares @ ..]) if count == shares.len() as u64 => {
                let shares = shares.to_vec();
                Some(Answer::Parts { per_cent, shares })
            }
            (3, &[count, ref cents @ ..]) if count == cents.len() as u64 => {
                Some(Answer::Amounts(cents.to_vec()))
            }
            _ => None,
        }
    }
}
