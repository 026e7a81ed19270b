//! Why a call is turned away, and where.

use std::error::Error;
use std::fmt;

/// Why a call is turned away. The first that applies is told.
#[derive(Clone, Copy, Debug, PartialEq, Eq, Hash)]
pub enum Refusal {
    /// A call that cannot be read, at the first byte that does not fit.
    Unreadable = 1,
    /// A claim, or cents that come, above the most that there may be at once.
    TooLarge = 2,
    /// More creditors than a desk may have, or less memory than is asked for.
    NotLent = 3,
    /// A claim that is not there.
    NotThere = 4,
    /// More creditors than the desk was opened for, or more cents there than there may be.
    NoRoom = 5,
}

impl Refusal {
    /// The refusal that a number stands for.
    pub fn numbered(number: u32) -> Option<Refusal> {
        match number {
            1 => Some(Refusal::Unreadable),
            2 => Some(Refusal::TooLarge),
            3 => Some(Refusal::NotLent),
            4 => Some(Refusal::NotThere),
            5 => Some(Refusal::NoRoom),
            _ => None,
        }
    }
}

/// A call is turned away: why, and at which place. It has changed nothing.
#[derive(Clone, Copy, Debug, PartialEq, Eq, Hash)]
pub struct Refused {
    /// Why it is.
    pub why: Refusal,
    /// At which byte of the call, or at which of its numbers.
    pub place: u32,
}

impl fmt::Display for Refused {
    fn fmt(&self, f: &mut fmt::Formatter<'_>) -> fmt::Result {
        write!(f, "refused {} at {}", self.why as u32, self.place)
    }
}

impl Error for Refused {}

/// What a number that the library answered says: a length, or below 0 a refusal and its place.
///
/// # Panics
///
/// If the library never answers such a number.
pub fn length(answered: i64) -> Result<usize, Refused> {
    if answered >= 0 {
        return Ok(usize::try_from(answered).expect("a length fits"));
    }
    let told = answered.unsigned_abs();
    let why = Refusal::numbered((told >> 32) as u32).expect("the library refuses by 1 to 5");
    Err(Refused {
        why,
        place: told as u32,
    })
}
