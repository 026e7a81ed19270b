//! Calls and answers as bytes, and the refusals: what both rivals do alike.

pub const MOST_CREDITORS: usize = 1024;
pub const MOST_CENTS: u64 = 1_000_000_000;
pub const MOST_THERE: u64 = 1_000_000_000_000;

/// Why a call is turned away: the number of the refusal, and a place.
pub struct Refusal(pub u32, pub usize);

impl Refusal {
    pub fn signed(self) -> i64 {
        let place = u32::try_from(self.1).unwrap_or(u32::MAX);
        -(i64::from(self.0) << 32 | i64::from(place))
    }
}

/// A call; its cents are at most `MOST_CENTS`.
pub enum Call {
    Claim(u64),
    Prove(u64, u64),
    Come(u64),
    Shares,
    Cents,
}

#[inline]
pub fn decoded(call: &[u8]) -> Result<Call, Refusal> {
    let Some((&kind, rest)) = call.split_first() else {
        return Err(Refusal(1, 0));
    };
    match kind {
        0 => Ok(Call::Claim(cents(last(rest, 1)?, 0)?)),
        1 => {
            let (place, rest) = rest.split_first_chunk().ok_or(Refusal(1, call.len()))?;
            let new = last(rest, 9)?;
            Ok(Call::Prove(u64::from_le_bytes(*place), cents(new, 1)?))
        }
        2 => Ok(Call::Come(cents(last(rest, 1)?, 0)?)),
        3 | 4 if !rest.is_empty() => Err(Refusal(1, 1)),
        3 => Ok(Call::Shares),
        4 => Ok(Call::Cents),
        _ => Err(Refusal(1, 0)),
    }
}

/// The last number of a call, which begins at a place.
fn last(rest: &[u8], start: usize) -> Result<u64, Refusal> {
    match rest.try_into() {
        Ok(bytes) => Ok(u64::from_le_bytes(bytes)),
        Err(_) => Err(Refusal(1, start + rest.len().min(8))),
    }
}

fn cents(number: u64, place: usize) -> Result<u64, Refusal> {
    if number > MOST_CENTS {
        Err(Refusal(2, place))
    } else {
        Ok(number)
    }
}

/// Answers a number: how long the answer is.
#[inline]
pub fn number(number: u64, answer: &mut [u8]) -> usize {
    answer[0] = 1;
    answer[1..9].copy_from_slice(&number.to_le_bytes());
    9
}
