//! What a desk is asked.

/// A call at a desk.
#[derive(Clone, Copy, Debug, PartialEq, Eq, Hash)]
pub enum Call {
    /// A claim of so many cents, the last. Its place is answered.
    Claim(u64),
    /// The claim at this place, from 0, is so many cents from now on. The place is answered.
    Prove(u64, u64),
    /// So many cents more are there. How many there are is answered.
    Come(u64),
    /// What each creditor has, in parts of a cent.
    Shares,
    /// What each creditor has, in whole cents.
    Cents,
}

impl Call {
    /// The bytes of the call: its kind, and its numbers with the low byte first.
    pub fn bytes(&self) -> Vec<u8> {
        match *self {
            Call::Claim(cents) => row(0, &[cents]),
            Call::Prove(place, cents) => row(1, &[place, cents]),
            Call::Come(cents) => row(2, &[cents]),
            Call::Shares => row(3, &[]),
            Call::Cents => row(4, &[]),
        }
    }
}

/// A kind, and numbers behind it.
fn row(kind: u8, numbers: &[u64]) -> Vec<u8> {
    let mut bytes = Vec::with_capacity(1 + 8 * numbers.len());
    bytes.push(kind);
    bytes.extend(numbers.iter().flat_map(|number| number.to_le_bytes()));
    bytes
}
