//! Divides estates that leave less than is owed, exactly, by the proved library of Vullades.
//!
//! An estate of 100 cents is divided among three who claim 100, 200 and 300. Each has 33 cents and a third: 200 parts, of
//! which a cent has 6. In whole cents the first has one more than the others.
//!
//! ```
//! use vullades::{Answer, Call, Desk, Refusal, Refused};
//!
//! let mut desk = Desk::open(3)?;
//! for claim in [100, 200, 300] {
//!     desk.call(&Call::Claim(claim))?;
//! }
//! assert_eq!(desk.call(&Call::Come(100)), Ok(Answer::Number(100)));
//!
//! let shares = vec![200, 200, 200];
//! assert_eq!(desk.call(&Call::Shares), Ok(Answer::Parts { per_cent: 6, shares }));
//! assert_eq!(desk.call(&Call::Cents), Ok(Answer::Amounts(vec![34, 33, 33])));
//!
//! let full = Refused { why: Refusal::NoRoom, place: 0 };
//! assert_eq!(desk.call(&Call::Claim(1)), Err(full));
//! # Ok::<(), Refused>(())
//! ```

mod answers;
mod calls;
mod desk;
pub mod ffi;
pub mod raw;
mod refusals;

pub use answers::Answer;
pub use calls::Call;
pub use desk::Desk;
pub use refusals::{Refusal, Refused, length};
