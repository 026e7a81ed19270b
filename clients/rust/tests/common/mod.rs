//! What the tests share. None of it has anything from the library, or from how that finds a division.

// Each test is a crate of its own, and uses a part of it.
#![allow(dead_code)]

pub mod asking;
pub mod estate;
pub mod garbage;
pub mod judging;
pub mod lent;
pub mod random;
pub mod room;
pub mod rule;
pub mod work;
