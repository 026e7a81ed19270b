//! A desk that owns its memory.

use crate::{Answer, Call, Refused, length, raw};

/// An estate, which answers calls.
#[derive(Clone, Debug)]
pub struct Desk {
    memory: Vec<u64>,
    answer: Vec<u8>,
}

impl Desk {
    /// A desk for so many creditors: there are no claims, and nothing is there.
    pub fn open(limit: usize) -> Result<Desk, Refused> {
        let mut memory = vec![0; length(raw::words(limit))?];
        let answer = vec![0; length(raw::bytes(limit))?];
        length(raw::open(&mut memory, limit))?;
        Ok(Desk { memory, answer })
    }

    /// Does what is asked for, and answers it. What is refused changes nothing.
    pub fn call(&mut self, call: &Call) -> Result<Answer, Refused> {
        let answered = raw::call(&mut self.memory, &call.bytes(), &mut self.answer);
        let bytes = &self.answer[..length(answered)?];
        Ok(Answer::read(bytes).expect("the library writes whole answers"))
    }
}
