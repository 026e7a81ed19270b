//! What is lent to the library with each call.

use super::estate::{bytes_for, words_for};
use super::random::Random;
use super::room::Room;
use std::ptr;
use vullades::ffi;

/// Memory, a call and bytes for an answer, in a room each.
pub struct Lent {
    pub memory: Room,
    pub call: Room,
    pub answer: Room,
}

impl Lent {
    /// Rooms for desks of so many creditors.
    pub fn new(most: usize, random: &mut Random) -> Lent {
        let memory = Room::new(8 * words_for(most) + 512, random);
        let answer = Room::new(bytes_for(most) + 64, random);
        let call = Room::new(64, random);
        Lent {
            memory,
            call,
            answer,
        }
    }

    /// Opens a desk in memory, of which nothing else is written.
    pub fn open(&mut self, limit: usize) -> i64 {
        self.memory.keep();
        let words = self.memory.len() / 8;
        let memory = if words == 0 {
            ptr::null_mut()
        } else {
            self.memory.at()
        };
        // SAFETY: the room lends so many words, on an address of words.
        let answered = unsafe { ffi::vullades_open(memory.cast(), words, limit) };
        let written = if answered < 0 {
            0
        } else {
            8 * words_for(limit)
        };
        assert!(
            self.memory.is_kept_but(written),
            "words outside were written"
        );
        answered
    }

    /// Sends the call, with so many of the words, and keeps what all rooms hold. What has no bytes may be sent as no pointer.
    pub fn send(&mut self, words: usize, null: bool) -> i64 {
        for room in [&mut self.memory, &mut self.call, &mut self.answer] {
            room.keep();
        }
        let [length, bytes] = [&self.call, &self.answer].map(Room::len);
        let at = |room: &Room, length| {
            if null && length == 0 {
                ptr::null_mut()
            } else {
                room.at()
            }
        };
        let [memory, call] = [at(&self.memory, words), at(&self.call, length)];
        let answer = at(&self.answer, bytes);
        // SAFETY: the rooms are three, and lend as much, words on an address of words.
        unsafe { ffi::vullades_call(memory.cast(), words, call, length, answer, bytes) }
    }

    /// Whether each of the three has a guard close to it.
    pub fn is_guarded(&self) -> bool {
        [&self.memory, &self.call, &self.answer]
            .into_iter()
            .all(Room::is_guarded)
    }
}
