//! What the public calls reply, in the terms that both sides are compared in.

use crate::state::State;
use std::fmt;

/// The carry is a whole word, so that no stray bit of the reply is lost.
#[derive(Clone, Copy, Debug, PartialEq, Eq)]
pub struct Shifted {
    pub value: u32,
    pub carry: u32,
}

#[derive(Clone, Copy, Debug, PartialEq, Eq)]
pub struct Packed {
    pub answer: u32,
    pub word: u32,
}

#[derive(Clone, Copy, Debug, PartialEq, Eq)]
pub struct Unpacked {
    pub word: u32,
    pub ge: u32,
}

impl fmt::Display for Shifted {
    fn fmt(&self, f: &mut fmt::Formatter) -> fmt::Result {
        write!(f, "value {:08X} carry {:X}", self.value, self.carry)
    }
}

impl fmt::Display for Packed {
    fn fmt(&self, f: &mut fmt::Formatter) -> fmt::Result {
        write!(f, "answer {:X} word {:08X}", self.answer, self.word)
    }
}

impl fmt::Display for Unpacked {
    fn fmt(&self, f: &mut fmt::Formatter) -> fmt::Result {
        write!(f, "word {:08X} ge {:X}", self.word, self.ge)
    }
}

/// Document 01's number of an answer, and its values.
#[derive(Clone, Copy, Debug, PartialEq, Eq)]
pub struct Answer {
    pub number: u32,
    pub first: u32,
    pub second: u32,
}

impl Answer {
    pub const fn new(number: u32, first: u32, second: u32) -> Answer {
        Answer {
            number,
            first,
            second,
        }
    }

    /// Answers 0 and 1 leave a new state, every other one the old.
    pub fn finished(self) -> bool {
        self.number <= 1
    }
}

impl fmt::Display for Answer {
    fn fmt(&self, f: &mut fmt::Formatter) -> fmt::Result {
        write!(f, "{} {:08X} {:08X}", self.number, self.first, self.second)
    }
}

/// All that a call on a lent state and memory leaves behind.
#[derive(Clone, Debug, PartialEq, Eq)]
pub struct Left {
    /// 1, or 0 where a slice has the wrong length.
    pub returned: u32,
    pub answer: Answer,
    /// How many steps finished; 0 where a call has no such number.
    pub count: u32,
    pub state: State,
    pub memory: Vec<u8>,
    /// Whether a byte beside the lent ones was written.
    pub spilt: bool,
}
