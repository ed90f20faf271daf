//! A safe host side for the proved ARM core: a [`Machine`], its [`Answer`]s, and the calls on numbers.
//!
//! Memory is a plain `&mut [u8]`, lent for one call. No function here panics, whatever it is given.

#![no_std]
#![deny(missing_docs, unsafe_code)]

mod answer;
mod machine;
mod numbers;
#[allow(unsafe_code)]
pub mod raw;

pub use answer::{Answer, Finished};
pub use machine::{Bank, Machine, Record};
pub use numbers::{pack, shift_by_immediate, shift_by_register, unpack, Shift, Shifted, Unpacked};

/// Bytes of a machine.
pub const STATE_SIZE: usize = 216;
/// Bytes of a step's answer: its number, first value and second value.
pub const ANSWER_SIZE: usize = 12;
/// Bytes of a run's answer: the same, and its count.
pub const RUN_ANSWER_SIZE: usize = 16;
/// Bytes of memory that a call takes at most; with more it answers [`Answer::MemoryTooLong`].
pub const MEMORY_LIMIT: usize = 65_536;
