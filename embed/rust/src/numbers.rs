//! The calls on numbers: packing, unpacking, the two shifts.

use crate::raw;

/// The type of a shift, by its number in an opcode.
#[derive(Clone, Copy, Debug, PartialEq, Eq)]
pub enum Shift {
    /// To the left.
    Lsl = 0,
    /// To the right, zeros following.
    Lsr = 1,
    /// To the right, the sign following.
    Asr = 2,
    /// Around, to the right.
    Ror = 3,
}

/// A shifter operand.
#[derive(Clone, Copy, Debug, PartialEq, Eq)]
pub struct Shifted {
    /// The value shifted.
    pub value: u32,
    /// The shifter's carry out.
    pub carry: bool,
}

/// A status word as the core keeps it.
#[derive(Clone, Copy, Debug, PartialEq, Eq)]
pub struct Unpacked {
    /// The word without the bits that have no field; an unknown mode has become User.
    pub word: u32,
    /// Its GE.
    pub ge: u32,
}

fn low(both: u64) -> u32 {
    both as u32
}

fn high(both: u64) -> u32 {
    (both >> 32) as u32
}

fn shifted(both: u64) -> Shifted {
    Shifted {
        value: low(both),
        carry: high(both) != 0,
    }
}

/// The status word with its GE replaced; none where `ge` exceeds 15 (answer 8).
pub fn pack(word: u32, ge: u32) -> Option<u32> {
    let both = raw::pack(word, ge);
    (high(both) == 0).then_some(low(both))
}

/// The status word as the core keeps it, and its GE.
pub fn unpack(word: u32) -> Unpacked {
    let both = raw::unpack(word);
    Unpacked {
        word: low(both),
        ge: high(both),
    }
}

/// The operand shifted by an immediate, of which the low five bits count.
pub fn shift_by_immediate(kind: Shift, value: u32, amount: u32, carry: bool) -> Shifted {
    shifted(raw::shift_immediate(kind as u32, value, amount, carry))
}

/// The operand shifted by a register, of which the low eight bits count.
pub fn shift_by_register(kind: Shift, value: u32, amount: u32, carry: bool) -> Shifted {
    shifted(raw::shift_register(kind as u32, value, amount, carry))
}
