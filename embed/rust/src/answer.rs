//! What a call answers.

use core::fmt;

/// An answer and its values.
#[derive(Clone, Copy, Debug, PartialEq, Eq)]
pub enum Answer {
    /// 0: the step finished, or its condition failed.
    Done,
    /// 1: SWI; r15 is at the next instruction.
    Supervisor {
        /// The 24 bits of the instruction.
        number: u32,
    },
    /// 2: undefined instruction.
    Undefined {
        /// Where it stands.
        address: u32,
        /// The instruction.
        opcode: u32,
    },
    /// 3: BKPT.
    Breakpoint {
        /// Where it stands.
        address: u32,
        /// The 16 bits of the instruction.
        number: u32,
    },
    /// 4: VFP or CP15 instruction.
    Coprocessor {
        /// The instruction.
        opcode: u32,
    },
    /// 5: T is set, and the core has no Thumb state.
    Thumb,
    /// 6: r15 is no multiple of 4, or its word is not inside memory.
    Fetch {
        /// That of r15.
        address: u32,
    },
    /// 7: an access has a byte outside memory.
    Bus {
        /// That of the first such access.
        address: u32,
    },
    /// 8: one of the seven GE numbers exceeds 15.
    BadState,
    /// 9: memory of more than 65,536 bytes.
    MemoryTooLong,
    /// 10: the budget of a run is used up.
    Timeout,
    /// 11: a transfer form that the core lacks; no opcode reaches it.
    TransferForm {
        /// The instruction.
        opcode: u32,
    },
    /// An answer that this crate does not know: the archive linked is another one.
    Unlisted {
        /// Its number.
        number: u32,
    },
}

impl Answer {
    pub(crate) fn from_words(number: u32, first: u32, second: u32) -> Answer {
        match number {
            0 => Answer::Done,
            1 => Answer::Supervisor { number: first },
            2 => Answer::Undefined {
                address: first,
                opcode: second,
            },
            3 => Answer::Breakpoint {
                address: first,
                number: second,
            },
            4 => Answer::Coprocessor { opcode: first },
            5 => Answer::Thumb,
            6 => Answer::Fetch { address: first },
            7 => Answer::Bus { address: first },
            8 => Answer::BadState,
            9 => Answer::MemoryTooLong,
            10 => Answer::Timeout,
            11 => Answer::TransferForm { opcode: first },
            number => Answer::Unlisted { number },
        }
    }

    /// The number of the answer.
    pub fn number(self) -> u32 {
        match self {
            Answer::Done => 0,
            Answer::Supervisor { .. } => 1,
            Answer::Undefined { .. } => 2,
            Answer::Breakpoint { .. } => 3,
            Answer::Coprocessor { .. } => 4,
            Answer::Thumb => 5,
            Answer::Fetch { .. } => 6,
            Answer::Bus { .. } => 7,
            Answer::BadState => 8,
            Answer::MemoryTooLong => 9,
            Answer::Timeout => 10,
            Answer::TransferForm { .. } => 11,
            Answer::Unlisted { number } => number,
        }
    }

    /// Whether a step with this answer has changed the machine: 0 and 1 alone.
    pub fn changes(self) -> bool {
        matches!(self, Answer::Done | Answer::Supervisor { .. })
    }
}

impl fmt::Display for Answer {
    fn fmt(&self, f: &mut fmt::Formatter<'_>) -> fmt::Result {
        match *self {
            Answer::Done => write!(f, "done"),
            Answer::Supervisor { number } => write!(f, "Supervisor call {number}"),
            Answer::Undefined { address, opcode } => {
                write!(f, "undefined instruction {opcode:08X} at {address:08X}")
            }
            Answer::Breakpoint { address, number } => {
                write!(f, "breakpoint {number} at {address:08X}")
            }
            Answer::Coprocessor { opcode } => write!(f, "coprocessor instruction {opcode:08X}"),
            Answer::Thumb => write!(f, "Thumb state"),
            Answer::Fetch { address } => write!(f, "no instruction to fetch at {address:08X}"),
            Answer::Bus { address } => write!(f, "access outside memory at {address:08X}"),
            Answer::BadState => write!(f, "bad state"),
            Answer::MemoryTooLong => write!(f, "memory too long"),
            Answer::Timeout => write!(f, "budget used up"),
            Answer::TransferForm { opcode } => write!(f, "transfer form {opcode:08X}"),
            Answer::Unlisted { .. } => write!(f, "no answer"),
        }
    }
}

/// What a run comes to.
#[derive(Clone, Copy, Debug, PartialEq, Eq)]
pub struct Finished {
    /// The first answer other than 0.
    pub answer: Answer,
    /// The steps that answered 0 or 1.
    pub count: u32,
}
