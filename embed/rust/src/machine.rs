//! A machine, kept as the bytes that the core is lent.

use crate::answer::{Answer, Finished};
use crate::{raw, ANSWER_SIZE, RUN_ANSWER_SIZE, STATE_SIZE};

/// One of the seven status records.
#[derive(Clone, Copy, Debug, PartialEq, Eq)]
pub enum Record {
    /// The current one.
    Current,
    /// The saved one of the current mode.
    Saved,
    /// The saved one of FIQ.
    Fiq,
    /// The saved one of IRQ.
    Irq,
    /// The saved one of Supervisor.
    Supervisor,
    /// The saved one of Abort.
    Abort,
    /// The saved one of Undefined.
    Undefined,
}

impl Record {
    /// All seven, in the order of their words.
    pub const ALL: [Record; 7] = [
        Record::Current,
        Record::Saved,
        Record::Fiq,
        Record::Irq,
        Record::Supervisor,
        Record::Abort,
        Record::Undefined,
    ];
}

/// One of the six banks of r13 and r14.
#[derive(Clone, Copy, Debug, PartialEq, Eq)]
pub enum Bank {
    /// FIQ.
    Fiq,
    /// IRQ.
    Irq,
    /// Supervisor.
    Supervisor,
    /// Abort.
    Abort,
    /// Undefined.
    Undefined,
    /// User and System.
    User,
}

// The first word of each part of a state.
const STATUS: usize = 16;
const GE: usize = 23;
const BANKED: usize = 30;
const FIQ: usize = 42;
const OTHER: usize = 47;
const TAGGED: usize = 52;
const TAG: usize = 53;

const REGISTERS: usize = 16;
const SYSTEM: u32 = 0x1F;

/// What an answer holds before a call: the number of no answer.
const UNWRITTEN: u8 = 0xFF;

fn word(bytes: &[u8], i: usize) -> u32 {
    let four = bytes
        .chunks_exact(4)
        .nth(i)
        .and_then(|four| four.try_into().ok());
    four.map_or(0, u32::from_le_bytes)
}

/// The machine: registers, status records, banks and exclusive tag, as 216 bytes.
#[derive(Clone, Debug, PartialEq, Eq)]
pub struct Machine {
    bytes: [u8; STATE_SIZE],
}

impl Default for Machine {
    fn default() -> Machine {
        Machine::new()
    }
}

impl From<[u8; STATE_SIZE]> for Machine {
    fn from(bytes: [u8; STATE_SIZE]) -> Machine {
        Machine { bytes }
    }
}

impl Machine {
    /// A fresh machine: all seven records in System mode, all else 0.
    pub fn new() -> Machine {
        let mut machine = Machine {
            bytes: [0; STATE_SIZE],
        };
        for record in Record::ALL {
            machine.set_status(record, SYSTEM);
        }
        machine
    }

    /// The machine of these bytes; none where they are not 216.
    pub fn from_bytes(bytes: &[u8]) -> Option<Machine> {
        bytes.try_into().ok().map(|bytes| Machine { bytes })
    }

    /// Its bytes.
    pub fn as_bytes(&self) -> &[u8; STATE_SIZE] {
        &self.bytes
    }

    fn word(&self, i: usize) -> u32 {
        word(&self.bytes, i)
    }

    fn set_word(&mut self, i: usize, value: u32) {
        if let Some(four) = self.bytes.chunks_exact_mut(4).nth(i) {
            four.copy_from_slice(&value.to_le_bytes());
        }
    }

    fn words<const N: usize>(&self, first: usize) -> [u32; N] {
        core::array::from_fn(|i| self.word(first + i))
    }

    fn set_words<const N: usize>(&mut self, first: usize, values: [u32; N]) {
        for (i, value) in values.into_iter().enumerate() {
            self.set_word(first + i, value);
        }
    }

    /// Register `r`, 0 to 15, as the current mode sees it; there is no other.
    pub fn register(&self, r: usize) -> Option<u32> {
        (r < REGISTERS).then(|| self.word(r))
    }

    /// Sets register `r`; false, and nothing is set, where there is no such register.
    pub fn set_register(&mut self, r: usize, value: u32) -> bool {
        let there = r < REGISTERS;
        if there {
            self.set_word(r, value);
        }
        there
    }

    /// r0 to r15.
    pub fn registers(&self) -> [u32; REGISTERS] {
        self.words(0)
    }

    /// Sets r0 to r15.
    pub fn set_registers(&mut self, values: [u32; REGISTERS]) {
        self.set_words(0, values);
    }

    /// r15: the address of the next instruction.
    pub fn pc(&self) -> u32 {
        self.word(15)
    }

    /// Sets r15.
    pub fn set_pc(&mut self, address: u32) {
        self.set_word(15, address);
    }

    /// The word of a status record.
    pub fn status(&self, record: Record) -> u32 {
        self.word(STATUS + record as usize)
    }

    /// Sets the word of a status record, and its GE number from bits 19 to 16: a call reads GE there alone.
    pub fn set_status(&mut self, record: Record, word: u32) {
        self.set_word(STATUS + record as usize, word);
        self.set_ge(record, word >> 16 & 15);
    }

    /// The GE number of a status record.
    pub fn ge(&self, record: Record) -> u32 {
        self.word(GE + record as usize)
    }

    /// Sets the GE number of a status record; above 15 each call answers [`Answer::BadState`].
    pub fn set_ge(&mut self, record: Record, ge: u32) {
        self.set_word(GE + record as usize, ge);
    }

    /// r13 and r14 of a bank; that of the current mode is stale until the mode is left.
    pub fn banked(&self, bank: Bank) -> [u32; 2] {
        self.words(BANKED + 2 * bank as usize)
    }

    /// Sets r13 and r14 of a bank.
    pub fn set_banked(&mut self, bank: Bank, values: [u32; 2]) {
        self.set_words(BANKED + 2 * bank as usize, values);
    }

    /// r8 to r12 kept for FIQ.
    pub fn fiq(&self) -> [u32; 5] {
        self.words(FIQ)
    }

    /// Sets r8 to r12 kept for FIQ.
    pub fn set_fiq(&mut self, values: [u32; 5]) {
        self.set_words(FIQ, values);
    }

    /// r8 to r12 kept for the other modes while FIQ has its own.
    pub fn other(&self) -> [u32; 5] {
        self.words(OTHER)
    }

    /// Sets r8 to r12 kept for the other modes.
    pub fn set_other(&mut self, values: [u32; 5]) {
        self.set_words(OTHER, values);
    }

    /// The address of the exclusive tag, where there is one.
    pub fn tag(&self) -> Option<u32> {
        (self.word(TAGGED) != 0).then(|| self.word(TAG))
    }

    /// Sets or clears the exclusive tag.
    pub fn set_tag(&mut self, tag: Option<u32>) {
        self.set_word(TAGGED, tag.is_some().into());
        self.set_word(TAG, tag.unwrap_or(0));
    }

    /// One step. Machine and memory change after answers 0 and 1 alone.
    pub fn step(&mut self, memory: &mut [u8]) -> Answer {
        let mut answer = [UNWRITTEN; ANSWER_SIZE];
        raw::step(&mut self.bytes, memory, &mut answer);
        read_answer(&answer)
    }

    /// One step with the opcode given: it runs at r15, and nothing is fetched.
    pub fn step_opcode(&mut self, memory: &mut [u8], opcode: u32) -> Answer {
        let mut answer = [UNWRITTEN; ANSWER_SIZE];
        raw::step_opcode(&mut self.bytes, memory, opcode, &mut answer);
        read_answer(&answer)
    }

    /// Steps until one answers other than 0, or until `budget` of them are done.
    pub fn run(&mut self, memory: &mut [u8], budget: u32) -> Finished {
        let mut answer = [UNWRITTEN; RUN_ANSWER_SIZE];
        let called = raw::run(&mut self.bytes, memory, budget, &mut answer) == 1;
        Finished {
            answer: read_answer(&answer),
            count: if called { word(&answer, 3) } else { 0 },
        }
    }
}

fn read_answer(answer: &[u8]) -> Answer {
    Answer::from_words(word(answer, 0), word(answer, 1), word(answer, 2))
}
