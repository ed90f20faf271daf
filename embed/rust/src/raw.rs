//! The calls of the archive on slices of any length, and all that is unsafe in this crate.
//!
//! With a state of other than 216 bytes, or an answer of other than 12 (for a run 16),
//! a call on slices returns 0 and writes nothing; else it returns 1.

// Nothing checks these against crates/exports_c: keep the two side by side.
unsafe extern "C" {
    fn tholungdek_step(
        state: *mut u8,
        state_len: usize,
        memory: *mut u8,
        memory_len: usize,
        answer: *mut u8,
        answer_len: usize,
    ) -> u32;
    fn tholungdek_step_opcode(
        state: *mut u8,
        state_len: usize,
        memory: *mut u8,
        memory_len: usize,
        opcode: u32,
        answer: *mut u8,
        answer_len: usize,
    ) -> u32;
    fn tholungdek_run(
        state: *mut u8,
        state_len: usize,
        memory: *mut u8,
        memory_len: usize,
        budget: u32,
        answer: *mut u8,
        answer_len: usize,
    ) -> u32;
    fn tholungdek_pack(word: u32, ge: u32) -> u64;
    fn tholungdek_unpack(word: u32) -> u64;
    fn tholungdek_shift_immediate(kind: u32, value: u32, amount: u32, carry: bool) -> u64;
    fn tholungdek_shift_register(kind: u32, value: u32, amount: u32, carry: bool) -> u64;
}

/// One step. It writes the answer; state and memory after answers 0 and 1 alone.
pub fn step(state: &mut [u8], memory: &mut [u8], answer: &mut [u8]) -> u32 {
    let (s, m, a) = (state.as_mut_ptr(), memory.as_mut_ptr(), answer.as_mut_ptr());
    // SAFETY: three slices borrowed mutably do not overlap, and each pointer goes with its slice's length.
    unsafe { tholungdek_step(s, state.len(), m, memory.len(), a, answer.len()) }
}

/// One step with the opcode given in place of a fetched one.
pub fn step_opcode(state: &mut [u8], memory: &mut [u8], opcode: u32, answer: &mut [u8]) -> u32 {
    let (s, m, a) = (state.as_mut_ptr(), memory.as_mut_ptr(), answer.as_mut_ptr());
    // SAFETY: three slices borrowed mutably do not overlap, and each pointer goes with its slice's length.
    unsafe { tholungdek_step_opcode(s, state.len(), m, memory.len(), opcode, a, answer.len()) }
}

/// A run. It writes the answer; the state where its count is above 0.
pub fn run(state: &mut [u8], memory: &mut [u8], budget: u32, answer: &mut [u8]) -> u32 {
    let (s, m, a) = (state.as_mut_ptr(), memory.as_mut_ptr(), answer.as_mut_ptr());
    // SAFETY: three slices borrowed mutably do not overlap, and each pointer goes with its slice's length.
    unsafe { tholungdek_run(s, state.len(), m, memory.len(), budget, a, answer.len()) }
}

/// Packing: the answer's number above the word.
pub fn pack(word: u32, ge: u32) -> u64 {
    // SAFETY: it is lent nothing and takes every number.
    unsafe { tholungdek_pack(word, ge) }
}

/// Unpacking: GE above the word.
pub fn unpack(word: u32) -> u64 {
    // SAFETY: it is lent nothing and takes every number.
    unsafe { tholungdek_unpack(word) }
}

/// A shift by an immediate: the carry in bit 32, above the value.
pub fn shift_immediate(kind: u32, value: u32, amount: u32, carry: bool) -> u64 {
    // SAFETY: it is lent nothing and takes every number.
    unsafe { tholungdek_shift_immediate(kind, value, amount, carry) }
}

/// A shift by a register: the carry in bit 32, above the value.
pub fn shift_register(kind: u32, value: u32, amount: u32, carry: bool) -> u64 {
    // SAFETY: it is lent nothing and takes every number.
    unsafe { tholungdek_shift_register(kind, value, amount, carry) }
}
