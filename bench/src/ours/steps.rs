//! The proved steps and runs, on lent bytes with a fence behind them.

#[cfg(steps)]
use super::raw;
use crate::replies::{Answer, Left};
use crate::state::{from_bytes, to_bytes, word_at, State, BYTES};

/// Whether the archive has the steps: bench/bench asks nm.
pub const LINKED: bool = cfg!(steps);

pub const ANSWER: usize = 12;
/// A run's answer has its count as a fourth word.
pub const RUN_ANSWER: usize = 16;

/// Which of the three is called, and with what beside the slices.
#[derive(Clone, Copy, PartialEq, Eq)]
pub enum Call {
    Step,
    StepOpcode(u32),
    Run(u32),
}

impl Call {
    pub fn answer_len(self) -> usize {
        match self {
            Call::Step | Call::StepOpcode(_) => ANSWER,
            Call::Run(_) => RUN_ANSWER,
        }
    }
}

#[cfg(steps)]
pub fn call(call: Call, state: &mut [u8], memory: &mut [u8], answer: &mut [u8]) -> u32 {
    match call {
        Call::Step => raw::step(state, memory, answer),
        Call::StepOpcode(opcode) => raw::step_opcode(state, memory, opcode, answer),
        Call::Run(budget) => raw::run(state, memory, budget, answer),
    }
}

#[cfg(not(steps))]
pub fn call(_: Call, _: &mut [u8], _: &mut [u8], _: &mut [u8]) -> u32 {
    unreachable!("the archive has no steps, and LINKED says so")
}

/// What an answer's bytes hold before a call.
pub const UNWRITTEN: u8 = 0xA5;
const FENCE: usize = 32;

/// Bytes to lend, with a fence behind them.
pub struct Fenced {
    bytes: Vec<u8>,
}

impl Fenced {
    pub fn new(inner: &[u8]) -> Fenced {
        let mut bytes = Vec::with_capacity(inner.len() + FENCE);
        bytes.extend(inner);
        bytes.extend([UNWRITTEN; FENCE]);
        Fenced { bytes }
    }

    fn end(&self) -> usize {
        self.bytes.len() - FENCE
    }

    pub fn inner(&mut self) -> &mut [u8] {
        let end = self.end();
        &mut self.bytes[..end]
    }

    pub fn spilt(&self) -> bool {
        self.bytes[self.end()..] != [UNWRITTEN; FENCE]
    }

    fn into_inner(mut self) -> Vec<u8> {
        self.bytes.truncate(self.end());
        self.bytes
    }
}

/// A state and memory of the archive's own, kept from call to call.
pub struct Machine {
    pub state: Fenced,
    pub memory: Fenced,
    pub answer: Fenced,
}

impl Machine {
    pub fn new(state: &State, memory: &[u8]) -> Machine {
        Machine {
            state: Fenced::new(&to_bytes(state)),
            memory: Fenced::new(memory),
            answer: Fenced::new(&[UNWRITTEN; RUN_ANSWER]),
        }
    }

    /// The call's return; its answer stands in the answer's first bytes.
    pub fn call(&mut self, kind: Call) -> u32 {
        let answer = &mut self.answer.inner()[..kind.answer_len()];
        call(kind, self.state.inner(), self.memory.inner(), answer)
    }

    pub fn answer(&mut self) -> Answer {
        let bytes = self.answer.inner();
        Answer::new(word_at(bytes, 0), word_at(bytes, 4), word_at(bytes, 8))
    }

    pub fn count(&mut self) -> u32 {
        word_at(self.answer.inner(), ANSWER)
    }

    pub fn state(&mut self) -> State {
        from_bytes(&self.state.inner()[..BYTES])
    }

    /// A step must leave the fourth word of the answer alone.
    fn spilt(&mut self, kind: Call) -> bool {
        let beyond = &self.answer.inner()[kind.answer_len()..];
        let overlong = beyond.iter().any(|&byte| byte != UNWRITTEN);
        overlong || self.state.spilt() || self.memory.spilt() || self.answer.spilt()
    }
}

/// One call on a fresh copy of state and memory.
pub fn once(kind: Call, state: &State, memory: &[u8]) -> Left {
    let mut machine = Machine::new(state, memory);
    let returned = machine.call(kind);
    let count = match kind {
        Call::Run(_) => machine.count(),
        Call::Step | Call::StepOpcode(_) => 0,
    };
    Left {
        returned,
        answer: machine.answer(),
        count,
        state: machine.state(),
        spilt: machine.spilt(kind),
        memory: machine.memory.into_inner(),
    }
}

#[cfg(test)]
mod tests {
    use super::*;

    #[test]
    fn a_fence_tells_what_was_spilt() {
        let mut fenced = Fenced::new(&[1, 2, 3]);
        fenced.inner()[2] = 9;
        assert!(!fenced.spilt());
        fenced.bytes[3] = 0;
        assert!(fenced.spilt());
        assert_eq!(fenced.into_inner(), [1, 2, 9]);
    }
}
