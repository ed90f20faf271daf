//! Cases of one step: a whole state, a memory, and an opcode given or fetched.

pub mod beside;
pub mod departures;
mod directed;
mod lengths;
mod random;
mod show;

pub use directed::{directed, examples};
pub use random::{aim, Source, EDGES};
pub use show::{contrast, input};

use super::tally::{Phase, Tally};
use super::Case;
use crate::minimise::below;
use crate::opcodes::{family, Family};
use crate::ours::steps::{once, Call};
use crate::replies::Left;
use crate::state::{name, word_at, State, PC, RECORDS, SYSTEM};
use crate::{expected, state};
use std::fmt;

#[derive(Clone)]
pub struct Step {
    /// The opcode handed over; else it is fetched.
    pub given: Option<u32>,
    pub state: State,
    pub memory: Vec<u8>,
}

impl Step {
    /// The opcode that the step comes to, where it comes to one.
    pub fn opcode(&self) -> Option<u32> {
        let fetched = || expected::fetched(&self.memory, self.state[PC]);
        self.given.or_else(fetched)
    }

    /// The same step of another opcode.
    fn with_opcode(&self, opcode: u32) -> Step {
        let mut step = self.clone();
        step.place(opcode);
        step
    }

    /// Hands the opcode over as this step takes it; no fetch outside is mended.
    pub fn place(&mut self, opcode: u32) {
        let at = self.state[PC] as usize;
        if self.given.is_some() {
            self.given = Some(opcode);
        } else if self.opcode().is_some() {
            self.memory[at..at + 4].copy_from_slice(&opcode.to_le_bytes());
        }
    }

    /// `None` where an answer comes before decode.
    pub fn decoded(&self, left: &Left) -> Option<Family> {
        let before_decode = matches!(left.answer.number, 5 | 6 | 8 | 9 | 10);
        let opcode = self.opcode().filter(|_| !before_decode);
        opcode.map(family)
    }

    fn call(&self) -> Call {
        self.given.map_or(Call::Step, Call::StepOpcode)
    }
}

impl fmt::Display for Step {
    fn fmt(&self, f: &mut fmt::Formatter) -> fmt::Result {
        match self.given {
            Some(opcode) => write!(f, "step with opcode {opcode:08X}")?,
            None => write!(f, "step")?,
        }
        if let (None, Some(opcode)) = (self.given, self.opcode()) {
            write!(f, " of {opcode:08X}")?;
        }
        input(f, &self.state, &self.memory)
    }
}

impl Case for Step {
    type Reply = Left;

    fn ours(&self) -> Left {
        once(self.call(), &self.state, &self.memory)
    }

    fn wanted(&self) -> Left {
        let (mut state, mut memory) = (self.state, self.memory.clone());
        let answer = match self.given {
            Some(opcode) => expected::step_opcode(&mut state, &mut memory, opcode),
            None => expected::step(&mut state, &mut memory),
        };
        Left {
            returned: 1,
            answer,
            count: 0,
            state,
            memory,
            spilt: false,
        }
    }

    fn count(&self, left: &Left, phase: Phase, tally: &mut Tally) {
        let number = left.answer.number as usize;
        let met = departures::met(self, left);
        let steps = &mut tally.steps;
        steps.count(self.decoded(left), number, phase, self.given.is_some());
        steps.count_departures(met);
        steps.failed += u64::from(departures::condition_failed(self, left));
    }

    /// Shorter and emptier memory first, then the opcode, then the state.
    fn smaller(&self) -> Box<dyn Iterator<Item = Step> + '_> {
        let memories = smaller_memories(&self.memory, self.kept());
        let shorter = memories.map(|memory| Step {
            memory,
            ..self.clone()
        });
        let easier = self.handed_over().into_iter().chain(self.moved_to_0());
        let opcodes = self.opcode().into_iter().flat_map(simpler_opcodes);
        let simpler = opcodes.map(|opcode| self.with_opcode(opcode));
        let states = smaller_states(&self.state).map(|state| Step {
            state,
            ..self.clone()
        });
        Box::new(easier.chain(shorter).chain(simpler).chain(states))
    }

    fn contrast(&self, ours: &Left, wanted: &Left) -> String {
        contrast(&self.state, &self.memory, ours, wanted)
    }
}

impl Step {
    /// The same opcode, given and no longer fetched.
    fn handed_over(&self) -> Option<Step> {
        let fetched = self.opcode().filter(|_| self.given.is_none());
        fetched.map(|opcode| Step {
            given: Some(opcode),
            ..self.clone()
        })
    }

    /// The same opcode, fetched at 0.
    fn moved_to_0(&self) -> Option<Step> {
        let fetched = self.opcode().filter(|_| self.given.is_none());
        let opcode = fetched.filter(|_| self.state[PC] != 0)?;
        let mut step = self.clone();
        step.state[PC] = 0;
        step.place(opcode);
        Some(step)
    }

    /// Bytes that emptying leaves alone: a fetched opcode shrinks bit by bit.
    fn kept(&self) -> std::ops::Range<usize> {
        let at = self.state[PC] as usize;
        match (self.given, self.opcode()) {
            (None, Some(_)) => at..at + 4,
            _ => 0..0,
        }
    }
}

const ALWAYS: u32 = 0xE000_0000;

/// Condition 14 counts as the simplest, and is tried first.
fn simpler_opcodes(opcode: u32) -> impl Iterator<Item = u32> {
    let always = opcode & 0x0FFF_FFFF | ALWAYS;
    let unconditioned = (opcode != always).then_some(always);
    let others = below(opcode ^ ALWAYS).into_iter().map(|w| w ^ ALWAYS);
    unconditioned.into_iter().chain(others)
}

/// Everything at once, then word by word. System mode counts as the simplest.
pub fn smaller_states(from: &State) -> impl Iterator<Item = State> + '_ {
    let plain = state::plain(from[PC]);
    let all_at_once = (*from != plain).then_some(plain);
    let one_by_one = (0..from.len()).flat_map(move |i| {
        let simplest = if RECORDS.contains(&i) { SYSTEM } else { 0 };
        let words = below(from[i] ^ simplest).into_iter();
        words.map(move |word| {
            let mut state = *from;
            state[i] = word ^ simplest;
            state
        })
    });
    all_at_once.into_iter().chain(one_by_one)
}

/// Shorter ones, then those with more bytes 0, in ever smaller pieces.
pub fn smaller_memories(
    from: &[u8],
    kept: std::ops::Range<usize>,
) -> impl Iterator<Item = Vec<u8>> + '_ {
    let lengths = below(from.len() as u32).into_iter();
    let shorter = lengths.map(|length| from[..length as usize].to_vec());
    let sizes = std::iter::successors(Some(from.len()), |size| Some(size / 2));
    let pieces = sizes.take_while(|&size| size > 0).flat_map(move |size| {
        let starts = (0..from.len()).step_by(size);
        starts.map(move |start| start..(start + size).min(from.len()))
    });
    let emptier = pieces.filter_map(move |piece| emptied(from, piece, &kept));
    shorter.chain(emptier)
}

/// `None` where nothing would change.
fn emptied(
    from: &[u8],
    piece: std::ops::Range<usize>,
    kept: &std::ops::Range<usize>,
) -> Option<Vec<u8>> {
    let full = |i: &usize| from[*i] != 0 && !kept.contains(i);
    piece.clone().find(full)?;
    let mut memory = from.to_vec();
    for i in piece.filter(full) {
        memory[i] = 0;
    }
    Some(memory)
}

/// For a line of output: the words of a state that are not plain.
fn shown_words(state: &State) -> impl Iterator<Item = (String, u32)> + '_ {
    let plain = state::plain(0);
    let told = (0..state.len()).filter(move |&i| state[i] != plain[i] || i == PC);
    told.map(|i| (name(i), state[i]))
}

/// The words of a memory that are not 0, by address; a short end counts as a word.
fn shown_memory(memory: &[u8]) -> impl Iterator<Item = (usize, u32)> + '_ {
    let words = (0..memory.len()).step_by(4).map(|at| {
        let mut bytes = [0; 4];
        let end = memory.len().min(at + 4);
        bytes[..end - at].copy_from_slice(&memory[at..end]);
        (at, word_at(&bytes, 0))
    });
    words.filter(|&(_, word)| word != 0)
}

#[cfg(test)]
mod tests;
