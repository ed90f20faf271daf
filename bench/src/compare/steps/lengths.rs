//! Slices of another length: the call returns 0 and writes nothing.

use crate::compare::tally::{Phase, Row, Tally};
use crate::compare::{on_two_lines, Case};
use crate::ours::steps::{call, Call, Fenced, UNWRITTEN};
use crate::state::{plain, to_bytes, BYTES};
use std::fmt;

#[derive(Clone)]
pub struct Lengths {
    call: Call,
    state: usize,
    answer: usize,
}

/// What the call returned, and whether it wrote anything.
#[derive(PartialEq)]
pub struct Refused {
    returned: u32,
    wrote: bool,
}

impl fmt::Display for Refused {
    fn fmt(&self, f: &mut fmt::Formatter) -> fmt::Result {
        write!(f, "returned {}, wrote {}", self.returned, self.wrote)
    }
}

impl fmt::Display for Lengths {
    fn fmt(&self, f: &mut fmt::Formatter) -> fmt::Result {
        let name = match self.call {
            Call::Step => "step",
            Call::StepOpcode(_) => "step with an opcode",
            Call::Run(_) => "run",
        };
        let Lengths { state, answer, .. } = self;
        write!(f, "{name}: state of {state} bytes, answer of {answer}")
    }
}

impl Case for Lengths {
    type Reply = Refused;

    fn ours(&self) -> Refused {
        let mut given = to_bytes(&plain(0)).to_vec();
        given.resize(self.state, UNWRITTEN);
        let mut state = Fenced::new(&given);
        let mut memory = Fenced::new(&MEMORY);
        let mut answer = Fenced::new(&vec![UNWRITTEN; self.answer]);
        let returned = call(self.call, state.inner(), memory.inner(), answer.inner());
        let kept = state.inner() == given
            && memory.inner() == MEMORY
            && answer.inner().iter().all(|&byte| byte == UNWRITTEN);
        let spilt = state.spilt() || memory.spilt() || answer.spilt();
        Refused {
            returned,
            wrote: spilt || !kept,
        }
    }

    fn wanted(&self) -> Refused {
        Refused {
            returned: 0,
            wrote: false,
        }
    }

    fn count(&self, _: &Refused, phase: Phase, tally: &mut Tally) {
        tally.count(Row::Lengths, phase);
    }

    /// They are small enough.
    fn smaller(&self) -> Box<dyn Iterator<Item = Lengths> + '_> {
        Box::new(std::iter::empty())
    }

    fn contrast(&self, ours: &Refused, wanted: &Refused) -> String {
        on_two_lines(ours, wanted)
    }
}

/// STR r0, [r0]: a call that went on would write.
const MEMORY: [u8; 4] = 0xE580_0000u32.to_le_bytes();

pub fn all() -> Vec<Lengths> {
    let states = [0, 1, 4, BYTES - 4, BYTES - 1, BYTES, BYTES + 1, BYTES + 4];
    let answers = [0, 1, 4, 8, 11, 12, 13, 15, 16, 17, 20];
    let mut cases = Vec::new();
    for call in [Call::Step, Call::StepOpcode(0xE580_0000), Call::Run(1)] {
        for state in states {
            for answer in answers {
                if state != BYTES || answer != call.answer_len() {
                    cases.push(Lengths {
                        call,
                        state,
                        answer,
                    });
                }
            }
        }
    }
    cases
}
