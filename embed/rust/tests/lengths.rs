//! The raw calls on bytes of other lengths: they return 0 and write nothing.

use tholungdek::{raw, Machine, ANSWER_SIZE, RUN_ANSWER_SIZE, STATE_SIZE};

const MOV_R0_5: u32 = 0xE3A0_0005;
const STR_R0_R0_4: u32 = 0xE580_0004;
const UNWRITTEN: u8 = 0xA5;

#[derive(Clone, Copy, Debug)]
enum Call {
    Step,
    StepOpcode,
    Run,
}

const CALLS: [Call; 3] = [Call::Step, Call::StepOpcode, Call::Run];

impl Call {
    fn answer_size(self) -> usize {
        match self {
            Call::Step | Call::StepOpcode => ANSWER_SIZE,
            Call::Run => RUN_ANSWER_SIZE,
        }
    }

    fn on(self, state: &mut [u8], memory: &mut [u8], answer: &mut [u8]) -> u32 {
        match self {
            Call::Step => raw::step(state, memory, answer),
            Call::StepOpcode => raw::step_opcode(state, memory, MOV_R0_5, answer),
            Call::Run => raw::run(state, memory, 2, answer),
        }
    }
}

/// What a call with these lengths returned, and whether it wrote to any of the three slices.
fn call(kind: Call, state_len: usize, answer_len: usize) -> (u32, bool) {
    let mut state = Machine::new().as_bytes().to_vec();
    state.resize(state_len, 0);
    let mut memory = [MOV_R0_5.to_le_bytes(), STR_R0_R0_4.to_le_bytes()].concat();
    memory.resize(16, 0);
    let mut answer = vec![UNWRITTEN; answer_len];
    let before = (state.clone(), memory.clone(), answer.clone());
    let returned = kind.on(&mut state, &mut memory, &mut answer);
    (returned, (state, memory, answer) != before)
}

#[test]
fn the_right_lengths_are_taken() {
    for kind in CALLS {
        assert_eq!(
            call(kind, STATE_SIZE, kind.answer_size()),
            (1, true),
            "{kind:?}"
        );
    }
}

#[test]
fn another_length_of_the_state_is_refused() {
    for kind in CALLS {
        for length in [0, 215, 217, 432] {
            assert_eq!(
                call(kind, length, kind.answer_size()),
                (0, false),
                "{kind:?} {length}"
            );
        }
    }
}

#[test]
fn another_length_of_the_answer_is_refused() {
    for kind in CALLS {
        for length in (0..20).filter(|&length| length != kind.answer_size()) {
            assert_eq!(
                call(kind, STATE_SIZE, length),
                (0, false),
                "{kind:?} {length}"
            );
        }
    }
}
