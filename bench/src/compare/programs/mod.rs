//! Cases of whole runs: a program in memory, a state, a budget.

mod random;

use super::steps::{contrast, input, smaller_memories, smaller_states, Source, Step};
use super::tally::{Phase, Row, Tally};
use super::{Case, Checker};
use crate::expected::{self, LONGEST};
use crate::minimise::below;
use crate::ours::steps::{once, Call, Machine};
use crate::replies::Left;
use crate::rng::Rng;
use crate::state::{canonical, plain, to_bytes, State, CPSR, GES, PC, T};
use std::fmt;

pub const MOST_STEPS: u32 = 10_000;

#[derive(Clone)]
pub struct Program {
    state: State,
    memory: Vec<u8>,
    budget: u32,
}

impl fmt::Display for Program {
    fn fmt(&self, f: &mut fmt::Formatter) -> fmt::Result {
        write!(f, "run with budget {}", self.budget)?;
        input(f, &self.state, &self.memory)
    }
}

impl Case for Program {
    type Reply = Left;

    fn ours(&self) -> Left {
        once(Call::Run(self.budget), &self.state, &self.memory)
    }

    fn wanted(&self) -> Left {
        let (mut state, mut memory) = (self.state, self.memory.clone());
        let (answer, count) = expected::run(&mut state, &mut memory, self.budget);
        Left {
            returned: 1,
            answer,
            count,
            state,
            memory,
            spilt: false,
        }
    }

    fn count(&self, left: &Left, phase: Phase, tally: &mut Tally) {
        tally.count(Row::Runs, phase);
        tally.runs.count(left.answer.number, left.count);
    }

    /// A smaller budget first: it saves the most time.
    fn smaller(&self) -> Box<dyn Iterator<Item = Program> + '_> {
        let budgets = below(self.budget).into_iter().map(|budget| Program {
            budget,
            ..self.clone()
        });
        let memories = smaller_memories(&self.memory, 0..0).map(|memory| Program {
            memory,
            ..self.clone()
        });
        let states = smaller_states(&self.state).map(|state| Program {
            state,
            ..self.clone()
        });
        Box::new(budgets.chain(memories).chain(states))
    }

    fn contrast(&self, ours: &Left, wanted: &Left) -> String {
        contrast(&self.state, &self.memory, ours, wanted)
    }
}

/// The run, then its steps one by one.
fn check(checker: &mut Checker, program: &Program) -> Result<(), String> {
    checker.check(program)?;
    match walk(program) {
        Ok(steps) => {
            checker.tally.runs.walked += steps;
            Ok(())
        }
        Err(steps) => Err(astray(checker, program, steps)),
    }
}

/// How many single steps went alike; as an error, how many before two differed.
fn walk(program: &Program) -> Result<u64, u64> {
    let (mut state, mut memory) = (program.state, program.memory.clone());
    let mut machine = Machine::new(&state, &memory);
    let mut done = 0;
    while done < u64::from(program.budget) {
        let wanted = expected::step(&mut state, &mut memory);
        let returned = machine.call(Call::Step);
        let alike = returned == 1
            && machine.answer() == wanted
            && *machine.state.inner() == to_bytes(&state);
        if !alike {
            return Err(done);
        }
        done += 1;
        if wanted.number != 0 {
            break;
        }
    }
    let alike = *machine.memory.inner() == memory && !machine.memory.spilt();
    alike.then_some(done).ok_or(done)
}

/// The step that went wrong, as a case of its own, from the state before it.
fn astray(checker: &mut Checker, program: &Program, steps: u64) -> String {
    let (mut state, mut memory) = (program.state, program.memory.clone());
    for done in 0..=steps {
        let step = Step {
            given: None,
            state,
            memory: memory.clone(),
        };
        if let Err(difference) = checker.check(&step) {
            return format!("  at step {done} of a run taken step by step\n{difference}");
        }
        expected::step(&mut state, &mut memory);
    }
    format!("  step by step apart after {steps} steps, no single step apart\n  found     {program}")
}

pub fn check_random(checker: &mut Checker, source: &Source, rng: &mut Rng) -> Result<(), String> {
    check(checker, &random::program(rng, source))
}

/// System mode at 0, the words as memory.
fn image(words: &[u32], budget: u32) -> Program {
    Program {
        state: plain(0),
        memory: words.iter().flat_map(|word| word.to_le_bytes()).collect(),
        budget,
    }
}

/// MOV r0, #5; SUBS r0, r0, #5; and then the last word.
fn ending_with(last: u32) -> [u32; 3] {
    [0xE3A0_0005, 0xE250_0005, last]
}

/// Opcodes that end a run: answers 1, 2, 3, 4, 5 (by BX), 6 and 7.
const ENDS: [u32; 7] = [
    0xEF00_0007, // SWI 7
    0xE12F_FF20, // BXJ r0
    0xE120_0070, // BKPT
    0xEE10_0F10, // MRC p15
    0xE28F_F001, // ADD r15, r15, #1: past the end
    0xE510_0004, // LDR r0, [r0, #-4]
    0xE1A0_0000, // MOV r0, r0: on to the end
];

/// Every ending with every budget around it, and the answers that come before a step.
pub fn directed(checker: &mut Checker) -> Result<(), String> {
    for last in ENDS {
        for budget in (0..6).chain([10_000, u32::MAX]) {
            check(checker, &image(&ending_with(last), budget))?;
        }
    }
    for causes in 0..16u32 {
        let on = |k: u32| causes >> k & 1 != 0;
        let mut program = image(&ending_with(0xEF00_0007), if on(0) { 0 } else { 9 });
        program.state[CPSR] |= if on(1) { T } else { 0 };
        program.state[PC] = if on(2) { 2 } else { 0 };
        program.state[GES.start] = if on(3) { 16 } else { 3 << 2 };
        program.state = canonical(&program.state).unwrap_or(program.state);
        for length in [12, LONGEST, LONGEST + 1] {
            program.memory.resize(length, 0);
            checker.check(&program)?;
        }
    }
    Ok(())
}

#[cfg(test)]
mod tests {
    use super::*;
    use crate::replies::Answer;

    fn ended(last: u32, budget: u32) -> (Answer, u32) {
        let left = image(&ending_with(last), budget).wanted();
        (left.answer, left.count)
    }

    #[test]
    fn a_run_counts_its_finished_steps() {
        let told = |last| (ended(last, 10_000).0.number, ended(last, 10_000).1);
        assert_eq!(
            ENDS.map(told),
            [(1, 3), (2, 2), (3, 2), (4, 2), (6, 3), (7, 2), (6, 3)]
        );
    }

    #[test]
    fn a_budget_spent_answers_10() {
        assert_eq!(ended(0xEF00_0007, 2), (Answer::new(10, 0, 0), 2));
        assert_eq!(ended(0xEF00_0007, 0), (Answer::new(10, 0, 0), 0));
        assert_eq!(ended(0xEF00_0007, 3), (Answer::new(1, 7, 0), 3));
    }

    #[test]
    fn smaller_programs_are_smaller() {
        let program = image(&ending_with(0xEF00_0007), 100);
        let empty = |program: &Program| program.memory.iter().filter(|&&byte| byte == 0).count();
        assert!(program.smaller().count() > 20);
        assert!(program.smaller().all(|less| less.budget < 100
            || less.memory.len() < program.memory.len()
            || empty(&less) > empty(&program)));
    }
}
