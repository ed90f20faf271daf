//! The Rust's own `Cpu::step` beside document 01's rule.

use super::Step;
use crate::compare::Case;
use crate::lent::Lent;
use crate::minimise::smallest;
use crate::replies::{Answer, Left};
use crate::state::{canonical, export_state, import_state, State, PC};
use zakuro_cpu::Exit;

/// How the two compare on one step.
#[derive(Clone, Copy, Debug, PartialEq, Eq)]
pub enum Beside {
    Same,
    /// r15 was written without a branch: the Rust's step gives A + 4.
    RawWrite,
    /// After answers 2 and 3 the Rust's step has gone on to A + 4.
    Stopped,
    Apart,
}

fn answer_of(exit: Option<Exit>) -> Option<Answer> {
    match exit {
        None => Some(Answer::new(0, 0, 0)),
        Some(Exit::Supervisor(number)) => Some(Answer::new(1, number, 0)),
        Some(Exit::Undefined { pc, opcode }) => Some(Answer::new(2, pc, opcode)),
        Some(Exit::Breakpoint { pc, imm }) => Some(Answer::new(3, pc, imm)),
        Some(_) => None,
    }
}

/// Where two states have the same words but for r15.
fn same_but_pc(a: &State, b: &State) -> bool {
    let mut a = *a;
    a[PC] = b[PC];
    a == *b
}

/// `None` outside the domain of equality: answers 0 to 3. The memory is put back.
pub fn beside(step: &mut Step, wanted: &Left) -> Option<Beside> {
    if wanted.answer.number > 3 {
        return None;
    }
    let opcode = step.opcode()?;
    let mut cpu = import_state(&step.state)?;
    let mut lent = Lent::new(&mut step.memory, opcode);
    let exit = cpu.step(&mut lent);
    let kept = lent.memory() == wanted.memory;
    lent.undo();
    let left = export_state(&cpu);
    let state = canonical(&wanted.state)?;
    let next = step.state[PC].wrapping_add(4);
    let same = kept && answer_of(exit) == Some(wanted.answer) && same_but_pc(&left, &state);
    Some(match wanted.answer.number {
        _ if !same => Beside::Apart,
        2 | 3 if left[PC] == next => Beside::Stopped,
        0 | 1 if left[PC] == state[PC] => Beside::Same,
        0 if left[PC] == next => Beside::RawWrite,
        _ => Beside::Apart,
    })
}

fn is_apart(step: &Step) -> bool {
    beside(&mut step.clone(), &step.wanted()) == Some(Beside::Apart)
}

/// What the Rust's own step does otherwise, on the smallest step that shows it.
pub fn report(found: &Step) -> String {
    let least = smallest(found.clone(), Step::smaller, is_apart);
    format!("  Cpu::step parts from document 01\n  found     {found}\n  smallest  {least}")
}

#[cfg(test)]
mod tests {
    use super::*;
    use crate::state::plain;

    fn told(opcode: u32) -> Option<Beside> {
        let mut state = plain(0x100);
        (state[1], state[2]) = (3, 5);
        let mut step = Step {
            given: Some(opcode),
            state,
            memory: vec![0; 0x200],
        };
        let wanted = step.wanted();
        beside(&mut step, &wanted)
    }

    #[test]
    fn only_raw_writes_and_stops_differ() {
        assert_eq!(told(0xE081_0002), Some(Beside::Same)); // ADD
        assert_eq!(told(0xEA00_0000), Some(Beside::Same)); // B
        assert_eq!(told(0xEF00_0007), Some(Beside::Same)); // SWI
        assert_eq!(told(0xE00F_0291), Some(Beside::RawWrite)); // MUL r15
        assert_eq!(told(0xE12F_FF21), Some(Beside::Stopped)); // BXJ
        assert_eq!(told(0xE120_0070), Some(Beside::Stopped)); // BKPT
        assert_eq!(told(0xEE10_0F10), None); // MRC p15
    }

    #[test]
    fn any_other_word_or_byte_is_apart() {
        let mut step = Step {
            given: Some(0xE581_2000), // STR r2, [r1]
            state: plain(0x100),
            memory: vec![0; 8],
        };
        step.state[2] = 7;
        let wanted = step.wanted();
        assert_eq!(beside(&mut step, &wanted), Some(Beside::Same));
        let (mut word, mut byte) = (wanted.clone(), wanted);
        word.state[40] = 1;
        byte.memory[0] = 8;
        assert_eq!(beside(&mut step, &word), Some(Beside::Apart));
        assert_eq!(beside(&mut step, &byte), Some(Beside::Apart));
        assert_eq!(step.memory, [0; 8]);
    }
}
