//! What a step and a run must give: the Rust's `arm::execute`, and document 01's rules around it.

use crate::lent::Lent;
use crate::replies::Answer;
use crate::state::{export_state, import_state, word_at, State, PC};
use zakuro_cpu::thumb::packed::take_branched;
use zakuro_cpu::{arm, Cpu, Exit};

pub const LONGEST: usize = 65_536;

const DONE: Answer = Answer::new(0, 0, 0);
const THUMB: Answer = Answer::new(5, 0, 0);
const BAD_STATE: Answer = Answer::new(8, 0, 0);
const TOO_LONG: Answer = Answer::new(9, 0, 0);
const TIMEOUT: Answer = Answer::new(10, 0, 0);

pub fn step(state: &mut State, memory: &mut [u8]) -> Answer {
    single(state, memory, None)
}

pub fn step_opcode(state: &mut State, memory: &mut [u8], opcode: u32) -> Answer {
    single(state, memory, Some(opcode))
}

/// The last step's answer, and how many steps answered 0 or 1.
pub fn run(state: &mut State, memory: &mut [u8], budget: u32) -> (Answer, u32) {
    let mut cpu = match admitted(state, memory) {
        Ok(cpu) => cpu,
        Err(refusal) => return (refusal, 0),
    };
    let mut done = 0;
    let answer = loop {
        if done == budget {
            break TIMEOUT;
        }
        let answer = advance(&mut cpu, memory, None);
        if answer != DONE {
            break answer;
        }
        done += 1;
    };
    *state = export_state(&cpu);
    (answer, done + u32::from(answer.finished()))
}

fn single(state: &mut State, memory: &mut [u8], given: Option<u32>) -> Answer {
    let mut cpu = match admitted(state, memory) {
        Ok(cpu) => cpu,
        Err(refusal) => return refusal,
    };
    let answer = advance(&mut cpu, memory, given);
    if answer.finished() {
        *state = export_state(&cpu);
    }
    answer
}

/// Answers 9 and 8, in that order. The Rust is not asked about a GE over 15.
fn admitted(state: &State, memory: &[u8]) -> Result<Cpu, Answer> {
    if memory.len() > LONGEST {
        return Err(TOO_LONG);
    }
    import_state(state).ok_or(BAD_STATE)
}

/// Answers 5 and 6, in that order, then the opcode. A given one skips 6.
fn advance(cpu: &mut Cpu, memory: &mut [u8], given: Option<u32>) -> Answer {
    if cpu.cpsr.thumb {
        return THUMB;
    }
    match given.or_else(|| fetched(memory, cpu.regs[PC])) {
        Some(opcode) => execute(cpu, memory, opcode),
        None => Answer::new(6, cpu.regs[PC], 0),
    }
}

/// The opcode at A, where A is a multiple of 4 and A + 4, not wrapped, is inside.
pub fn fetched(memory: &[u8], at: u32) -> Option<u32> {
    let at = at as usize;
    (at.is_multiple_of(4) && at + 4 <= memory.len()).then(|| word_at(memory, at))
}

/// The Rust's turn; after any answer but 0 and 1 all is as before.
fn execute(cpu: &mut Cpu, memory: &mut [u8], opcode: u32) -> Answer {
    let before = cpu.clone();
    let mut lent = Lent::new(memory, opcode);
    cpu.regs[PC] = before.regs[PC].wrapping_add(8);
    let exit = arm::execute(cpu, &mut lent, opcode);
    let answer = answered(exit, cpu, lent.outside(), opcode);
    if answer.finished() {
        settle(cpu);
    } else {
        *cpu = before;
        lent.undo();
    }
    answer
}

fn answered(exit: Option<Exit>, cpu: &Cpu, outside: Option<u32>, opcode: u32) -> Answer {
    match exit {
        Some(Exit::Supervisor(number)) => Answer::new(1, number, 0),
        Some(Exit::Undefined { pc, opcode }) => Answer::new(2, pc, opcode),
        Some(Exit::Breakpoint { pc, imm }) => Answer::new(3, pc, imm),
        Some(other) => unreachable!("no opcode exits by {other:?}"),
        None if cpu.vfp.entered || cpu.cp15.entered => Answer::new(4, opcode, 0),
        None => outside.map_or(DONE, |address| Answer::new(7, address, 0)),
    }
}

/// Section 1: where the Rust branched r15 stands, else it becomes its value less 4.
fn settle(cpu: &mut Cpu) {
    if !take_branched(cpu) {
        cpu.regs[PC] = cpu.regs[PC].wrapping_sub(4);
    }
}

#[cfg(test)]
mod tests;
