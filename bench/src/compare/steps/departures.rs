//! Which of document 01's departures D1 to D9 a step met.

use super::Step;
use crate::opcodes::{bit, field, register, Family};
use crate::replies::Left;
use crate::state::{import_state, CPSR, E, PC, SPSR, T, TAG};
use zakuro_cpu::{arm, check_condition, Bus, Psr};

pub const COUNT: usize = 9;

/// Entry i is departure D(i + 1).
pub type Met = [bool; COUNT];

pub fn met(step: &Step, left: &Left) -> Met {
    let Some((opcode, family)) = executed(step, left) else {
        return [false; COUNT];
    };
    let done = left.answer.number == 0;
    [
        done && family == Family::Block && takes_t_from_memory(step, left, opcode),
        setend_srs_rfe(opcode, family),
        opcode & 0x0FF0_00F0 == 0x0120_0020 && family == Family::Unallocated,
        runs_unallocated(opcode, family) && left.answer.number != 2,
        done && family == Family::Exclusive && exclusive_apart(step, left, opcode),
        done && leaves_64_bits(step, opcode, family),
        done && is_transfer(family) && aligns_or_swaps(step, opcode),
        done && family == Family::StatusMove && drops_t_or_j(step, opcode),
        matches!(left.answer.number, 1..=3),
    ]
}

/// The opcode, where it was decoded and its condition passed.
fn executed(step: &Step, left: &Left) -> Option<(u32, Family)> {
    let family = step.decoded(left)?;
    let opcode = step.opcode()?;
    passes(step, opcode).then_some((opcode, family))
}

fn passes(step: &Step, opcode: u32) -> bool {
    check_condition(opcode >> 28, &Psr::from_bits(step.state[CPSR]))
}

/// Whether the step answered 0 because its condition failed.
pub fn condition_failed(step: &Step, left: &Left) -> bool {
    let opcode = step.opcode().filter(|_| left.answer.number == 0);
    opcode.is_some_and(|opcode| !passes(step, opcode))
}

/// D1, where it shows.
fn takes_t_from_memory(step: &Step, left: &Left, opcode: u32) -> bool {
    let returns = bit(opcode, 22) && bit(opcode, 20) && bit(opcode, 15);
    returns && (left.state[CPSR] ^ step.state[SPSR]) & T != 0
}

fn setend_srs_rfe(opcode: u32, family: Family) -> bool {
    match family {
        Family::ChangeState => bit(opcode, 16),
        Family::Unallocated2 => field(opcode, 27, 25) == 0b100,
        _ => false,
    }
}

/// D4's list.
fn runs_unallocated(opcode: u32, family: Family) -> bool {
    let low = field(opcode, 7, 4);
    match family {
        Family::BranchExchange | Family::Breakpoint => field(opcode, 22, 21) != 0b01,
        Family::Saturate => {
            low & 2 == 0 && matches!(field(opcode, 24, 20), 0b01001 | 0b01100 | 0b01101)
        }
        Family::MultiplyDual if field(opcode, 24, 20) == 0b10101 => {
            matches!(field(opcode, 7, 6), 0b01 | 0b10)
        }
        Family::MultiplyDual => bit(opcode, 7),
        Family::Extra => !bit(opcode, 20) && bit(opcode, 6) && bit(opcode, 12),
        Family::MultiplyLong => field(opcode, 23, 20) == 0b0101,
        Family::Swap => field(opcode, 21, 20) != 0,
        _ => false,
    }
}

/// D5: a store that fails with a tag standing, or one of a width that no tag tells.
fn exclusive_apart(step: &Step, left: &Left, opcode: u32) -> bool {
    let store = !bit(opcode, 20);
    let tagged = step.state[TAG] != 0;
    let keeps = left.state[TAG] != 0;
    store && tagged && (keeps || field(opcode, 22, 21) != 0)
}

/// D6: SMMLA and SMMLS over their exact sum.
fn leaves_64_bits(step: &Step, opcode: u32, family: Family) -> bool {
    if family != Family::MultiplyDual || field(opcode, 24, 20) != 0b10101 {
        return false;
    }
    let value = |low: u32| i128::from(operand(step, register(opcode, low)) as i32);
    let product = value(0) * value(8);
    let sum = match register(opcode, 12) {
        15 => 0,
        _ => value(12) << 32,
    };
    let signed = if bit(opcode, 6) { -product } else { product };
    let rounding = i128::from(bit(opcode, 5)) << 31;
    i64::try_from(sum + signed + rounding).is_err()
}

/// A register as the opcode reads it.
fn operand(step: &Step, register: usize) -> u32 {
    let ahead = if register == PC { 8 } else { 0 };
    step.state[register].wrapping_add(ahead)
}

fn is_transfer(family: Family) -> bool {
    use Family::*;
    matches!(family, Single | Extra | Block | Swap | Exclusive)
}

/// Looks at addresses and gives nothing.
#[derive(Default)]
struct Looking {
    wide: bool,
    misaligned: bool,
}

impl Looking {
    fn see(&mut self, addr: u32, size: u32) {
        self.wide |= size > 1;
        self.misaligned |= !addr.is_multiple_of(size);
    }
}

impl Bus for Looking {
    fn read8(&mut self, addr: u32) -> u8 {
        self.see(addr, 1);
        0
    }
    fn read16(&mut self, addr: u32) -> u16 {
        self.see(addr, 2);
        0
    }
    fn read32(&mut self, addr: u32) -> u32 {
        self.see(addr, 4);
        0
    }
    fn write8(&mut self, addr: u32, _: u8) {
        self.see(addr, 1);
    }
    fn write16(&mut self, addr: u32, _: u16) {
        self.see(addr, 2);
    }
    fn write32(&mut self, addr: u32, _: u32) {
        self.see(addr, 4);
    }
}

/// D7: an address that the manual would align, or bytes that it would turn round.
fn aligns_or_swaps(step: &Step, opcode: u32) -> bool {
    let Some(mut cpu) = import_state(&step.state) else {
        return false;
    };
    cpu.regs[PC] = cpu.regs[PC].wrapping_add(8);
    let mut looking = Looking::default();
    arm::execute(&mut cpu, &mut looking, opcode);
    looking.misaligned || looking.wide && step.state[CPSR] & E != 0
}

/// D8, for an operand with T or J set.
fn drops_t_or_j(step: &Step, opcode: u32) -> bool {
    let value = match bit(opcode, 25) {
        true => (opcode & 0xFF).rotate_right(2 * field(opcode, 11, 8)),
        false => operand(step, register(opcode, 0)),
    };
    let writes = bit(opcode, 21);
    let t = bit(opcode, 22) && bit(opcode, 16) && value & T != 0;
    let j = bit(opcode, 19) && bit(value, 24);
    writes && (t || j)
}

#[cfg(test)]
mod tests {
    use super::super::{Case, Source};
    use super::*;
    use crate::rng::Rng;

    #[test]
    fn random_steps_meet_every_departure() {
        let mut rng = Rng::new(4);
        let source = Source::new();
        let mut counts = [0; COUNT];
        for _ in 0..60_000 {
            let step = source.step(&mut rng);
            for (count, met) in counts.iter_mut().zip(met(&step, &step.wanted())) {
                *count += u32::from(met);
            }
        }
        assert!(counts.iter().all(|&count| count > 100), "{counts:?}");
    }
}
