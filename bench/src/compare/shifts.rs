//! Cases of the two shifts.

use super::tally::{Phase, Row, Tally};
use super::{on_two_lines, Case, Checker};
use crate::minimise::below;
use crate::replies::Shifted;
use crate::rng::Rng;
use crate::{oracle, ours};
use std::fmt;

#[derive(Clone, Copy)]
pub enum Form {
    Immediate,
    Register,
}

#[derive(Clone, Copy)]
pub struct Shift {
    form: Form,
    kind: u32,
    value: u32,
    amount: u32,
    carry: bool,
}

impl fmt::Display for Shift {
    fn fmt(&self, f: &mut fmt::Formatter) -> fmt::Result {
        let form = match self.form {
            Form::Immediate => "immediate",
            Form::Register => "register",
        };
        write!(
            f,
            "shift by {form}: kind {:X} value {:08X} amount {:X} carry {}",
            self.kind,
            self.value,
            self.amount,
            u32::from(self.carry)
        )
    }
}

impl Case for Shift {
    type Reply = Shifted;

    fn count(&self, _: &Shifted, phase: Phase, tally: &mut Tally) {
        let row = match self.form {
            Form::Immediate => Row::ShiftImmediate,
            Form::Register => Row::ShiftRegister,
        };
        tally.count(row, phase);
    }

    fn ours(&self) -> Shifted {
        let call = match self.form {
            Form::Immediate => ours::shift_immediate,
            Form::Register => ours::shift_register,
        };
        call(self.kind, self.value, self.amount, self.carry)
    }

    fn wanted(&self) -> Shifted {
        let call = match self.form {
            Form::Immediate => oracle::shift_immediate,
            Form::Register => oracle::shift_register,
        };
        call(self.kind, self.value, self.amount, self.carry)
    }

    fn contrast(&self, ours: &Shifted, wanted: &Shifted) -> String {
        on_two_lines(ours, wanted)
    }

    fn smaller(&self) -> Box<dyn Iterator<Item = Shift> + '_> {
        let carry = self.carry.then_some(Shift {
            carry: false,
            ..*self
        });
        let kinds = below(self.kind).into_iter();
        let amounts = below(self.amount).into_iter();
        let values = below(self.value).into_iter();
        let smaller = carry
            .into_iter()
            .chain(kinds.map(|kind| Shift { kind, ..*self }))
            .chain(amounts.map(|amount| Shift { amount, ..*self }))
            .chain(values.map(|value| Shift { value, ..*self }));
        Box::new(smaller)
    }
}

/// Beside these, every single bit.
const EDGES: [u32; 10] = [
    0,
    3,
    0x7FFF_FFFF,
    0x8000_0001,
    0xFFFF_FFFE,
    0xFFFF_FFFF,
    0x5555_5555,
    0xAAAA_AAAA,
    0x0000_FFFF,
    0xFFFF_0000,
];

/// Only the low two bits of a kind count.
const KINDS: [u32; 16] = [
    0,
    1,
    2,
    3,
    4,
    5,
    6,
    7,
    0x100,
    0x101,
    0x8000_0002,
    0x8000_0003,
    0xFFFF_FFFC,
    0xFFFF_FFFD,
    0xFFFF_FFFE,
    0xFFFF_FFFF,
];

/// Beside every byte: only the low byte of an amount counts, or the low five bits.
const LONG_AMOUNTS: [u32; 14] = [
    0x100,
    0x101,
    0x11F,
    0x120,
    0x121,
    0x1FF,
    0x1_0000,
    0x1_0020,
    0x8000_0000,
    0x8000_0001,
    0xFFFF_FF00,
    0xFFFF_FF20,
    0xFFFF_FFE0,
    0xFFFF_FFFF,
];

fn values() -> Vec<u32> {
    EDGES.into_iter().chain((0..32).map(|k| 1 << k)).collect()
}

fn directed_by(form: Form, checker: &mut Checker) -> Result<(), String> {
    let values = values();
    for kind in KINDS {
        for amount in (0..=0xFF).chain(LONG_AMOUNTS) {
            for &value in &values {
                for carry in [false, true] {
                    checker.check(&Shift {
                        form,
                        kind,
                        value,
                        amount,
                        carry,
                    })?;
                }
            }
        }
    }
    Ok(())
}

pub fn directed(checker: &mut Checker) -> Result<(), String> {
    directed_by(Form::Immediate, checker)?;
    directed_by(Form::Register, checker)
}

pub fn random(rng: &mut Rng, form: Form) -> Shift {
    Shift {
        form,
        kind: rng.often_below(4),
        value: rng.sometimes_of(&EDGES),
        amount: rng.often_below(66),
        carry: rng.flip(),
    }
}
