//! The Rust that the archive replaces, asked in the archive's terms.

use crate::replies::{Packed, Shifted, Unpacked};
use zakuro_cpu::arm::shifter::{shift_by_immediate, shift_by_register, ShiftType};
use zakuro_cpu::Psr;

/// `None` where GE exceeds 15: the Rust drops its high bits and has no answer 8.
pub fn pack(word: u32, ge: u32) -> Option<Packed> {
    if ge > 15 {
        return None;
    }
    let record = Psr {
        ge: ge as u8,
        ..Psr::from_bits(word)
    };
    Some(Packed {
        answer: 0,
        word: record.to_bits(),
    })
}

pub fn unpack(word: u32) -> Unpacked {
    let record = Psr::from_bits(word);
    Unpacked {
        word: record.to_bits(),
        ge: record.ge.into(),
    }
}

fn shifted((value, carry): (u32, bool)) -> Shifted {
    Shifted {
        value,
        carry: carry.into(),
    }
}

/// The Rust takes amounts of 0 to 31 only; a field of five bits gives no other.
pub fn shift_immediate(kind: u32, value: u32, amount: u32, carry: bool) -> Shifted {
    let kind = ShiftType::from_bits(kind);
    shifted(shift_by_immediate(kind, value, amount & 31, carry))
}

pub fn shift_register(kind: u32, value: u32, amount: u32, carry: bool) -> Shifted {
    let kind = ShiftType::from_bits(kind);
    shifted(shift_by_register(kind, value, amount, carry))
}

#[cfg(test)]
mod tests {
    use super::*;

    const LSL: u32 = 0;
    const LSR: u32 = 1;
    const ASR: u32 = 2;
    const ROR: u32 = 3;

    /// P1 to P6 and P12 of document 01: the Rust is asked the right thing.
    #[test]
    fn gives_the_bench_values() {
        let reply = |value, carry| Shifted { value, carry };
        assert_eq!(shift_immediate(LSR, 0x8000_0000, 0, false), reply(0, 1));
        assert_eq!(
            shift_immediate(ASR, 0x8000_0000, 0, false),
            reply(0xFFFF_FFFF, 1)
        );
        assert_eq!(shift_immediate(ROR, 1, 0, true), reply(0x8000_0000, 1));
        assert_eq!(shift_register(LSL, 1, 32, false), reply(0, 1));
        assert_eq!(shift_register(LSL, 1, 33, true), reply(0, 0));
        for kind in [LSL, LSR, ASR, ROR] {
            assert_eq!(shift_register(kind, 0x1234, 0x100, true), reply(0x1234, 1));
        }
        assert_eq!(unpack(0xFFFF_FFFF).word, 0xF80F_03FF);
        assert_eq!(unpack(0).word, 0x0000_0010);
    }

    #[test]
    fn packs_the_ge_it_is_given() {
        let word = |ge| pack(0xFFFF_FFFF, ge).map(|packed| packed.word);
        assert_eq!(word(0), Some(0xF800_03FF));
        assert_eq!(word(15), Some(0xF80F_03FF));
        assert_eq!(word(16), None);
    }
}
