//! The whole state of a `Cpu` as the 54 words that the exports take.

use crate::{Cpu, Psr};

pub const WORDS: usize = 54;

pub type Packed = [u32; WORDS];

// Where each part begins; r0 to r15 stand first.
const STATUS: usize = 16;
const GE: usize = 23;
const BANKS: usize = 30;
const FIQ: usize = 42;
const OTHER: usize = 47;
const TAG: usize = 52;

/// GE is four bits in a valid machine; beyond, document 01 gives answer 8.
const GE_MAX: u32 = 15;

pub fn export_state(cpu: &Cpu) -> Packed {
    let mut words = [0; WORDS];
    words[..STATUS].copy_from_slice(&cpu.regs);
    for (i, record) in records(cpu).into_iter().enumerate() {
        words[STATUS + i] = record.to_bits();
        words[GE + i] = record.ge.into();
    }
    words[BANKS..FIQ].copy_from_slice(cpu.banked_sp_lr.as_flattened());
    words[FIQ..OTHER].copy_from_slice(&cpu.fiq_r8_r12);
    words[OTHER..TAG].copy_from_slice(&cpu.user_r8_r12);
    if let Some(address) = cpu.exclusive_addr {
        words[TAG] = 1;
        words[TAG + 1] = address;
    }
    words
}

/// `None` where a GE exceeds 15: the Rust has no counterpart of answer 8.
pub fn import_state(words: &Packed) -> Option<Cpu> {
    if words[GE..BANKS].iter().any(|&ge| ge > GE_MAX) {
        return None;
    }
    let mut cpu = Cpu::new();
    cpu.regs.copy_from_slice(&words[..STATUS]);
    for (i, record) in records_mut(&mut cpu).into_iter().enumerate() {
        *record = Psr {
            ge: words[GE + i] as u8,
            ..Psr::from_bits(words[STATUS + i])
        };
    }
    let pairs = cpu.banked_sp_lr.as_flattened_mut();
    pairs.copy_from_slice(&words[BANKS..FIQ]);
    cpu.fiq_r8_r12.copy_from_slice(&words[FIQ..OTHER]);
    cpu.user_r8_r12.copy_from_slice(&words[OTHER..TAG]);
    cpu.exclusive_addr = (words[TAG] != 0).then_some(words[TAG + 1]);
    Some(cpu)
}

/// Whether the instruction just executed set r15 for good; the next one starts anew.
pub fn take_branched(cpu: &mut Cpu) -> bool {
    std::mem::take(&mut cpu.branched)
}

/// The Rust keeps a sixth banked record that it never reads or writes.
fn records(cpu: &Cpu) -> [Psr; 7] {
    let [fiq, irq, supervisor, abort, undefined, _] = cpu.banked_spsr;
    [cpu.cpsr, cpu.spsr, fiq, irq, supervisor, abort, undefined]
}

fn records_mut(cpu: &mut Cpu) -> [&mut Psr; 7] {
    let [fiq, irq, supervisor, abort, undefined, _] = &mut cpu.banked_spsr;
    let (current, saved) = (&mut cpu.cpsr, &mut cpu.spsr);
    [current, saved, fiq, irq, supervisor, abort, undefined]
}

#[cfg(test)]
mod tests {
    use super::*;
    use crate::{arm, Bus, Mode};

    /// Every register its own index, every status word a different valid one.
    fn distinct() -> Packed {
        const MODES: [u32; 7] = [0x10, 0x11, 0x12, 0x13, 0x17, 0x1B, 0x1F];
        let mut words: Packed = std::array::from_fn(|i| 0x1000 + i as u32);
        for i in 0..7 {
            let ge = 2 * i as u32 + 1;
            words[STATUS + i] = (i as u32) << 27 | ge << 16 | (i as u32) << 5 | MODES[i];
            words[GE + i] = ge;
        }
        words[TAG] = 1;
        words
    }

    #[test]
    fn a_state_comes_back() {
        let words = distinct();
        assert_eq!(export_state(&import_state(&words).unwrap()), words);
    }

    #[test]
    fn each_part_has_its_place() {
        let cpu = import_state(&distinct()).unwrap();
        assert_eq!((cpu.regs[0], cpu.regs[15]), (0x1000, 0x100F));
        assert_eq!((cpu.cpsr.mode, cpu.cpsr.ge), (Mode::User, 1));
        assert_eq!((cpu.spsr.mode, cpu.spsr.ge), (Mode::Fiq, 3));
        assert_eq!(cpu.banked_spsr[0].mode, Mode::Irq);
        assert_eq!(cpu.banked_spsr[1].mode, Mode::Supervisor);
        assert_eq!(cpu.banked_spsr[2].mode, Mode::Abort);
        assert_eq!(cpu.banked_spsr[3].mode, Mode::Undefined);
        assert_eq!(cpu.banked_spsr[4].mode, Mode::System);
        assert_eq!(cpu.banked_sp_lr[0], [0x1000 + 30, 0x1000 + 31]);
        assert_eq!(cpu.banked_sp_lr[5], [0x1000 + 40, 0x1000 + 41]);
        assert_eq!((cpu.fiq_r8_r12[0], cpu.fiq_r8_r12[4]), (0x102A, 0x102E));
        assert_eq!((cpu.user_r8_r12[0], cpu.user_r8_r12[4]), (0x102F, 0x1033));
        assert_eq!(cpu.exclusive_addr, Some(0x1000 + 53));
    }

    #[test]
    fn ge_comes_from_its_own_number() {
        let mut words = distinct();
        words[STATUS] ^= 0x000F_0000;
        assert_eq!(export_state(&import_state(&words).unwrap()), distinct());
    }

    #[test]
    fn a_ge_over_15_has_no_counterpart() {
        for i in GE..BANKS {
            for ge in [16, 255, 256, u32::MAX] {
                let mut words = distinct();
                words[i] = ge;
                assert!(import_state(&words).is_none());
            }
        }
    }

    #[test]
    fn without_a_tag_its_address_is_0() {
        let mut words = distinct();
        words[TAG] = 0;
        let back = export_state(&import_state(&words).unwrap());
        assert_eq!(back[TAG..], [0, 0]);
    }

    #[test]
    fn any_tag_but_0_is_a_tag() {
        let mut words = distinct();
        words[TAG] = u32::MAX;
        assert_eq!(export_state(&import_state(&words).unwrap()), distinct());
    }

    struct NoMemory;

    impl Bus for NoMemory {
        fn read8(&mut self, _: u32) -> u8 {
            unreachable!()
        }
        fn read16(&mut self, _: u32) -> u16 {
            unreachable!()
        }
        fn read32(&mut self, _: u32) -> u32 {
            unreachable!()
        }
        fn write8(&mut self, _: u32, _: u8) {
            unreachable!()
        }
        fn write16(&mut self, _: u32, _: u16) {
            unreachable!()
        }
        fn write32(&mut self, _: u32, _: u32) {
            unreachable!()
        }
    }

    fn executed(opcode: u32) -> Cpu {
        let mut cpu = Cpu::new();
        arm::execute(&mut cpu, &mut NoMemory, opcode);
        cpu
    }

    #[test]
    fn a_branch_is_told_from_a_raw_write() {
        let mut branch = executed(0xEA00_0000); // B
        assert!(take_branched(&mut branch));
        assert!(!take_branched(&mut branch));
        assert!(!take_branched(&mut executed(0xE16F_FF11))); // CLZ r15, r1
    }

    #[test]
    fn entering_a_coprocessor_is_recorded() {
        let entered = |opcode| {
            let cpu = executed(opcode);
            (cpu.vfp.entered, cpu.cp15.entered)
        };
        assert_eq!(entered(0xED90_0A00), (true, false)); // load, p10
        assert_eq!(entered(0xED90_0000), (true, false)); // load, p0
        assert_eq!(entered(0xEE00_0000), (true, false)); // data, p0
        assert_eq!(entered(0xEE00_0A10), (true, false)); // MCR, p10
        assert_eq!(entered(0xEE10_0B10), (true, false)); // MRC, p11
        assert_eq!(entered(0xEE00_0F10), (false, true)); // MCR, p15
        assert_eq!(entered(0xEE10_0F10), (false, true)); // MRC, p15
        assert_eq!(entered(0xEE00_0E10), (false, false)); // MCR, p14
        assert_eq!(entered(0xE1A0_0000), (false, false)); // MOV r0, r0
    }

    #[test]
    fn banks_are_numbered_as_document_01_says() {
        let order = [
            Mode::Fiq,
            Mode::Irq,
            Mode::Supervisor,
            Mode::Abort,
            Mode::Undefined,
        ];
        for (i, mode) in order.into_iter().enumerate() {
            let mut cpu = import_state(&distinct()).unwrap();
            cpu.switch_mode(mode);
            assert_eq!(cpu.regs[13], 0x1000 + 30 + 2 * i as u32);
            assert_eq!(export_state(&cpu)[17], distinct()[18 + i]);
        }
    }
}
