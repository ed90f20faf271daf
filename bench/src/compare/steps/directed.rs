//! Steps at every limit that document 01 names; always the same.

use super::lengths;
use super::{Source, Step};
use crate::compare::Checker;
use crate::expected::LONGEST;
use crate::opcodes;
use crate::rng::Rng;
use crate::state::{
    plain, State, C, CPSR, E, GES, MODES, N, PC, SPSR, SUPERVISOR, T, TAG, TAG_ADDRESS, V, Z,
};

const ALWAYS: u32 = 0xE000_0000;
/// Where a step with a given opcode stands.
const AT: u32 = 0x100;

type Outcome = Result<(), String>;

pub fn directed(checker: &mut Checker, source: &Source) -> Outcome {
    for case in lengths::all() {
        checker.check(&case)?;
    }
    let topics = [
        order, fetches, conditions, sums, shifts, widths, limits, exclusives, blocks, modes,
        departures,
    ];
    for topic in topics {
        topic(checker)?;
    }
    decode(checker, source)?;
    r15_fields(checker, source)
}

/// A memory whose bytes are the low bytes of their addresses.
fn numbered(length: usize) -> Vec<u8> {
    (0..length).map(|i| i as u8).collect()
}

fn given(opcode: u32, state: State, length: usize) -> Step {
    Step {
        given: Some(opcode),
        state,
        memory: numbered(length),
    }
}

/// A plain state at `AT` with these words set.
fn with(words: &[(usize, u32)]) -> State {
    let mut state = plain(AT);
    for &(i, word) in words {
        state[i] = word;
    }
    state
}

/// Answers 9, 8, 5, 6 and 2 in all mixtures, and every GE that earns 8.
fn order(checker: &mut Checker) -> Outcome {
    for causes in 0..32u32 {
        let on = |k: u32, yes: u32, no: u32| if causes >> k & 1 != 0 { yes } else { no };
        let mut state = with(&[
            (GES.start, on(1, 16, 15)),
            (CPSR, on(2, T, 0) | 0x1F),
            (PC, on(3, 2, 0)),
        ]);
        state[GES.start + 6] = on(1, 255, 0);
        let length = on(0, LONGEST as u32 + 1, LONGEST as u32) as usize;
        let mut memory = vec![0; length];
        memory[..4].copy_from_slice(&on(4, 0xE12F_FF20, 0xE1A0_0000).to_le_bytes());
        for given in [None, Some(on(4, 0xE12F_FF20, 0xE1A0_0000))] {
            checker.check_step(Step {
                given,
                state,
                memory: memory.clone(),
            })?;
        }
    }
    for record in GES {
        for ge in [0, 15, 16, 17, 31, 255, 256, 271, 0x1_0000, u32::MAX] {
            checker.check_step(given(0xE1A0_0000, with(&[(record, ge)]), 8))?;
        }
    }
    Ok(())
}

/// A on every byte of short memories, around the end of long ones, and at the top.
fn fetches(checker: &mut Checker) -> Outcome {
    for length in (0..=17).chain([LONGEST - 1, LONGEST, LONGEST + 1]) {
        let end = length as u32;
        let ats = (0..=9).chain(end.saturating_sub(9)..=end + 9);
        for at in ats.chain(0xFFFF_FFF0..=0xFFFF_FFFF) {
            checker.check_step(Step {
                given: None,
                state: plain(at),
                memory: numbered(length),
            })?;
        }
    }
    Ok(())
}

/// Every condition under every N Z C V.
fn conditions(checker: &mut Checker) -> Outcome {
    for flags in 0..16 {
        for condition in 0..16 {
            for rest in [0x03A0_0005, 0x0A00_0010, 0x0F00_0007, 0x0591_0000] {
                let state = with(&[(CPSR, flags << 28 | 0x1F)]);
                checker.check_step(given(condition << 28 | rest, state, 16))?;
            }
        }
    }
    Ok(())
}

const EDGES: [u32; 9] = [
    0,
    1,
    2,
    0x7FFF_FFFF,
    0x8000_0000,
    0x8000_0001,
    0xFFFF_FFFE,
    0xFFFF_FFFF,
    0x8000_8000,
];

/// Two-operand opcodes on r1 and r2, with a third value in r3.
fn on_edges(checker: &mut Checker, opcode: u32, flags: u32) -> Outcome {
    for a in EDGES {
        for b in EDGES {
            for c in [0, 0x7FFF_FFFF, 0x8000_0000, 0xFFFF_FFFF] {
                let words = [(0, c), (1, a), (2, b), (3, c), (CPSR, flags | 0x1F)];
                let mut state = with(&words);
                state[GES.start] = a & 15;
                checker.check_step(given(opcode, state, 0))?;
            }
        }
    }
    Ok(())
}

/// Every data operation, multiply and media operation on edge values.
fn sums(checker: &mut Checker) -> Outcome {
    for kind in 0..16 {
        for flags in [0, C, V, C | V, N | Z] {
            let opcode = ALWAYS | kind << 21 | 1 << 16 | 2;
            on_edges(checker, opcode, flags)?;
            on_edges(checker, opcode | 1 << 20, flags)?;
        }
    }
    for kind in 0..16 {
        let opcode = ALWAYS | kind << 20 | 0x0000_3291;
        on_edges(checker, opcode, 0)?;
    }
    for kind in 0..4 {
        on_edges(checker, 0xE101_0052 | kind << 21, 0)?;
        for halves in [0x80, 0xA0, 0xC0, 0xE0] {
            on_edges(checker, 0xE100_3201 | kind << 21 | halves, 0)?;
        }
    }
    for op1 in 0..32 {
        for op2 in 0..8 {
            let bits = op1 << 20 | op2 << 5;
            on_edges(checker, 0xE601_0F12 | bits, 0)?;
            on_edges(checker, 0xE600_3211 | bits, 0)?;
        }
    }
    Ok(())
}

/// Operands shifted by every amount, in an opcode and by a register.
fn shifts(checker: &mut Checker) -> Outcome {
    for value in EDGES {
        for kind in 0..4 {
            for carry in [0, C] {
                for amount in 0..32 {
                    let state = with(&[(2, value), (CPSR, carry | 0x1F)]);
                    let opcode = 0xE1B0_0002 | amount << 7 | kind << 5;
                    checker.check_step(given(opcode, state, 0))?;
                }
                for amount in (0..68).chain([127, 128, 254, 255, 256, 257, 0xFFFF_FF00]) {
                    let state = with(&[(2, value), (3, amount), (CPSR, carry | 0x1F)]);
                    let opcode = 0xE1B0_0312 | kind << 5;
                    checker.check_step(given(opcode, state, 0))?;
                }
            }
        }
    }
    Ok(())
}

/// Every width of a saturation, every shift and rotation in the media space.
fn widths(checker: &mut Checker) -> Outcome {
    let bases = [0xE6A0_0012, 0xE6E0_0012, 0xE6A0_0F32, 0xE6E0_0F32];
    for value in EDGES.into_iter().chain([0x7F, 0x80, 0xFF80, 0x1234_5678]) {
        let state = with(&[(1, 0x8765_4321), (2, value)]);
        for field in 0..32 {
            for base in bases {
                checker.check_step(given(base | field << 16, state, 0))?;
                checker.check_step(given(base | field << 7, state, 0))?;
                checker.check_step(given(base | field << 7 | 0x40, state, 0))?;
            }
            checker.check_step(given(0xE681_0012 | field << 7, state, 0))?;
            checker.check_step(given(0xE681_0052 | field << 7, state, 0))?;
        }
        for op1 in 0..8 {
            for rotation in 0..4 {
                let opcode = 0xE681_0072 | op1 << 20 | rotation << 10;
                checker.check_step(given(opcode, state, 0))?;
                checker.check_step(given(opcode | 15 << 16, state, 0))?;
            }
        }
    }
    Ok(())
}

/// Transfers of r2 (and r3) at r1, by size.
const TRANSFERS: [(u32, u32); 24] = [
    (0xE5D1_2000, 1),  // LDRB
    (0xE5C1_2000, 1),  // STRB
    (0xE1D1_20B0, 2),  // LDRH
    (0xE1C1_20B0, 2),  // STRH
    (0xE1D1_20D0, 1),  // LDRSB
    (0xE1D1_20F0, 2),  // LDRSH
    (0xE591_2000, 4),  // LDR
    (0xE581_2000, 4),  // STR
    (0xE4B1_2004, 4),  // LDR, post-indexed
    (0xE521_2004, 4),  // STR, pre-indexed down
    (0xE1C1_20D0, 8),  // LDRD
    (0xE1C1_20F0, 8),  // STRD
    (0xE101_2093, 4),  // SWP
    (0xE141_2093, 1),  // SWPB
    (0xE191_2F9F, 4),  // LDREX
    (0xE1D1_2F9F, 1),  // LDREXB
    (0xE1F1_2F9F, 2),  // LDREXH
    (0xE1B1_2F9F, 8),  // LDREXD
    (0xE181_0F92, 4),  // STREX
    (0xE1C1_0F92, 1),  // STREXB
    (0xE1E1_0F92, 2),  // STREXH
    (0xE1A1_0F92, 8),  // STREXD
    (0xE8B1_FFFC, 56), // LDM
    (0xE8A1_FFFC, 56), // STM
];

/// Each transfer a few bytes around each end of memories of each short length.
fn limits(checker: &mut Checker) -> Outcome {
    let lengths = (0..=10).chain([55, 56, 57, 64, LONGEST - 1, LONGEST, LONGEST + 1]);
    for length in lengths {
        for (opcode, size) in TRANSFERS {
            let end = length as u32;
            let near = end.saturating_sub(size + 5)..=end + 1;
            let top = 0u32.wrapping_sub(size + 2)..=u32::MAX;
            for base in (0..=5).chain(near).chain(top) {
                for tag in [base, base.wrapping_add(1)] {
                    let state = with(&[
                        (1, base),
                        (2, 0x8182_8384),
                        (3, 0x9192_9394),
                        (TAG, 1),
                        (TAG_ADDRESS, tag),
                    ]);
                    checker.check_step(given(opcode, state, length))?;
                }
            }
        }
    }
    Ok(())
}

/// Every exclusive of every width and register, the tag absent, equal and other.
fn exclusives(checker: &mut Checker) -> Outcome {
    for bits in 0..8 {
        for registers in 0..0x1000 {
            let opcode = 0xE180_0090 | bits << 20 | 1 << 16;
            let opcode = opcode | (registers & 0xFF0) << 8 | registers & 0xF;
            for (tag, address) in [(0, 16), (1, 16), (1, 17), (u32::MAX, 16)] {
                let words = [(1, 16), (2, 7), (TAG, tag), (TAG_ADDRESS, address)];
                checker.check_step(given(opcode, with(&words), 64))?;
            }
        }
    }
    Ok(())
}

/// Lists that a block transfer with this base must meet.
fn lists(base: u32) -> Vec<u32> {
    let single = (0..16).map(|i| 1 << i);
    let with_base = [1 << base, 1 << base | 1, 1 << base | 0x8000];
    let common = [0, 0xFFFF, 0x7FFF, 0xC000, 0x00FF, 0x7F00, 0x9F00, 0x6000];
    single.chain(with_base).chain(common).collect()
}

/// Every block transfer of such a list, from every mode.
fn blocks(checker: &mut Checker) -> Outcome {
    for bits in 0..32 {
        for base in 0..16 {
            for list in lists(base) {
                let opcode = 0xE800_0000 | bits << 20 | base << 16 | list;
                for mode in MODES {
                    let saved = MODES[(base % 7) as usize] | (list & 1) << 5;
                    checker.check_step(given(opcode, banked(mode, saved, base), 0x200))?;
                }
            }
        }
    }
    Ok(())
}

/// Every bank and register different, and the base inside.
fn banked(mode: u32, saved: u32, base: u32) -> State {
    let mut state: State = std::array::from_fn(|i| 0x0101_0100 * i as u32 + 0x80);
    let fresh = plain(AT);
    state[CPSR..=GES.end].copy_from_slice(&fresh[CPSR..=GES.end]);
    (state[CPSR], state[SPSR], state[PC]) = (mode, saved, AT);
    (state[TAG], state[TAG_ADDRESS]) = (0, 0);
    if base != 15 {
        state[base as usize] = 0x100;
    }
    state
}

/// Each mode into each mode number: MSR, CPS, and the returns with S.
fn modes(checker: &mut Checker) -> Outcome {
    for from in MODES {
        for to in 0..32 {
            for bits in [0, T, 0xF800_03C0, 0xFFFF_FFE0] {
                let word = bits | to;
                let mut state = banked(from, word, 3);
                state[GES.start + 1] = word >> 16 & 15;
                (state[2], state[14]) = (word, 0x103);
                let opcodes = [
                    0xE121_F002, // MSR CPSR_c
                    0xE12F_F002, // MSR CPSR, all fields
                    0xE169_F002, // MSR SPSR, flags and control
                    0xE321_F000 | word & 0xFF,
                    0xF102_0000 | to,
                    0xF10E_01C0 | to,
                    0xF10A_0080 | to,
                    0xE1B0_F00E, // MOVS pc, lr
                    0xE25E_F004, // SUBS pc, lr, #4
                    0xE11E_F00E, // TST with 15 as Rd
                    0xE8FD_8000, // LDM r13!, {pc}^
                    0xE8D3_FFFF, // LDM r3, all of them^
                    0xE10F_0000, // MRS
                    0xE14F_0000, // MRS of the saved word
                ];
                for opcode in opcodes {
                    checker.check_step(given(opcode, state, 0x200))?;
                }
            }
        }
    }
    Ok(())
}

fn departures(checker: &mut Checker) -> Outcome {
    for example in examples() {
        checker.check_step(example)?;
    }
    Ok(())
}

/// The examples of docs/DIFFERENCES.md and of document 01, section 8.
pub fn examples() -> Vec<Step> {
    let r0 = |word| with(&[(0, word)]);
    let svc = |word: u32, saved: u32| with(&[(0, word), (CPSR, SUPERVISOR), (SPSR, saved)]);
    let cases = [
        (0xE8D0_8000, svc(0x100, 0x30)),
        (0xF101_0200, r0(0)),
        (0xF103_0210, r0(0)),
        (0xF8CD_0513, r0(0)),
        (0xF890_0A00, r0(0)),
        (0xE12F_FF20, r0(0x200)),
        (0xE100_0010, r0(0x201)),
        (0xE100_0030, r0(0x201)),
        (0xE100_0070, r0(0)),
        (0xE6C0_0010, r0(5)),
        (0xE690_0010, r0(5)),
        (0xE6D0_0010, r0(5)),
        (0xE700_F290, with(&[(0, 0x0002_0003), (2, 0x0005_0007)])),
        (0xE750_F251, with(&[(1, 0x0001_0000), (2, 0x0005_0000)])),
        (0xE750_F291, with(&[(1, 0x0001_0000), (2, 0x0005_0000)])),
        (0xE1C0_10D0, r0(0x10)),
        (0xE051_0392, with(&[(0, 1), (1, 2), (2, 3), (3, 4)])),
        (0xE130_0091, with(&[(0, 0x10), (1, 7)])),
        (
            0xE182_0F91,
            with(&[(2, 0x10), (TAG, 1), (TAG_ADDRESS, 0x20)]),
        ),
        (
            0xE1C2_0F91,
            with(&[(2, 0x10), (TAG, 1), (TAG_ADDRESS, 0x10)]),
        ),
        (
            0xE750_3211,
            with(&[(1, 1 << 31), (2, 1 << 31), (3, 0x7FFF_FFFF)]),
        ),
        (0xE591_0000, with(&[(1, 0x10), (CPSR, E | 0x1F)])),
        (0xE591_0000, with(&[(1, 0x11)])),
        (0xE161_F000, svc(0x3F, 0x1F)),
        (0xE128_F000, r0(0x0100_0000)),
        (0xEF00_0007, r0(0)),
        (0xE00F_0291, with(&[(1, 3), (2, 5)])),
        (0xE8B0_0000, r0(0x100)),
    ];
    let steps = cases.map(|(opcode, state)| given(opcode, state, 0x200));
    steps.into()
}

const FILLS: u32 = 4;

/// Every pair of bits 27-20 and 7-4, in condition 14, 15 and one that may fail.
fn decode(checker: &mut Checker, source: &Source) -> Outcome {
    let mut rng = Rng::new(0xDEC0DE);
    for entry in 0..0x1000u32 {
        for condition in [14, 15, 0] {
            let fixed = condition << 28 | (entry >> 4) << 20 | (entry & 15) << 4;
            for _ in 0..FILLS {
                let opcode = fixed | rng.word() & 0x000F_FF0F;
                checker.check_step(source.step_of(&mut rng, opcode))?;
            }
        }
    }
    Ok(())
}

/// r15 in each register field of each kind of opcode.
fn r15_fields(checker: &mut Checker, source: &Source) -> Outcome {
    let mut rng = Rng::new(15);
    for opcode in opcodes::with_r15(&mut rng, 40) {
        checker.check_step(source.step_of(&mut rng, opcode))?;
    }
    Ok(())
}
