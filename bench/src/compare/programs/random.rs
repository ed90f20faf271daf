//! Random programs: wild ones that soon stop, and tame ones that go round for long.

use super::{Program, MOST_STEPS};
use crate::compare::steps::Source;
use crate::expected::LONGEST;
use crate::opcodes;
use crate::rng::Rng;
use crate::state::{self, canonical, plain, State, BANKS, FIQ, MODES, OTHER, PC};

pub fn program(rng: &mut Rng, source: &Source) -> Program {
    if rng.chance(4) {
        wild(rng, source)
    } else {
        tame(rng, source)
    }
}

fn budget(rng: &mut Rng) -> u32 {
    match rng.below(8) {
        0 => rng.below(8),
        1 => MOST_STEPS,
        _ => rng.below(MOST_STEPS + 1),
    }
}

/// Any opcodes in any state that a run takes.
fn wild(rng: &mut Rng, source: &Source) -> Program {
    let first = source.step(rng);
    let mut state = canonical(&first.state).unwrap_or(plain(0));
    state[PC] &= 0xFC;
    let words = (0..64 + rng.below(64)).map(|_| opcodes::random(rng));
    let memory: Vec<u8> = words.flat_map(u32::to_le_bytes).collect();
    Program {
        state,
        memory,
        budget: budget(rng),
    }
}

/// Work registers; the others hold addresses and stay.
const WORK: u32 = 8;
/// r8 points into the data, r9 too, r13 to a stack.
const DATA: u32 = 0x400;
const STACK: u32 = 0x700;
const SHORTEST: u32 = 0x800;

/// Mostly the shortest; any length beyond changes nothing but the bytes to keep.
fn length(rng: &mut Rng) -> usize {
    let more = LONGEST as u32 + 1 - SHORTEST;
    let length = SHORTEST + if rng.chance(8) { rng.below(more) } else { 0 };
    length as usize
}

/// A loop over work registers and data that meets most families and goes round.
fn tame(rng: &mut Rng, source: &Source) -> Program {
    let body = 8 + rng.below(80);
    let mut words = vec![0xE1A0_0000; body as usize];
    for i in 0..body {
        words[i as usize] = tame_word(rng, body - i);
    }
    words.push(back(body));
    let length = length(rng);
    let mut memory = source.memory(rng, length);
    for (place, word) in memory.chunks_exact_mut(4).zip(&words) {
        place.copy_from_slice(&word.to_le_bytes());
    }
    Program {
        state: tame_state(rng),
        memory,
        budget: budget(rng),
    }
}

/// B from a word's place to the first one.
fn back(place: u32) -> u32 {
    0xEA00_0000 | 0u32.wrapping_sub(place + 2) & 0x00FF_FFFF
}

fn tame_state(rng: &mut Rng) -> State {
    let mut state = plain(0);
    for word in &mut state[..WORK as usize] {
        *word = rng.word();
    }
    let bases = [DATA, DATA + 0x100 + rng.below(4)];
    for first in [8, FIQ, OTHER] {
        state[first..first + 2].copy_from_slice(&bases);
    }
    state[13] = STACK;
    state[state::CPSR] = rng.word() & 0xF800_03C0 | rng.pick(&MODES);
    state[BANKS].fill(STACK);
    state
}

/// An opcode whose registers are all work registers; 0 stays where no field is.
fn on_work(rng: &mut Rng, bits: u32, fields: &[u32]) -> u32 {
    let registers = fields.iter().map(|low| rng.below(WORK) << low);
    registers.fold(bits, |opcode, register| opcode | register)
}

fn condition(rng: &mut Rng) -> u32 {
    if rng.chance(3) {
        rng.below(14) << 28
    } else {
        14 << 28
    }
}

/// One word of the loop, with `left` words to its end.
fn tame_word(rng: &mut Rng, left: u32) -> u32 {
    let word = match rng.below(16) {
        0..=4 => data(rng),
        5 => multiply(rng),
        6..=7 => media(rng),
        8..=9 => single(rng),
        10 => extra(rng),
        11 => block(rng),
        12 => skip(rng, left),
        13 => exclusive(rng),
        14 => status(rng),
        _ => stack(rng),
    };
    condition(rng) | word
}

/// Any operation but those in the compares' hole.
fn data(rng: &mut Rng) -> u32 {
    let kind = rng.below(16);
    let flags = if (8..12).contains(&kind) {
        1
    } else {
        rng.below(2)
    };
    let bits = kind << 21 | flags << 20;
    let shift = rng.below(0x80) << 5 & !0x10;
    match rng.below(3) {
        0 => on_work(rng, bits | 0x0200_0000, &[12, 16]) | rng.below(0x1000),
        1 => on_work(rng, bits | shift, &[0, 12, 16]),
        _ => on_work(rng, bits | shift & 0x60 | 0x10, &[0, 8, 12, 16]),
    }
}

fn multiply(rng: &mut Rng) -> u32 {
    let kinds = [
        0x0000_0090,
        0x0030_0090,
        0x0040_0090,
        0x0080_0090,
        0x00B0_0090,
        0x00C0_0090,
        0x00F0_0090,
        0x0100_0080,
        0x0120_00A0,
        0x0140_00C0,
        0x0160_00E0,
    ];
    let kind = rng.pick(&kinds);
    on_work(rng, kind, &[0, 8, 12, 16])
}

fn media(rng: &mut Rng) -> u32 {
    let parallel = rng.pick(&[1, 2, 3, 5, 6, 7]) << 20 | rng.pick(&[0, 1, 2, 3, 4, 7]) << 5;
    let kinds = [
        0x0600_0F10 | parallel,
        0x0600_0F10 | parallel,
        0x0680_0FB0,
        0x0680_0010 | rng.below(0x20) << 7,
        0x06A0_0010 | rng.below(0x20) << 7,
        0x06E0_0050 | rng.below(0x20) << 7,
        0x0680_0070 | rng.pick(&[0, 2, 3, 4, 6, 7]) << 20,
        0x06BF_0F30,
        0x06FF_0FB0,
        0x0700_0010 | rng.below(4) << 5,
        0x0740_0010 | rng.below(4) << 5,
        0x0750_0010 | rng.below(2) << 5,
        0x0780_0010,
        0x0100_0050 | rng.below(4) << 21,
    ];
    let kind = rng.pick(&kinds);
    on_work(rng, kind, &[0, 8, 12, 16])
}

/// LDR and STR of words and bytes around r8.
fn single(rng: &mut Rng) -> u32 {
    let bits = 0x0508_0000 | rng.below(2) << 23 | rng.below(2) << 22 | rng.below(2) << 20;
    on_work(rng, bits, &[12]) | rng.below(0x100)
}

/// The halfword and doubleword kind, around r9.
fn extra(rng: &mut Rng) -> u32 {
    let bits = 0x0149_0090 | rng.pick(&[1, 2, 3]) << 5 | rng.below(2) << 23;
    let opcode = bits | rng.below(2) << 20 | rng.below(WORK - 1) << 12;
    opcode | rng.below(4) << 8 | rng.below(16)
}

/// LDM and STM of work registers at r8 and r9, the base kept.
fn block(rng: &mut Rng) -> u32 {
    let directions = rng.below(4) << 23 | rng.below(2) << 20;
    0x0800_0000 | directions | (8 + rng.below(2)) << 16 | rng.below(1 << WORK) | 1
}

/// A branch over a few words, never past the end.
fn skip(rng: &mut Rng, left: u32) -> u32 {
    let over = rng.below(left.min(5));
    let link = rng.below(2) << 24;
    0x0A00_0000 | link | over.wrapping_sub(1) & 0x00FF_FFFF
}

/// Exclusives of every width at r9.
fn exclusive(rng: &mut Rng) -> u32 {
    let bits = 0x0189_0090 | rng.below(4) << 21;
    let registers = rng.below(WORK - 1) << 12 | 0xF00;
    if rng.flip() {
        bits | 1 << 20 | registers | 0xF
    } else {
        bits | registers | rng.below(WORK - 1)
    }
}

/// MRS, MSR of flags, GE and E, and ways into other modes and back.
fn status(rng: &mut Rng) -> u32 {
    let (saved, fields) = (rng.below(2) << 22, rng.below(8) << 17);
    match rng.below(8) {
        0..=2 => on_work(rng, 0x010F_0000 | saved, &[12]),
        3..=4 => on_work(rng, 0x0120_F000 | fields, &[0]),
        5 => 0x0328_F000 | rng.below(0x1000),
        6 => 0xF102_0000 | rng.pick(&MODES[1..]),
        _ => 0x025F_F004, // SUBS pc, pc, #4: on to the next word, by the saved record
    }
}

/// STR and LDR at the stack, or CLZ.
fn stack(rng: &mut Rng) -> u32 {
    let kind = rng.pick(&[0x058D_0000, 0x059D_0004, 0x016F_0F10]);
    on_work(rng, kind, &[12])
}

#[cfg(test)]
mod tests {
    use super::super::super::Case;
    use super::*;

    #[test]
    fn tame_programs_go_round() {
        let (mut rng, source) = (Rng::new(1), Source::new());
        let long = (0..200).filter(|_| {
            let mut program = tame(&mut rng, &source);
            program.budget = MOST_STEPS;
            program.wanted().count == MOST_STEPS
        });
        assert!(long.count() > 120);
    }

    #[test]
    fn wild_programs_stop_in_many_ways() {
        let (mut rng, source) = (Rng::new(2), Source::new());
        let mut met = [0; 12];
        for _ in 0..2000 {
            met[wild(&mut rng, &source).wanted().answer.number as usize] += 1;
        }
        for answer in [1, 2, 3, 4, 5, 6, 7, 10] {
            assert!(met[answer] > 10, "{met:?}");
        }
    }
}
