//! Random steps: whole states, memories of every length, addresses at every limit.

use super::Step;
use crate::expected::LONGEST;
use crate::opcodes::{self, bit, family, field, register, Family};
use crate::rng::Rng;
use crate::state::{self, State, GES, GE_MAX, MODES, PC, RECORDS, T, TAG, TAG_ADDRESS, WORDS};
use zakuro_cpu::arm::shifter::{shift_by_immediate, ShiftType};

/// Where products, sums and saturations turn. The recorded list has them by number: they stay in this order.
pub const EDGES: [u32; 16] = [
    0,
    1,
    2,
    0x1F,
    0x7F,
    0x80,
    0xFF,
    0x7FFF,
    0x8000,
    0xFFFF,
    0x7FFF_FFFF,
    0x8000_0000,
    0x8000_0001,
    0x8000_8000,
    0x7FFF_7FFF,
    0xFFFF_FFFF,
];

/// Random bytes that memories are cut from.
pub struct Source {
    pool: Vec<u8>,
}

impl Source {
    pub fn new() -> Source {
        let mut rng = Rng::new(0xB17E);
        let words = (0..LONGEST / 2).map(|_| rng.word());
        Source {
            pool: words.flat_map(u32::to_le_bytes).collect(),
        }
    }

    pub fn memory(&self, rng: &mut Rng, length: usize) -> Vec<u8> {
        let room = self.pool.len() - length;
        let start = rng.below(room as u32) as usize;
        self.pool[start..start + length].to_vec()
    }

    /// A step of a random opcode.
    pub fn step(&self, rng: &mut Rng) -> Step {
        let opcode = opcodes::random(rng);
        self.step_of(rng, opcode)
    }

    /// A step of this opcode in a random state, given or fetched.
    pub fn step_of(&self, rng: &mut Rng, opcode: u32) -> Step {
        let length = length(rng);
        let mut state = random_state(rng, length as u32);
        aim(&mut state, opcode, length as u32, rng);
        let mut step = Step {
            given: rng.flip().then_some(opcode),
            state,
            memory: self.memory(rng, length),
        };
        step.place(opcode);
        step
    }
}

/// Mostly short, some long, at times the longest, at times too long.
fn length(rng: &mut Rng) -> usize {
    let length = match rng.below(200) {
        0..=7 => rng.below(12),
        8..=79 => rng.below(80),
        80..=191 => rng.below(1025),
        192..=196 => rng.below(LONGEST as u32 + 1),
        197..=198 => LONGEST as u32,
        _ => LONGEST as u32 + 1,
    };
    length as usize
}

/// Inside mostly; else around the end, around 0, just below 2^32, anywhere.
fn address(rng: &mut Rng, length: u32) -> u32 {
    match rng.below(16) {
        0..=8 => rng.below(length.max(1)),
        9..=11 => length.wrapping_add(4).wrapping_sub(rng.below(24)),
        12 => rng.below(24),
        13 => 0u32.wrapping_sub(rng.below(72)),
        14 => length.wrapping_sub(rng.below(72)),
        _ => rng.word(),
    }
}

fn value(rng: &mut Rng, length: u32) -> u32 {
    match rng.below(8) {
        0..=2 => rng.word(),
        3..=4 => rng.pick(&EDGES),
        5 => rng.below(68),
        6 => rng.below(0x200),
        _ => address(rng, length),
    }
}

/// Any bits, also those that a packed word drops; T seldom, and mostly a mode that is one.
fn status_word(rng: &mut Rng) -> u32 {
    let word = rng.word();
    if rng.chance(8) {
        word
    } else {
        word & !0x1F | rng.pick(&MODES)
    }
}

fn current_word(rng: &mut Rng) -> u32 {
    let word = status_word(rng);
    if rng.chance(40) {
        word | T
    } else {
        word & !T
    }
}

/// Mostly the address of a whole word in memory.
fn program_counter(rng: &mut Rng, length: u32) -> u32 {
    match rng.below(32) {
        0 => address(rng, length),
        1 => address(rng, length) & !3,
        2 => (length & !3).wrapping_sub(4),
        _ => 4 * rng.below((length / 4).max(1)),
    }
}

fn random_state(rng: &mut Rng, length: u32) -> State {
    let mut state: State = [0; WORDS];
    state.fill_with(|| value(rng, length));
    for i in RECORDS {
        state[i] = status_word(rng);
    }
    for i in GES {
        state[i] = rng.below(GE_MAX + 1);
    }
    if rng.chance(60) {
        let i = GES.start + rng.below(GES.len() as u32) as usize;
        state[i] = rng.pick(&[16, 31, 255, 256, 0x1_0000, u32::MAX]);
    }
    state[state::CPSR] = current_word(rng);
    state[PC] = program_counter(rng, length);
    state[TAG] = rng.pick(&[0, 1, 1, u32::MAX]);
    state
}

/// Sets a register; r15 stays.
fn set(state: &mut State, register: usize, value: u32) {
    if register != PC {
        state[register] = value;
    }
}

/// Sets registers so that the opcode reaches what it is there to reach.
pub fn aim(state: &mut State, opcode: u32, length: u32, rng: &mut Rng) {
    let [rm, rs, rd, rn] = [0, 8, 12, 16].map(|low| register(opcode, low));
    match family(opcode) {
        Family::Single | Family::Extra | Family::Block => {
            let away = distance(state, opcode);
            set(state, rn, address(rng, length).wrapping_sub(away));
        }
        Family::Swap | Family::Exclusive => {
            set(state, rn, address(rng, length));
            if rng.flip() {
                state[TAG_ADDRESS] = state[rn];
            }
        }
        Family::StatusMove => set(state, rm, status_word(rng)),
        Family::BranchExchange => set(state, rm, address(rng, length)),
        Family::MultiplyDual if rng.flip() => {
            set(state, rm, rng.word());
            set(state, rs, rng.word());
            set(state, rd, rng.pick(&[0x7FFF_FFFF, 0x8000_0000]));
        }
        _ => {}
    }
}

/// From the base register to the lowest address, as far as the state tells it.
fn distance(state: &State, opcode: u32) -> u32 {
    let (pre, add) = (bit(opcode, 24), bit(opcode, 23));
    if family(opcode) == Family::Block {
        let span = match opcode & 0xFFFF {
            0 => 0x40,
            list => 4 * list.count_ones(),
        };
        let low = if add { 0 } else { 0u32.wrapping_sub(span) };
        return if pre == add { low.wrapping_add(4) } else { low };
    }
    match (pre, add) {
        (false, _) => 0,
        (true, true) => offset(state, opcode),
        (true, false) => offset(state, opcode).wrapping_neg(),
    }
}

fn offset(state: &State, opcode: u32) -> u32 {
    let index = state[register(opcode, 0)];
    match (family(opcode), bit(opcode, 25), bit(opcode, 22)) {
        (Family::Extra, _, true) => field(opcode, 11, 8) << 4 | field(opcode, 3, 0),
        (Family::Extra, _, false) => index,
        (_, true, _) => {
            let kind = ShiftType::from_bits(field(opcode, 6, 5));
            let carry = state[state::CPSR] & state::C != 0;
            shift_by_immediate(kind, index, field(opcode, 11, 7), carry).0
        }
        _ => field(opcode, 11, 0),
    }
}

#[cfg(test)]
mod tests {
    use super::super::Case;
    use super::*;
    use crate::state::{canonical, CPSR};

    fn steps(seed: u64, n: usize) -> Vec<Step> {
        let (mut rng, source) = (Rng::new(seed), Source::new());
        (0..n).map(|_| source.step(&mut rng)).collect()
    }

    fn met(steps: &[Step], what: impl Fn(&Step) -> bool) -> usize {
        steps.iter().filter(|step| what(step)).count()
    }

    #[test]
    fn a_seed_repeats_its_steps() {
        let told = |seed| -> Vec<String> { steps(seed, 20).iter().map(Step::to_string).collect() };
        assert_eq!(told(1), told(1));
        assert_ne!(told(1), told(2));
    }

    #[test]
    fn every_answer_is_met_often() {
        let mut counts = [0; 12];
        for step in steps(5, 30_000) {
            counts[step.wanted().answer.number as usize] += 1;
        }
        let (met, never) = counts.split_at(10);
        assert!(met.iter().all(|&count| count > 150), "{counts:?}");
        assert_eq!(never, [0, 0]);
    }

    #[test]
    fn every_mode_and_tag_is_met_often() {
        let steps = steps(6, 10_000);
        for mode in MODES {
            assert!(met(&steps, |step| step.state[CPSR] & 0x1F == mode) > 1000);
        }
        assert!(met(&steps, |step| step.state[TAG] == 0) > 2000);
        assert!(met(&steps, |step| canonical(&step.state).is_none()) > 50);
        assert!(met(&steps, |step| step.given.is_none()) > 4000);
    }

    #[test]
    fn every_length_is_met() {
        let steps = steps(7, 10_000);
        for length in (0..12).chain([LONGEST, LONGEST + 1]) {
            assert!(met(&steps, |step| step.memory.len() == length) > 10);
        }
    }

    #[test]
    fn transfers_meet_both_sides_of_the_end() {
        let (mut rng, source) = (Rng::new(8), Source::new());
        for opcode in [
            0xE591_0123,
            0xE731_0102,
            0xE1C1_00D8,
            0xE921_00FF,
            0xE8B1_00FF,
        ] {
            let numbers: Vec<u32> = (0..1000)
                .map(|_| source.step_of(&mut rng, opcode).wanted().answer.number)
                .collect();
            let count = |n| numbers.iter().filter(|&&number| number == n).count();
            assert!(count(0) > 200, "{opcode:08X} {}", count(0));
            assert!(count(7) > 200, "{opcode:08X} {}", count(7));
        }
    }
}
