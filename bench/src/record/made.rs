//! The state and the memory that a seed stands for; crates/listing/src/make.rt makes the same.

use crate::compare::steps::EDGES;
use crate::state::{plain, State, CPSR, GES, MODES, PC, RECORDS, TAG, WORDS};

/// Seed 0 is the plain state at 0, and bytes that are the low bytes of their addresses.
pub fn made(seed: u32, length: usize) -> (State, Vec<u8>) {
    if seed == 0 {
        return (plain(0), (0..length).map(|i| i as u8).collect());
    }
    let mut generator = Generator(seed);
    let mut state = [0; WORDS];
    for (i, place) in state.iter_mut().enumerate() {
        let (kind, any) = (generator.next(), generator.next());
        *place = word(i, kind, any, length as u32);
    }
    let memory = (0..length).map(|_| (generator.next() >> 16) as u8);
    (state, memory.collect())
}

/// Marsaglia's xorshift32.
struct Generator(u32);

impl Generator {
    fn next(&mut self) -> u32 {
        let a = self.0 ^ (self.0 << 13);
        let b = a ^ (a >> 17);
        self.0 = b ^ (b << 5);
        self.0
    }
}

/// Word i of a state, of two random words.
fn word(i: usize, kind: u32, any: u32, length: u32) -> u32 {
    let mode = MODES[kind as usize % 7];
    match i {
        PC => any % (length + 8) / 4 * 4,
        CPSR => any / 64 * 64 + mode,
        _ if RECORDS.contains(&i) => any / 32 * 32 + mode,
        _ if GES.contains(&i) => any % 16,
        TAG => any % 2,
        _ => value(kind, any, length),
    }
}

/// Any word, an edge, a small number, or an address in or just past the memory.
fn value(kind: u32, any: u32, length: u32) -> u32 {
    match kind % 8 {
        0..=3 => any,
        4..=5 => EDGES[any as usize % 16],
        6 => any % 64,
        _ => any % (length + 8),
    }
}

#[cfg(test)]
mod tests {
    use super::*;
    use crate::state::canonical;

    #[test]
    fn the_generator_is_the_published_one() {
        let mut generator = Generator(1);
        let first = [0; 3].map(|_| generator.next());
        assert_eq!(first, [270_369, 67_634_689, 2_647_435_461]);
    }

    #[test]
    fn seeds_give_valid_states_in_every_mode() {
        let mut modes = Vec::new();
        for seed in 1..200 {
            let (state, memory) = made(seed * 0x9E37_79B9, 0x40);
            assert_eq!(memory.len(), 0x40);
            assert_eq!(state[PC] % 4, 0);
            assert_eq!(state[CPSR] & 0x20, 0);
            assert!(canonical(&state).is_some());
            modes.push(state[CPSR] & 0x1F);
        }
        assert!(MODES.iter().all(|mode| modes.contains(mode)));
    }

    #[test]
    fn seed_0_is_plain() {
        let (state, memory) = made(0, 0x102);
        assert_eq!(state, plain(0));
        assert_eq!(memory[0xFF..], [0xFF, 0, 1]);
    }
}
