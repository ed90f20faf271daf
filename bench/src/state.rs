//! The 54 words of a state, and what each of them is.

pub use zakuro_cpu::thumb::packed::{export_state, import_state, Packed as State, WORDS};

pub const BYTES: usize = 4 * WORDS;

pub const PC: usize = 15;
pub const CPSR: usize = 16;
pub const SPSR: usize = 17;
/// The seven status words, and after them the seven GE numbers.
pub const RECORDS: std::ops::Range<usize> = 16..23;
pub const GES: std::ops::Range<usize> = 23..30;
/// r13 and r14 of each bank, then r8 to r12 of FIQ and of the rest.
pub const BANKS: std::ops::Range<usize> = 30..42;
pub const FIQ: usize = 42;
pub const OTHER: usize = 47;
pub const TAG: usize = 52;
pub const TAG_ADDRESS: usize = 53;

pub const N: u32 = 1 << 31;
pub const Z: u32 = 1 << 30;
pub const C: u32 = 1 << 29;
pub const V: u32 = 1 << 28;
pub const E: u32 = 1 << 9;
pub const T: u32 = 1 << 5;

pub const SYSTEM: u32 = 0x1F;
pub const SUPERVISOR: u32 = 0x13;
pub const MODES: [u32; 7] = [0x10, 0x11, 0x12, 0x13, 0x17, 0x1B, SYSTEM];

pub const GE_MAX: u32 = 15;

/// System mode, nothing kept, no tag, and r15 as given.
pub fn plain(at: u32) -> State {
    let mut state = [0; WORDS];
    state[RECORDS].fill(SYSTEM);
    state[PC] = at;
    state
}

/// The state as the exports give it back; `None` where a GE exceeds 15.
pub fn canonical(state: &State) -> Option<State> {
    import_state(state).map(|cpu| export_state(&cpu))
}

pub fn to_bytes(state: &State) -> [u8; BYTES] {
    let mut bytes = [0; BYTES];
    for (place, word) in bytes.chunks_exact_mut(4).zip(state) {
        place.copy_from_slice(&word.to_le_bytes());
    }
    bytes
}

pub fn from_bytes(bytes: &[u8]) -> State {
    std::array::from_fn(|i| word_at(bytes, 4 * i))
}

/// The word at a place, which must be inside.
pub fn word_at(bytes: &[u8], at: usize) -> u32 {
    u32::from_le_bytes(bytes[at..at + 4].try_into().expect("four bytes"))
}

const RECORD_NAMES: [&str; 7] = ["cpsr", "spsr", "fiq", "irq", "svc", "abt", "und"];
const BANK_NAMES: [&str; 6] = ["fiq", "irq", "svc", "abt", "und", "usr"];

pub fn name(word: usize) -> String {
    let bank = |i: usize| format!("{}.r{}", BANK_NAMES[i / 2], 13 + i % 2);
    match word {
        0..=15 => format!("r{word:02}"),
        16..=17 => RECORD_NAMES[word - 16].to_string(),
        18..=22 => format!("{}.saved", RECORD_NAMES[word - 16]),
        23..=29 => format!("{}.ge", RECORD_NAMES[word - 23]),
        30..=41 => bank(word - 30),
        42..=46 => format!("fiq.r{}", word - 34),
        47..=51 => format!("usr.r{}", word - 39),
        TAG => "tag".to_string(),
        _ => "tag.at".to_string(),
    }
}

#[cfg(test)]
mod tests {
    use super::*;

    #[test]
    fn bytes_come_back() {
        let state: State = std::array::from_fn(|i| 0x0102_0304 * i as u32);
        assert_eq!(from_bytes(&to_bytes(&state)), state);
        assert_eq!(to_bytes(&state)[4..8], [4, 3, 2, 1]);
    }

    #[test]
    fn every_word_has_its_own_name() {
        let mut names: Vec<String> = (0..WORDS).map(name).collect();
        assert_eq!(names[46], "fiq.r12");
        assert_eq!(names[51], "usr.r12");
        assert_eq!(names[41], "usr.r14");
        names.sort();
        names.dedup();
        assert_eq!(names.len(), WORDS);
    }

    #[test]
    fn a_plain_state_is_canonical() {
        assert_eq!(canonical(&plain(0x100)), Some(plain(0x100)));
    }
}
