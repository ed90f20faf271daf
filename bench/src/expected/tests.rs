use super::*;
use crate::state::{canonical, plain, CPSR, GES, SPSR, SUPERVISOR, T, TAG, TAG_ADDRESS};

const AT: u32 = 0x100;

/// Bytes equal to the low byte of their address, as docs/DIFFERENCES.md has them.
fn numbered() -> Vec<u8> {
    (0..0x200).map(|i| i as u8).collect()
}

fn with(words: &[(usize, u32)]) -> State {
    let mut state = plain(AT);
    for &(i, word) in words {
        state[i] = word;
    }
    state
}

/// The answer, and the words that changed.
fn told(opcode: u32, before: &State) -> (Answer, Vec<(usize, u32)>) {
    let mut state = *before;
    let answer = step_opcode(&mut state, &mut numbered(), opcode);
    let changed = (0..state.len()).filter(|&i| state[i] != before[i]);
    (answer, changed.map(|i| (i, state[i])).collect())
}

/// A step that answers 0 and changes these words; r15 goes on where it is not named.
fn does(opcode: u32, words: &[(usize, u32)], changes: &[(usize, u32)]) {
    let mut wanted = changes.to_vec();
    if changes.iter().all(|&(i, _)| i != PC) {
        wanted.push((PC, AT + 4));
    }
    wanted.sort();
    assert_eq!(told(opcode, &with(words)), (DONE, wanted), "{opcode:08X}");
}

fn answers(opcode: u32, words: &[(usize, u32)], number: u32, first: u32, second: u32) {
    let wanted = (Answer::new(number, first, second), Vec::new());
    assert_eq!(told(opcode, &with(words)), wanted, "{opcode:08X}");
}

/// The examples of docs/DIFFERENCES.md.
#[test]
fn departures_are_as_written() {
    // D1: the word at 0x100 is 03020100, even. The saved word goes to its bank.
    let supervisor = [(0, 0x100), (CPSR, SUPERVISOR), (SPSR, 0x30)];
    let user = [(PC, 0x0302_0100), (CPSR, 0x10), (SPSR + 3, 0x30)];
    does(0xE8D0_8000, &supervisor, &user);
    does(0xF101_0200, &[], &[]); // D2
    does(0xF103_0210, &[], &[(CPSR, 0x10)]);
    answers(0xF8CD_0513, &[], 2, AT, 0xF8CD_0513);
    answers(0xF890_0A00, &[], 2, AT, 0xF890_0A00);
    answers(0xE12F_FF20, &[], 2, AT, 0xE12F_FF20); // D3
    does(0xE100_0010, &[(0, 0x201)], &[(PC, 0x200), (CPSR, 0x3F)]); // D4
    does(
        0xE100_0030,
        &[(0, 0x201)],
        &[(PC, 0x200), (CPSR, 0x3F), (14, AT + 4)],
    );
    answers(0xE100_0070, &[], 3, AT, 0);
    does(0xE6C0_0010, &[(0, 5)], &[(0, 0), (CPSR, 0x0800_001F)]);
    does(0xE690_0010, &[(0, 5)], &[]);
    does(0xE6D0_0010, &[(0, 5)], &[]);
    does(
        0xE700_F290,
        &[(0, 0x0002_0003), (2, 0x0005_0007)],
        &[(0, 0x1F)],
    );
    does(
        0xE750_F251,
        &[(1, 0x0001_0000), (2, 0x0005_0000)],
        &[(0, 0xFFFF_FFFB)],
    );
    does(
        0xE750_F291,
        &[(1, 0x0001_0000), (2, 0x0005_0000)],
        &[(0, 5)],
    );
    does(
        0xE1C0_10D0,
        &[(0, 0x10)],
        &[(1, 0x1312_1110), (2, 0x1716_1514)],
    );
    does(
        0xE051_0392,
        &[(0, 1), (1, 2), (2, 3), (3, 4)],
        &[(0, 15), (1, 0)],
    );
    does(0xE130_0091, &[(0, 0x10), (1, 7)], &[(0, 0x1312_1110)]);
    let other_tag = [(2, 0x10), (TAG, 1), (TAG_ADDRESS, 0x20)]; // D5
    does(0xE182_0F91, &other_tag, &[(0, 1)]);
    let same_tag = [(0, 9), (2, 0x10), (TAG, 1), (TAG_ADDRESS, 0x10)];
    does(
        0xE1C2_0F91,
        &same_tag,
        &[(0, 0), (TAG, 0), (TAG_ADDRESS, 0)],
    );
    let wrapping = [(1, 1 << 31), (2, 1 << 31), (3, 0x7FFF_FFFF)]; // D6
    does(0xE750_3211, &wrapping, &[(0, 0xBFFF_FFFF)]);
    does(0xE591_0000, &[(1, 0x11)], &[(0, 0x1413_1211)]); // D7
    does(0xE161_F000, &[(0, 0x3F), (CPSR, SUPERVISOR)], &[]); // D8
    does(0xE128_F000, &[(0, 0x0100_0000)], &[]);
}

#[test]
fn r15_written_raw_loses_four() {
    does(0xE00F_0291, &[(1, 3), (2, 5)], &[(PC, 0x0B)]);
}

#[test]
fn supervisor_goes_on_and_clears_two_bits() {
    let (answer, changed) = told(0xEF00_0007, &with(&[(PC, 0x102)]));
    assert_eq!((answer, changed), (Answer::new(1, 7, 0), vec![(PC, 0x104)]));
}

#[test]
fn coprocessors_leave_all_as_before() {
    answers(0xEE10_0F10, &[(0, 5)], 4, 0xEE10_0F10, 0); // MRC p15 would write r0
    answers(0xEE10_FF10, &[], 4, 0xEE10_FF10, 0); // and here the flags
    answers(0xED90_0000, &[], 4, 0xED90_0000, 0);
    does(0xEE10_0E10, &[(0, 5)], &[]); // p14 does nothing
}

#[test]
fn an_access_outside_puts_all_back() {
    let state = with(&[(1, 0x1F8), (2, 0xFFFF_FFFF), (3, 0xFFFF_FFFF)]);
    let mut after = state;
    let mut memory = numbered();
    let answer = step_opcode(&mut after, &mut memory, 0xE8A1_001C); // STM r1!, {r2-r4}
    assert_eq!(answer, Answer::new(7, 0x200, 0));
    assert_eq!((after, memory), (state, numbered()));
    answers(0xE591_0000, &[(1, 0xFFFF_FFFE)], 7, 0xFFFF_FFFE, 0);
}

#[test]
fn a_failed_store_makes_no_access() {
    does(0xE181_0F92, &[(1, 0x1000), (TAG, 1)], &[(0, 1)]);
    let tagged = [(1, 0x1000), (TAG, 1), (TAG_ADDRESS, 0x1000)];
    answers(0xE181_0F92, &tagged, 7, 0x1000, 0);
}

#[test]
fn an_empty_list_moves_r15_and_64_bytes() {
    does(0xE8B0_0000, &[(0, 0x100)], &[(0, 0x140), (PC, 0x0302_0100)]);
}

/// All causes stand; each in turn is taken away.
#[test]
fn answers_come_in_order() {
    let mut state = with(&[(CPSR, T | 0x1F), (PC, 2), (GES.start, 16)]);
    let mut memory = vec![0; LONGEST + 1];
    assert_eq!(step(&mut state, &mut memory).number, 9);
    memory.truncate(LONGEST);
    assert_eq!(step(&mut state, &mut memory).number, 8);
    state[GES.start] = 15;
    assert_eq!(run(&mut state.clone(), &mut memory, 0).0.number, 10);
    assert_eq!(step(&mut state, &mut memory).number, 5);
    state[CPSR] &= !T;
    assert_eq!(step(&mut state, &mut memory), Answer::new(6, 2, 0));
    assert_eq!(step_opcode(&mut state, &mut memory, 0).number, 0);
}

#[test]
fn fetching_stops_at_the_end() {
    let mut memory = vec![0; 8];
    let mut answer = |at| step(&mut plain(at), &mut memory).number;
    assert_eq!([0, 4, 5, 8, 0xFFFF_FFFC].map(&mut answer), [0, 0, 6, 6, 6]);
}

#[test]
fn a_refused_state_is_not_even_packed_anew() {
    let mut state = with(&[(TAG_ADDRESS, 77), (CPSR, 0x0FFF_FC1F)]);
    let before = state;
    assert_eq!(step_opcode(&mut state, &mut [], 0xE12F_FF20).number, 2);
    assert_eq!(state, before);
    assert_eq!(step_opcode(&mut state, &mut [], 0xE1A0_0000).number, 0);
    assert_eq!(canonical(&state), Some(state));
}

/// Document 01, section 8.
#[test]
fn the_example_image_ends_as_written() {
    let image = [0xE3A0_0005u32, 0xE250_0005, 0xEF00_0007];
    let mut memory: Vec<u8> = image.iter().flat_map(|word| word.to_le_bytes()).collect();
    let mut state = plain(0);
    let ended = run(&mut state, &mut memory, 10_000);
    assert_eq!(ended, (Answer::new(1, 7, 0), 3));
    assert_eq!((state[PC], state[CPSR]), (0xC, 0x6000_001F));
}
