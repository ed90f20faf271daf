use super::*;
use crate::minimise::smallest;
use crate::rng::Rng;
use crate::state::{plain, CPSR, WORDS};

fn least(step: Step, fails: impl Fn(&Step) -> bool) -> Step {
    assert!(fails(&step));
    smallest(step, Step::smaller, fails)
}

/// The first random step of which this holds.
fn random_with(what: impl Fn(&Step) -> bool) -> Step {
    let (mut rng, source) = (Rng::new(11), Source::new());
    std::iter::repeat_with(|| source.step(&mut rng))
        .find(|step| what(step))
        .unwrap()
}

/// As if ADD lost its result in Supervisor mode.
#[test]
fn a_fault_of_one_opcode_is_made_small() {
    let fails = |step: &Step| {
        let adds = step
            .opcode()
            .is_some_and(|op| op & 0x0DE0_0000 == 0x0080_0000);
        adds && step.state[CPSR] & 0x1F == 0x13 && step.wanted().answer.number == 0
    };
    let found = least(random_with(fails), fails);
    assert_eq!(found.given, Some(0xE080_0000));
    assert!(found.memory.is_empty());
    assert_eq!(found.state[CPSR], 0x13);
    let rest = |state: &State| {
        (0..WORDS)
            .filter(|&i| i != CPSR)
            .all(|i| state[i] == plain(0)[i])
    };
    assert!(rest(&found.state));
}

/// As if one word could not be loaded: what surrounds it goes, its place stays.
#[test]
fn a_fault_of_memory_keeps_what_it_needs() {
    let fails = |step: &Step| {
        let loads = step
            .opcode()
            .is_some_and(|op| op & 0x0F50_0000 == 0x0510_0000);
        let left = step.wanted();
        loads && left.answer.number == 0 && left.state[0] == 0x1234
    };
    let mut step = Step {
        given: None,
        state: plain(0),
        memory: vec![0xFF; 64],
    };
    step.state[1] = 24;
    step.place(0xE591_0000);
    step.memory[24..28].copy_from_slice(&0x1234u32.to_le_bytes());
    let found = least(step, fails);
    assert_eq!(found.given, Some(0xE511_0000));
    assert_eq!(found.memory.len(), 28);
    assert_eq!(
        shown_memory(&found.memory).collect::<Vec<_>>(),
        [(24, 0x1234)]
    );
    assert_eq!((found.state[1], found.state[2]), (24, 0));
}

#[test]
fn a_fault_of_fetching_stays_a_fetch() {
    let fails = |step: &Step| step.given.is_none() && step.wanted().answer.number == 1;
    let found = least(random_with(fails), fails);
    assert_eq!(found.opcode(), Some(0xEF00_0000));
    assert_eq!(found.memory, 0xEF00_0000u32.to_le_bytes());
    assert_eq!(found.state, plain(0));
}

#[test]
fn only_fields_that_differ_are_marked() {
    let mut state = plain(0x100);
    (state[1], state[2]) = (1, 2);
    let step = Step {
        given: Some(0xE081_0002),
        state,
        memory: vec![0; 4],
    };
    let wanted = step.wanted();
    let mut ours = wanted.clone();
    ours.state[0] = 4;
    ours.memory[2] = 9;
    let text = step.contrast(&ours, &wanted);
    let marked: Vec<&str> = text.lines().filter(|line| line.ends_with("<--")).collect();
    assert_eq!(marked.len(), 2);
    assert!(marked[0].contains("r00") && marked[0].contains("00000004"));
    assert!(marked[1].contains("[00002]"));
    assert!(text.contains("r15") && !text.contains("r01"));
}

#[test]
fn an_input_is_shown_by_name() {
    let mut state = plain(0x100);
    state[1] = 7;
    let step = Step {
        given: Some(0xE081_0002),
        state,
        memory: vec![0, 0, 0, 0, 1, 2],
    };
    let text = step.to_string();
    assert!(text.contains("opcode E0810002") && text.contains("r01 00000007"));
    assert!(text.contains("[00004] 00000201") && text.contains("memory of 6 bytes"));
}
