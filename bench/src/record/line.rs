//! A step and what it must leave, as a line of the list.

use super::made::made;
use crate::compare::steps::{departures, Step};
use crate::replies::Left;
use crate::state::{canonical, word_at, State};

/// A step whose state and memory come from a seed, but for what a case sets on purpose.
pub struct Seeded {
    pub seed: u32,
    pub step: Step,
}

impl Seeded {
    /// `step 1A2B 40 E0910002 1=7FFFFFFF > 0 0 0 0=80000000 15=24 ; D7`
    pub fn line(&self, left: &Left) -> String {
        let step = &self.step;
        let (state, memory) = made(self.seed, step.memory.len());
        let kind = if step.given.is_some() {
            "step"
        } else {
            "fetch"
        };
        let from = if by_rule(left) { "-rule" } else { "" };
        let given = step.given.unwrap_or(0);
        let answer = left.answer;
        let length = memory.len();
        let parts = [
            format!("{kind}{from} {:X} {length:X} {given:X}", self.seed),
            words(&state, &step.state),
            bytes(&memory, &step.memory),
            format!(
                " > {} {:X} {:X}",
                answer.number, answer.first, answer.second
            ),
            changes(&step.state, &left.state),
            bytes(&step.memory, &left.memory),
            " ;".to_string(),
            told_departures(step, left),
        ];
        parts.concat()
    }
}

/// The answers that the Rust does not have.
pub fn by_rule(left: &Left) -> bool {
    matches!(left.answer.number, 5 | 6 | 8 | 9)
}

/// The words in which the second state differs.
fn words(from: &State, to: &State) -> String {
    let differing = (0..from.len()).filter(|&i| from[i] != to[i]);
    differing.map(|i| format!(" {i}={:X}", to[i])).collect()
}

/// What a step changed; the state before counts as the machine reads it.
fn changes(before: &State, after: &State) -> String {
    match (canonical(before), canonical(after)) {
        (Some(before), Some(after)) => words(&before, &after),
        _ => String::new(),
    }
}

/// The bytes in which the second memory differs, four at a time where all four do.
fn bytes(from: &[u8], to: &[u8]) -> String {
    let differs = |i: usize| from.get(i) != to.get(i);
    let mut told = String::new();
    let mut i = 0;
    while i < to.len() {
        if (i..i + 4).all(differs) {
            told += &format!(" *{i:X}={:X}", word_at(to, i));
            i += 4;
        } else {
            if differs(i) {
                told += &format!(" @{i:X}={:X}", to[i]);
            }
            i += 1;
        }
    }
    told
}

fn told_departures(step: &Step, left: &Left) -> String {
    let met = departures::met(step, left);
    let numbers = (1..).zip(met).filter(|&(_, met)| met);
    numbers.map(|(n, _)| format!(" D{n}")).collect()
}

#[cfg(test)]
mod tests {
    use super::*;
    use crate::compare::Case;

    fn line(given: Option<u32>, length: usize, set: &[(usize, u32)]) -> String {
        let (mut state, memory) = made(0, length);
        for &(i, word) in set {
            state[i] = word;
        }
        let step = Step {
            given,
            state,
            memory,
        };
        let left = step.wanted();
        Seeded { seed: 0, step }.line(&left)
    }

    #[test]
    fn only_what_is_set_and_what_changes_is_told() {
        let add = line(Some(0xE091_0002), 8, &[(1, 0x7FFF_FFFF), (2, 1)]);
        assert_eq!(
            add,
            "step 0 8 E0910002 1=7FFFFFFF 2=1 > 0 0 0 0=80000000 15=4 16=9000001F ;"
        );
    }

    #[test]
    fn stores_are_told_by_words_and_bytes() {
        let word = line(Some(0xE581_0000), 16, &[(0, 0x0102_0304), (1, 8)]);
        assert_eq!(
            word,
            "step 0 10 E5810000 0=1020304 1=8 > 0 0 0 15=4 *8=1020304 ;"
        );
        let half = line(Some(0xE1C1_00B0), 16, &[(0, 0x0102_0304), (1, 9)]);
        assert_eq!(
            half,
            "step 0 10 E1C100B0 0=1020304 1=9 > 0 0 0 15=4 @9=4 @A=3 ; D7"
        );
    }

    #[test]
    fn rules_and_departures_are_marked() {
        assert_eq!(line(None, 8, &[(15, 8)]), "fetch-rule 0 8 0 15=8 > 6 8 0 ;");
        assert_eq!(
            line(Some(0xEF00_0007), 0, &[]),
            "step 0 0 EF000007 > 1 7 0 15=4 ; D9"
        );
    }
}
