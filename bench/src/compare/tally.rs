//! How many cases of each kind were compared, and with what.

use super::steps::beside::Beside;
use super::steps::departures;
use crate::opcodes::{Family, NAMES};
use std::fmt;

/// What a reply is held to.
#[derive(Clone, Copy, PartialEq, Eq)]
pub enum Against {
    Rust,
    /// Document 01, where the Rust has no counterpart.
    Rule,
}

impl fmt::Display for Against {
    fn fmt(&self, f: &mut fmt::Formatter) -> fmt::Result {
        f.write_str(match self {
            Against::Rust => "Rust",
            Against::Rule => "rule",
        })
    }
}

#[derive(Clone, Copy)]
pub enum Row {
    ShiftImmediate,
    ShiftRegister,
    Pack,
    PackRefused,
    Unpack,
    Lengths,
    Runs,
}

/// In the order of `Row`.
const ROWS: [(&str, Against); 7] = [
    ("shift by immediate", Against::Rust),
    ("shift by register", Against::Rust),
    ("pack, GE to 15", Against::Rust),
    ("pack, GE over 15", Against::Rule),
    ("unpack", Against::Rust),
    ("slices of other lengths", Against::Rule),
    ("runs", Against::Rust),
];

/// Where a case came from.
#[derive(Clone, Copy)]
pub enum Phase {
    Directed,
    Random,
}

pub struct Tally {
    counts: [[u64; 2]; ROWS.len()],
    pub steps: Steps,
    pub runs: Runs,
}

impl Tally {
    pub fn new() -> Tally {
        Tally {
            counts: [[0; 2]; ROWS.len()],
            steps: Steps::default(),
            runs: Runs::default(),
        }
    }

    pub fn count(&mut self, row: Row, phase: Phase) {
        self.counts[row as usize][phase as usize] += 1;
    }

    pub fn total(&self, wanted: Against) -> u64 {
        let rows = ROWS.iter().zip(&self.counts);
        let counts = rows.filter(|((_, against), _)| *against == wanted);
        counts.flat_map(|(_, counts)| counts).sum::<u64>() + self.steps.total(wanted)
    }
}

impl fmt::Display for Tally {
    fn fmt(&self, f: &mut fmt::Formatter) -> fmt::Result {
        for ((name, against), [directed, random]) in ROWS.iter().zip(&self.counts) {
            if directed + random > 0 {
                writeln!(
                    f,
                    "  {name:<24} {against}  directed {directed:>9}  random {random:>9}"
                )?;
            }
        }
        self.steps.fmt(f)?;
        self.runs.fmt(f)
    }
}

const ANSWERS: usize = 12;
/// Beyond the families: an answer that came before decode.
const NOT_DECODED: usize = NAMES.len();

/// Steps by family and answer, and what they met.
#[derive(Default)]
pub struct Steps {
    by_family: Vec<[u64; ANSWERS]>,
    by_phase: [u64; 2],
    given: u64,
    /// Steps whose condition failed.
    pub failed: u64,
    departures: [u64; departures::COUNT],
    beside: [u64; 3],
    raw_by_family: Vec<u64>,
}

impl Steps {
    pub fn count(&mut self, family: Option<Family>, answer: usize, phase: Phase, given: bool) {
        self.by_family.resize(NOT_DECODED + 1, [0; ANSWERS]);
        let row = family.map_or(NOT_DECODED, |family| family as usize);
        self.by_family[row][answer] += 1;
        self.by_phase[phase as usize] += 1;
        self.given += u64::from(given);
    }

    pub fn count_departures(&mut self, met: departures::Met) {
        for (count, met) in self.departures.iter_mut().zip(met) {
            *count += u64::from(met);
        }
    }

    pub fn count_beside(&mut self, found: Beside, family: Option<Family>) {
        self.beside[found as usize] += 1;
        if let (Beside::RawWrite, Some(family)) = (found, family) {
            self.raw_by_family.resize(NAMES.len(), 0);
            self.raw_by_family[family as usize] += 1;
        }
    }

    fn all(&self) -> u64 {
        self.by_phase.iter().sum()
    }

    fn of_answer(&self, answer: usize) -> u64 {
        self.by_family.iter().map(|row| row[answer]).sum()
    }

    /// The Rust gives answers 0 to 4, and its accesses tell 7.
    fn total(&self, wanted: Against) -> u64 {
        let rust: u64 = [0, 1, 2, 3, 4, 7]
            .map(|answer| self.of_answer(answer))
            .iter()
            .sum();
        match wanted {
            Against::Rust => rust,
            Against::Rule => self.all() - rust,
        }
    }

    fn families(&self, f: &mut fmt::Formatter) -> fmt::Result {
        let shown: Vec<usize> = (0..ANSWERS)
            .filter(|&a| a < 10 || self.of_answer(a) > 0)
            .collect();
        write!(f, "  {:<24} {:>10}", "steps by family, answer", "all")?;
        for answer in &shown {
            write!(f, " {answer:>9}")?;
        }
        writeln!(f)?;
        let names = NAMES.iter().chain(&["before decode"]);
        for (name, row) in names.zip(&self.by_family) {
            write!(f, "  {name:<24} {:>10}", row.iter().sum::<u64>())?;
            for &answer in &shown {
                match row[answer] {
                    0 => write!(f, " {:>9}", ".")?,
                    n => write!(f, " {n:>9}")?,
                }
            }
            writeln!(f)?;
        }
        write!(f, "  {:<24} {:>10}", "all", self.all())?;
        for &answer in &shown {
            write!(f, " {:>9}", self.of_answer(answer))?;
        }
        writeln!(f)
    }

    fn raw_writes(&self, f: &mut fmt::Formatter) -> fmt::Result {
        let [same, raw, stopped] = self.beside;
        writeln!(
            f,
            "  Cpu::step beside document 01: the same {same}; r15 one instruction on after \
             answers 2 and 3 {stopped}; r15 written raw {raw}"
        )?;
        let counts = NAMES.iter().zip(&self.raw_by_family);
        let met: Vec<String> = counts
            .filter(|(_, &count)| count > 0)
            .map(|(name, count)| format!("{name} {count}"))
            .collect();
        if !met.is_empty() {
            writeln!(f, "  written raw by: {}", met.join("; "))?;
        }
        Ok(())
    }
}

impl fmt::Display for Steps {
    fn fmt(&self, f: &mut fmt::Formatter) -> fmt::Result {
        if self.all() == 0 {
            return Ok(());
        }
        self.families(f)?;
        let [directed, random] = self.by_phase;
        let fetched = self.all() - self.given;
        let Steps { given, failed, .. } = self;
        writeln!(
            f,
            "  steps directed {directed}, random {random}; opcode given {given}, \
             fetched {fetched}; condition failed {failed}"
        )?;
        let met: Vec<String> = (1..)
            .zip(self.departures)
            .map(|(i, n)| format!("D{i} {n}"))
            .collect();
        writeln!(f, "  departures met: {}", met.join("  "))?;
        self.raw_writes(f)
    }
}

/// Runs by the answer that ended them, and the steps they took.
#[derive(Default)]
pub struct Runs {
    by_answer: [u64; ANSWERS],
    steps: u64,
    /// Steps that were also taken one by one.
    pub walked: u64,
}

impl Runs {
    pub fn count(&mut self, answer: u32, steps: u32) {
        self.by_answer[answer as usize] += 1;
        self.steps += u64::from(steps);
    }
}

impl fmt::Display for Runs {
    fn fmt(&self, f: &mut fmt::Formatter) -> fmt::Result {
        let ends = (0..).zip(self.by_answer).filter(|(_, count)| *count > 0);
        let told: Vec<String> = ends
            .map(|(answer, count): (u32, u64)| format!("{answer}: {count}"))
            .collect();
        if told.is_empty() {
            return Ok(());
        }
        let (steps, walked) = (self.steps, self.walked);
        writeln!(f, "  runs of {steps} steps, {walked} taken one by one too")?;
        writeln!(f, "  runs by answer: {}", told.join("  "))
    }
}

#[cfg(test)]
mod tests {
    use super::*;

    #[test]
    fn rule_and_rust_are_counted_apart() {
        let mut tally = Tally::new();
        tally.count(Row::Pack, Phase::Directed);
        tally.count(Row::Unpack, Phase::Random);
        tally.count(Row::PackRefused, Phase::Random);
        assert_eq!(tally.total(Against::Rust), 2);
        assert_eq!(tally.total(Against::Rule), 1);
    }
}
