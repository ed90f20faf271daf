//! The list that crates/replay replays: worked examples, then the Rust's answers to steps that a seed repeats.

mod line;
mod made;

use crate::compare::steps::{aim, departures, examples, Step};
use crate::compare::Case;
use crate::opcodes::{self, NAMES};
use crate::replies::Left;
use crate::rng::Rng;
use crate::state::{CPSR, GES, PC, T};
use line::Seeded;
use made::made;
use std::fs;

/// The commit that the oracle's text is of.
const COMMIT: &str = "zakuro c856685cc8";
/// What was worked out by hand, to stand in the list as it is.
const EXAMPLES: &str = "crates/replay/examples.txt";

const PER_FAMILY: usize = 80;
/// Of each family, those whose condition failed, and those that reached outside.
const MOST_FAILED: usize = 6;
const MOST_OUTSIDE: usize = 24;
const PER_DEPARTURE: usize = 40;
const FETCHED: usize = 60;
const PER_RULE: usize = 24;

const LENGTHS: [usize; 4] = [0x20, 0x40, 0x80, 0x100];

pub struct Options {
    pub seed: u64,
    pub date: String,
}

impl Default for Options {
    fn default() -> Options {
        Options {
            seed: 0x5EED,
            date: "undated".to_string(),
        }
    }
}

/// Prints the list.
pub fn run(options: &Options) -> Result<bool, String> {
    print!("{}", list(options)?);
    Ok(true)
}

fn list(options: &Options) -> Result<String, String> {
    let worked = fs::read_to_string(EXAMPLES).map_err(|why| format!("{EXAMPLES}: {why}"))?;
    let recorded = recorded(options.seed);
    Ok([header(options), worked, recorded].concat())
}

fn header(options: &Options) -> String {
    let Options { seed, date } = options;
    format!(
        "# Recorded answers, format 1 (crates/replay/README.md), seed {seed:#X}, {date}, of {COMMIT}.\n\
         # Made by: bench/bench record --seed {seed:#X} --date {date}\n\n"
    )
}

/// A heading and the lines under it.
fn section(heading: &str, cases: &[Recorded]) -> String {
    let lines: String = cases.iter().map(|case| case.line() + "\n").collect();
    format!("\n# {heading}\n{lines}")
}

struct Recorded {
    seeded: Seeded,
    left: Left,
}

impl Recorded {
    fn new(seed: u32, step: Step) -> Recorded {
        Recorded {
            left: step.wanted(),
            seeded: Seeded { seed, step },
        }
    }

    fn line(&self) -> String {
        self.seeded.line(&self.left)
    }

    fn step(&self) -> &Step {
        &self.seeded.step
    }

    fn number(&self) -> u32 {
        self.left.answer.number
    }

    fn failed(&self) -> bool {
        departures::condition_failed(self.step(), &self.left)
    }
}

fn recorded(seed: u64) -> String {
    let mut shelves = Shelves::new();
    let mut rng = Rng::new(seed);
    while !shelves.full() {
        shelves.put(random(&mut rng));
    }
    let known = examples().into_iter().map(|step| Recorded::new(0, step));
    let known: Vec<Recorded> = known.collect();
    [
        section("The examples of docs/DIFFERENCES.md", &known),
        shelves.told(),
        section("Fetched", &some(&mut rng, FETCHED, fetched, 0..=4)),
        section(
            "Answer 5, by document 01",
            &some(&mut rng, PER_RULE, thumb, 5..=5),
        ),
        section(
            "Answer 6, by document 01",
            &some(&mut rng, PER_RULE, astray, 6..=6),
        ),
        section(
            "Answer 8, by document 01",
            &some(&mut rng, PER_RULE, bad, 8..=8),
        ),
    ]
    .concat()
}

/// A step with a random opcode, the state from a seed and aimed at what the opcode is there to reach.
fn random(rng: &mut Rng) -> Recorded {
    let (seed, step) = random_step(rng);
    Recorded::new(seed, step)
}

fn random_step(rng: &mut Rng) -> (u32, Step) {
    let (seed, length) = (rng.word() | 1, rng.pick(&LENGTHS));
    let opcode = opcodes::random(rng);
    let (mut state, memory) = made(seed, length);
    aim(&mut state, opcode, length as u32, rng);
    let step = Step {
        given: Some(opcode),
        state,
        memory,
    };
    (seed, step)
}

/// As many cases with these answers as asked for.
fn some(
    rng: &mut Rng,
    count: usize,
    one: fn(&mut Rng) -> Recorded,
    answers: std::ops::RangeInclusive<u32>,
) -> Vec<Recorded> {
    let cases = std::iter::repeat_with(|| one(rng));
    let right = cases.filter(|case| answers.contains(&case.number()));
    right.take(count).collect()
}

/// The same opcode, lying in memory.
fn fetched(rng: &mut Rng) -> Recorded {
    let (seed, mut step) = random_step(rng);
    if let Some(opcode) = step.given.take() {
        step.place(opcode);
    }
    Recorded::new(seed, step)
}

fn thumb(rng: &mut Rng) -> Recorded {
    let (seed, mut step) = random_step(rng);
    step.state[CPSR] |= T;
    Recorded::new(seed, step)
}

/// An address that is no multiple of 4, or at the end or past it.
fn astray(rng: &mut Rng) -> Recorded {
    let (seed, mut step) = random_step(rng);
    let end = step.memory.len() as u32;
    step.given = None;
    step.state[PC] = match rng.below(4) {
        0 => rng.below(end) | 1,
        1 => end,
        2 => rng.below(16).wrapping_neg(),
        _ => rng.word(),
    };
    Recorded::new(seed, step)
}

fn bad(rng: &mut Rng) -> Recorded {
    let (seed, mut step) = random_step(rng);
    let record = GES.start + rng.below(GES.len() as u32) as usize;
    step.state[record] = rng.pick(&[16, 17, 31, 128, 255, 256, 0x1_0000, u32::MAX]);
    Recorded::new(seed, step)
}

/// The cases by family, and those that show a departure.
struct Shelves {
    families: Vec<Vec<Recorded>>,
    departures: Vec<Vec<Recorded>>,
}

impl Shelves {
    fn new() -> Shelves {
        Shelves {
            families: NAMES.map(|_| Vec::new()).into(),
            departures: [(); departures::COUNT].map(|_| Vec::new()).into(),
        }
    }

    fn full(&self) -> bool {
        let all = |shelves: &[Vec<Recorded>], size| shelves.iter().all(|shelf| shelf.len() == size);
        all(&self.families, PER_FAMILY) && all(&self.departures, PER_DEPARTURE)
    }

    /// To its family where there is room, else to the first departure that has some.
    fn put(&mut self, case: Recorded) {
        let Some(family) = case.step().decoded(&case.left) else {
            return;
        };
        let shelf = &mut self.families[family as usize];
        if has_room(shelf, &case) {
            return shelf.push(case);
        }
        let met = departures::met(case.step(), &case.left);
        let mut wanting = self.departures.iter_mut().zip(met);
        if let Some((shelf, _)) = wanting.find(|(shelf, met)| *met && shelf.len() < PER_DEPARTURE) {
            shelf.push(case);
        }
    }

    fn told(&self) -> String {
        let families = NAMES.iter().zip(&self.families);
        let families = families.map(|(name, shelf)| section(name, shelf));
        let departures = (1..).zip(&self.departures);
        let departures = departures.map(|(n, shelf)| section(&format!("Departure D{n}"), shelf));
        families.chain(departures).collect()
    }
}

fn has_room(shelf: &[Recorded], case: &Recorded) -> bool {
    let of = |what: fn(&Recorded) -> bool| shelf.iter().filter(|&case| what(case)).count();
    let outside = |case: &Recorded| case.number() == 7;
    shelf.len() < PER_FAMILY
        && (!case.failed() || of(Recorded::failed) < MOST_FAILED)
        && (!outside(case) || of(outside) < MOST_OUTSIDE)
}

#[cfg(test)]
mod tests;
