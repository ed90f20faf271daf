//! Comparing the archive with the Rust, directed cases first, then random ones.

mod programs;
mod progress;
mod shifts;
mod status;
pub mod steps;
mod tally;

use crate::minimise::smallest;
use crate::ours;
use crate::rng::Rng;
use progress::{Done, Progress};
use shifts::Form;
use std::fmt::Display;
use std::path::PathBuf;
use steps::beside::{beside, Beside};
use steps::{Source, Step};
use tally::{Against, Phase, Tally};

/// What there is to compare.
#[derive(Clone, Copy, PartialEq, Eq)]
pub enum Kind {
    Shifts,
    Status,
    Steps,
    Programs,
}

pub const KINDS: [(&str, Kind); 4] = [
    ("shifts", Kind::Shifts),
    ("status", Kind::Status),
    ("steps", Kind::Steps),
    ("programs", Kind::Programs),
];

/// A long comparison of random steps or programs that goes on where it was left, towards so many steps in all.
pub struct Resume {
    pub file: PathBuf,
    pub total: u64,
}

pub struct Options {
    pub seed: u64,
    pub short: bool,
    /// Random cases of each kind, in place of its own number.
    pub cases: Option<u64>,
    pub only: Option<Kind>,
    pub resume: Option<Resume>,
}

impl Default for Options {
    fn default() -> Options {
        Options {
            seed: 0x5EED,
            short: false,
            cases: None,
            only: None,
            resume: None,
        }
    }
}

impl Options {
    fn asks(&self, kind: Kind) -> bool {
        self.only.is_none_or(|only| only == kind)
    }

    /// How many random cases. A program counts as its most steps.
    fn random_cases(&self, kind: Kind) -> u64 {
        let (whole, short) = match kind {
            Kind::Shifts | Kind::Status => (5_000_000, 100_000),
            Kind::Steps => (20_000_000, 1_000_000),
            Kind::Programs => (20_000_000, 1_000_000),
        };
        let cases = self.cases.unwrap_or(if self.short { short } else { whole });
        match kind {
            Kind::Programs => cases.div_ceil(programs::MOST_STEPS.into()),
            _ => cases,
        }
    }
}

/// One input that both sides can be asked about.
pub trait Case: Clone + Display {
    type Reply: PartialEq;

    fn ours(&self) -> Self::Reply;
    fn wanted(&self) -> Self::Reply;
    fn count(&self, wanted: &Self::Reply, phase: Phase, tally: &mut Tally);
    /// Cases to try when this one fails; each is less than this one.
    fn smaller(&self) -> Box<dyn Iterator<Item = Self> + '_>;
    /// Both replies, and where they part.
    fn contrast(&self, ours: &Self::Reply, wanted: &Self::Reply) -> String;
}

/// Two replies that fit on a line each.
fn on_two_lines(ours: &impl Display, wanted: &impl Display) -> String {
    format!("  ours      {ours}\n  wanted    {wanted}")
}

fn differs<C: Case>(case: &C) -> bool {
    case.ours() != case.wanted()
}

/// Says how the smallest case still differs.
fn report<C: Case>(found: &C) -> String {
    let least = smallest(found.clone(), C::smaller, differs);
    let contrast = least.contrast(&least.ours(), &least.wanted());
    format!("  found     {found}\n  smallest  {least}\n{contrast}")
}

/// Holds case after case to what is wanted, and counts them.
pub struct Checker {
    tally: Tally,
    phase: Phase,
}

impl Checker {
    fn new() -> Checker {
        Checker {
            tally: Tally::new(),
            phase: Phase::Directed,
        }
    }

    /// Gives what was wanted, and got.
    pub fn check<C: Case>(&mut self, case: &C) -> Result<C::Reply, String> {
        let wanted = case.wanted();
        if case.ours() != wanted {
            return Err(report(case));
        }
        case.count(&wanted, self.phase, &mut self.tally);
        Ok(wanted)
    }

    /// Also looks at the Rust's own step.
    pub fn check_step(&mut self, mut step: Step) -> Outcome {
        let wanted = self.check(&step)?;
        match beside(&mut step, &wanted) {
            Some(Beside::Apart) => Err(steps::beside::report(&step)),
            Some(found) => {
                let family = step.decoded(&wanted);
                self.tally.steps.count_beside(found, family);
                Ok(())
            }
            None => Ok(()),
        }
    }
}

type Outcome = Result<(), String>;

/// How many random cases share a generator of their own.
const BLOCK: u64 = 65_536;

/// Cases in blocks, each repeatable by seed and number alone; progress is told after each.
fn in_blocks(
    what: &str,
    seed: u64,
    done: u64,
    total: u64,
    mut told: impl FnMut(u64) -> Outcome,
    mut one: impl FnMut(&mut Rng) -> Outcome,
) -> Outcome {
    let mut progress = Progress::new(what, done, total);
    for block in done / BLOCK..total.div_ceil(BLOCK) {
        let mut rng = Rng::stream(seed, block);
        let end = total.min((block + 1) * BLOCK);
        for _ in block * BLOCK..end {
            one(&mut rng).map_err(|why| format!("  in block {block} of {what}\n{why}"))?;
        }
        progress.tell(end);
        told(end)?;
    }
    Ok(())
}

fn silent(_: u64) -> Outcome {
    Ok(())
}

fn compare_shifts(checker: &mut Checker, options: &Options) -> Outcome {
    shifts::directed(checker)?;
    checker.phase = Phase::Random;
    let cases = options.random_cases(Kind::Shifts);
    in_blocks("shifts", options.seed, 0, cases, silent, |rng| {
        let form = if rng.flip() {
            Form::Immediate
        } else {
            Form::Register
        };
        checker.check(&shifts::random(rng, form)).map(drop)
    })
}

fn compare_status(checker: &mut Checker, options: &Options) -> Outcome {
    status::directed(checker)?;
    checker.phase = Phase::Random;
    let cases = options.random_cases(Kind::Status);
    in_blocks("status words", options.seed, 0, cases, silent, |rng| {
        if rng.flip() {
            checker.check(&status::random_pack(rng)).map(drop)
        } else {
            checker.check(&status::random_unpack(rng)).map(drop)
        }
    })
}

fn compare_steps(checker: &mut Checker, options: &Options) -> Outcome {
    let source = Source::new();
    steps::directed(checker, &source)?;
    checker.phase = Phase::Random;
    let cases = options.random_cases(Kind::Steps);
    in_blocks("steps", options.seed, 0, cases, silent, |rng| {
        checker.check_step(source.step(rng))
    })
}

fn compare_programs(checker: &mut Checker, options: &Options) -> Outcome {
    let source = Source::new();
    programs::directed(checker)?;
    checker.phase = Phase::Random;
    let mut progress = Progress::new("programs", 0, options.random_cases(Kind::Programs));
    for i in 0..options.random_cases(Kind::Programs) {
        check_program(checker, &source, options.seed, i)?;
        progress.tell(i + 1);
    }
    Ok(())
}

fn check_program(checker: &mut Checker, source: &Source, seed: u64, i: u64) -> Outcome {
    let mut rng = Rng::stream(seed, i);
    programs::check_random(checker, source, &mut rng)
        .map_err(|why| format!("  in program {i}\n{why}"))
}

/// Random steps or programs alone, from where the file says that they were left.
fn resume(checker: &mut Checker, options: &Options, resume: &Resume) -> Outcome {
    let done = Done::read(&resume.file, options.seed)?;
    let (seed, steps) = (done.seed, done.steps);
    println!("compare: seed {seed:#X}, {steps} random steps were equal before");
    checker.phase = Phase::Random;
    match options.only {
        Some(Kind::Programs) => resume_programs(checker, resume, done),
        _ => resume_steps(checker, resume, done),
    }
}

fn resume_steps(checker: &mut Checker, resume: &Resume, done: Done) -> Outcome {
    let source = Source::new();
    let told = |cases| {
        let done = Done {
            cases,
            steps: cases,
            ..done
        };
        done.write(&resume.file)
    };
    in_blocks("steps", done.seed, done.cases, resume.total, told, |rng| {
        checker.check_step(source.step(rng))
    })
}

/// How many programs pass before the file is written again.
const PROGRAMS_AT_ONCE: u64 = 64;

fn resume_programs(checker: &mut Checker, resume: &Resume, mut done: Done) -> Outcome {
    let source = Source::new();
    let mut progress = Progress::new("steps of programs", done.steps, resume.total);
    let before = done.steps;
    while done.steps < resume.total {
        for i in done.cases..done.cases + PROGRAMS_AT_ONCE {
            check_program(checker, &source, done.seed, i)?;
        }
        done.cases += PROGRAMS_AT_ONCE;
        done.steps = before + checker.tally.runs.walked;
        progress.tell(done.steps.min(resume.total));
        done.write(&resume.file)?;
    }
    Ok(())
}

fn all(checker: &mut Checker, options: &Options) -> Outcome {
    println!("compare: seed {:#X}", options.seed);
    type Comparison = fn(&mut Checker, &Options) -> Outcome;
    let comparisons: [(Kind, Comparison, bool); 4] = [
        (Kind::Shifts, compare_shifts, true),
        (Kind::Status, compare_status, true),
        (Kind::Steps, compare_steps, ours::steps::LINKED),
        (Kind::Programs, compare_programs, ours::steps::LINKED),
    ];
    for (kind, compare, linked) in comparisons {
        if linked && options.asks(kind) {
            checker.phase = Phase::Directed;
            compare(checker, options)?;
        }
    }
    Ok(())
}

fn says_what_is_absent(options: &Options) {
    let asked = options.asks(Kind::Steps) || options.asks(Kind::Programs);
    if asked && !ours::steps::LINKED {
        println!("compare: the archive has no steps: STEPS AND PROGRAMS NOT COMPARED");
    }
}

/// Whether all were equal. An error where nothing could be compared.
pub fn run(options: &Options) -> Result<bool, String> {
    let steps_only = options.resume.is_some() || options.only.is_some_and(needs_steps);
    if steps_only && !ours::steps::LINKED {
        return Err("the archive has no steps".to_string());
    }
    let mut checker = Checker::new();
    let outcome = match &options.resume {
        Some(file) => resume(&mut checker, options, file),
        None => all(&mut checker, options),
    };
    let tally = &checker.tally;
    print!("{tally}");
    says_what_is_absent(options);
    let (rust, rule) = (tally.total(Against::Rust), tally.total(Against::Rule));
    match outcome {
        Ok(()) => {
            println!("compare: equal, {rust} cases with the Rust and {rule} with document 01");
            Ok(true)
        }
        Err(difference) => {
            println!("compare: DIFFERENT after {} cases", rust + rule);
            println!("{difference}");
            Ok(false)
        }
    }
}

fn needs_steps(kind: Kind) -> bool {
    matches!(kind, Kind::Steps | Kind::Programs)
}

#[cfg(test)]
mod tests {
    use super::*;
    use crate::minimise::below;
    use std::fmt;
    use tally::Row;

    /// Wrong from 0x1234 on.
    #[derive(Clone)]
    struct Faulty(u32);

    impl fmt::Display for Faulty {
        fn fmt(&self, f: &mut fmt::Formatter) -> fmt::Result {
            write!(f, "input {:X}", self.0)
        }
    }

    impl Case for Faulty {
        type Reply = u32;

        fn ours(&self) -> u32 {
            self.0.min(0x1233)
        }
        fn wanted(&self) -> u32 {
            self.0
        }
        fn count(&self, _: &u32, phase: Phase, tally: &mut Tally) {
            tally.count(Row::Unpack, phase);
        }
        fn smaller(&self) -> Box<dyn Iterator<Item = Faulty> + '_> {
            Box::new(below(self.0).into_iter().map(Faulty))
        }
        fn contrast(&self, ours: &u32, wanted: &u32) -> String {
            on_two_lines(ours, wanted)
        }
    }

    #[test]
    fn a_fault_is_found_and_made_small() {
        let mut checker = Checker::new();
        assert_eq!(checker.check(&Faulty(0x1000)), Ok(0x1000));
        let difference = checker.check(&Faulty(0xFFFF_FFFF)).unwrap_err();
        assert!(difference.contains("found     input FFFFFFFF"));
        assert!(difference.contains("smallest  input 1234"));
        assert!(difference.contains("wanted    4660"));
        assert_eq!(checker.tally.total(Against::Rust), 1);
    }

    #[test]
    fn blocks_go_on_where_they_were_left() {
        let words = |done: u64, total| {
            let mut words = Vec::new();
            let one = |rng: &mut Rng| {
                words.push(rng.word());
                Ok(())
            };
            in_blocks("words", 9, done, total, silent, one).unwrap();
            words
        };
        let (first, rest) = (words(0, BLOCK), words(BLOCK, 2 * BLOCK + 5));
        assert_eq!([first, rest].concat(), words(0, 2 * BLOCK + 5));
    }
}
