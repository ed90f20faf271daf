//! How far a comparison has come: told every few seconds, and kept in a file.

use std::fs;
use std::path::Path;
use std::time::{Duration, Instant};

const EVERY: Duration = Duration::from_secs(5);

pub struct Progress<'a> {
    what: &'a str,
    first: u64,
    total: u64,
    begun: Instant,
    told: Instant,
}

impl Progress<'_> {
    pub fn new(what: &str, first: u64, total: u64) -> Progress<'_> {
        let now = Instant::now();
        Progress {
            what,
            first,
            total,
            begun: now,
            told: now,
        }
    }

    pub fn tell(&mut self, done: u64) {
        if self.told.elapsed() < EVERY {
            return;
        }
        self.told = Instant::now();
        let rate = (done - self.first) as f64 / self.begun.elapsed().as_secs_f64();
        let left = (self.total - done) as f64 / rate;
        eprintln!(
            "compare: {done} of {} {}, {rate:.0} a second, {left:.0} s left",
            self.total, self.what
        );
    }
}

/// How many random cases of a seed were equal, counted in whole blocks, and of how many steps.
#[derive(Clone, Copy, Debug, PartialEq, Eq)]
pub struct Done {
    pub seed: u64,
    pub cases: u64,
    pub steps: u64,
}

impl Done {
    fn none(seed: u64) -> Done {
        Done {
            seed,
            cases: 0,
            steps: 0,
        }
    }

    /// A file that is not there yet starts at 0 with the seed given.
    pub fn read(file: &Path, seed: u64) -> Result<Done, String> {
        if !file.exists() {
            return Ok(Done::none(seed));
        }
        let text = fs::read_to_string(file).map_err(|why| why.to_string())?;
        let bad = || format!("{} holds no seed and count", file.display());
        Done::parse(&text).ok_or_else(bad)
    }

    fn parse(text: &str) -> Option<Done> {
        let words: Vec<&str> = text.split_whitespace().collect();
        match words[..] {
            ["seed", seed, "done", cases, "steps", steps] => Some(Done {
                seed: seed.parse().ok()?,
                cases: cases.parse().ok()?,
                steps: steps.parse().ok()?,
            }),
            _ => None,
        }
    }

    /// Beside, then over: a file cut short is never left.
    pub fn write(&self, file: &Path) -> Result<(), String> {
        let beside = file.with_extension("new");
        let text = format!(
            "seed {} done {} steps {}\n",
            self.seed, self.cases, self.steps
        );
        let written = fs::write(&beside, text).and_then(|()| fs::rename(&beside, file));
        written.map_err(|why| format!("{}: {why}", file.display()))
    }
}

#[cfg(test)]
mod tests {
    use super::*;

    #[test]
    fn what_was_done_is_read_back() {
        let file = std::env::temp_dir().join(format!("bench-done-{}", std::process::id()));
        assert_eq!(Done::read(&file, 7), Ok(Done::none(7)));
        let done = Done {
            seed: 9,
            cases: 65_536,
            steps: 70_000,
        };
        done.write(&file).unwrap();
        assert_eq!(Done::read(&file, 7), Ok(done));
        fs::remove_file(&file).unwrap();
    }

    #[test]
    fn other_text_is_refused() {
        for text in ["", "seed 1", "seed x done 1 steps 1", "seed 1 done 2 3"] {
            assert_eq!(Done::parse(text), None);
        }
    }
}
