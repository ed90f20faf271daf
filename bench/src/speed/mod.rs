//! The same images through the Rust's `Cpu::run` and the proved run, in turns.

mod images;

use crate::ours::steps::{self, Call, Machine};
use crate::state::{export_state, import_state, name, plain, State, WORDS};
use images::{Image, IMAGES, SHORTEST};
use std::collections::hash_map::DefaultHasher;
use std::hash::{Hash, Hasher};
use std::time::{Duration, Instant};
use zakuro_cpu::{Bus, Cpu, Exit};

const LENGTH: usize = 65_536;
const STEPS: u32 = 100_000;

pub struct Options {
    /// Turns for each figure; the best one counts.
    pub turns: u32,
}

impl Default for Options {
    fn default() -> Options {
        Options { turns: 200 }
    }
}

/// Bytes with the checks that any host owes; outside reads 0.
struct Bytes(Vec<u8>);

impl Bytes {
    #[inline(always)]
    fn read<const SIZE: usize>(&self, addr: u32) -> [u8; SIZE] {
        let at = addr as usize;
        let found = self.0.get(at..at + SIZE);
        found.map_or([0; SIZE], |bytes| bytes.try_into().expect("SIZE bytes"))
    }

    #[inline(always)]
    fn write(&mut self, addr: u32, bytes: &[u8]) {
        let at = addr as usize;
        if let Some(place) = self.0.get_mut(at..at + bytes.len()) {
            place.copy_from_slice(bytes);
        }
    }
}

impl Bus for Bytes {
    #[inline(always)]
    fn read8(&mut self, addr: u32) -> u8 {
        u8::from_le_bytes(self.read(addr))
    }
    #[inline(always)]
    fn read16(&mut self, addr: u32) -> u16 {
        u16::from_le_bytes(self.read(addr))
    }
    #[inline(always)]
    fn read32(&mut self, addr: u32) -> u32 {
        u32::from_le_bytes(self.read(addr))
    }
    #[inline(always)]
    fn write8(&mut self, addr: u32, value: u8) {
        self.write(addr, &value.to_le_bytes());
    }
    #[inline(always)]
    fn write16(&mut self, addr: u32, value: u16) {
        self.write(addr, &value.to_le_bytes());
    }
    #[inline(always)]
    fn write32(&mut self, addr: u32, value: u32) {
        self.write(addr, &value.to_le_bytes());
    }
}

/// Both sides with an image each; neither is cleared between turns.
struct Pair {
    cpu: Cpu,
    bytes: Bytes,
    machine: Machine,
    budget: u32,
}

impl Pair {
    fn new(image: &Image, length: usize, budget: u32) -> Pair {
        let memory = image.memory(length);
        Pair {
            cpu: import_state(&plain(0)).expect("a good state"),
            machine: Machine::new(&plain(0), &memory),
            bytes: Bytes(memory),
            budget,
        }
    }

    fn rust(&mut self) -> Result<Duration, String> {
        let begun = Instant::now();
        let exit = self.cpu.run(&mut self.bytes, self.budget.into());
        let took = begun.elapsed();
        match exit {
            Exit::Timeout => Ok(took),
            other => Err(format!("the Rust ended with {other:?}")),
        }
    }

    fn ours(&mut self) -> Result<Duration, String> {
        let begun = Instant::now();
        let returned = self.machine.call(Call::Run(self.budget));
        let took = begun.elapsed();
        let (answer, count) = (self.machine.answer(), self.machine.count());
        if (returned, answer.number, count) == (1, 10, self.budget) {
            Ok(took)
        } else {
            Err(format!(
                "ours returned {returned}, {answer} after {count} steps"
            ))
        }
    }

    /// The least that either took, in turns. Both must stand alike after the first and the last.
    fn best(mut self, turns: u32) -> Result<Best, String> {
        let mut best = Best {
            rust: self.rust()?,
            ours: self.ours()?,
        };
        self.stand_alike()?;
        for _ in 1..turns {
            best.rust = best.rust.min(self.rust()?);
            best.ours = best.ours.min(self.ours()?);
        }
        self.stand_alike()?;
        Ok(best)
    }

    fn stand_alike(&mut self) -> Result<(), String> {
        let (rust, ours) = (export_state(&self.cpu), self.machine.state());
        if let Some(i) = apart(&rust, &ours) {
            let name = name(i);
            return Err(format!(
                "{name}: Rust {:08X}, ours {:08X}",
                rust[i], ours[i]
            ));
        }
        if hash(&self.bytes.0) != hash(self.machine.memory.inner()) {
            return Err("the memories differ".to_string());
        }
        Ok(())
    }
}

/// The first word in which two states differ.
fn apart(a: &State, b: &State) -> Option<usize> {
    (0..WORDS).find(|&i| a[i] != b[i])
}

fn hash(memory: &[u8]) -> u64 {
    let mut hasher = DefaultHasher::new();
    memory.hash(&mut hasher);
    hasher.finish()
}

struct Best {
    rust: Duration,
    ours: Duration,
}

impl Best {
    /// Nanoseconds for one of `n` parts: of the Rust, of ours, and their ratio.
    fn each(&self, n: u32) -> String {
        let part = |took: Duration| took.as_nanos() as f64 / f64::from(n);
        let (rust, ours) = (part(self.rust), part(self.ours));
        format!("{rust:>12.2} {ours:>12.2} {:>8.2}", ours / rust)
    }
}

fn head(what: &str, unit: &str) {
    let unit = format!("ns a {unit}");
    println!(
        "{what:<24} {:>12} {:>12} {:>8}   {unit}",
        "Rust", "ours", "ratio"
    );
}

fn images(turns: u32) -> Result<(), String> {
    head(&format!("{STEPS} steps of"), "step");
    for image in &IMAGES {
        let best = Pair::new(image, LENGTH, STEPS).best(turns)?;
        println!("  {:<22} {}", image.name, best.each(STEPS));
    }
    Ok(())
}

/// What one call costs apart from its steps shows where the budget is small.
fn budgets(turns: u32) -> Result<(), String> {
    head("budget, ALU loop", "call");
    for budget in [0, 1, 10, 100, 1_000, 10_000, 100_000] {
        let best = Pair::new(&IMAGES[0], LENGTH, budget).best(turns)?;
        println!("  {budget:<22} {}", best.each(1));
    }
    Ok(())
}

/// A run must not cost more because more memory is lent.
fn lengths(turns: u32) -> Result<(), String> {
    head("memory, 1000 steps", "call");
    for length in [SHORTEST, SHORTEST * 2, LENGTH] {
        let best = Pair::new(&IMAGES[1], length, 1_000).best(turns)?;
        println!("  {length:<22} {}", best.each(1));
    }
    Ok(())
}

/// Whether both sides ended alike everywhere.
pub fn run(options: &Options) -> Result<bool, String> {
    if !steps::LINKED {
        return Err("the archive has no steps".to_string());
    }
    println!("speed: the best of {} turns", options.turns);
    let outcome = images(options.turns)
        .and_then(|()| budgets(options.turns))
        .and_then(|()| lengths(options.turns));
    match outcome {
        Ok(()) => {
            println!("speed: registers, status words, banks and memory were equal after all runs");
            Ok(true)
        }
        Err(why) => {
            println!("speed: DIFFERENT, {why}");
            Ok(false)
        }
    }
}
