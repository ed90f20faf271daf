//! A host in Rust: runs an image at address 0 of 65,536 bytes, in System mode, and prints what came of it.

use std::env;
use std::fs::File;
use std::io::{self, Read};
use std::process::ExitCode;

use tholungdek::{Finished, Machine, Record, MEMORY_LIMIT};

const USAGE: &str = "usage: image IMAGE [BUDGET]";
const BUDGET: u32 = 1_000_000;

/// The memory to lend: the limit, or one byte more where the image is longer, which the core refuses itself.
fn load(path: &str) -> io::Result<Vec<u8>> {
    let mut memory = Vec::new();
    File::open(path)?
        .take(MEMORY_LIMIT as u64 + 1)
        .read_to_end(&mut memory)?;
    memory.resize(memory.len().max(MEMORY_LIMIT), 0);
    Ok(memory)
}

fn print(machine: &Machine, finished: Finished) {
    println!("answer {}: {}", finished.answer.number(), finished.answer);
    println!("steps {}", finished.count);
    for (r, value) in machine.registers().iter().enumerate() {
        print!(
            "r{r:<2} {value:08X}{}",
            if r % 4 == 3 { "\n" } else { "  " }
        );
    }
    println!("cpsr {:08X}", machine.status(Record::Current));
    println!("r0 in decimal {}", machine.registers()[0]);
}

fn arguments() -> Option<(String, u32)> {
    let mut words = env::args().skip(1);
    let path = words.next()?;
    let budget = words
        .next()
        .map_or(Some(BUDGET), |text| text.parse().ok())?;
    words.next().is_none().then_some((path, budget))
}

fn main() -> ExitCode {
    let Some((path, budget)) = arguments() else {
        eprintln!("{USAGE}");
        return ExitCode::from(2);
    };
    let mut memory = match load(&path) {
        Ok(memory) => memory,
        Err(why) => {
            eprintln!("{path}: {why}");
            return ExitCode::from(2);
        }
    };
    let mut machine = Machine::new();
    let finished = machine.run(&mut memory, budget);
    print(&machine, finished);
    ExitCode::SUCCESS
}
