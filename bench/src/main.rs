//! The bench's arguments and commands.

mod compare;
mod expected;
mod lent;
mod minimise;
mod opcodes;
mod oracle;
mod ours;
mod record;
mod replies;
mod rng;
mod speed;
mod state;

use std::env;
use std::process::ExitCode;

const USAGE: &str = "usage: compare [--short] [--seed N] [--cases N] \
                     [--only shifts|status|steps|programs] [--resume FILE --total N]
       speed [--turns N]
       record [--seed N] [--date DATE]";

/// A number, hexadecimal after 0x.
fn number(word: Option<&String>) -> Result<u64, String> {
    let word = word.ok_or("a number is missing")?;
    let read = match word.strip_prefix("0x") {
        Some(digits) => u64::from_str_radix(digits, 16),
        None => word.parse(),
    };
    read.map_err(|_| format!("{word} is no number"))
}

fn kind(word: Option<&String>) -> Result<compare::Kind, String> {
    let word = word.ok_or("a kind is missing")?;
    let found = compare::KINDS.iter().find(|(name, _)| name == word);
    found
        .map(|&(_, kind)| kind)
        .ok_or_else(|| format!("{word} is no kind"))
}

fn compare_options(words: &[String]) -> Result<compare::Options, String> {
    let mut options = compare::Options::default();
    let (mut file, mut total) = (None, None);
    let mut words = words.iter();
    while let Some(word) = words.next() {
        match word.as_str() {
            "--short" => options.short = true,
            "--seed" => options.seed = number(words.next())?,
            "--cases" => options.cases = Some(number(words.next())?),
            "--only" => options.only = Some(kind(words.next())?),
            "--resume" => file = Some(words.next().ok_or("a file is missing")?.into()),
            "--total" => total = Some(number(words.next())?),
            _ => return Err(format!("{word} is not known")),
        }
    }
    options.resume = match (file, total) {
        (Some(file), Some(total)) => Some(compare::Resume { file, total }),
        (None, None) => None,
        _ => return Err("--resume and --total go together".to_string()),
    };
    Ok(options)
}

fn speed_options(words: &[String]) -> Result<speed::Options, String> {
    match words {
        [] => Ok(speed::Options::default()),
        [word, turns] if word == "--turns" => match number(Some(turns))? {
            0 => Err("a turn is needed".to_string()),
            turns => Ok(speed::Options {
                turns: turns as u32,
            }),
        },
        _ => Err("only --turns N is known".to_string()),
    }
}

fn record_options(words: &[String]) -> Result<record::Options, String> {
    let mut options = record::Options::default();
    let mut words = words.iter();
    while let Some(word) = words.next() {
        match word.as_str() {
            "--seed" => options.seed = number(words.next())?,
            "--date" => options.date = words.next().ok_or("a date is missing")?.clone(),
            _ => return Err(format!("{word} is not known")),
        }
    }
    Ok(options)
}

/// Whether the command found all as it should be.
fn obey(words: &[String]) -> Result<bool, String> {
    match words.split_first() {
        Some((command, rest)) if command == "compare" => compare::run(&compare_options(rest)?),
        Some((command, rest)) if command == "speed" => speed::run(&speed_options(rest)?),
        Some((command, rest)) if command == "record" => record::run(&record_options(rest)?),
        _ => Err("a command is missing".to_string()),
    }
}

fn main() -> ExitCode {
    let words: Vec<String> = env::args().skip(1).collect();
    match obey(&words) {
        Ok(true) => ExitCode::SUCCESS,
        Ok(false) => ExitCode::from(1),
        Err(why) => {
            eprintln!("bench: {why}\n{USAGE}");
            ExitCode::from(2)
        }
    }
}

#[cfg(test)]
mod tests {
    use super::*;

    fn options(line: &str) -> Option<compare::Options> {
        let words: Vec<String> = line.split_whitespace().map(String::from).collect();
        compare_options(&words).ok()
    }

    #[test]
    fn options_are_read() {
        let plain = options("").unwrap();
        assert_eq!(
            (plain.seed, plain.cases, plain.short),
            (0x5EED, None, false)
        );
        let all = options("--seed 0xFF --cases 12 --short --only steps").unwrap();
        assert_eq!((all.seed, all.cases, all.short), (255, Some(12), true));
        assert!(all.only == Some(compare::Kind::Steps));
        let long = options("--resume here --total 1000000000").unwrap();
        assert_eq!(long.resume.unwrap().total, 1_000_000_000);
    }

    #[test]
    fn record_options_are_read() {
        let words = ["--seed", "0xFF", "--date", "today"].map(String::from);
        let options = record_options(&words).unwrap();
        assert_eq!((options.seed, options.date.as_str()), (255, "today"));
        assert!(record_options(&words[..3]).is_err());
        assert!(record_options(&words[1..]).is_err());
    }

    #[test]
    fn bad_options_are_refused() {
        let lines = [
            "--seed",
            "--cases x",
            "--long",
            "7",
            "--only x",
            "--total 7",
            "--resume x",
        ];
        for line in lines {
            assert!(options(line).is_none());
        }
    }
}
