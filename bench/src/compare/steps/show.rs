//! Printing a failing case: what went in, and where the two results part.

use super::{shown_memory, shown_words};
use crate::replies::Left;
use crate::state::{name, State};
use std::fmt;

/// A long memory shows its first words only; the seed repeats the rest.
const MOST_WORDS: usize = 32;
const PER_LINE: usize = 6;
const INDENT: &str = "\n            ";

pub fn input(f: &mut fmt::Formatter, state: &State, memory: &[u8]) -> fmt::Result {
    write!(f, ", memory of {} bytes", memory.len())?;
    let state = shown_words(state).map(|(name, word)| format!("{name} {word:08X}"));
    lines(f, state)?;
    let words = shown_memory(memory);
    let shown = words.map(|(at, word)| format!("[{at:05X}] {word:08X}"));
    lines(f, shown.take(MOST_WORDS))?;
    let more = shown_memory(memory).skip(MOST_WORDS).count();
    if more > 0 {
        write!(f, "{INDENT}and {more} more words that are not 0")?;
    }
    Ok(())
}

fn lines(f: &mut fmt::Formatter, told: impl Iterator<Item = String>) -> fmt::Result {
    for (i, word) in told.enumerate() {
        let before = if i % PER_LINE == 0 { INDENT } else { "  " };
        write!(f, "{before}{word}")?;
    }
    Ok(())
}

/// One field of both results; a field that neither changed is left out.
struct Row {
    name: String,
    before: String,
    ours: String,
    wanted: String,
}

impl Row {
    fn is_told(&self) -> bool {
        self.ours != self.wanted || self.ours != self.before
    }

    fn line(&self) -> String {
        let mark = if self.ours != self.wanted { " <--" } else { "" };
        let Row {
            name,
            before,
            ours,
            wanted,
        } = self;
        let line = format!("  {name:<10} {before:<20} {ours:<20} {wanted:<20}{mark}");
        line.trim_end().to_string()
    }
}

fn row<T: fmt::Display>(name: &str, before: &str, ours: T, wanted: T) -> Row {
    Row {
        name: name.to_string(),
        before: before.to_string(),
        ours: ours.to_string(),
        wanted: wanted.to_string(),
    }
}

fn state_rows<'a>(
    before: &'a State,
    ours: &'a Left,
    wanted: &'a Left,
) -> impl Iterator<Item = Row> + 'a {
    let hex = |word: u32| format!("{word:08X}");
    (0..before.len()).map(move |i| {
        let was = hex(before[i]);
        row(&name(i), &was, hex(ours.state[i]), hex(wanted.state[i]))
    })
}

/// Byte by byte; the same length on both sides.
fn memory_rows<'a>(
    before: &'a [u8],
    ours: &'a Left,
    wanted: &'a Left,
) -> impl Iterator<Item = Row> + 'a {
    let hex = |byte: u8| format!("{byte:02X}");
    (0..before.len()).map(move |i| {
        let at = format!("[{i:05X}]");
        row(
            &at,
            &hex(before[i]),
            hex(ours.memory[i]),
            hex(wanted.memory[i]),
        )
    })
}

/// Both results side by side, the fields that differ marked.
pub fn contrast(state: &State, memory: &[u8], ours: &Left, wanted: &Left) -> String {
    let head = row("field", "before", "ours", "wanted");
    let calls = [
        row("returned", "", ours.returned, wanted.returned),
        row("answer", "", ours.answer, wanted.answer),
        row("count", "0", ours.count, wanted.count),
        row("spilt", "false", ours.spilt, wanted.spilt),
    ];
    let rows = calls.into_iter();
    let rows = rows.chain(state_rows(state, ours, wanted));
    let told = rows
        .chain(memory_rows(memory, ours, wanted))
        .filter(Row::is_told);
    let lines = told.map(|row| row.line());
    let head = head.line().replace(" <--", "");
    let all: Vec<String> = std::iter::once(head).chain(lines).collect();
    all.join("\n")
}
