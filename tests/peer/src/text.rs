//! The text of a run: a line for each mapping and each step, and a last one with the totals.

use crate::call::{number, Accepted, Answer, Found, Operation};
use crate::Refusal;
use std::fmt;

/// What is printed for a broken sheet.
pub fn broken() -> Vec<u8> {
    format!("refused {}\n", Refusal::Sheet.number()).into_bytes()
}

/// The lines so far.
#[derive(Default)]
pub struct Text {
    lines: Vec<u8>,
    flushes: usize,
    purges: usize,
}

impl Text {
    /// The line of mapping `k`, by the number that it answered.
    pub fn mapping(&mut self, k: usize, number: u8) {
        self.line(format_args!("m{k} {number}"));
    }

    /// The line of step `k`.
    pub fn step(&mut self, k: usize, answer: Answer) {
        let number = number(&answer);
        let Accepted { operations, found } = answer.unwrap_or_default();
        for operation in operations.iter().flatten() {
            match operation {
                Operation::Flush(..) => self.flushes += 1,
                Operation::Purge(..) | Operation::PurgeInstructions(..) => self.purges += 1,
            }
        }
        let [a, b] = operations.map(OrDash);
        let v = OrDash(match found {
            Found::Nothing => None,
            Found::Word(word) => Some(word),
            Found::Page(words) => Some(words[0]),
        });
        self.line(format_args!("{k} {number} {a} {b} {v}"));
    }

    /// The whole text, with its last line.
    pub fn end(mut self) -> Vec<u8> {
        let (flushes, purges) = (self.flushes, self.purges);
        self.line(format_args!("end {flushes} {purges}"));
        self.lines
    }

    fn line(&mut self, line: fmt::Arguments) {
        use std::io::Write;
        writeln!(self.lines, "{line}").expect("a vector takes every byte");
    }
}

/// A value that may be absent.
struct OrDash<T>(Option<T>);

impl<T: fmt::Display> fmt::Display for OrDash<T> {
    fn fmt(&self, f: &mut fmt::Formatter) -> fmt::Result {
        match &self.0 {
            Some(value) => value.fmt(f),
            None => f.write_str("-"),
        }
    }
}
