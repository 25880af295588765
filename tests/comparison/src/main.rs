//! Compares the peer with the proved library: compare [COUNT] [--seed N]

use compare::harness::compare;
use std::fs;
use std::io::{self, stderr, IsTerminal};
use std::path::{Path, PathBuf};
use std::process::ExitCode;

#[cfg_attr(feature = "stub", path = "stub.rs")]
mod proved;

const SHEETS: u64 = 20_000;
const SEED: u64 = 1;

fn main() -> ExitCode {
    let Some((seed, count)) = arguments(std::env::args().skip(1)) else {
        eprintln!(
            "usage: tests/compare [--stub | --archive FILE] [COUNT] [--seed N], COUNT from 1"
        );
        return ExitCode::from(2);
    };
    println!(
        "the peer and {}: {count} sheets of seed {seed}",
        proved::NAME
    );
    let result = compare(seed, count, &mut checked_peer, &mut proved::run, |done| {
        progress(done, count)
    });
    match result {
        Ok(tally) => {
            println!("{tally}\nall {count} texts are the same");
            ExitCode::SUCCESS
        }
        Err(difference) => {
            if stderr().is_terminal() {
                eprintln!();
            }
            print!("{difference}");
            match keep(&difference.sheet) {
                Ok(file) => println!(
                    "the sheet is kept in {}; ./sheet --text shows it",
                    file.display()
                ),
                Err(error) => println!("the sheet could not be kept: {error}"),
            }
            ExitCode::FAILURE
        }
    }
}

/// The peer's text or, where it differs from its own cacheless memory, a text that equals no other.
fn checked_peer(sheet: &[u8]) -> Vec<u8> {
    peer::try_run(sheet).unwrap_or_else(|difference| format!("peer: {difference}\n").into_bytes())
}

/// Writes a sheet to a file beside this tool.
fn keep(sheet: &[u8]) -> io::Result<PathBuf> {
    let folder = Path::new(env!("CARGO_MANIFEST_DIR")).join("target");
    fs::create_dir_all(&folder)?;
    let file = folder.join("differing.sheet");
    fs::write(&file, sheet)?;
    Ok(file)
}

/// The seed and the number of sheets, each given at most once. No sheets would compare nothing.
fn arguments(mut words: impl Iterator<Item = String>) -> Option<(u64, u64)> {
    let (mut seed, mut count) = (None, None);
    while let Some(word) = words.next() {
        let (given, number) = match word.as_str() {
            "--seed" => (&mut seed, words.next()?),
            _ => (&mut count, word),
        };
        if given.replace(number.parse().ok()?).is_some() {
            return None;
        }
    }
    let count = count.unwrap_or(SHEETS);
    (count > 0).then_some((seed.unwrap_or(SEED), count))
}

/// A line that moves on a terminal; elsewhere one at each tenth.
fn progress(done: u64, count: u64) {
    let parts = if stderr().is_terminal() { 200 } else { 10 };
    if done * parts / count == (done - 1) * parts / count {
        return;
    }
    if stderr().is_terminal() {
        let end = if done == count { "\n" } else { "" };
        eprint!("\r{done} of {count} sheets{end}");
    } else {
        eprintln!("{done} of {count} sheets");
    }
}
