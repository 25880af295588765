//! Reads a run sheet on standard input and prints its text.

use std::io::{self, Read, Write};
use std::process::ExitCode;

fn main() -> io::Result<ExitCode> {
    let mut sheet = Vec::new();
    io::stdin().read_to_end(&mut sheet)?;
    match peer::try_run(&sheet) {
        Ok(text) => {
            io::stdout().write_all(&text)?;
            Ok(ExitCode::SUCCESS)
        }
        Err(difference) => {
            eprintln!("peer: {difference}");
            Ok(ExitCode::FAILURE)
        }
    }
}
