//! Runs a run sheet on a machine that does at each call what document 01 has a call do: it tests all
//! that it is lent and, if it accepts, fills the whole buffer of protections again. The sheet is read
//! and the text written by the peer, whose types of calls, answers and numbers are used throughout.

pub mod buffers;
pub mod hardware;
pub mod list;
pub mod machine;
pub mod record;

use buffers::Buffers;
use list::Order;
use peer::call::{number, Call};
use peer::sheet::Sheet;
use peer::text::{self, Text};
use std::hint::black_box;
use std::io::{self, Read, Write};

/// Reads a run sheet on standard input and prints its text.
pub fn run_input<O: Order>() -> io::Result<()> {
    let mut sheet = Vec::new();
    io::stdin().read_to_end(&mut sheet)?;
    io::stdout().write_all(&run::<O>(&sheet))
}

/// The text of a sheet, run with the list in this order.
pub fn run<O: Order>(sheet: &[u8]) -> Vec<u8> {
    let Ok(sheet) = Sheet::parse(sheet) else {
        return text::broken();
    };
    let mut buffers = Buffers::<O>::default();
    let mut call = |call: Call| {
        let answer = buffers.call(call);
        // A kernel would read them now. Without this the compiler could leave them unwritten.
        black_box(&buffers.protections[..]);
        answer
    };
    let mut text = Text::default();
    for (k, &mapping) in sheet.mappings.iter().enumerate() {
        text.mapping(k, number(&call(Call::Map(mapping))));
    }
    for (k, &step) in sheet.steps.iter().enumerate() {
        text.step(k, call(step));
    }
    text.end()
}

/// Whether every item keeps a rule. Unlike `all` it goes on after one that does not, which is rare, so
/// that the compiler can test several at once.
fn every<T>(items: &[T], mut rule: impl FnMut(&T) -> bool) -> bool {
    items.iter().fold(true, |kept, item| kept & rule(item))
}
