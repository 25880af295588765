//! Stands for the proved library where it is not built: the peer itself. With a number in
//! STUB_FAULT, the sheet of that number gets a wrong text, to see that the difference is found.

use std::sync::atomic::{AtomicU64, Ordering};

pub const NAME: &str = "a stub (this tests the tool and nothing else)";

static SHEETS: AtomicU64 = AtomicU64::new(0);

pub fn run(sheet: &[u8]) -> Vec<u8> {
    let mut text = peer::run(sheet);
    let fault = std::env::var("STUB_FAULT")
        .ok()
        .and_then(|n| n.parse().ok());
    if fault == Some(SHEETS.fetch_add(1, Ordering::Relaxed)) {
        let middle = text.len() / 2;
        text[middle] ^= 1;
    }
    text
}
