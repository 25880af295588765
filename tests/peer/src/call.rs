//! A call of the machine and its answer.

use crate::board::{Colour, Frame, PageWords};
use crate::Refusal;
use std::fmt;

/// A mapping to be made.
#[derive(Clone, Copy, Debug, PartialEq, Eq)]
pub struct Mapping {
    pub space: u8,
    pub page: u16,
    pub frame: u8,
    pub rights: u8,
}

/// One call, with its numbers as the caller gives them: nothing of them is tested yet.
#[derive(Clone, Copy, Debug, PartialEq, Eq)]
pub enum Call {
    Map(Mapping),
    Read {
        space: u8,
        page: u16,
        offset: u8,
    },
    /// A read of an instruction, through the cache of those.
    Fetch {
        space: u8,
        page: u16,
        offset: u8,
    },
    Write {
        space: u8,
        page: u16,
        offset: u8,
        word: u32,
    },
    DeviceRead {
        frame: u8,
    },
    /// The device sends `first`, `first` + 1, and so on.
    DeviceWrite {
        frame: u8,
        first: u32,
    },
    /// The same, but `count` words into the frame's from the offset on.
    DeviceWritePart {
        frame: u8,
        offset: usize,
        count: usize,
        first: u32,
    },
    /// The first of the calls that make up a transfer that takes a while: the device will take words.
    BeginRead {
        frame: u8,
    },
    /// The same, but the device will bring words.
    BeginWrite {
        frame: u8,
    },
    BringWord {
        frame: u8,
        offset: u8,
        word: u32,
    },
    TakeWord {
        frame: u8,
        offset: u8,
    },
    /// Ends what either begin began.
    EndTransfer {
        frame: u8,
    },
    /// Document 01's "turning out", of a line of either cache.
    Evict {
        line: u8,
    },
    Unmap {
        space: u8,
        page: u16,
    },
}

/// The words that a device write of so many sends.
pub fn sent(first: u32, count: usize) -> Vec<u32> {
    (0..count).map(|k| first.wrapping_add(k as u32)).collect()
}

/// What the manager has the cache do (document 01's "order").
#[derive(Clone, Copy, Debug, PartialEq, Eq)]
pub enum Operation {
    Flush(Frame, Colour),
    Purge(Frame, Colour),
    /// A purge of the instruction cache; the other two are of the data cache.
    PurgeInstructions(Frame, Colour),
}

impl fmt::Display for Operation {
    fn fmt(&self, f: &mut fmt::Formatter) -> fmt::Result {
        let (letter, frame, colour) = match self {
            Self::Flush(frame, colour) => ('F', frame, colour),
            Self::Purge(frame, colour) => ('P', frame, colour),
            Self::PurgeInstructions(frame, colour) => ('I', frame, colour),
        };
        write!(f, "{letter}{}.{}", frame.index(), colour.index())
    }
}

/// The operations of one call, in order.
pub type Operations = [Option<Operation>; 2];

/// What a call read.
#[derive(Clone, Debug, Default, PartialEq, Eq)]
pub enum Found {
    #[default]
    Nothing,
    Word(u32),
    Page(Box<PageWords>),
}

#[derive(Clone, Debug, Default, PartialEq, Eq)]
pub struct Accepted {
    pub operations: Operations,
    pub found: Found,
}

pub type Answer = Result<Accepted, Refusal>;

/// An answer as a number: 0 if the call was accepted, else the refusal's.
pub fn number(answer: &Answer) -> u8 {
    match answer {
        Ok(_) => 0,
        Err(refusal) => refusal.number(),
    }
}
