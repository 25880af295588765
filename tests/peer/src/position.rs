//! The position hold (document 02, N5): a look at the fix that the receiver wrote at the start of a page.

use crate::call::{Call, Found};
use crate::machine::Machine;
use crate::Refusal;
use std::ops::RangeInclusive;

/// The holds that a look takes, in seconds.
const HOLDS: RangeInclusive<u32> = 2..=30;

/// One degree as a coordinate counts it.
const DEGREE: u32 = 10_000_000;

/// What a look shows. The coordinates are the words as read: ten-millionths of a degree, signed in two's
/// complement.
#[derive(Clone, Copy, Debug, PartialEq, Eq)]
pub enum Shown {
    Blank,
    Position { latitude: u32, longitude: u32 },
}

/// Looks at the fix through a mapping. Its four words are read before any of them is judged.
pub fn look(
    machine: &mut Machine,
    space: u8,
    page: u16,
    clock: u32,
    hold: u32,
) -> Result<Shown, Refusal> {
    if !HOLDS.contains(&hold) {
        return Err(Refusal::Hold);
    }
    let mut word = |offset| read(machine, space, page, offset);
    let (number, second) = (word(0)?, word(1)?);
    let (latitude, longitude) = (word(2)?, word(3)?);

    // None if the clock is before the fix.
    let age = clock.checked_sub(second);
    let blank = number == 0
        || age.is_none_or(|age| age > hold)
        || outside(latitude, 90)
        || outside(longitude, 180);
    if blank {
        Ok(Shown::Blank)
    } else {
        Ok(Shown::Position {
            latitude,
            longitude,
        })
    }
}

/// The word that a processor read finds.
fn read(machine: &mut Machine, space: u8, page: u16, offset: u8) -> Result<u32, Refusal> {
    let read = Call::Read {
        space,
        page,
        offset,
    };
    match machine.call(read)?.found {
        Found::Word(word) => Ok(word),
        found => unreachable!("a read found {found:?}"),
    }
}

/// Whether a coordinate is more than so many degrees away from 0, on either side.
fn outside(coordinate: u32, degrees: u32) -> bool {
    (coordinate as i32).unsigned_abs() > degrees * DEGREE
}
