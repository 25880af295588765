//! Document 02, request N7: the dirty colour is written in the record.

use peer::board::{Colour, Frame};
use peer::call::{Operation, Operations};
use peer::record::{Access, Direction, Record, Transfer};
use peer::Refusal;

/// Held, stale, dirty, busy and dirty colour. Nothing of these records is in the instruction cache.
type Numbers = [u8; 5];

/// Stands for the dirty colour where there is none.
const NONE: u8 = 8;

const START: Numbers = [0, 0, 0, 0, NONE];

fn record([held, stale, dirty, busy, dirty_colour]: Numbers) -> Result<Record, Refusal> {
    Record::from_masks([held, stale, dirty, busy, dirty_colour, 0, 0])
}

/// The numbers that `record` makes this one of.
fn numbers(record: Record) -> Numbers {
    let [held, stale, dirty, busy, dirty_colour, instructions @ ..] = record.to_masks();
    assert_eq!(instructions, [0, 0]);
    [held, stale, dirty, busy, dirty_colour]
}

/// Every pair of masks, with flags, marks and dirty colours in range and some that are not.
fn all_numbers() -> impl Iterator<Item = Numbers> {
    let rest = (0..3).flat_map(|dirty| (0..4).map(move |busy| (dirty, busy)));
    let rest = rest.flat_map(|(dirty, busy)| {
        let colours = (0..=10).chain([16, 128, 255]);
        colours.map(move |dirty_colour| (dirty, busy, dirty_colour))
    });
    let rest: Vec<_> = rest.collect();
    let masks = (0..=255).flat_map(|held| (0..=255).map(move |stale| (held, stale)));
    masks.flat_map(move |(held, stale)| {
        let numbers = |(dirty, busy, dirty_colour)| [held, stale, dirty, busy, dirty_colour];
        rest.iter().copied().map(numbers).collect::<Vec<_>>()
    })
}

/// Document 01's rules, N6's of the busy mark, and that the dirty colour is the one whose held bit and the flag are
/// set.
fn keeps_rules([held, stale, dirty, busy, dirty_colour]: Numbers) -> bool {
    let masks_and_flag = held & stale == 0 && (dirty == 0 || dirty == 1 && held.count_ones() == 1);
    let mark = match busy {
        0 => true,
        1 => dirty == 0,
        2 => held == 0,
        _ => false,
    };
    let right = (0..8).find(|colour| dirty == 1 && held >> colour & 1 == 1);
    masks_and_flag && mark && dirty_colour == right.unwrap_or(NONE)
}

fn kept() -> impl Iterator<Item = Numbers> {
    all_numbers().filter(|&numbers| keeps_rules(numbers))
}

#[test]
fn reading_and_writing_are_inverse() {
    let mut count = 0;
    for right in all_numbers() {
        match record(right) {
            Ok(record) => {
                assert!(keeps_rules(right), "{right:?}");
                assert_eq!(numbers(record), right);
                count += 1;
            }
            Err(refusal) => {
                assert!(!keeps_rules(right), "{right:?}");
                assert_eq!(refusal, Refusal::Rules);
            }
        }
    }
    // No flag: each colour is in one mask or in none. The flag: one is held, the others stale or not. The device
    // reads: as with no flag. It writes: each colour is stale or not.
    assert_eq!(count, 6561 + 8 * 128 + 6561 + 256);
}

#[test]
fn the_start() {
    assert_eq!(record(START), Ok(Record::default()));
    assert_eq!(numbers(Record::default()), START);
    assert_eq!(record([0; 5]), Err(Refusal::Rules));
}

#[test]
fn a_dirty_colour_that_disagrees() {
    let right = [
        [0x01, 0x00, 1, 0, 0],
        [0x80, 0x7f, 1, 0, 7],
        [0x04, 0xfb, 0, 0, NONE],
    ];
    assert!(right.into_iter().all(|numbers| record(numbers).is_ok()));
    let wrong = [
        // No flag: nothing held, a held colour, a stale one; and a busy frame.
        [0x00, 0x00, 0, 0, 7],
        [0x04, 0x00, 0, 0, 2],
        [0x00, 0x04, 0, 0, 2],
        [0x01, 0x00, 0, 1, 0],
        [0x00, 0x00, 0, 2, 0],
        // The flag: none, an empty colour, a stale one.
        [0x04, 0x00, 1, 0, NONE],
        [0x04, 0x00, 1, 0, 3],
        [0x04, 0x02, 1, 0, 1],
        // Past the colours. Of some the low bits would do.
        [0x00, 0x00, 0, 0, 9],
        [0x00, 0x00, 0, 0, 255],
        [0x01, 0x00, 1, 0, 16],
        [0x02, 0x00, 1, 0, 9],
        [0x80, 0x00, 1, 0, 255],
    ];
    for numbers in wrong {
        assert_eq!(record(numbers), Err(Refusal::Rules), "{numbers:?}");
    }
}

/// Holds a step to the dirty colour after it and to the colour that it flushes, and what it leaves to its numbers. A
/// refused one changes nothing.
fn check_step(
    before: Numbers,
    step: impl Fn(&mut Record) -> Result<Operations, Refusal>,
    dirty_colour: u8,
    flushed: u8,
) {
    let mut after = record(before).unwrap();
    let Ok(operations) = step(&mut after) else {
        assert_eq!(numbers(after), before);
        return;
    };
    assert_eq!(record(numbers(after)), Ok(after), "{before:?}");
    assert_eq!(numbers(after)[4], dirty_colour, "{before:?}");
    let flushes = operations.into_iter().flatten().filter_map(|operation| {
        let Operation::Flush(_, colour) = operation else {
            return None;
        };
        Some(colour.index() as u8)
    });
    let right: Vec<_> = (0..NONE).filter(|&colour| colour == flushed).collect();
    assert_eq!(flushes.collect::<Vec<_>>(), right, "{before:?}");
}

#[test]
fn accesses() {
    let frame = Frame::new(5).unwrap();
    for before @ [.., dirty_colour] in kept() {
        for colour in Colour::all() {
            let own = colour.index() as u8;
            let (left, flushed) = if dirty_colour == own {
                (own, NONE)
            } else {
                (NONE, dirty_colour)
            };
            for (access, after) in [(Access::Read, left), (Access::Write, own)] {
                let step = |record: &mut Record| record.access(frame, access, colour);
                check_step(before, step, after, flushed);
            }
        }
    }
}

#[test]
fn transfers() {
    let frame = Frame::new(5).unwrap();
    for before @ [.., dirty_colour] in kept() {
        let transfers = [
            (Transfer::Read, dirty_colour),
            (Transfer::Write, NONE),
            (Transfer::WritePart, dirty_colour),
            (Transfer::Begin(Direction::Read), dirty_colour),
            (Transfer::Begin(Direction::Write), dirty_colour),
        ];
        for (transfer, flushed) in transfers {
            let step = |record: &mut Record| record.transfer(frame, transfer);
            check_step(before, step, NONE, flushed);
        }
        let mut purged = record(before).unwrap();
        if let Ok(operations) = purged.transfer(frame, Transfer::Write) {
            let colour = Colour::all().nth(dirty_colour.into());
            let purge = colour.map(|colour| Operation::Purge(frame, colour));
            assert_eq!(operations, [purge, None], "{before:?}");
        }
    }
}

#[test]
fn ends() {
    for before @ [held, stale, dirty, busy, dirty_colour] in kept() {
        let mut after = record(before).unwrap();
        assert_eq!(after.end().is_ok(), busy != 0);
        let right = [held, stale, dirty, 0, dirty_colour];
        assert_eq!(numbers(after), right, "{before:?}");
    }
}
