//! Document 02, request N6: transfers that take a while. Every word found is compared with the cacheless memory
//! too.

use peer::board::{Colour, Frame};
use peer::call::{number, Accepted, Call, Found, Mapping, Operation};
use peer::record::{Access, Direction, Record, Transfer};
use peer::{Pair, Refusal};

fn map(space: u8, page: u16, frame: u8, rights: u8) -> Call {
    Call::Map(Mapping {
        space,
        page,
        frame,
        rights,
    })
}

fn unmap(page: u16) -> Call {
    Call::Unmap { space: 0, page }
}

fn read(page: u16, offset: u8) -> Call {
    Call::Read {
        space: 0,
        page,
        offset,
    }
}

fn write(page: u16, offset: u8, word: u32) -> Call {
    Call::Write {
        space: 0,
        page,
        offset,
        word,
    }
}

fn device_read(frame: u8) -> Call {
    Call::DeviceRead { frame }
}

fn device_write(frame: u8, first: u32) -> Call {
    Call::DeviceWrite { frame, first }
}

fn part(frame: u8, offset: usize, count: usize, first: u32) -> Call {
    Call::DeviceWritePart {
        frame,
        offset,
        count,
        first,
    }
}

fn begin_read(frame: u8) -> Call {
    Call::BeginRead { frame }
}

fn begin_write(frame: u8) -> Call {
    Call::BeginWrite { frame }
}

fn bring(frame: u8, offset: u8, word: u32) -> Call {
    Call::BringWord {
        frame,
        offset,
        word,
    }
}

fn take(frame: u8, offset: u8) -> Call {
    Call::TakeWord { frame, offset }
}

fn end(frame: u8) -> Call {
    Call::EndTransfer { frame }
}

const BEGINS: [fn(u8) -> Call; 2] = [begin_read, begin_write];

/// A call of each kind that is a new transfer of frame 5.
fn transfers() -> [Call; 6] {
    [
        device_read(5),
        device_write(5, 100),
        part(5, 20, 12, 100),
        part(5, 0, 64, 100),
        begin_read(5),
        begin_write(5),
    ]
}

fn accept(pair: &mut Pair, call: Call) -> Accepted {
    let answer = pair.call(call).unwrap();
    answer.unwrap_or_else(|refusal| panic!("{call:?}: {refusal:?}"))
}

/// Frame 5 at pages 0 to 2 and, only to be read, at page 3; its words 1000 to 1063; and these calls accepted.
fn after(calls: &[Call]) -> Pair {
    let mut pair = Pair::default();
    for (page, rights) in [(0, 2), (1, 2), (2, 2), (3, 1)] {
        accept(&mut pair, map(0, page, 5, rights));
    }
    accept(&mut pair, device_write(5, 1000));
    for &call in calls {
        accept(&mut pair, call);
    }
    pair
}

/// Holds each call to its operations, as the text shows them, and to the word that it finds.
fn check(pair: &mut Pair, rows: &[(Call, &str, Option<u32>)]) {
    for &(call, operations, word) in rows {
        let accepted = accept(pair, call);
        let shown = accepted.operations.iter().flatten();
        let shown: Vec<String> = shown.map(Operation::to_string).collect();
        assert_eq!(shown.join(" "), operations, "{call:?}");
        let found = word.map_or(Found::Nothing, Found::Word);
        assert_eq!(accepted.found, found, "{call:?}");
        pair.settle().unwrap();
    }
}

/// Holds each call to the number that refuses it, and to changing nothing.
fn check_refused(pair: &mut Pair, rows: &[(Call, u8)]) {
    let before = pair.clone();
    for &(call, right) in rows {
        assert_eq!(number(&pair.call(call).unwrap()), right, "{call:?}");
        assert!(*pair == before, "{call:?}: a refused call changes nothing");
    }
}

// ---- the record

/// Held, stale, dirty and busy. Nothing of these records is in the instruction cache.
type Numbers = [u8; 4];

/// The record of these numbers, written with the dirty colour that mask and flag give.
fn record([held, stale, dirty, busy]: Numbers) -> Result<Record, Refusal> {
    let dirty_colour = match dirty {
        1 => held.trailing_zeros() as u8,
        _ => 8,
    };
    Record::from_masks([held, stale, dirty, busy, dirty_colour, 0, 0])
}

fn all_numbers() -> impl Iterator<Item = Numbers> {
    let masks = (0..=255).flat_map(|held| (0..=255).map(move |stale| (held, stale)));
    let flags = (0..3).flat_map(|dirty| [0, 1, 2, 3, 4, 255].map(|busy| (dirty, busy)));
    let flags: Vec<_> = flags.collect();
    masks.flat_map(move |(held, stale)| {
        let flags = flags.clone();
        flags
            .into_iter()
            .map(move |(dirty, busy)| [held, stale, dirty, busy])
    })
}

/// Every record that keeps the rules, with its numbers.
fn all_records() -> impl Iterator<Item = (Numbers, Record)> {
    all_numbers().filter_map(|numbers| Some((numbers, record(numbers).ok()?)))
}

#[test]
fn the_rules_of_the_busy_mark() {
    for numbers @ [held, stale, dirty, busy] in all_numbers() {
        let masks_and_flag =
            held & stale == 0 && (dirty == 0 || dirty == 1 && held.is_power_of_two());
        let mark = match busy {
            0 => true,
            1 => dirty == 0,
            2 => held == 0 && dirty == 0,
            _ => false,
        };
        let right = if masks_and_flag && mark {
            None
        } else {
            Some(Refusal::Rules)
        };
        assert_eq!(record(numbers).err(), right, "{numbers:?}");
    }
    assert_eq!(record([0; 4]), Ok(Record::default()));
    // Stale colours are free to be there.
    let kept = [[0, 0xff, 0, 2], [0, 0, 0, 2], [0xff, 0, 0, 1], [1, 2, 0, 1]];
    let broken = [[1, 0, 1, 1], [1, 0, 0, 2], [1, 0, 1, 2], [0, 0, 0, 3]];
    assert!(kept.into_iter().all(|numbers| record(numbers).is_ok()));
    assert!(broken.into_iter().all(|numbers| record(numbers).is_err()));
}

/// Holds a step of a record to the numbers after it and to what is due, or to its refusal, which leaves the record
/// as it was.
fn check_step(
    (before, record_before): (Numbers, Record),
    step: impl Fn(&mut Record) -> Result<[Option<Operation>; 2], Refusal>,
    right: Result<(Numbers, [Option<Operation>; 2]), Refusal>,
) {
    let mut after = record_before;
    let due = step(&mut after);
    let right_after = right.map_or(before, |(numbers, _)| numbers);
    assert_eq!(Ok(after), record(right_after), "{before:?}");
    assert_eq!(due, right.map(|(_, due)| due), "{before:?}");
}

/// The dirty colour is flushed, and stays held or goes stale as the held ones do.
#[test]
fn begins_of_every_record() {
    let frame = Frame::new(5).unwrap();
    for row @ ([held, stale, dirty, busy], _) in all_records() {
        let colour = Colour::all().nth(held.trailing_zeros() as usize);
        let flush = colour.filter(|_| dirty == 1);
        let due = [flush.map(|colour| Operation::Flush(frame, colour)), None];
        let begun = [
            (Direction::Read, [held, stale, 0, 1]),
            (Direction::Write, [0, stale | held, 0, 2]),
        ];
        for (direction, next) in begun {
            let right = match busy {
                0 => Ok((next, due)),
                _ => Err(Refusal::Busy),
            };
            let begin = Transfer::Begin(direction);
            check_step(row, |record| record.transfer(frame, begin), right);
        }
    }
}

#[test]
fn one_step_transfers_of_every_busy_record() {
    let frame = Frame::new(5).unwrap();
    for row @ ([.., busy], _) in all_records() {
        if busy != 0 {
            for transfer in [Transfer::Read, Transfer::Write, Transfer::WritePart] {
                let step = |record: &mut Record| record.transfer(frame, transfer);
                check_step(row, step, Err(Refusal::Busy));
            }
        }
    }
}

/// A read while the device reads goes by the table: its colour becomes held, with a purge if it was stale.
#[test]
fn accesses_of_every_busy_record() {
    let frame = Frame::new(5).unwrap();
    for row @ ([held, stale, _, busy], _) in all_records() {
        for colour in Colour::all() {
            let read = |record: &mut Record| record.access(frame, Access::Read, colour);
            let write = |record: &mut Record| record.access(frame, Access::Write, colour);
            let own = 1 << colour.index();
            let purge = (stale & own != 0).then_some(Operation::Purge(frame, colour));
            match busy {
                0 => continue,
                1 => {
                    let next = [held | own, stale & !own, 0, 1];
                    check_step(row, read, Ok((next, [purge, None])));
                }
                _ => check_step(row, read, Err(Refusal::Busy)),
            }
            check_step(row, write, Err(Refusal::Busy));
        }
    }
}

#[test]
fn words_and_ends_of_every_record() {
    for row @ ([held, stale, dirty, busy], record_before) in all_records() {
        for (direction, mark) in [(Direction::Read, 1), (Direction::Write, 2)] {
            let right = if busy == mark {
                Ok(())
            } else {
                Err(Refusal::NotBegun)
            };
            assert_eq!(record_before.word(direction), right);
        }
        let right = match busy {
            0 => Err(Refusal::NotBegun),
            _ => Ok(([held, stale, dirty, 0], [None, None])),
        };
        check_step(row, |record| record.end().map(|()| [None, None]), right);
    }
}

// ---- begins

#[test]
fn numbers() {
    assert_eq!(Refusal::Busy.number(), 15);
    assert_eq!(Refusal::NotBegun.number(), 16);
}

/// The dirty colour is flushed, so that the device finds what the processor wrote, and held then.
#[test]
fn a_begin_read_over_a_dirty_page() {
    let dirty = [write(2, 0, 70), write(2, 63, 71)];
    let rows = [
        (begin_read(5), "F5.2", None),
        (take(5, 0), "", Some(70)),
        (take(5, 63), "", Some(71)),
        (take(5, 1), "", Some(1001)),
        // Not stale: no purge is due.
        (read(2, 63), "", Some(71)),
        (read(0, 0), "", Some(70)),
        (end(5), "", None),
    ];
    check(&mut after(&dirty), &rows);
}

/// Where the whole one-step transfer purges, a begin flushes: the words that do not come are kept. The colour is stale
/// then, as its lines may lack those that come.
#[test]
fn a_begin_write_over_a_dirty_page() {
    let dirty = [write(2, 0, 70), write(2, 1, 71), write(2, 63, 72)];
    let rows = [
        (begin_write(5), "F5.2", None),
        (bring(5, 1, 80), "", None),
        (end(5), "", None),
        (read(2, 0), "P5.2", Some(70)),
        (read(2, 1), "", Some(80)),
        (read(2, 63), "", Some(72)),
        (read(2, 2), "", Some(1002)),
    ];
    check(&mut after(&dirty), &rows);
    // Also where all words come.
    let mut pair = after(&dirty);
    check(&mut pair, &[(begin_write(5), "F5.2", None)]);
    for offset in 0..64 {
        check(&mut pair, &[(bring(5, offset, 80), "", None)]);
    }
    let rows = [(end(5), "", None), (read(2, 63), "P5.2", Some(80))];
    check(&mut pair, &rows);
}

#[test]
fn held_colours_stay_held_at_a_begin_read() {
    let rows = [
        (begin_read(5), "", None),
        (read(0, 0), "", Some(1000)),
        (read(1, 8), "", Some(1008)),
        (read(2, 0), "", Some(1000)),
        (end(5), "", None),
        (read(0, 0), "", Some(1000)),
        // They were held: now they go stale.
        (write(0, 0, 70), "", None),
        (read(1, 0), "F5.0 P5.1", Some(70)),
        (read(2, 0), "P5.2", Some(70)),
    ];
    check(&mut after(&[read(0, 0), read(1, 8)]), &rows);
}

#[test]
fn held_colours_go_stale_at_a_begin_write() {
    let held = [read(0, 0), read(1, 8)];
    // Whether words come or not, in their lines or not.
    let brought: [&[Call]; 3] = [&[], &[bring(5, 0, 1000)], &[bring(5, 63, 80)]];
    for words in brought {
        let mut pair = after(&held);
        check(&mut pair, &[(begin_write(5), "", None)]);
        for &word in words {
            check(&mut pair, &[(word, "", None)]);
        }
        let rows = [
            (end(5), "", None),
            (read(0, 0), "P5.0", Some(1000)),
            (write(1, 8, 70), "P5.1", None),
            (read(2, 8), "F5.1", Some(70)),
        ];
        check(&mut pair, &rows);
    }
}

#[test]
fn stale_colours_stay_stale_at_a_begin() {
    // Colour 1 is stale since the write, colour 0 dirty.
    let before = [read(1, 0), write(0, 0, 70)];
    let rows = [
        (begin_read(5), "F5.0", None),
        (take(5, 0), "", Some(70)),
        (read(1, 0), "P5.1", Some(70)),
        (read(1, 0), "", Some(70)),
        (end(5), "", None),
    ];
    check(&mut after(&before), &rows);
    let rows = [
        (begin_write(5), "F5.0", None),
        (bring(5, 1, 80), "", None),
        (end(5), "", None),
        (read(0, 0), "P5.0", Some(70)),
        (read(1, 1), "P5.1", Some(80)),
        (read(1, 0), "", Some(70)),
    ];
    check(&mut after(&before), &rows);
}

/// Neither the end nor a word orders anything or changes a state; a second begin has nothing to do. Colour 0, held by
/// the first, is stale since the begun writes.
#[test]
fn begins_one_after_the_other() {
    let rows = [
        (begin_read(5), "F5.0", None),
        (end(5), "", None),
        (begin_read(5), "", None),
        (end(5), "", None),
        (begin_write(5), "", None),
        (end(5), "", None),
        (begin_write(5), "", None),
        (end(5), "", None),
        (write(1, 1, 71), "", None),
        (begin_write(5), "F5.1", None),
        (end(5), "", None),
        (read(0, 1), "P5.0", Some(71)),
    ];
    check(&mut after(&[write(0, 0, 70)]), &rows);
}

/// What a begin orders and makes of the states is what the one-step device read or the part does: what follows is
/// the same.
#[test]
fn begins_beside_one_step_transfers() {
    let befores: [&[Call]; 5] = [
        &[],
        &[read(0, 0), read(1, 8)],
        &[write(2, 7, 70)],
        &[read(1, 0), write(0, 0, 70)],
        &[read(1, 0), write(0, 0, 70), read(2, 0)],
    ];
    for before in befores {
        let (mut one, mut other) = (after(before), after(before));
        let begun = accept(&mut one, begin_read(5));
        let Found::Page(words) = accept(&mut other, device_read(5)).found else {
            panic!("a device read finds a page");
        };
        for (offset, word) in (0..).zip(*words) {
            assert_eq!(accept(&mut one, take(5, offset)).found, Found::Word(word));
        }
        accept(&mut one, end(5));
        assert!(one == other, "after {before:?}");

        let (mut one, mut other) = (after(before), after(before));
        assert_eq!(
            begun.operations,
            accept(&mut one, begin_write(5)).operations
        );
        let sent = accept(&mut other, part(5, 20, 12, 100));
        assert_eq!(begun.operations, sent.operations);
        for k in 0..12 {
            accept(&mut one, bring(5, 20 + k, 100 + u32::from(k)));
        }
        accept(&mut one, end(5));
        assert!(one == other, "after {before:?}");
    }
}

// ---- processor accesses

#[test]
fn no_access_while_the_device_writes() {
    let befores: [&[Call]; 4] = [&[], &[read(0, 0)], &[write(0, 0, 70)], &[write(1, 0, 70)]];
    for before in befores {
        let mut pair = after(before);
        accept(&mut pair, begin_write(5));
        let accesses = [
            read(0, 0),
            read(1, 63),
            read(3, 0),
            write(0, 0, 7),
            write(2, 63, 7),
        ];
        let rows = accesses.map(|access| (access, 15));
        check_refused(&mut pair, &rows);
        accept(&mut pair, bring(5, 0, 80));
        check_refused(&mut pair, &rows);
        accept(&mut pair, end(5));
        assert_eq!(accept(&mut pair, read(0, 0)).found, Found::Word(80));
        accept(&mut pair, write(0, 0, 7));
        pair.settle().unwrap();
    }
}

#[test]
fn only_reads_while_the_device_reads() {
    let befores: [&[Call]; 4] = [
        &[],
        &[read(0, 0)],
        &[write(0, 0, 1000)],
        &[write(1, 0, 1000)],
    ];
    for before in befores {
        let mut pair = after(before);
        accept(&mut pair, begin_read(5));
        // Whatever the colour's state, and whether the word would change or not.
        let writes = [
            write(0, 0, 70),
            write(0, 0, 1000),
            write(1, 63, 7),
            write(2, 0, 7),
        ];
        let rows = writes.map(|write| (write, 15));
        check_refused(&mut pair, &rows);
        for page in 0..4 {
            assert_eq!(accept(&mut pair, read(page, 0)).found, Found::Word(1000));
            check_refused(&mut pair, &rows);
        }
        assert_eq!(accept(&mut pair, take(5, 0)).found, Found::Word(1000));
        accept(&mut pair, end(5));
        for write in writes {
            accept(&mut pair, write);
        }
        pair.settle().unwrap();
    }
}

/// Reads purge stale colours and hold new ones while the device reads, and the end leaves them so. Colours 0 and 1 are
/// stale since the write, colour 2 since the part.
#[test]
fn reads_between_the_words() {
    let before = [read(0, 0), read(1, 0), write(2, 9, 70), part(5, 16, 1, 80)];
    let rows = [
        (begin_read(5), "", None),
        (read(0, 9), "P5.0", Some(70)),
        (take(5, 9), "", Some(70)),
        (read(2, 16), "P5.2", Some(80)),
        (take(5, 16), "", Some(80)),
        (read(1, 9), "P5.1", Some(70)),
        (read(3, 63), "", Some(1063)),
        (take(5, 63), "", Some(1063)),
        (end(5), "", None),
        (read(1, 9), "", Some(70)),
        (write(0, 9, 71), "", None),
        (read(1, 9), "F5.0 P5.1", Some(71)),
        (read(3, 9), "P5.3", Some(71)),
    ];
    check(&mut after(&before), &rows);
}

// ---- new transfers

#[test]
fn no_new_transfer_of_a_busy_frame() {
    for begin in BEGINS {
        let befores: [&[Call]; 3] = [&[], &[read(0, 0)], &[write(0, 0, 70)]];
        for before in befores {
            let mut pair = after(before);
            accept(&mut pair, begin(5));
            let rows = transfers().map(|transfer| (transfer, 15));
            check_refused(&mut pair, &rows);
            accept(&mut pair, end(5));
            for transfer in transfers() {
                accept(&mut pair.clone(), transfer);
            }
        }
    }
}

// ---- words and ends

#[test]
fn words_and_ends_without_a_transfer() {
    let rows = [
        (bring(5, 0, 80), 16),
        (bring(5, 63, 1063), 16),
        (take(5, 0), 16),
        (end(5), 16),
    ];
    check_refused(&mut Pair::default(), &rows);
    // Also after a transfer in one step, which is over, and after one that was ended.
    for transfer in transfers() {
        let mut pair = after(&[read(1, 0), write(0, 0, 70), transfer]);
        if matches!(transfer, Call::BeginRead { .. } | Call::BeginWrite { .. }) {
            accept(&mut pair, end(5));
        }
        check_refused(&mut pair, &rows);
    }
    // That another frame is busy does not help.
    for begin in BEGINS {
        check_refused(&mut after(&[begin(4), begin(6)]), &rows);
    }
}

#[test]
fn words_in_the_wrong_direction() {
    let mut pair = after(&[begin_read(5)]);
    check_refused(
        &mut pair,
        &[(bring(5, 0, 80), 16), (bring(5, 63, 1063), 16)],
    );
    assert_eq!(accept(&mut pair, take(5, 0)).found, Found::Word(1000));

    let mut pair = after(&[begin_write(5)]);
    check_refused(&mut pair, &[(take(5, 0), 16), (take(5, 63), 16)]);
    accept(&mut pair, bring(5, 0, 80));
    check_refused(&mut pair, &[(take(5, 0), 16)]);
}

/// Each word moves at once: any offset, in any order, as often as one likes.
#[test]
fn words_that_are_brought() {
    let rows = [
        (begin_write(5), "", None),
        (bring(5, 63, 80), "", None),
        (bring(5, 0, 81), "", None),
        (bring(5, 7, u32::MAX), "", None),
        (bring(5, 8, 82), "", None),
        (bring(5, 63, 83), "", None),
        (bring(5, 9, 0), "", None),
        (end(5), "", None),
        (read(0, 63), "", Some(83)),
        (read(0, 0), "", Some(81)),
        (read(0, 7), "", Some(u32::MAX)),
        (read(0, 8), "", Some(82)),
        (read(0, 9), "", Some(0)),
        (read(0, 10), "", Some(1010)),
    ];
    check(&mut after(&[]), &rows);
}

#[test]
fn words_that_are_taken() {
    let rows = [
        (begin_read(5), "", None),
        (take(5, 63), "", Some(1063)),
        (take(5, 0), "", Some(1000)),
        (take(5, 0), "", Some(1000)),
        (take(5, 8), "", Some(1008)),
        (end(5), "", None),
    ];
    check(&mut after(&[]), &rows);
    let mut pair = after(&[begin_read(5)]);
    let before = pair.clone();
    for offset in 0..64 {
        let word = 1000 + u32::from(offset);
        assert_eq!(accept(&mut pair, take(5, offset)).found, Found::Word(word));
    }
    assert!(pair == before, "a word taken changes nothing");
}

/// A transfer that ends without a word.
#[test]
fn no_words() {
    for begin in BEGINS {
        let mut pair = after(&[begin(5), end(5)]);
        check_refused(&mut pair, &[(end(5), 16)]);
        assert!(pair == after(&[]));
    }
}

#[test]
fn the_first_and_the_last_frame() {
    for frame in [0, 63] {
        let rows = [
            (begin_write(frame), "", None),
            (bring(frame, 0, 80), "", None),
            (bring(frame, 63, 81), "", None),
            (end(frame), "", None),
            (begin_read(frame), "", None),
            (take(frame, 0), "", Some(80)),
            (take(frame, 63), "", Some(81)),
            (take(frame, 1), "", Some(0)),
        ];
        check(&mut after(&[]), &rows);
    }
}

// ---- the order of the refusals

#[test]
fn before_15_of_an_access() {
    for begin in BEGINS {
        let mut pair = after(&[begin(5)]);
        let space_16 = Call::Write {
            space: 16,
            page: 0,
            offset: 64,
            word: 7,
        };
        let rows = [
            (space_16, 3),
            (write(1024, 64, 7), 3),
            (write(0, 64, 7), 6),
            (write(3, 64, 7), 6),
            // Not mapped, so of no frame that could be busy.
            (write(4, 0, 7), 8),
            (write(3, 0, 7), 10),
            (write(0, 0, 7), 15),
            (read(1024, 0), 3),
            (read(0, 64), 6),
            (read(4, 0), 8),
        ];
        check_refused(&mut pair, &rows);
    }
    check_refused(&mut after(&[begin_write(5)]), &[(read(3, 0), 15)]);
}

#[test]
fn before_15_of_a_transfer() {
    for begin in BEGINS {
        let mut pair = after(&[begin(5)]);
        let mut rows = vec![
            (device_read(64), 4),
            (device_write(64 + 5, 100), 4),
            (begin_read(64 + 5), 4),
            (begin_write(255), 4),
            (part(64 + 5, 0, 0, 100), 4),
        ];
        for (offset, count) in [(0, 0), (63, 2), (64, 1), (0, 65), (usize::MAX, 1)] {
            rows.push((part(5, offset, count, 100), 13));
        }
        rows.push((part(5, 63, 1, 100), 15));
        check_refused(&mut pair, &rows);
    }
}

#[test]
fn before_16() {
    // Whether a transfer runs, and in which direction, or none.
    let befores: [&[Call]; 3] = [&[], &[begin_read(5)], &[begin_write(5)]];
    for before in befores {
        let mut pair = after(before);
        let rows = [
            (bring(64, 64, 80), 4),
            (bring(64 + 5, 0, 80), 4),
            (take(64, 64), 4),
            (take(255, 255), 4),
            (end(64), 4),
            (end(64 + 5), 4),
            (bring(5, 64, 80), 6),
            (bring(5, 255, 80), 6),
            (take(5, 64), 6),
            (take(5, 128), 6),
            (take(6, 64), 6),
            (bring(6, 63, 80), 16),
            (take(6, 63), 16),
            (end(6), 16),
        ];
        check_refused(&mut pair, &rows);
    }
}

// ---- beside other calls

/// Lines of the frame, and dirty ones of another in the same colour, leave the cache between the words.
#[test]
fn evictions_between_the_words() {
    let evict = |line| Call::Evict { line };
    let before = [read(0, 0), map(1, 8, 6, 2)];
    let write_other = Call::Write {
        space: 1,
        page: 8,
        offset: 8,
        word: 70,
    };
    let rows = [
        (write_other, "", None),
        (begin_write(5), "", None),
        (bring(5, 0, 80), "", None),
        // Of frame 5, stale; then of frame 6, dirty.
        (evict(0), "", None),
        (bring(5, 1, 81), "", None),
        (evict(1), "", None),
        (bring(5, 8, 82), "", None),
        (end(5), "", None),
        (read(0, 0), "P5.0", Some(80)),
        (read(0, 1), "", Some(81)),
        (read(0, 8), "", Some(82)),
        (begin_read(6), "F6.0", None),
        (take(6, 8), "", Some(70)),
    ];
    check(&mut after(&before), &rows);
    let rows = [
        (write(0, 0, 70), "", None),
        (evict(0), "", None),
        // The record is dirty still, though no line is.
        (begin_read(5), "F5.0", None),
        (read(0, 0), "", Some(70)),
        (evict(0), "", None),
        (take(5, 0), "", Some(70)),
        (read(0, 0), "", Some(70)),
        (evict(0), "", None),
        (end(5), "", None),
    ];
    check(&mut after(&[]), &rows);
    // The line that holds a word the device has changed since: it is clean, so that it is not written back.
    let rows = [
        (read(0, 0), "", Some(1000)),
        (begin_write(5), "", None),
        (bring(5, 0, 80), "", None),
        (evict(0), "", None),
        (end(5), "", None),
        (begin_read(5), "", None),
        (take(5, 0), "", Some(80)),
    ];
    check(&mut after(&[]), &rows);
}

/// A miss of another frame turns the busy frame's line out, and the other way round.
#[test]
fn misses_between_the_words() {
    let other = |offset, word| Call::Write {
        space: 1,
        page: 8,
        offset,
        word,
    };
    let rows = [
        (read(0, 0), "", Some(1000)),
        (begin_read(5), "", None),
        (other(0, 70), "", None),
        (take(5, 0), "", Some(1000)),
        (read(0, 0), "", Some(1000)),
        (other(1, 71), "", None),
        (take(5, 1), "", Some(1001)),
        (end(5), "", None),
        (begin_write(5), "", None),
        (other(2, 72), "", None),
        (bring(5, 2, 80), "", None),
        (other(3, 73), "", None),
        (end(5), "", None),
        (read(0, 2), "P5.0", Some(80)),
    ];
    check(&mut after(&[map(1, 8, 6, 2)]), &rows);
}

/// Neither is an access or a transfer.
#[test]
fn maps_and_unmaps_of_a_busy_frame() {
    let rows = [
        (write(0, 0, 70), "", None),
        (begin_read(5), "F5.0", None),
        (map(0, 9, 5, 2), "", None),
        (read(9, 0), "", Some(70)),
        (unmap(0), "", None),
        (unmap(9), "", None),
        (take(5, 0), "", Some(70)),
        (map(0, 0, 5, 1), "", None),
        (read(0, 0), "", Some(70)),
        (end(5), "", None),
    ];
    check(&mut after(&[]), &rows);

    let mut pair = after(&[]);
    let rows = [
        (read(0, 0), "", Some(1000)),
        (begin_write(5), "", None),
        (unmap(0), "", None),
        (bring(5, 0, 80), "", None),
        (map(0, 0, 5, 2), "", None),
        (map(0, 9, 5, 2), "", None),
    ];
    check(&mut pair, &rows);
    let rows = [(read(0, 0), 15), (read(9, 0), 15), (write(9, 0, 7), 15)];
    check_refused(&mut pair, &rows);
    // Unmapped and mapped again, colour 0 is stale still.
    let rows = [
        (end(5), "", None),
        (read(0, 0), "P5.0", Some(80)),
        (read(9, 0), "", Some(80)),
    ];
    check(&mut pair, &rows);
}

/// The frame of no mapping, and a page whose frame is another now.
#[test]
fn a_page_that_leaves_the_busy_frame() {
    let mut pair = after(&[begin_write(5)]);
    check_refused(&mut pair, &[(write(0, 0, 7), 15)]);
    for page in 0..4 {
        accept(&mut pair, unmap(page));
    }
    check_refused(&mut pair, &[(write(0, 0, 7), 8), (device_read(5), 15)]);
    let rows = [
        (map(0, 0, 6, 2), "", None),
        (write(0, 0, 70), "", None),
        (bring(5, 0, 80), "", None),
        (read(0, 0), "", Some(70)),
        (end(5), "", None),
    ];
    check(&mut pair, &rows);
}

/// The list of mappings (N1) takes busy frames too.
#[test]
fn many_mappings_of_a_busy_frame() {
    for begin in BEGINS {
        let mut pair = after(&[begin(5)]);
        let items = [8, 9, 0].map(|page| Mapping {
            space: 0,
            page,
            frame: 5,
            rights: 2,
        });
        let mut answers = [99; 3];
        assert_eq!(pair.map_all(&items, &mut answers), Ok(()));
        assert_eq!(answers, [0, 0, 7]);
        check_refused(&mut pair, &[(write(9, 0, 7), 15)]);
    }
}

/// Both directions at once, and one-step transfers of a third frame: each frame has its own mark.
#[test]
fn several_frames() {
    let other = |page, offset| Call::Read {
        space: 1,
        page,
        offset,
    };
    let mut pair = after(&[map(1, 0, 6, 2), map(1, 1, 7, 2), device_write(6, 2000)]);
    let rows = [
        (begin_read(5), "", None),
        (begin_write(6), "", None),
        (take(5, 1), "", Some(1001)),
        (bring(6, 1, 80), "", None),
        (device_write(7, 3000), "", None),
        (other(1, 1), "", Some(3001)),
        (part(7, 1, 1, 81), "", None),
        (other(1, 1), "P7.1", Some(81)),
        (take(5, 2), "", Some(1002)),
    ];
    check(&mut pair, &rows);
    let rows = [
        (take(6, 1), 16),
        (bring(5, 1, 80), 16),
        (take(7, 1), 16),
        (bring(7, 1, 80), 16),
        (end(7), 16),
        (other(0, 1), 15),
        (begin_read(6), 15),
        (begin_write(5), 15),
    ];
    check_refused(&mut pair, &rows);
    // The end of one is not that of the other.
    let rows = [
        (end(5), "", None),
        (write(0, 1, 70), "", None),
        (bring(6, 2, 82), "", None),
        (begin_read(7), "", None),
        (end(6), "", None),
        (other(0, 1), "", Some(80)),
        (take(7, 2), "", Some(3002)),
        (other(0, 2), "", Some(82)),
        (begin_write(5), "F5.0", None),
    ];
    check(&mut pair, &rows);
}
