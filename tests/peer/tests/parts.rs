//! Document 02, request N3: a device write of some of a page's words. Every read is compared with the
//! cacheless memory too.

use peer::call::{Accepted, Call, Found, Mapping, Operation};
use peer::{Pair, Refusal};

const MAX: usize = usize::MAX;

fn read(page: u16, offset: u8) -> Call {
    Call::Read {
        space: 0,
        page,
        offset,
    }
}

fn write(page: u16, offset: u8, word: u32) -> Call {
    Call::Write {
        space: 0,
        page,
        offset,
        word,
    }
}

/// A part of frame 5.
fn part(offset: usize, count: usize, first: u32) -> Call {
    part_of(5, offset, count, first)
}

fn part_of(frame: u8, offset: usize, count: usize, first: u32) -> Call {
    Call::DeviceWritePart {
        frame,
        offset,
        count,
        first,
    }
}

fn accept(pair: &mut Pair, call: Call) -> Accepted {
    pair.call(call).unwrap().unwrap()
}

/// Frame 5 at pages 0, 1 and 2, and these calls accepted.
fn after(calls: &[Call]) -> Pair {
    let mut pair = Pair::default();
    for page in [0, 1, 2] {
        let mapping = Mapping {
            space: 0,
            page,
            frame: 5,
            rights: 2,
        };
        accept(&mut pair, Call::Map(mapping));
    }
    for &call in calls {
        accept(&mut pair, call);
    }
    pair
}

/// Holds each call to its operations, as the text shows them, and each read to its word.
fn check(pair: &mut Pair, rows: &[(Call, &str, Option<u32>)]) {
    for &(call, operations, word) in rows {
        let accepted = accept(pair, call);
        let shown = accepted.operations.iter().flatten();
        let shown: Vec<String> = shown.map(Operation::to_string).collect();
        assert_eq!(shown.join(" "), operations, "{call:?}");
        let found = word.map_or(Found::Nothing, Found::Word);
        assert_eq!(accepted.found, found, "{call:?}");
    }
    pair.settle().unwrap();
}

fn refusal(pair: &mut Pair, call: Call) -> u8 {
    let before = pair.clone();
    let refusal = pair.call(call).unwrap().unwrap_err();
    assert!(*pair == before, "a refused call changes nothing");
    refusal.number()
}

/// Word k of the part is its first and k. The flush leaves the dirty colour's lines in, which are older than memory
/// then: it is stale, and the first read purges.
#[test]
fn sixty_three_words_flush_and_the_other_survives() {
    let dirty = [write(2, 0, 70), write(2, 63, 71)];
    let rows = [
        (part(0, 63, 100), "F5.2", None),
        (read(2, 0), "P5.2", Some(100)),
        (read(2, 62), "", Some(162)),
        (read(2, 63), "", Some(71)),
    ];
    check(&mut after(&dirty), &rows);
    let rows = [
        (part(1, 63, 100), "F5.2", None),
        (read(2, 0), "P5.2", Some(70)),
        (read(2, 1), "", Some(100)),
        (read(2, 63), "", Some(162)),
    ];
    check(&mut after(&dirty), &rows);
}

/// The purge leaves no line in: the colour is empty.
#[test]
fn sixty_four_words_purge() {
    let rows = [
        (part(0, 64, 100), "P5.2", None),
        (read(2, 0), "", Some(100)),
        (read(2, 63), "", Some(163)),
    ];
    check(&mut after(&[write(2, 0, 70), write(2, 63, 71)]), &rows);
}

/// Offsets 8 to 15 share a line, which is written back whole before the device's words come.
#[test]
fn a_part_inside_a_dirty_line() {
    let dirty = [write(1, 8, 70), write(1, 9, 71), write(1, 11, 72)];
    let rows = [
        (part(9, 2, 100), "F5.1", None),
        (read(1, 8), "P5.1", Some(70)),
        (read(1, 9), "", Some(100)),
        (read(1, 10), "", Some(101)),
        (read(1, 11), "", Some(72)),
        (read(1, 12), "", Some(0)),
    ];
    check(&mut after(&dirty), &rows);
}

/// The receiver's twelve words, over words of an earlier transfer.
#[test]
fn a_fix() {
    let earlier = Call::DeviceWrite {
        frame: 5,
        first: 1000,
    };
    let rows = [
        (part(20, 12, 100), "", None),
        (read(0, 19), "", Some(1019)),
        (read(0, 20), "", Some(100)),
        (read(0, 31), "", Some(111)),
        (read(0, 32), "", Some(1032)),
        (read(0, 63), "", Some(1063)),
    ];
    check(&mut after(&[earlier]), &rows);
}

#[test]
fn held_colours_go_stale() {
    let held = [read(0, 0), read(1, 8)];
    // Also one whose lines have none of the words sent.
    let rows = [
        (part(0, 1, 100), "", None),
        (read(0, 0), "P5.0", Some(100)),
        (read(1, 0), "P5.1", Some(100)),
        (read(2, 0), "", Some(100)),
    ];
    check(&mut after(&held), &rows);
    // By a write too the purge is due.
    let rows = [
        (part(0, 1, 100), "", None),
        (write(0, 1, 70), "P5.0", None),
        (read(0, 0), "", Some(100)),
        (read(1, 1), "F5.0 P5.1", Some(70)),
    ];
    check(&mut after(&held), &rows);
}

#[test]
fn stale_colours_stay_stale() {
    // Colour 1 is stale since the write, colour 0 dirty.
    let rows = [
        (part(62, 2, 100), "F5.0", None),
        // Both are stale now.
        (part(62, 2, 200), "", None),
        (read(0, 0), "P5.0", Some(70)),
        (read(1, 63), "P5.1", Some(201)),
        (read(1, 0), "", Some(70)),
    ];
    check(&mut after(&[read(1, 0), write(0, 0, 70)]), &rows);
}

/// Write after write through three colours: the last is the dirty one. The others were flushed for a write and are
/// stale.
#[test]
fn after_several_writers() {
    let dirty = [write(0, 0, 70), write(1, 1, 71), write(2, 2, 72)];
    let rows = [
        (part(3, 12, 100), "F5.2", None),
        (read(0, 0), "P5.0", Some(70)),
        (read(1, 1), "P5.1", Some(71)),
        (read(2, 2), "P5.2", Some(72)),
        (read(0, 3), "", Some(100)),
        (read(1, 14), "", Some(111)),
        (read(2, 15), "", Some(0)),
    ];
    check(&mut after(&dirty), &rows);
}

/// The record is dirty still, though no line is; and stale then, though none is in.
#[test]
fn after_an_eviction() {
    let dirty = [write(2, 0, 70), Call::Evict { line: 16 }];
    let rows = [
        (part(1, 1, 100), "F5.2", None),
        (read(2, 0), "P5.2", Some(70)),
    ];
    check(&mut after(&dirty), &rows);
}

#[test]
fn other_frames_keep_their_states() {
    let rows = [
        (part_of(6, 0, 63, 100), "", None),
        (part_of(4, 0, 64, 100), "", None),
        (read(0, 0), "", Some(70)),
        (part(1, 1, 100), "F5.0", None),
    ];
    check(&mut after(&[write(0, 0, 70)]), &rows);
}

#[test]
fn words_wrap() {
    let rows = [
        (part(61, 3, u32::MAX - 1), "", None),
        (read(0, 61), "", Some(u32::MAX - 1)),
        (read(0, 62), "", Some(u32::MAX)),
        (read(0, 63), "", Some(0)),
    ];
    check(&mut after(&[]), &rows);
}

/// All the page's words by this call: the answer and all that is left are those of the other call.
#[test]
fn a_whole_page_is_the_whole_transfer() {
    let befores: [&[Call]; 5] = [
        &[],
        &[read(0, 0), read(1, 8)],
        &[write(2, 7, 70)],
        &[read(1, 0), write(0, 0, 70)],
        &[read(1, 0), write(0, 0, 70), read(2, 0)],
    ];
    for before in befores {
        let (mut one, mut other) = (after(before), after(before));
        let whole = Call::DeviceWrite { frame: 5, first: 9 };
        assert_eq!(one.call(part(0, 64, 9)), other.call(whole));
        assert!(one == other, "after {before:?}");
    }
}

#[test]
fn up_to_the_last_offset() {
    let mut pair = after(&[]);
    for (offset, count) in [(63, 1), (62, 2), (52, 12), (1, 63), (0, 64)] {
        accept(&mut pair, part(offset, count, 100));
        let last = 100 + count as u32 - 1;
        assert_eq!(accept(&mut pair, read(0, 63)).found, Found::Word(last));
    }
    accept(&mut pair, part_of(63, 63, 1, 0));
}

#[test]
fn no_words_and_words_past_the_last_offset() {
    assert_eq!(Refusal::Part.number(), 13);
    let none = [(0, 0), (12, 0), (63, 0), (64, 0), (MAX, 0)];
    let past = [(63, 2), (64, 1), (53, 12), (1, 64), (0, 65), (64, 64)];
    // Numbers whose low bytes, or whose sum cut to fewer bits, would do.
    let large = [(256, 1), (65536, 1), (0, 257), (1, MAX), (MAX, 1)];
    let largest = [(MAX, 65), (MAX - 63, 64), (0, MAX), (MAX, MAX)];
    let mut pair = after(&[read(1, 0), write(0, 0, 70)]);
    let rows = none.into_iter().chain(past).chain(large).chain(largest);
    for (offset, count) in rows {
        let call = part(offset, count, 100);
        assert_eq!(refusal(&mut pair, call), 13, "{call:?}");
    }
}

#[test]
fn the_frame_is_tested_first() {
    let mut pair = after(&[write(0, 0, 70)]);
    for frame in [64, 128, 255] {
        for (offset, count) in [(0, 12), (0, 0), (63, 2), (MAX, MAX)] {
            let call = part_of(frame, offset, count, 100);
            assert_eq!(refusal(&mut pair, call), 4, "{call:?}");
        }
    }
    assert_eq!(refusal(&mut pair, part_of(63, 0, 0, 100)), 13);
}
