//! Document 02, request N8: fetches through an instruction cache. Every word found is compared with the cacheless
//! memory too.

use peer::board::{Colour, Frame, Line};
use peer::call::{number, Accepted, Call, Found, Mapping, Operation, Operations};
use peer::hardware::{InstructionTag, Tag};
use peer::machine::Machine;
use peer::record::{Access, Direction, Record, Transfer};
use peer::{Pair, Refusal};

fn map(space: u8, page: u16, frame: u8, rights: u8) -> Call {
    Call::Map(Mapping {
        space,
        page,
        frame,
        rights,
    })
}

fn unmap(page: u16) -> Call {
    Call::Unmap { space: 0, page }
}

fn read(page: u16, offset: u8) -> Call {
    Call::Read {
        space: 0,
        page,
        offset,
    }
}

fn fetch(page: u16, offset: u8) -> Call {
    Call::Fetch {
        space: 0,
        page,
        offset,
    }
}

fn write(page: u16, offset: u8, word: u32) -> Call {
    Call::Write {
        space: 0,
        page,
        offset,
        word,
    }
}

fn device_read(frame: u8) -> Call {
    Call::DeviceRead { frame }
}

fn device_write(frame: u8, first: u32) -> Call {
    Call::DeviceWrite { frame, first }
}

fn part(offset: usize, count: usize, first: u32) -> Call {
    Call::DeviceWritePart {
        frame: 5,
        offset,
        count,
        first,
    }
}

fn begin_read(frame: u8) -> Call {
    Call::BeginRead { frame }
}

fn begin_write(frame: u8) -> Call {
    Call::BeginWrite { frame }
}

fn bring(offset: u8, word: u32) -> Call {
    Call::BringWord {
        frame: 5,
        offset,
        word,
    }
}

fn take(offset: u8) -> Call {
    Call::TakeWord { frame: 5, offset }
}

fn end(frame: u8) -> Call {
    Call::EndTransfer { frame }
}

fn evict(line: u8) -> Call {
    Call::Evict { line }
}

fn accept(pair: &mut Pair, call: Call) -> Accepted {
    let answer = pair.call(call).unwrap();
    answer.unwrap_or_else(|refusal| panic!("{call:?}: {refusal:?}"))
}

/// The pages of space 0 at which frame 5 is mapped: to be read and written in colours 0 to 2, to be read in colour 3,
/// and to be fetched in colours 0 to 2, of colour 0 at two pages.
const PAGES: [(u16, u8); 8] = [
    (0, 2),
    (1, 2),
    (2, 2),
    (3, 1),
    (8, 3),
    (9, 3),
    (10, 3),
    (16, 3),
];

/// Frame 5 at those pages, its words 1000 to 1063, and these calls accepted.
fn after(calls: &[Call]) -> Pair {
    let mut pair = Pair::default();
    for (page, rights) in PAGES {
        accept(&mut pair, map(0, page, 5, rights));
    }
    accept(&mut pair, device_write(5, 1000));
    for &call in calls {
        accept(&mut pair, call);
    }
    pair
}

/// Holds each call to its operations, as the text shows them, and to the word that it finds.
fn check(pair: &mut Pair, rows: &[(Call, &str, Option<u32>)]) {
    for &(call, operations, word) in rows {
        let accepted = accept(pair, call);
        let shown = accepted.operations.iter().flatten();
        let shown: Vec<String> = shown.map(Operation::to_string).collect();
        assert_eq!(shown.join(" "), operations, "{call:?}");
        let found = word.map_or(Found::Nothing, Found::Word);
        assert_eq!(accepted.found, found, "{call:?}");
        pair.settle().unwrap();
    }
}

/// Holds each call to the number that refuses it, and to changing nothing.
fn check_refused(pair: &mut Pair, rows: &[(Call, u8)]) {
    let before = pair.clone();
    for &(call, right) in rows {
        assert_eq!(number(&pair.call(call).unwrap()), right, "{call:?}");
        assert!(*pair == before, "{call:?}: a refused call changes nothing");
    }
}

// ---- the record

/// Held, stale, dirty, busy, dirty colour, and of the instruction cache held and stale.
type Numbers = [u8; 7];

/// Stands for the dirty colour where there is none.
const NONE: u8 = 8;

/// Records that keep the rules but for the instruction cache's masks: free ones, ones that the device reads and ones
/// that it writes.
const DATA: [[u8; 5]; 14] = [
    [0x00, 0x00, 0, 0, NONE],
    [0x01, 0x00, 0, 0, NONE],
    [0x00, 0x81, 0, 0, NONE],
    [0x5a, 0xa5, 0, 0, NONE],
    [0xff, 0x00, 0, 0, NONE],
    [0x01, 0x00, 1, 0, 0],
    [0x04, 0xfb, 1, 0, 2],
    [0x80, 0x11, 1, 0, 7],
    [0x00, 0x00, 0, 1, NONE],
    [0xc3, 0x3c, 0, 1, NONE],
    [0x00, 0xff, 0, 1, NONE],
    [0x00, 0x00, 0, 2, NONE],
    [0x00, 0x42, 0, 2, NONE],
    [0x00, 0xff, 0, 2, NONE],
];

fn with(data: [u8; 5], [held, stale]: [u8; 2]) -> Numbers {
    let [data_held, data_stale, dirty, busy, dirty_colour] = data;
    [
        data_held,
        data_stale,
        dirty,
        busy,
        dirty_colour,
        held,
        stale,
    ]
}

/// Those with every pair of masks for the instruction cache.
fn all_numbers() -> impl Iterator<Item = Numbers> {
    let masks = (0..=255).flat_map(|held| (0..=255).map(move |stale| [held, stale]));
    masks.flat_map(|masks| DATA.map(|data| with(data, masks)))
}

/// Every record among them that keeps the rules, with its numbers.
fn all_records() -> impl Iterator<Item = (Numbers, Record)> {
    all_numbers().filter_map(|numbers| Some((numbers, Record::from_masks(numbers).ok()?)))
}

#[test]
fn the_rules_of_the_instruction_masks() {
    let mut kept = 0;
    for numbers @ [_, _, dirty, busy, _, held, stale] in all_numbers() {
        let breaks = held & stale != 0 || held != 0 && (dirty == 1 || busy == 2);
        match Record::from_masks(numbers) {
            Ok(record) => {
                assert!(!breaks, "{numbers:?}");
                assert_eq!(record.to_masks(), numbers);
                kept += 1;
            }
            Err(refusal) => {
                assert!(breaks, "{numbers:?}");
                assert_eq!(refusal, Refusal::Rules);
            }
        }
    }
    // Eight of the rows have neither a dirty colour nor mark 2: each colour is in one mask or in none. In the other
    // six each is stale or not.
    assert_eq!(kept, 8 * 6561 + 6 * 256);
}

#[test]
fn masks_that_keep_the_rules_and_masks_that_do_not() {
    let kept: [Numbers; 8] = [
        [0, 0, 0, 0, 8, 0xff, 0],
        [0, 0, 0, 0, 8, 0, 0xff],
        [0, 0, 0, 0, 8, 0x80, 0x7f],
        // The masks of the two caches have nothing to do with each other.
        [1, 2, 0, 0, 8, 1, 2],
        [1, 2, 0, 0, 8, 2, 1],
        // Held beside mark 1; stale beside a dirty colour and mark 2.
        [1, 0, 0, 1, 8, 1, 2],
        [1, 0, 1, 0, 0, 0, 1],
        [0, 1, 0, 2, 8, 0, 0xff],
    ];
    for numbers in kept {
        assert!(Record::from_masks(numbers).is_ok(), "{numbers:?}");
    }
    let broken: [Numbers; 7] = [
        [0, 0, 0, 0, 8, 1, 1],
        [0, 0, 0, 0, 8, 0x80, 0xff],
        // A dirty colour, the same and another; mark 2.
        [1, 0, 1, 0, 0, 1, 0],
        [1, 0, 1, 0, 0, 0x80, 0],
        [1, 2, 1, 0, 0, 2, 1],
        [0, 0, 0, 2, 8, 1, 0],
        [0, 1, 0, 2, 8, 0x80, 1],
    ];
    for numbers in broken {
        let answer = Record::from_masks(numbers);
        assert_eq!(answer, Err(Refusal::Rules), "{numbers:?}");
    }
}

#[test]
fn the_start() {
    let start = [0, 0, 0, 0, NONE, 0, 0];
    assert_eq!(Record::from_masks(start), Ok(Record::default()));
    assert_eq!(Record::default().to_masks(), start);
}

/// The dirty colour is flushed and held, own or other, and held and stale ones stay. The own colour is purged in the
/// instruction cache if it is stale there, and held then; others stay there too. Mark 2 alone refuses.
#[test]
fn fetches_of_every_record() {
    let frame = Frame::new(5).unwrap();
    for (before, record) in all_records() {
        let [held, stale, _, busy, dirty_colour, fetched, fetched_stale] = before;
        for colour in Colour::all() {
            let mut after = record;
            let operations = after.access(frame, Access::Fetch, colour);
            if busy == 2 {
                assert_eq!(operations, Err(Refusal::Busy), "{before:?}");
                assert_eq!(after, record, "{before:?}");
                continue;
            }
            let own = 1 << colour.index();
            let masks = [fetched | own, fetched_stale & !own];
            let right = with([held, stale, 0, busy, NONE], masks);
            assert_eq!(after.to_masks(), right, "{before:?}");

            let flush = Colour::all().nth(dirty_colour.into());
            let flush = flush.map(|colour| Operation::Flush(frame, colour));
            let purge = Operation::PurgeInstructions(frame, colour);
            let due = match (flush, fetched_stale & own != 0) {
                (Some(_), true) => [flush, Some(purge)],
                (_, false) => [flush, None],
                (None, true) => [Some(purge), None],
            };
            assert_eq!(operations, Ok(due), "{before:?}");
        }
    }
}

/// A step that is no fetch.
type Step = fn(&mut Record, Frame, Colour) -> Result<Operations, Refusal>;

/// Holds a step to doing with the data cache what it does where nothing is in the instruction cache, and with the
/// instruction cache's masks what `masks` does. A refused one changes nothing.
fn check_masks(step: Step, masks: fn([u8; 2]) -> [u8; 2]) {
    let frame = Frame::new(5).unwrap();
    for (before, record) in all_records() {
        let [data @ .., fetched, fetched_stale] = before;
        for colour in Colour::all() {
            let mut after = record;
            let operations = step(&mut after, frame, colour);
            let mut alone = Record::from_masks(with(data, [0, 0])).unwrap();
            assert_eq!(operations, step(&mut alone, frame, colour), "{before:?}");
            let right = match operations {
                Ok(_) => {
                    let [data @ .., _, _] = alone.to_masks();
                    with(data, masks([fetched, fetched_stale]))
                }
                Err(_) => before,
            };
            assert_eq!(after.to_masks(), right, "{before:?}");
        }
    }
}

#[test]
fn steps_that_make_held_instructions_stale() {
    let steps: [Step; 4] = [
        |record, frame, colour| record.access(frame, Access::Write, colour),
        |record, frame, _| record.transfer(frame, Transfer::Write),
        |record, frame, _| record.transfer(frame, Transfer::WritePart),
        |record, frame, _| record.transfer(frame, Transfer::Begin(Direction::Write)),
    ];
    for step in steps {
        check_masks(step, |[held, stale]| [0, stale | held]);
    }
}

#[test]
fn steps_that_leave_instructions_alone() {
    let steps: [Step; 6] = [
        |record, frame, colour| record.access(frame, Access::Read, colour),
        |record, frame, _| record.transfer(frame, Transfer::Read),
        |record, frame, _| record.transfer(frame, Transfer::Begin(Direction::Read)),
        |record, _, _| record.word(Direction::Read).map(|()| [None, None]),
        |record, _, _| record.word(Direction::Write).map(|()| [None, None]),
        |record, _, _| record.end().map(|()| [None, None]),
    ];
    for step in steps {
        check_masks(step, |masks| masks);
    }
}

// ---- the data cache's side of a fetch

#[test]
fn a_first_fetch() {
    let rows = [
        (fetch(8, 0), "", Some(1000)),
        (fetch(8, 63), "", Some(1063)),
        (fetch(8, 0), "", Some(1000)),
        (fetch(16, 7), "", Some(1007)),
        (fetch(9, 8), "", Some(1008)),
    ];
    check(&mut after(&[]), &rows);
}

/// The overlay is copied into memory by the processor, then run: through another colour, and through the same one,
/// where a read would flush nothing.
#[test]
fn a_fetch_after_a_write_flushes() {
    for (written, order) in [(0, "F5.0"), (1, "F5.1"), (2, "F5.2")] {
        let rows = [
            (fetch(8, 0), order, Some(70)),
            (fetch(8, 63), "", Some(71)),
            (fetch(8, 1), "", Some(1001)),
        ];
        let dirty = [write(written, 0, 70), write(written, 63, 71)];
        check(&mut after(&dirty), &rows);
    }
}

/// Held, and neither dirty, stale nor empty: a read through it purges nothing; and a write through another colour
/// flushes nothing and makes it stale, so that the next read through it purges.
#[test]
fn the_flushed_colour_is_held() {
    for (written, flush, both) in [(0, "F5.0", "F5.2 P5.0"), (1, "F5.1", "F5.2 P5.1")] {
        let mut pair = after(&[write(written, 0, 70)]);
        check(&mut pair, &[(fetch(8, 0), flush, Some(70))]);
        check(&mut pair.clone(), &[(read(written, 0), "", Some(70))]);
        let rows = [
            (write(2, 1, 71), "", None),
            (read(written, 0), both, Some(70)),
            (read(written, 1), "", Some(71)),
        ];
        check(&mut pair, &rows);
    }
}

#[test]
fn held_data_colours_stay_held() {
    // Of the fetch's own colour and of another.
    let rows = [
        (fetch(8, 0), "", Some(1000)),
        (read(0, 0), "", Some(1000)),
        (read(1, 0), "", Some(1000)),
        // Both were held: now they go stale.
        (write(2, 0, 70), "", None),
        (read(0, 0), "F5.2 P5.0", Some(70)),
        (read(1, 0), "P5.1", Some(70)),
    ];
    check(&mut after(&[read(0, 0), read(1, 0)]), &rows);
}

#[test]
fn stale_data_colours_stay_stale() {
    // Colours 0 and 1 are stale since the write, colour 2 dirty.
    let before = [read(0, 0), read(1, 0), write(2, 0, 70)];
    let rows = [
        (fetch(8, 0), "F5.2", Some(70)),
        (fetch(8, 0), "", Some(70)),
        (read(0, 0), "P5.0", Some(70)),
        (write(1, 1, 71), "P5.1", None),
    ];
    check(&mut after(&before), &rows);
}

/// A fetch brings nothing into the data cache: an empty colour is not held after it, so that none goes stale.
#[test]
fn empty_data_colours_stay_empty() {
    let rows = [
        (fetch(8, 0), "", Some(1000)),
        (write(1, 0, 70), "", None),
        (read(0, 0), "F5.1", Some(70)),
    ];
    check(&mut after(&[]), &rows);
}

// ---- the instruction cache's side of a fetch

/// Held once fetched: no purge is due until the words change.
#[test]
fn a_fetch_after_a_device_write_purges() {
    let rows = [
        (fetch(8, 0), "", Some(1000)),
        (device_write(5, 2000), "", None),
        (fetch(8, 0), "I5.0", Some(2000)),
        (fetch(8, 0), "", Some(2000)),
        (fetch(8, 63), "", Some(2063)),
        // Colour 1 was empty then.
        (fetch(9, 0), "", Some(2000)),
    ];
    check(&mut after(&[]), &rows);
}

/// Whether the words sent share a line with those fetched or not.
#[test]
fn a_fetch_after_a_part_purges() {
    for (offset, word) in [(0, 80), (1, 1000), (63, 1000)] {
        let rows = [
            (part(offset, 1, 80), "", None),
            (fetch(8, 0), "I5.0", Some(word)),
            (fetch(8, offset as u8), "", Some(80)),
        ];
        check(&mut after(&[fetch(8, 0)]), &rows);
    }
    // All 64 words by this call.
    let rows = [
        (part(0, 64, 80), "", None),
        (fetch(8, 0), "I5.0", Some(80)),
        (fetch(8, 63), "", Some(143)),
    ];
    check(&mut after(&[fetch(8, 0)]), &rows);
}

/// Whether words come or not.
#[test]
fn a_fetch_after_a_begun_write_purges() {
    let brought: [&[Call]; 3] = [&[], &[bring(0, 80)], &[bring(63, 80)]];
    for words in brought {
        let mut pair = after(&[fetch(8, 0), fetch(9, 8)]);
        check(&mut pair, &[(begin_write(5), "", None)]);
        for &word in words {
            check(&mut pair, &[(word, "", None)]);
        }
        let first = if words == [bring(0, 80)] { 80 } else { 1000 };
        let last = if words == [bring(63, 80)] { 80 } else { 1063 };
        let rows = [
            (end(5), "", None),
            (fetch(8, 0), "I5.0", Some(first)),
            (fetch(9, 63), "I5.1", Some(last)),
            (fetch(8, 63), "", Some(last)),
        ];
        check(&mut pair, &rows);
    }
}

/// The flush comes first, so that the line is filled with what was written.
#[test]
fn a_fetch_after_a_fetch_and_a_write_does_both() {
    for (written, orders) in [(0, "F5.0 I5.0"), (1, "F5.1 I5.0"), (2, "F5.2 I5.0")] {
        let rows = [
            // Nothing is ordered for the instruction cache yet.
            (write(written, 0, 70), "", None),
            (write(written, 1, 71), "", None),
            (fetch(8, 0), orders, Some(70)),
            (fetch(8, 1), "", Some(71)),
            (fetch(8, 2), "", Some(1002)),
        ];
        check(&mut after(&[fetch(8, 0)]), &rows);
    }
}

/// Each change of the words that is one call, whatever it does with the data cache.
#[test]
fn every_held_instruction_colour_goes_stale() {
    let fetched = [fetch(8, 0), fetch(9, 0), fetch(10, 0)];
    let changes = [
        (write(0, 63, 70), ["F5.0 I5.0", "I5.1", "I5.2"]),
        (write(1, 63, 70), ["F5.1 I5.0", "I5.1", "I5.2"]),
        (device_write(5, 1000), ["I5.0", "I5.1", "I5.2"]),
        (part(63, 1, 70), ["I5.0", "I5.1", "I5.2"]),
    ];
    for (change, orders) in changes {
        let mut pair = after(&fetched);
        check(&mut pair, &[(change, "", None)]);
        for (page, orders) in (8..).zip(orders) {
            let rows = [
                (fetch(page, 0), orders, Some(1000)),
                (fetch(page, 0), "", Some(1000)),
            ];
            check(&mut pair, &rows);
        }
    }
}

/// What was stale in the instruction cache stays so, until it is fetched itself.
#[test]
fn stale_instruction_colours_stay_stale() {
    let changes = [write(0, 0, 70), device_write(5, 2000), part(0, 1, 70)];
    for change in changes {
        let word = match change {
            Call::DeviceWrite { .. } => 2000,
            _ => 70,
        };
        let mut pair = after(&[fetch(8, 0), fetch(9, 0), change, fetch(9, 0)]);
        let others = [
            read(0, 0),
            read(3, 0),
            fetch(9, 0),
            fetch(10, 0),
            begin_read(5),
            take(0),
            end(5),
            unmap(8),
            map(0, 8, 5, 3),
            evict(64),
            evict(0),
        ];
        for call in others {
            accept(&mut pair, call);
        }
        // Also where the words change again, so that the other colour is stale too.
        let mut again = pair.clone();
        check(&mut pair, &[(fetch(8, 0), "I5.0", Some(word))]);
        let rows = [
            (device_write(5, 3000), "", None),
            (fetch(8, 0), "I5.0", Some(3000)),
            (fetch(9, 0), "I5.1", Some(3000)),
            (fetch(10, 0), "I5.2", Some(3000)),
        ];
        check(&mut again, &rows);
    }
}

/// What changes no word leaves what was fetched.
#[test]
fn reads_leave_instructions_alone() {
    let calls = [
        read(0, 0),
        read(8, 0),
        read(1, 63),
        device_read(5),
        begin_read(5),
        take(0),
        read(2, 0),
        end(5),
        unmap(16),
        map(0, 16, 5, 3),
        map(0, 24, 5, 2),
        evict(0),
        evict(64),
        fetch(9, 0),
    ];
    let mut pair = after(&[fetch(8, 0)]);
    for call in calls {
        accept(&mut pair, call);
        check(&mut pair, &[(fetch(8, 0), "", Some(1000))]);
    }
}

/// A refused write, transfer or begin leaves what was fetched, too.
#[test]
fn refused_calls_leave_instructions_alone() {
    let mut pair = after(&[fetch(8, 0)]);
    let rows = [
        (write(8, 0, 70), 10),
        (write(3, 0, 70), 10),
        (write(0, 64, 70), 6),
        (write(4, 0, 70), 8),
        (device_write(64 + 5, 2000), 4),
        (part(63, 2, 70), 13),
        (begin_write(64 + 5), 4),
        (bring(0, 70), 16),
    ];
    check_refused(&mut pair, &rows);
    check(&mut pair, &[(fetch(8, 0), "", Some(1000))]);
    accept(&mut pair, begin_read(5));
    let rows = [
        (write(0, 0, 70), 15),
        (device_write(5, 2000), 15),
        (part(0, 1, 70), 15),
        (begin_write(5), 15),
    ];
    check_refused(&mut pair, &rows);
    check(&mut pair, &[(fetch(8, 0), "", Some(1000))]);
}

/// Pages 8 and 16 are of one colour.
#[test]
fn aligned_pages_share_what_was_fetched() {
    let rows = [
        (fetch(8, 0), "", Some(1000)),
        (fetch(16, 0), "", Some(1000)),
        (part(0, 1, 80), "", None),
        (fetch(16, 0), "I5.0", Some(80)),
        (fetch(8, 0), "", Some(80)),
    ];
    check(&mut after(&[]), &rows);
}

/// A page unmapped keeps its states in both caches.
#[test]
fn unmap_keeps_the_instructions() {
    let rows = [
        (fetch(8, 0), "", Some(1000)),
        (unmap(8), "", None),
        (part(0, 1, 80), "", None),
        (map(0, 8, 5, 3), "", None),
        (fetch(8, 0), "I5.0", Some(80)),
    ];
    check(&mut after(&[]), &rows);
    // Mapped again to be written: what was fetched goes stale all the same.
    let rows = [
        (fetch(8, 0), "", Some(1000)),
        (unmap(8), "", None),
        (map(0, 8, 5, 2), "", None),
        (write(8, 0, 70), "", None),
        (fetch(16, 0), "F5.0 I5.0", Some(70)),
    ];
    check(&mut after(&[]), &rows);
}

/// Frame 6 at a page of another space, of colour 0.
#[test]
fn other_frames_keep_their_instructions() {
    let other = |offset| Call::Fetch {
        space: 1,
        page: 0,
        offset,
    };
    let before = [map(1, 0, 6, 3), device_write(6, 2000)];
    let rows = [
        (fetch(8, 0), "", Some(1000)),
        (other(8), "", Some(2008)),
        (write(0, 8, 70), "", None),
        (other(8), "", Some(2008)),
        (device_write(6, 3000), "", None),
        (other(8), "I6.0", Some(3008)),
        // The two share a line: each fetch turns the other's out.
        (fetch(8, 8), "F5.0 I5.0", Some(70)),
        (other(8), "", Some(3008)),
        (fetch(8, 8), "", Some(70)),
    ];
    check(&mut after(&before), &rows);
}

// ---- rights

#[test]
fn rights_that_a_mapping_may_have() {
    for (rights, right) in [(0, 5), (1, 0), (2, 0), (3, 0), (4, 5), (5, 5), (255, 5)] {
        let answer = Pair::default().call(map(0, 0, 5, rights)).unwrap();
        assert_eq!(number(&answer), right, "rights {rights}");
    }
}

#[test]
fn what_rights_3_allow() {
    let mut pair = after(&[]);
    check_refused(&mut pair, &[(write(8, 0, 70), 10)]);
    let rows = [
        (read(8, 0), "", Some(1000)),
        (fetch(8, 0), "", Some(1000)),
        (write(0, 0, 70), "", None),
        // The colour is dirty, and is read and fetched through page 8.
        (read(8, 0), "", Some(70)),
        (fetch(8, 0), "F5.0 I5.0", Some(70)),
    ];
    check(&mut pair, &rows);
    // Whatever the colour's state.
    check_refused(&mut pair, &[(write(8, 0, 70), 10)]);
    accept(&mut pair, write(0, 0, 71));
    check_refused(&mut pair, &[(write(8, 0, 70), 10)]);
}

#[test]
fn rights_1_and_2_do_not_fetch() {
    assert_eq!(Refusal::NoFetch.number(), 17);
    let befores: [&[Call]; 4] = [
        &[],
        &[read(0, 0), read(3, 0)],
        &[write(0, 0, 70)],
        &[fetch(8, 0)],
    ];
    for before in befores {
        let rows = [
            (fetch(0, 0), 17),
            (fetch(1, 63), 17),
            (fetch(3, 0), 17),
            (fetch(3, 63), 17),
        ];
        check_refused(&mut after(before), &rows);
    }
}

/// The list of mappings (N1) takes them too.
#[test]
fn many_mappings_to_fetch() {
    let mut pair = after(&[]);
    let items = [(24, 3), (25, 4), (26, 0), (8, 3)].map(|(page, rights)| Mapping {
        space: 0,
        page,
        frame: 5,
        rights,
    });
    let mut answers = [99; 4];
    assert_eq!(pair.map_all(&items, &mut answers), Ok(()));
    assert_eq!(answers, [0, 5, 5, 7]);
    check(&mut pair, &[(fetch(24, 0), "", Some(1000))]);
}

// ---- busy frames

#[test]
fn no_fetch_while_the_device_writes() {
    let befores: [&[Call]; 4] = [&[], &[fetch(8, 0)], &[write(0, 0, 70)], &[read(1, 0)]];
    for before in befores {
        let mut pair = after(before);
        accept(&mut pair, begin_write(5));
        let rows = [(fetch(8, 0), 15), (fetch(9, 63), 15), (fetch(16, 0), 15)];
        check_refused(&mut pair, &rows);
        accept(&mut pair, bring(0, 80));
        check_refused(&mut pair, &rows);
        accept(&mut pair, end(5));
        assert_eq!(accept(&mut pair, fetch(8, 0)).found, Found::Word(80));
        pair.settle().unwrap();
    }
}

/// Held and stale colours are fetched as ever; the begin has flushed the dirty one.
#[test]
fn fetches_while_the_device_reads() {
    let rows = [
        (fetch(8, 0), "", Some(1000)),
        (fetch(9, 0), "", Some(1000)),
        (part(0, 1, 80), "", None),
        (fetch(9, 0), "I5.1", Some(80)),
        (write(0, 1, 70), "", None),
        (begin_read(5), "F5.0", None),
        (fetch(8, 1), "I5.0", Some(70)),
        (fetch(9, 1), "I5.1", Some(70)),
        (fetch(10, 1), "", Some(70)),
        (take(1), "", Some(70)),
        (fetch(8, 0), "", Some(80)),
        (end(5), "", None),
        // The end leaves what was fetched.
        (fetch(8, 0), "", Some(80)),
        (fetch(9, 0), "", Some(80)),
        (write(0, 0, 71), "", None),
        (fetch(8, 0), "F5.0 I5.0", Some(71)),
    ];
    check(&mut after(&[]), &rows);
}

// ---- the order of the refusals

/// 3, 6, 8, 17, 15, each where all that stand after it apply too, if they can.
#[test]
fn before_15_of_a_fetch() {
    let space_16 = |page, offset| Call::Fetch {
        space: 16,
        page,
        offset,
    };
    let rows = [
        (space_16(0, 64), 3),
        (space_16(1024, 64), 3),
        (space_16(8, 0), 3),
        (fetch(1024, 64), 3),
        (fetch(1024 + 8, 0), 3),
        (fetch(u16::MAX, 255), 3),
        // Not mapped; rights 1 and 2; rights 3.
        (fetch(4, 64), 6),
        (fetch(3, 64), 6),
        (fetch(0, 65), 6),
        (fetch(8, 64), 6),
        (fetch(8, 128), 6),
        (fetch(8, 255), 6),
        // Not mapped, so of no frame and no rights.
        (fetch(4, 0), 8),
        (fetch(1023, 63), 8),
        (fetch(3, 0), 17),
        (fetch(0, 63), 17),
    ];
    check_refused(&mut after(&[]), &rows);
    check_refused(&mut after(&[begin_read(5)]), &rows);
    let mut busy = after(&[begin_write(5)]);
    check_refused(&mut busy, &rows);
    check_refused(&mut busy, &[(fetch(8, 63), 15)]);
    // The page is mapped no more: 8 and not what it had.
    for page in [0, 8] {
        accept(&mut busy, unmap(page));
        check_refused(&mut busy, &[(fetch(page, 0), 8)]);
    }
}

// ---- lines

/// The instruction cache's lines that hold something, by their numbers.
fn fetched_lines(machine: &Machine) -> Vec<(u8, InstructionTag)> {
    let lines = (64..128).map(|number| {
        let (_, line) = Line::by_number(number).unwrap();
        (number, machine.hardware.instruction_tag(line))
    });
    lines
        .filter(|(_, tag)| *tag != InstructionTag::Empty)
        .collect()
}

/// The data cache's lines that hold something, by their numbers.
fn data_lines(machine: &Machine) -> Vec<(u8, Tag)> {
    let lines = (0..64).map(|number| {
        let (_, line) = Line::by_number(number).unwrap();
        (number, machine.hardware.tag(line))
    });
    lines.filter(|(_, tag)| *tag != Tag::Empty).collect()
}

/// A machine after these calls, which must be accepted.
fn machine(calls: &[Call]) -> Machine {
    let mut machine = Machine::default();
    let maps = PAGES.map(|(page, rights)| map(0, page, 5, rights));
    for &call in maps.iter().chain(calls) {
        machine.call(call).unwrap();
    }
    machine
}

fn found(machine: &mut Machine, call: Call) -> Found {
    machine.call(call).unwrap().found
}

#[test]
fn tags_of_the_instruction_cache() {
    let last = Frame::new(63).unwrap();
    assert_eq!(InstructionTag::try_from(0), Ok(InstructionTag::Empty));
    assert_eq!(
        InstructionTag::try_from(64),
        Ok(InstructionTag::Clean(last))
    );
    for byte in 65..=255 {
        let tag = InstructionTag::try_from(byte);
        assert_eq!(tag, Err(Refusal::Rules), "tag {byte}");
    }
    // Some of these are a data line's.
    assert_eq!(Tag::try_from(129 + 63), Ok(Tag::Dirty(last)));
}

/// Offset o in colour c lies in line 64 + 8c + o/8 of the lines to evict. The data cache has nothing of it.
#[test]
fn the_line_of_a_fetch() {
    let clean = InstructionTag::Clean(Frame::new(5).unwrap());
    let rows = [
        (8, 0, 64),
        (8, 63, 71),
        (9, 8, 73),
        (10, 7, 80),
        (16, 15, 65),
    ];
    for (page, offset, line) in rows {
        let machine = machine(&[fetch(page, offset)]);
        assert_eq!(fetched_lines(&machine), [(line, clean)]);
        assert_eq!(data_lines(&machine), []);
    }
    // And the other way round.
    let machine = machine(&[read(8, 0), write(0, 63, 70)]);
    assert_eq!(fetched_lines(&machine), []);
    let lines = data_lines(&machine);
    assert_eq!(
        lines.iter().map(|(line, _)| *line).collect::<Vec<_>>(),
        [0, 7]
    );
}

/// A fetch of a word whose line holds the frame finds it there; else it comes from memory. Memory is changed here
/// behind the machine's back.
#[test]
fn hits_and_misses() {
    let frame = Frame::new(5).unwrap();
    let mut machine = machine(&[device_write(5, 1000), fetch(8, 0)]);
    machine.hardware.page_mut(frame).fill(7);
    assert_eq!(found(&mut machine, fetch(8, 7)), Found::Word(1007));
    assert_eq!(found(&mut machine, fetch(16, 1)), Found::Word(1001));
    assert_eq!(found(&mut machine, fetch(8, 8)), Found::Word(7));
    assert_eq!(found(&mut machine, fetch(9, 0)), Found::Word(7));
    // A data line does not serve a fetch, nor the other way round.
    machine.call(read(10, 0)).unwrap();
    machine.hardware.page_mut(frame).fill(8);
    assert_eq!(found(&mut machine, fetch(10, 0)), Found::Word(8));
    assert_eq!(found(&mut machine, read(10, 0)), Found::Word(7));
    assert_eq!(found(&mut machine, read(8, 0)), Found::Word(8));
    assert_eq!(found(&mut machine, fetch(8, 0)), Found::Word(1000));
}

/// A line of another frame is turned out by a miss, and not written, whatever it holds.
#[test]
fn a_miss_writes_nothing_back() {
    let frame = Frame::new(5).unwrap();
    let other = Call::Fetch {
        space: 1,
        page: 0,
        offset: 0,
    };
    let mut machine = machine(&[device_write(5, 1000), map(1, 0, 6, 3), fetch(8, 0)]);
    machine.hardware.page_mut(frame).fill(7);
    assert_eq!(found(&mut machine, other), Found::Word(0));
    assert_eq!(machine.hardware.page(frame), &[7; 64]);
    let clean = InstructionTag::Clean(Frame::new(6).unwrap());
    assert_eq!(fetched_lines(&machine), [(64, clean)]);
}

/// A fetch whose line in the data cache is another frame's, and dirty, leaves that there.
#[test]
fn a_fetch_turns_no_data_line_out() {
    let other = Frame::new(6).unwrap();
    let write_other = Call::Write {
        space: 1,
        page: 0,
        offset: 0,
        word: 70,
    };
    let before = [map(1, 0, 6, 2), write_other, fetch(8, 0), fetch(8, 8)];
    let machine = machine(&before);
    assert_eq!(data_lines(&machine), [(0, Tag::Dirty(other))]);
    assert_eq!(machine.hardware.page(other)[0], 0);
}

/// It empties the frame's lines of that colour, all of them; those of other colours, frames and of the data cache
/// stay.
#[test]
fn the_purge_of_a_fetch() {
    let (own, other) = (Frame::new(5).unwrap(), Frame::new(6).unwrap());
    let fetch_other = Call::Fetch {
        space: 1,
        page: 0,
        offset: 63,
    };
    let before = [
        map(1, 0, 6, 3),
        fetch(8, 0),
        fetch(8, 55),
        fetch(9, 0),
        fetch_other,
        part(0, 1, 80),
        read(0, 8),
        fetch(8, 16),
    ];
    let machine = machine(&before);
    let right = [(66, own), (71, other), (72, own)];
    let right = right.map(|(line, frame)| (line, InstructionTag::Clean(frame)));
    assert_eq!(fetched_lines(&machine), right);
    assert_eq!(data_lines(&machine), [(1, Tag::Clean(own))]);
}

/// Orders for the data cache leave the instruction cache's lines.
#[test]
fn data_orders_leave_instruction_lines() {
    let own = InstructionTag::Clean(Frame::new(5).unwrap());
    // A flush and a purge of colour 0 by accesses, a flush by a part, and a purge by a transfer of the whole page.
    let orders: [&[Call]; 4] = [
        &[write(0, 0, 70), read(1, 0)],
        &[read(0, 0), write(1, 0, 70), write(0, 0, 71)],
        &[write(0, 0, 70), part(1, 1, 80)],
        &[write(0, 0, 70), device_write(5, 2000)],
    ];
    for calls in orders {
        let mut machine = machine(&[fetch(8, 0), fetch(9, 0)]);
        for &call in calls {
            machine.call(call).unwrap();
        }
        assert_eq!(fetched_lines(&machine), [(64, own), (72, own)], "{calls:?}");
    }
}

// ---- evictions

#[test]
fn lines_to_evict() {
    let mut pair = after(&[]);
    for line in 0..128 {
        check(&mut pair, &[(evict(line), "", None)]);
    }
    for line in 128..=255 {
        check_refused(&mut pair, &[(evict(line), 6)]);
    }
}

/// The line is emptied and no other, of either cache, and the record stays: the next fetch orders nothing and finds
/// the word in memory.
#[test]
fn evictions_of_instruction_lines() {
    let own = Frame::new(5).unwrap();
    let clean = InstructionTag::Clean(own);
    let before = [
        device_write(5, 1000),
        fetch(8, 0),
        fetch(8, 8),
        fetch(9, 0),
        read(0, 0),
    ];
    let mut machine = machine(&before);
    let records = machine.manager.clone();
    machine.hardware.page_mut(own).fill(7);
    machine.call(evict(64)).unwrap();
    assert_eq!(fetched_lines(&machine), [(65, clean), (72, clean)]);
    assert_eq!(data_lines(&machine), [(0, Tag::Clean(own))]);
    assert_eq!(machine.hardware.page(own), &[7; 64]);
    assert_eq!(machine.manager, records);

    let empty = machine.clone();
    machine.call(evict(64)).unwrap();
    assert!(machine == empty, "an empty line stays empty");

    let accepted = machine.call(fetch(8, 0)).unwrap();
    assert_eq!(accepted.operations, [None, None]);
    assert_eq!(accepted.found, Found::Word(7));
    assert_eq!(found(&mut machine, fetch(8, 8)), Found::Word(1008));

    // A data line of the same place, clean or dirty, leaves the other where it is.
    machine.call(evict(0)).unwrap();
    let lines = [(64, clean), (65, clean), (72, clean)];
    assert_eq!(fetched_lines(&machine), lines);
    assert_eq!(data_lines(&machine), []);
}

/// A stale colour is purged though its line is gone; a dirty colour is flushed though its line is.
#[test]
fn fetches_after_evictions() {
    let rows = [
        (fetch(8, 0), "", Some(1000)),
        (evict(64), "", None),
        (fetch(8, 0), "", Some(1000)),
        (write(0, 0, 70), "", None),
        (evict(64), "", None),
        (evict(0), "", None),
        (fetch(8, 0), "F5.0 I5.0", Some(70)),
        (part(0, 1, 80), "", None),
        // The line that holds the old word leaves; the purge is due all the same.
        (evict(64), "", None),
        (fetch(8, 0), "I5.0", Some(80)),
        (evict(64), "", None),
        (fetch(8, 1), "", Some(1001)),
    ];
    check(&mut after(&[]), &rows);
}

// ---- protections

/// Pages 0, 1, 3, 8 and 9 of frame 5, in this order: rights 2, 2, 1, 3 and 3, colours 0, 1, 3, 0 and 1.
#[test]
fn protections() {
    let mut machine = Machine::default();
    for (page, rights) in [(9, 3), (8, 3), (3, 1), (1, 2), (0, 2)] {
        machine.call(map(0, page, 5, rights)).unwrap();
    }
    assert_eq!(machine.manager.protections(), [0; 5]);
    let rows = [
        // 4 by itself, at rights 3 alone and in its colour alone.
        (fetch(8, 0), [0, 0, 0, 4, 0]),
        (read(8, 0), [1, 0, 0, 5, 0]),
        (read(1, 0), [1, 1, 0, 5, 1]),
        (read(3, 0), [1, 1, 1, 5, 1]),
        (fetch(9, 0), [1, 1, 1, 5, 5]),
        // Dirty: write at rights 2 alone. What was fetched is stale.
        (write(0, 0, 70), [2, 0, 0, 1, 0]),
        // The flushed colour is held.
        (fetch(9, 0), [1, 0, 0, 1, 4]),
        (fetch(8, 0), [1, 0, 0, 5, 4]),
        (write(1, 0, 70), [0, 2, 0, 0, 1]),
        // Both colours are held, the one by its flush.
        (read(0, 0), [1, 1, 0, 1, 1]),
        (fetch(8, 0), [1, 1, 0, 5, 1]),
        // Evictions change none.
        (evict(64), [1, 1, 0, 5, 1]),
        (evict(0), [1, 1, 0, 5, 1]),
        (device_read(5), [1, 1, 0, 5, 1]),
        (begin_read(5), [1, 1, 0, 5, 1]),
        (fetch(9, 0), [1, 1, 0, 5, 5]),
        (end(5), [1, 1, 0, 5, 5]),
        (part(0, 1, 80), [0, 0, 0, 0, 0]),
        (fetch(8, 0), [0, 0, 0, 4, 0]),
        (device_write(5, 1000), [0, 0, 0, 0, 0]),
        (fetch(8, 0), [0, 0, 0, 4, 0]),
        (begin_write(5), [0, 0, 0, 0, 0]),
        (end(5), [0, 0, 0, 0, 0]),
        (fetch(9, 0), [0, 0, 0, 0, 4]),
    ];
    for (call, right) in rows {
        machine.call(call).unwrap();
        assert_eq!(machine.manager.protections(), right, "{call:?}");
    }
    // They go with their mappings.
    machine.call(map(0, 17, 5, 3)).unwrap();
    machine.call(map(0, 16, 5, 3)).unwrap();
    machine.call(unmap(3)).unwrap();
    assert_eq!(machine.manager.protections(), [0, 0, 0, 4, 0, 4]);
}
