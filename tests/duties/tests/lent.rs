//! What a call does with what it is lent: it tests all of it, leaves it as it was if it refuses, and
//! has every protection agree with the tables if it accepts.

use duties::buffers::Buffers;
use duties::list::{AllPairs, AllPairsPacked, Neighbours, Order, MAPPINGS};
use peer::call::{Call, Found, Mapping};
use peer::Refusal::{
    self, Busy, Frame, Length, NoFetch, NotBegun, Offset, Part, Place, ReadOnly, Rules, Unmapped,
};

const MAX: usize = usize::MAX;

/// The words of a record, from its frame's first, and their number.
const STALE: usize = 1;
const DIRTY: usize = 2;
const BUSY: usize = 3;
const DIRTY_COLOUR: usize = 4;
const FETCHED: usize = 5;
const OUTDATED: usize = 6;
const RECORD: usize = 7;

/// Where the last frame's record begins.
const LAST: usize = RECORD * 63;

fn mapping(space: u8, page: u16, frame: u8, rights: u8) -> Mapping {
    Mapping {
        space,
        page,
        frame,
        rights,
    }
}

fn read(space: u8, page: u16) -> Call {
    Call::Read {
        space,
        page,
        offset: 0,
    }
}

fn fetch(space: u8, page: u16) -> Call {
    Call::Fetch {
        space,
        page,
        offset: 0,
    }
}

fn write(space: u8, page: u16) -> Call {
    Call::Write {
        space,
        page,
        offset: 0,
        word: 7,
    }
}

/// A part of frame 5.
fn part(offset: usize, count: usize) -> Call {
    Call::DeviceWritePart {
        frame: 5,
        offset,
        count,
        first: 1,
    }
}

fn begin_read(frame: u8) -> Call {
    Call::BeginRead { frame }
}

fn begin_write(frame: u8) -> Call {
    Call::BeginWrite { frame }
}

fn bring(frame: u8, offset: u8) -> Call {
    Call::BringWord {
        frame,
        offset,
        word: 7,
    }
}

fn take(frame: u8, offset: u8) -> Call {
    Call::TakeWord { frame, offset }
}

fn end(frame: u8) -> Call {
    Call::EndTransfer { frame }
}

fn accept<O: Order>(buffers: &mut Buffers<O>, call: Call) {
    assert!(buffers.call(call).is_ok(), "{call:?}");
}

/// Four pages of three spaces, one of them to be fetched and the others to be written, mapped in rising order, so that
/// the list is the same in both orders. The device reads frame 8 and writes frame 9.
fn started<O: Order>() -> Buffers<O> {
    let mut buffers = Buffers::default();
    let pages = [(1, 8, 5, 2), (1, 9, 5, 2), (2, 8, 6, 3), (15, 1023, 63, 2)];
    for (space, page, frame, rights) in pages {
        accept(&mut buffers, Call::Map(mapping(space, page, frame, rights)));
    }
    accept(&mut buffers, begin_read(8));
    accept(&mut buffers, begin_write(9));
    buffers
}

/// A call of each kind, which the started buffers accept.
fn calls() -> [Call; 15] {
    [
        Call::Map(mapping(2, 9, 7, 1)),
        Call::Unmap { space: 1, page: 8 },
        read(1, 8),
        write(1, 9),
        fetch(2, 8),
        Call::DeviceRead { frame: 5 },
        Call::DeviceWrite { frame: 5, first: 1 },
        part(20, 12),
        begin_read(5),
        begin_write(5),
        take(8, 0),
        bring(9, 0),
        end(9),
        Call::Evict { line: 0 },
        Call::Evict { line: 127 },
    ]
}

type Change<O> = fn(&mut Buffers<O>);

/// What every call, on buffers with this change, is refused with: none if each is accepted.
fn refusal<O: Order + Clone + PartialEq>(change: Change<O>) -> Option<Refusal> {
    let answers = calls().map(|call| {
        let mut buffers = started();
        change(&mut buffers);
        let before = buffers.clone();
        let refusal = buffers.call(call).err();
        assert!(refusal.is_none() || buffers == before, "{call:?}");
        refusal
    });
    assert_eq!(answers, [answers[0]; 15]);
    answers[0]
}

fn lengths<O: Order + Clone + PartialEq>() {
    let changes: [Change<O>; 17] = [
        |lent| lent.records.truncate(447),
        |lent| lent.records.push(0),
        // A record less, and six, five and four words to each.
        |lent| lent.records.truncate(441),
        |lent| lent.records.truncate(384),
        |lent| lent.records.truncate(320),
        |lent| lent.records.truncate(256),
        |lent| lent.protections.truncate(255),
        |lent| lent.protections.push(0),
        |lent| lent.memory.truncate(4095),
        |lent| lent.memory.push(0),
        // Those of both caches, short of one and with one more; and of one cache alone.
        |lent| lent.words.truncate(1023),
        |lent| lent.words.push(0),
        |lent| lent.words.truncate(512),
        |lent| lent.tags.truncate(127),
        |lent| lent.tags.push(0),
        |lent| lent.tags.truncate(64),
        |lent| lent.tags.clear(),
    ];
    for (at, change) in changes.into_iter().enumerate() {
        assert_eq!(refusal(change), Some(Length), "{at}");
    }
    // Before a rule and a number of the call.
    let mut buffers = started::<O>();
    buffers.tags[0] = 65;
    for length in [0, 63, 65] {
        let mut device = vec![0; length];
        let answer = buffers.lend().device_read(64, &mut device);
        assert_eq!(answer, Err(Length));
        assert_eq!(buffers.lend().device_write(64, &device), Err(Length));
    }
    for tag in [0, 64] {
        buffers.tags.fill(0);
        buffers.tags[tag] = 65;
        assert_eq!(buffers.call(read(16, 0)), Err(Rules));
        assert_eq!(buffers.call(fetch(16, 0)), Err(Rules));
        buffers.tags[tag] = 64;
        assert_eq!(buffers.call(read(16, 0)), Err(Place));
        assert_eq!(buffers.call(fetch(16, 0)), Err(Place));
    }
}

#[test]
fn another_length_is_refused() {
    lengths::<AllPairs>();
    lengths::<AllPairsPacked>();
    lengths::<Neighbours>();
}

/// The tag of line 0; a part's frame, first offset and number; the words lent; and the refusal.
const PARTS: [(u8, u8, usize, usize, usize, Refusal); 16] = [
    // A buffer longer or shorter than the part, whatever else is wrong.
    (0, 5, 20, 12, 11, Length),
    (0, 5, 20, 12, 13, Length),
    (0, 5, 20, 12, 64, Length),
    (65, 64, MAX, 12, 11, Length),
    (65, 64, 0, 0, 1, Length),
    (65, 64, 0, 1, 0, Length),
    (65, 64, 0, MAX, 64, Length),
    (65, 64, MAX, 12, 12, Rules),
    (65, 64, 0, 0, 0, Rules),
    (0, 64, MAX, 12, 12, Frame),
    (0, 64, 0, 0, 0, Frame),
    (0, 63, 0, 0, 0, Part),
    (0, 63, 53, 12, 12, Part),
    (0, 63, 0, 65, 65, Part),
    (0, 63, MAX, 1, 1, Part),
    (0, 63, MAX, 65, 65, Part),
];

fn parts<O: Order + Clone + PartialEq>() {
    for (at, (tag, frame, offset, count, length, refusal)) in PARTS.into_iter().enumerate() {
        let mut buffers = started::<O>();
        buffers.tags[0] = tag;
        let before = buffers.clone();
        let device = vec![9; length];
        let mut lent = buffers.lend();
        let answer = lent.device_write_part(frame, offset, count, &device);
        assert_eq!(answer, Err(refusal), "{at}");
        assert!(buffers == before, "{at}");
    }
    // Frame 5's words begin at 64 times 5. All others stay.
    let mut buffers = started::<O>();
    let mut right = buffers.memory.clone();
    right[320 + 62..320 + 64].copy_from_slice(&[7, 8]);
    let answer = buffers.lend().device_write_part(5, 62, 2, &[7, 8]);
    assert!(answer.is_ok());
    assert_eq!(buffers.memory, right);
}

#[test]
fn parts_of_a_page() {
    parts::<AllPairs>();
    parts::<AllPairsPacked>();
    parts::<Neighbours>();
}

fn rules<O: Order + Clone + PartialEq>() {
    assert_eq!(refusal::<O>(|_| {}), None);
    let changes: [Change<O>; 69] = [
        // Doubles, side by side and apart; frame and rights may differ.
        |lent| lent.list.items[1].page = 8,
        |lent| lent.list.items[3] = mapping(1, 8, 63, 1),
        // The count, and what stands past it.
        |lent| lent.list.count = 3,
        |lent| lent.list.count = 5,
        |lent| lent.list.count = MAPPINGS + 1,
        |lent| lent.list.count = usize::MAX,
        |lent| lent.list.items[4].space = 1,
        |lent| lent.list.items[255].page = 256,
        |lent| lent.list.items[255].frame = 1,
        |lent| lent.list.items[128].rights = 1,
        // What is listed.
        |lent| lent.list.items[3].space = 16,
        |lent| lent.list.items[3].page = 1024,
        |lent| lent.list.items[3].frame = 64,
        |lent| lent.list.items[0].rights = 0,
        |lent| lent.list.items[0].rights = 4,
        |lent| lent.list.items[3].rights = 255,
        // Records: a mask, a bit in both masks, a flag with no held colour, and no flag.
        |lent| lent.records[LAST + STALE] = 256,
        |lent| lent.records[..2].fill(1),
        |lent| lent.records[LAST + DIRTY] = 1,
        |lent| lent.records[DIRTY] = 2,
        |lent| lent.records[..RECORD].copy_from_slice(&[1, 0, 2, 0, 0, 0, 0]),
        // Document 01's edge 7.
        |lent| lent.records[..RECORD].copy_from_slice(&[3, 0, 1, 0, 0, 0, 0]),
        |lent| lent.records[..RECORD].copy_from_slice(&[3, 0, 1, 0, 1, 0, 0]),
        // No busy mark, and one whose low byte would do.
        |lent| lent.records[BUSY] = 3,
        |lent| lent.records[LAST + BUSY] = 256,
        |lent| lent.records[LAST + BUSY] = u32::MAX,
        // A dirty colour while the device reads, a held and a dirty one while it writes.
        |lent| lent.records[LAST..].copy_from_slice(&[4, 0, 1, 1, 2, 0, 0]),
        |lent| lent.records[LAST..].copy_from_slice(&[4, 0, 0, 2, 8, 0, 0]),
        |lent| lent.records[..RECORD].copy_from_slice(&[4, 0, 1, 2, 2, 0, 0]),
        |lent| lent.records[..RECORD].copy_from_slice(&[255, 0, 0, 2, 8, 0, 0]),
        // A dirty colour without the flag: nothing held, a held one, a stale one, and busy frames.
        |lent| lent.records[DIRTY_COLOUR] = 0,
        |lent| lent.records[LAST + DIRTY_COLOUR] = 7,
        |lent| lent.records[LAST..].copy_from_slice(&[4, 0, 0, 0, 2, 0, 0]),
        |lent| lent.records[..RECORD].copy_from_slice(&[0, 4, 0, 0, 2, 0, 0]),
        |lent| lent.records[..RECORD].copy_from_slice(&[4, 0, 0, 1, 2, 0, 0]),
        |lent| lent.records[LAST..].copy_from_slice(&[0, 0, 0, 2, 0, 0, 0]),
        // The flag without one, with one that is empty, and with one that is stale.
        |lent| lent.records[LAST..].copy_from_slice(&[4, 0, 1, 0, 8, 0, 0]),
        |lent| lent.records[LAST..].copy_from_slice(&[4, 0, 1, 0, 1, 0, 0]),
        |lent| lent.records[..RECORD].copy_from_slice(&[1, 0, 1, 0, 7, 0, 0]),
        |lent| lent.records[..RECORD].copy_from_slice(&[4, 8, 1, 0, 3, 0, 0]),
        // Past the colours, without the flag and with it. Of most the low bits would do.
        |lent| lent.records[DIRTY_COLOUR] = 9,
        |lent| lent.records[LAST + DIRTY_COLOUR] = 256 + 8,
        |lent| lent.records[LAST + DIRTY_COLOUR] = u32::MAX,
        |lent| lent.records[..RECORD].copy_from_slice(&[2, 0, 1, 0, 9, 0, 0]),
        |lent| lent.records[LAST..].copy_from_slice(&[1, 0, 1, 0, 32, 0, 0]),
        |lent| lent.records[LAST..].copy_from_slice(&[1, 0, 1, 0, 256, 0, 0]),
        |lent| lent.records[LAST..].copy_from_slice(&[2, 0, 1, 0, 1 << 31 | 1, 0, 0]),
        // Masks for instructions: past the colours, and a bit in both.
        |lent| lent.records[FETCHED] = 256,
        |lent| lent.records[LAST + FETCHED] = 1 << 31 | 1,
        |lent| lent.records[LAST + OUTDATED] = 256,
        |lent| lent.records[OUTDATED] = u32::MAX,
        |lent| lent.records[FETCHED..RECORD].fill(1),
        |lent| lent.records[LAST..].copy_from_slice(&[0, 0, 0, 0, 8, 3, 6]),
        |lent| lent.records[LAST..].copy_from_slice(&[2, 1, 0, 1, 8, 255, 128]),
        // Held ones beside a dirty colour, the same and another, and while the device writes.
        |lent| lent.records[LAST..].copy_from_slice(&[4, 0, 1, 0, 2, 4, 0]),
        |lent| lent.records[..RECORD].copy_from_slice(&[4, 0, 1, 0, 2, 1, 0]),
        |lent| lent.records[LAST..].copy_from_slice(&[0, 0, 0, 2, 8, 128, 0]),
        |lent| lent.records[..RECORD].copy_from_slice(&[0, 255, 0, 2, 8, 1, 254]),
        |lent| lent.records[RECORD * 9 + FETCHED] = 1,
        // Tags of the data cache, and of the instruction cache, where none is dirty.
        |lent| lent.tags[63] = 65,
        |lent| lent.tags[0] = 128,
        |lent| lent.tags[31] = 193,
        |lent| lent.tags[64] = 65,
        |lent| lent.tags[127] = 65,
        |lent| lent.tags[64] = 128,
        |lent| lent.tags[64] = 129,
        |lent| lent.tags[127] = 129,
        |lent| lent.tags[100] = 192,
        |lent| lent.tags[100] = 255,
    ];
    for (at, change) in changes.into_iter().enumerate() {
        assert_eq!(refusal(change), Some(Rules), "{at}");
    }
}

#[test]
fn a_broken_rule_is_refused() {
    rules::<AllPairs>();
    rules::<AllPairsPacked>();
    rules::<Neighbours>();
}

/// What a call on the started buffers is refused with, after this change.
fn check_busy<O: Order + Clone + PartialEq>(change: Change<O>, rows: &[(Call, Refusal)]) {
    let mut buffers = started::<O>();
    for (page, rights) in [(8, 2), (9, 1), (10, 3)] {
        for (space, frame) in [(8, 8), (9, 9)] {
            accept(&mut buffers, Call::Map(mapping(space, page, frame, rights)));
        }
    }
    change(&mut buffers);
    let before = buffers.clone();
    for &(call, refusal) in rows {
        assert_eq!(buffers.call(call), Err(refusal), "{call:?}");
        assert!(buffers == before, "{call:?}");
    }
}

/// Frame 8 is read by the device and is at three pages of space 8; frame 9 is written, at those of space 9. Page 9 may
/// only be read, page 10 be fetched too.
fn busy<O: Order + Clone + PartialEq>() {
    let busy_calls = [
        (write(8, 8), Busy),
        (read(9, 8), Busy),
        (read(9, 9), Busy),
        (write(9, 8), Busy),
        (fetch(9, 10), Busy),
        (Call::DeviceRead { frame: 8 }, Busy),
        (Call::DeviceRead { frame: 9 }, Busy),
        (Call::DeviceWrite { frame: 8, first: 1 }, Busy),
        (Call::DeviceWrite { frame: 9, first: 1 }, Busy),
        (begin_read(8), Busy),
        (begin_read(9), Busy),
        (begin_write(8), Busy),
        (begin_write(9), Busy),
        (bring(8, 0), NotBegun),
        (take(9, 0), NotBegun),
        (bring(5, 0), NotBegun),
        (take(5, 0), NotBegun),
        (end(5), NotBegun),
    ];
    check_busy::<O>(|_| {}, &busy_calls);
    check_busy::<O>(
        |lent| lent.tags[63] = 65,
        &busy_calls.map(|(call, _)| (call, Rules)),
    );
    check_busy::<O>(
        |lent| lent.records[BUSY] = 3,
        &busy_calls.map(|(call, _)| (call, Rules)),
    );
    check_busy::<O>(
        |lent| lent.memory.push(0),
        &busy_calls.map(|(call, _)| (call, Length)),
    );

    let past = Call::Fetch {
        space: 9,
        page: 10,
        offset: 64,
    };
    let earlier = [
        (write(8, 9), ReadOnly),
        (write(9, 9), ReadOnly),
        (write(8, 10), ReadOnly),
        (write(9, 10), ReadOnly),
        (fetch(8, 8), NoFetch),
        (fetch(8, 9), NoFetch),
        (fetch(9, 8), NoFetch),
        (fetch(9, 9), NoFetch),
        (fetch(9, 11), Unmapped),
        (past, Offset),
        (fetch(9, 1024), Place),
        (bring(64, 64), Frame),
        (bring(8, 64), Offset),
        (take(9, 64), Offset),
        (end(64), Frame),
    ];
    check_busy::<O>(|_| {}, &earlier);

    // A device's buffer, then the part, before the mark.
    let mut buffers = started::<O>();
    let mut lent = buffers.lend();
    assert_eq!(lent.device_read(8, &mut [0; 63]), Err(Length));
    assert_eq!(lent.device_write(9, &[0; 65]), Err(Length));
    assert_eq!(lent.device_write_part(9, 20, 12, &[0; 11]), Err(Length));
    assert_eq!(lent.device_write_part(9, 53, 12, &[0; 12]), Err(Part));
    assert_eq!(lent.device_write_part(9, 20, 12, &[0; 12]), Err(Busy));
    let mut device = [99; 64];
    assert_eq!(lent.device_read(8, &mut device), Err(Busy));
    assert_eq!(device, [99; 64]);
    assert!(buffers == started());
}

#[test]
fn busy_frames() {
    busy::<AllPairs>();
    busy::<AllPairsPacked>();
    busy::<Neighbours>();
}

/// A word moves in memory alone, and every other stays; the records change at begin and end alone.
#[test]
fn words_of_a_transfer() {
    let mut buffers = started::<Neighbours>();
    let mut right = buffers.clone();
    accept(&mut buffers, bring(9, 63));
    right.memory[64 * 9 + 63] = 7;
    assert!(buffers == right);
    accept(&mut buffers, take(8, 63));
    assert!(buffers == right);
    accept(&mut buffers, end(9));
    assert_eq!(right.records[RECORD * 9 + BUSY], 2);
    right.records[RECORD * 9 + BUSY] = 0;
    assert!(buffers == right);
    accept(&mut buffers, end(8));
    assert_eq!(right.records[RECORD * 8 + BUSY], 1);
    right.records[RECORD * 8 + BUSY] = 0;
    assert!(buffers == right);
}

/// Frame 5's record after each call, and all others as at the start. Pages 0 and 8 have colour 0, page 1 has 1.
#[test]
fn the_dirty_colour_is_written() {
    let mut buffers = Buffers::<Neighbours>::default();
    for page in [0, 1, 8] {
        accept(&mut buffers, Call::Map(mapping(0, page, 5, 2)));
    }
    let mut right = [0, 0, 0, 0, 8, 0, 0].repeat(64);
    assert_eq!(buffers.records, right);
    let whole = Call::DeviceWrite { frame: 5, first: 1 };
    let rows = [
        (write(0, 1), [2, 0, 1, 0, 1, 0, 0]),
        (read(0, 1), [2, 0, 1, 0, 1, 0, 0]),
        // Flushed for a write, colour 1 is stale.
        (write(0, 0), [1, 2, 1, 0, 0, 0, 0]),
        (write(0, 8), [1, 2, 1, 0, 0, 0, 0]),
        // Turned out or unmapped, the colour stays dirty.
        (Call::Evict { line: 0 }, [1, 2, 1, 0, 0, 0, 0]),
        (Call::Unmap { space: 0, page: 8 }, [1, 2, 1, 0, 0, 0, 0]),
        // Flushed for a read, colour 0 is held.
        (read(0, 1), [3, 0, 0, 0, 8, 0, 0]),
        (read(0, 0), [3, 0, 0, 0, 8, 0, 0]),
        (write(0, 1), [2, 1, 1, 0, 1, 0, 0]),
        (Call::DeviceRead { frame: 5 }, [2, 1, 0, 0, 8, 0, 0]),
        (write(0, 1), [2, 1, 1, 0, 1, 0, 0]),
        // Purged, it is empty.
        (whole, [0, 1, 0, 0, 8, 0, 0]),
        (write(0, 0), [1, 0, 1, 0, 0, 0, 0]),
        (part(20, 12), [0, 1, 0, 0, 8, 0, 0]),
        (write(0, 1), [2, 1, 1, 0, 1, 0, 0]),
        (begin_read(5), [2, 1, 0, 1, 8, 0, 0]),
        (read(0, 0), [3, 0, 0, 1, 8, 0, 0]),
        (end(5), [3, 0, 0, 0, 8, 0, 0]),
        (write(0, 1), [2, 1, 1, 0, 1, 0, 0]),
        (begin_write(5), [0, 3, 0, 2, 8, 0, 0]),
        (bring(5, 0), [0, 3, 0, 2, 8, 0, 0]),
        (end(5), [0, 3, 0, 0, 8, 0, 0]),
    ];
    for (call, record) in rows {
        accept(&mut buffers, call);
        right[RECORD * 5..RECORD * 6].copy_from_slice(&record);
        assert_eq!(buffers.records, right, "{call:?}");
    }
}

/// What a fetch is refused with, beside busy frames: each where what stands after it applies too.
fn fetches<O: Order + Clone + PartialEq>() {
    let at = |space, page, offset| Call::Fetch {
        space,
        page,
        offset,
    };
    let rows = [
        (at(16, 1024, 64), Place),
        (at(16, 8, 0), Place),
        (at(2, 1024 + 8, 64), Place),
        (at(2, 8, 64), Offset),
        (at(2, 8, 255), Offset),
        (at(1, 8, 64), Offset),
        (at(2, 7, 64), Offset),
        (at(2, 7, 63), Unmapped),
        (at(0, 8, 0), Unmapped),
        (at(1, 8, 63), NoFetch),
        (at(15, 1023, 0), NoFetch),
        (write(2, 8), ReadOnly),
        (Call::Evict { line: 128 }, Offset),
        (Call::Evict { line: 255 }, Offset),
        (Call::Map(mapping(0, 0, 0, 0)), Refusal::Rights),
        (Call::Map(mapping(0, 0, 0, 4)), Refusal::Rights),
    ];
    let mut buffers = started::<O>();
    let before = buffers.clone();
    for (call, refusal) in rows {
        assert_eq!(buffers.call(call), Err(refusal), "{call:?}");
        assert!(buffers == before, "{call:?}");
    }
    accept(&mut buffers, at(2, 8, 63));
    accept(&mut buffers, Call::Map(mapping(0, 0, 0, 3)));
}

#[test]
fn refused_fetches() {
    fetches::<AllPairs>();
    fetches::<AllPairsPacked>();
    fetches::<Neighbours>();
}

/// Frame 5's record after each call, and all others as at the start. Pages 0 and 1 are to be written, 8 and 9 to be
/// fetched: each two are of colours 0 and 1.
#[test]
fn the_masks_for_instructions_are_written() {
    let mut buffers = Buffers::<Neighbours>::default();
    for (page, rights) in [(0, 2), (1, 2), (8, 3), (9, 3)] {
        accept(&mut buffers, Call::Map(mapping(0, page, 5, rights)));
    }
    let mut right = [0, 0, 0, 0, 8, 0, 0].repeat(64);
    assert_eq!(buffers.records, right);
    let whole = Call::DeviceWrite { frame: 5, first: 1 };
    let rows = [
        (fetch(0, 8), [0, 0, 0, 0, 8, 1, 0]),
        (fetch(0, 9), [0, 0, 0, 0, 8, 3, 0]),
        (read(0, 8), [1, 0, 0, 0, 8, 3, 0]),
        // A write makes both stale; the next flushes and they stay so.
        (write(0, 1), [2, 1, 1, 0, 1, 0, 3]),
        (write(0, 0), [1, 2, 1, 0, 0, 0, 3]),
        // The fetch's own colour is dirty, and held then.
        (fetch(0, 8), [1, 2, 0, 0, 8, 1, 2]),
        (Call::Evict { line: 64 }, [1, 2, 0, 0, 8, 1, 2]),
        (Call::Unmap { space: 0, page: 8 }, [1, 2, 0, 0, 8, 1, 2]),
        (fetch(0, 9), [1, 2, 0, 0, 8, 3, 0]),
        (Call::DeviceRead { frame: 5 }, [1, 2, 0, 0, 8, 3, 0]),
        (read(0, 1), [3, 0, 0, 0, 8, 3, 0]),
        (part(20, 12), [0, 3, 0, 0, 8, 0, 3]),
        (fetch(0, 9), [0, 3, 0, 0, 8, 2, 1]),
        (whole, [0, 3, 0, 0, 8, 0, 3]),
        (fetch(0, 9), [0, 3, 0, 0, 8, 2, 1]),
        (begin_read(5), [0, 3, 0, 1, 8, 2, 1]),
        (fetch(0, 9), [0, 3, 0, 1, 8, 2, 1]),
        (end(5), [0, 3, 0, 0, 8, 2, 1]),
        (begin_write(5), [0, 3, 0, 2, 8, 0, 3]),
        (bring(5, 0), [0, 3, 0, 2, 8, 0, 3]),
        (end(5), [0, 3, 0, 0, 8, 0, 3]),
        // The fetch's other colour is dirty, and held then.
        (write(0, 0), [1, 2, 1, 0, 0, 0, 3]),
        (fetch(0, 9), [1, 2, 0, 0, 8, 2, 1]),
    ];
    for (call, record) in rows {
        accept(&mut buffers, call);
        right[RECORD * 5..RECORD * 6].copy_from_slice(&record);
        assert_eq!(buffers.records, right, "{call:?}");
    }
}

/// Frame 5 at page 1 to be written and at page 9, of the same colour, to be fetched. The instruction cache's tags lie
/// behind the 64 of the data cache, its words behind the 512; what is in neither list stays.
#[test]
fn the_lines_of_a_fetch() {
    let mut buffers = Buffers::<Neighbours>::default();
    accept(&mut buffers, Call::Map(mapping(0, 1, 5, 2)));
    accept(&mut buffers, Call::Map(mapping(0, 9, 5, 3)));
    let sent = Call::DeviceWrite {
        frame: 5,
        first: 100,
    };
    accept(&mut buffers, sent);
    let (mut tags, mut words) = (vec![0; 128], vec![0; 1024]);
    let at = |offset| Call::Fetch {
        space: 0,
        page: 9,
        offset,
    };

    // Colour 1, offset 63: line 64 + 8 + 7.
    let accepted = buffers.call(at(63)).unwrap();
    assert_eq!(accepted.found, Found::Word(163));
    tags[79] = 6;
    words[8 * 79..8 * 80].copy_from_slice(&[156, 157, 158, 159, 160, 161, 162, 163]);
    assert_eq!((&buffers.tags, &buffers.words), (&tags, &words));

    // The data cache's line 8 and, behind it, memory: the fetch flushes the one and finds the other.
    accept(&mut buffers, write(0, 1));
    tags[8] = 129 + 5;
    words[64..72].copy_from_slice(&[7, 101, 102, 103, 104, 105, 106, 107]);
    assert_eq!((&buffers.tags, &buffers.words), (&tags, &words));
    assert_eq!(buffers.memory[64 * 5], 100);
    let accepted = buffers.call(at(0)).unwrap();
    assert_eq!(accepted.found, Found::Word(7));
    // Flushed, purged, and filled again: line 8 is clean, line 79 is empty, and their words stay.
    (tags[8], tags[79], tags[72]) = (6, 0, 6);
    words[8 * 72..8 * 73].copy_from_slice(&[7, 101, 102, 103, 104, 105, 106, 107]);
    assert_eq!((&buffers.tags, &buffers.words), (&tags, &words));
    assert_eq!(buffers.memory[64 * 5], 7);

    // Evicted, a flushed line is written nowhere, nor is a line of the instruction cache. Each is empty then, and stays
    // as it is when it is evicted again.
    let memory = buffers.memory.clone();
    for line in [8, 72] {
        buffers.words[8 * line] = 99;
        words[8 * line] = 99;
        assert_eq!((&buffers.tags, &buffers.words), (&tags, &words));
        tags[line] = 0;
        for _ in 0..2 {
            accept(&mut buffers, Call::Evict { line: line as u8 });
            assert_eq!((&buffers.tags, &buffers.words), (&tags, &words));
        }
    }
    assert_eq!(buffers.memory, memory);
}

/// Started, with two in each other's place: by page; by space, though the page rises; by both.
fn swapped<O: Order>() -> [Buffers<O>; 3] {
    [(0, 1), (1, 2), (0, 2)].map(|(at, other)| {
        let mut buffers = started::<O>();
        buffers.list.items.swap(at, other);
        buffers
    })
}

#[test]
fn a_list_out_of_order_is_refused() {
    for mut buffers in swapped::<Neighbours>() {
        let before = buffers.clone();
        for call in calls() {
            assert_eq!(buffers.call(call), Err(Rules), "{call:?}");
        }
        assert!(buffers == before);
    }
}

#[test]
fn all_pairs_may_stand_in_any_order() {
    for mut buffers in swapped::<AllPairs>() {
        accept(&mut buffers, read(1, 8));
    }
    for mut buffers in swapped::<AllPairsPacked>() {
        accept(&mut buffers, read(1, 8));
    }
}

#[test]
fn the_last_that_keeps_the_rules_is_accepted() {
    let changes: [Change<Neighbours>; 14] = [
        |lent| lent.tags.fill(64),
        |lent| lent.tags[63] = 192,
        |lent| lent.tags[64] = 64,
        |lent| lent.list.items[0].rights = 3,
        // Instructions: all held, also while the device reads; all stale, also beside a dirty colour and while it writes.
        |lent| lent.records[LAST..].copy_from_slice(&[3, 252, 0, 0, 8, 255, 0]),
        |lent| lent.records[..RECORD].copy_from_slice(&[0, 255, 0, 1, 8, 128, 127]),
        |lent| lent.records[LAST..].copy_from_slice(&[128, 127, 1, 0, 7, 0, 255]),
        |lent| lent.records[RECORD * 9 + OUTDATED] = 255,
        |lent| lent.records[LAST..].copy_from_slice(&[128, 127, 1, 0, 7, 0, 0]),
        |lent| lent.records[..RECORD].copy_from_slice(&[1, 254, 1, 0, 0, 0, 0]),
        |lent| lent.records[LAST..].copy_from_slice(&[3, 252, 0, 0, 8, 0, 0]),
        |lent| lent.records[LAST..].copy_from_slice(&[3, 252, 0, 1, 8, 0, 0]),
        |lent| lent.records[LAST..].copy_from_slice(&[0, 255, 0, 1, 8, 0, 0]),
        |lent| lent.records[LAST..].copy_from_slice(&[0, 255, 0, 2, 8, 0, 0]),
    ];
    for change in changes {
        assert_eq!(refusal(change), None);
    }
}

fn full<O: Order + Clone>() {
    let mut buffers = Buffers::<O>::default();
    for page in (0..256).rev() {
        accept(&mut buffers, Call::Map(mapping(3, 2 * page, 0, 1)));
    }
    let map = |page| Call::Map(mapping(3, page, 0, 1));
    assert_eq!(buffers.call(map(1)), Err(Refusal::Full));
    assert_eq!(buffers.call(map(2)), Err(Refusal::Mapped));
    accept(&mut buffers, read(3, 510));
    // Doubles: the first two, the last two, the two ends, and two of the middle.
    for (at, other) in [(0, 1), (254, 255), (0, 255), (100, 200)] {
        let mut double = buffers.clone();
        double.list.items[other] = double.list.items[at];
        assert_eq!(double.call(read(3, 0)), Err(Rules), "{at} and {other}");
    }
    accept(&mut buffers, Call::Unmap { space: 3, page: 0 });
    accept(&mut buffers, map(1));
}

#[test]
fn a_full_list() {
    full::<AllPairs>();
    full::<AllPairsPacked>();
    full::<Neighbours>();
}

/// The listed pages with their protections. The whole buffer held something else before the call.
fn after<O: Order>(buffers: &mut Buffers<O>, call: Call) -> Vec<(u8, u16, u8)> {
    buffers.protections.fill(99);
    accept(buffers, call);
    let (listed, rest) = buffers.protections.split_at(buffers.list.count);
    assert!(rest.iter().all(|&protection| protection == 0));
    let listed = buffers.list.listed().iter().zip(listed);
    listed
        .map(|(mapping, &protection)| (mapping.space, mapping.page, protection))
        .collect()
}

/// Pages 1 and 9 have one colour, page 2 has another; all are of frame 5, and page 9 may only be read.
#[test]
fn protections() {
    let mut buffers = Buffers::<Neighbours>::default();
    let map = |page, rights| Call::Map(mapping(0, page, 5, rights));
    let rows = [
        (map(9, 1), vec![(9, 0)]),
        (read(0, 9), vec![(9, 1)]),
        // First, in the middle, and last: what was there moves up with its protection.
        (map(1, 2), vec![(1, 1), (9, 1)]),
        (map(2, 2), vec![(1, 1), (2, 0), (9, 1)]),
        (map(10, 2), vec![(1, 1), (2, 0), (9, 1), (10, 0)]),
        (write(0, 1), vec![(1, 2), (2, 0), (9, 1), (10, 0)]),
        // The colour that the read flushes stays held.
        (read(0, 2), vec![(1, 1), (2, 1), (9, 1), (10, 1)]),
        (read(0, 9), vec![(1, 1), (2, 1), (9, 1), (10, 1)]),
        (write(0, 10), vec![(1, 0), (2, 2), (9, 0), (10, 2)]),
        (
            Call::Evict { line: 16 },
            vec![(1, 0), (2, 2), (9, 0), (10, 2)],
        ),
        // In the middle, first, and last: what comes later moves down.
        (
            Call::Unmap { space: 0, page: 2 },
            vec![(1, 0), (9, 0), (10, 2)],
        ),
        (Call::Unmap { space: 0, page: 1 }, vec![(9, 0), (10, 2)]),
        (Call::DeviceRead { frame: 5 }, vec![(9, 0), (10, 1)]),
        (read(0, 9), vec![(9, 1), (10, 1)]),
        (Call::Unmap { space: 0, page: 10 }, vec![(9, 1)]),
        (Call::DeviceWrite { frame: 5, first: 0 }, vec![(9, 0)]),
        // A part makes a held colour stale, and a dirty one.
        (read(0, 9), vec![(9, 1)]),
        (part(0, 1), vec![(9, 0)]),
        (map(2, 2), vec![(2, 0), (9, 0)]),
        (write(0, 2), vec![(2, 2), (9, 0)]),
        (part(63, 1), vec![(2, 0), (9, 0)]),
        (read(0, 2), vec![(2, 1), (9, 0)]),
        // While the device reads, held colours may be read, those mapped since then too, and none be written.
        (write(0, 2), vec![(2, 2), (9, 0)]),
        (begin_read(5), vec![(2, 1), (9, 0)]),
        (read(0, 9), vec![(2, 1), (9, 1)]),
        (take(5, 0), vec![(2, 1), (9, 1)]),
        (map(1, 2), vec![(1, 1), (2, 1), (9, 1)]),
        (read(0, 2), vec![(1, 1), (2, 1), (9, 1)]),
        (Call::Unmap { space: 0, page: 1 }, vec![(2, 1), (9, 1)]),
        (Call::Evict { line: 8 }, vec![(2, 1), (9, 1)]),
        (end(5), vec![(2, 1), (9, 1)]),
        (begin_read(5), vec![(2, 1), (9, 1)]),
        (end(5), vec![(2, 1), (9, 1)]),
        // While it writes, none is to be had, before the end or by it.
        (begin_write(5), vec![(2, 0), (9, 0)]),
        (bring(5, 0), vec![(2, 0), (9, 0)]),
        (map(1, 2), vec![(1, 0), (2, 0), (9, 0)]),
        (end(5), vec![(1, 0), (2, 0), (9, 0)]),
        (write(0, 1), vec![(1, 2), (2, 0), (9, 1)]),
        (begin_write(5), vec![(1, 0), (2, 0), (9, 0)]),
        (end(5), vec![(1, 0), (2, 0), (9, 0)]),
    ];
    for (call, right) in rows {
        let right: Vec<_> = right
            .into_iter()
            .map(|(page, protection)| (0, page, protection))
            .collect();
        assert_eq!(after(&mut buffers, call), right, "{call:?}");
    }
}

/// Frame 5 at pages 1 (rights 2), 2 (rights 1), 9 (rights 3) and 10 (rights 3): colours 1, 2, 1 and 2.
#[test]
fn protections_of_fetches() {
    let mut buffers = Buffers::<Neighbours>::default();
    for (page, rights) in [(1, 2), (2, 1), (9, 3)] {
        accept(&mut buffers, Call::Map(mapping(0, page, 5, rights)));
    }
    let map = Call::Map(mapping(0, 10, 5, 3));
    let rows = [
        (map, [0, 0, 0, 0]),
        (fetch(0, 9), [0, 0, 4, 0]),
        (fetch(0, 10), [0, 0, 4, 4]),
        (read(0, 10), [0, 1, 4, 5]),
        (read(0, 1), [1, 1, 5, 5]),
        // Dirty: rights 3 are not to write.
        (write(0, 1), [2, 0, 1, 0]),
        // Flushed, the colour stays held.
        (fetch(0, 10), [1, 0, 1, 4]),
        (read(0, 9), [1, 0, 1, 4]),
        (fetch(0, 9), [1, 0, 5, 4]),
        (Call::Evict { line: 72 }, [1, 0, 5, 4]),
        (Call::DeviceRead { frame: 5 }, [1, 0, 5, 4]),
        (part(0, 1), [0, 0, 0, 0]),
        (fetch(0, 9), [0, 0, 4, 0]),
        (Call::DeviceWrite { frame: 5, first: 0 }, [0, 0, 0, 0]),
        (fetch(0, 9), [0, 0, 4, 0]),
        (begin_read(5), [0, 0, 4, 0]),
        (fetch(0, 10), [0, 0, 4, 4]),
        (end(5), [0, 0, 4, 4]),
        (begin_write(5), [0, 0, 0, 0]),
        (end(5), [0, 0, 0, 0]),
        (fetch(0, 10), [0, 0, 0, 4]),
    ];
    for (call, right) in rows {
        let found = after(&mut buffers, call);
        let found: Vec<u8> = found.iter().map(|(_, _, protection)| *protection).collect();
        assert_eq!(found, right, "{call:?}");
    }
    // What was fetched shows through a mapping that is new, and leaves with one that goes.
    let rows: [(Call, &[u8]); 3] = [
        (Call::Map(mapping(0, 18, 5, 3)), &[0, 0, 0, 4, 4]),
        (Call::Map(mapping(0, 3, 5, 3)), &[0, 0, 0, 0, 4, 4]),
        (Call::Unmap { space: 0, page: 10 }, &[0, 0, 0, 0, 4]),
    ];
    for (call, right) in rows {
        let found = after(&mut buffers, call);
        let found: Vec<u8> = found.iter().map(|(_, _, protection)| *protection).collect();
        assert_eq!(found, right, "{call:?}");
    }
}

fn listed<O: Order>(places: &[(u8, u16)]) -> Vec<(u8, u16)> {
    let mut buffers = Buffers::<O>::default();
    for &(space, page) in places {
        accept(&mut buffers, Call::Map(mapping(space, page, 0, 1)));
    }
    let listed = buffers.list.listed().iter();
    listed
        .map(|mapping| (mapping.space, mapping.page))
        .collect()
}

#[test]
fn each_order_lists_a_mapping_at_its_place() {
    let places = [(2, 7), (3, 0), (1, 7), (0, 1023)];
    assert_eq!(listed::<AllPairs>(&places), places);
    assert_eq!(listed::<AllPairsPacked>(&places), places);
    assert_eq!(
        listed::<Neighbours>(&places),
        [(0, 1023), (1, 7), (2, 7), (3, 0)]
    );
}
