//! Document 02, request N9: a flush that leaves the line in. What it does to the lines is asked of the hardware, what a
//! step makes of the flushed colour of the record, and what a program finds of the machine, whose words are compared
//! with the cacheless memory too where no test changes memory behind its back.

use peer::board::{Cache, Colour, Frame, Line, Offset};
use peer::call::{Accepted, Call, Found, Mapping, Operation};
use peer::hardware::{Fills, Hardware, Tag};
use peer::machine::Machine;
use peer::record::{Access, Direction, Record, Transfer};
use peer::Pair;

fn frame(frame: u8) -> Frame {
    Frame::new(frame).unwrap()
}

fn colour(colour: usize) -> Colour {
    Colour::all().nth(colour).unwrap()
}

fn offset(offset: u8) -> Offset {
    Offset::new(offset).unwrap()
}

// ---- the lines

/// The lines that hold something, by their numbers.
fn lines(hardware: &Hardware) -> Vec<(usize, Tag)> {
    let lines = Line::all().map(|line| (line.index(), hardware.tag(line)));
    lines.filter(|(_, tag)| *tag != Tag::Empty).collect()
}

/// Frame 5 in colour 2, whose lines are 16 to 23: 70 and 71 written in its first line and in its last, and its second
/// line read, of words 0. Then colour 2 is flushed.
fn flushed() -> Hardware {
    let mut hardware = Hardware::default();
    hardware.store(frame(5), colour(2), offset(0), 70);
    hardware.store(frame(5), colour(2), offset(63), 71);
    hardware.load(frame(5), colour(2), offset(8));
    hardware.perform(Operation::Flush(frame(5), colour(2)));
    hardware
}

#[test]
fn a_flush_writes_back_and_leaves_the_lines_clean() {
    let hardware = flushed();
    let mut right = [0; 64];
    (right[0], right[63]) = (70, 71);
    assert_eq!(hardware.page(frame(5)), &right);
    let clean = Tag::Clean(frame(5));
    assert_eq!(lines(&hardware), [(16, clean), (17, clean), (23, clean)]);
}

/// Memory is changed behind the cache: words of the lines are found there still, all others come from memory.
#[test]
fn a_flush_leaves_the_words() {
    let mut hardware = flushed();
    hardware.page_mut(frame(5)).fill(7);
    for (at, word) in [(0, 70), (1, 0), (63, 71), (62, 0), (8, 0), (16, 7)] {
        let found = hardware.load(frame(5), colour(2), offset(at));
        assert_eq!(found, word, "offset {at}");
    }
}

/// A miss fills a line of the access's cache, and a hit none; a flush leaves hits where a purge and an eviction leave
/// misses.
#[test]
fn fills() {
    let (frame, colour, first) = (frame(5), colour(2), offset(0));
    // The two writes and the read before the flush were misses.
    let mut hardware = flushed();
    let mut data = 3;
    let mut check = |hardware: &mut Hardware, fills| {
        for _ in 0..2 {
            hardware.load(frame, colour, first);
            hardware.store(frame, colour, offset(7), 72);
            hardware.load(frame, colour, offset(63));
        }
        data += fills;
        let instructions = 0;
        assert_eq!(hardware.fills(), Fills { data, instructions });
    };
    check(&mut hardware, 0);
    hardware.evict(Cache::Data, Line::of(colour, first));
    check(&mut hardware, 1);
    hardware.perform(Operation::Flush(frame, colour));
    check(&mut hardware, 0);
    hardware.perform(Operation::Purge(frame, colour));
    check(&mut hardware, 2);

    for _ in 0..2 {
        hardware.fetch(frame, colour, first);
        let instructions = 1;
        assert_eq!(hardware.fills(), Fills { data, instructions });
    }
}

/// A clean line that is older than memory stays in, and memory stays newer.
#[test]
fn a_flush_writes_no_clean_line() {
    let mut hardware = Hardware::default();
    hardware.load(frame(5), colour(2), offset(8));
    hardware.page_mut(frame(5)).fill(7);
    let before = hardware.clone();
    hardware.perform(Operation::Flush(frame(5), colour(2)));
    assert!(hardware == before, "there is nothing to write");
}

/// In the same colour lie a dirty and a clean line of other frames; in another, a dirty one of the same frame, which no
/// manager would leave there.
#[test]
fn a_flush_leaves_other_frames_and_colours() {
    let mut hardware = Hardware::default();
    hardware.store(frame(6), colour(2), offset(8), 80);
    hardware.load(frame(7), colour(2), offset(16));
    hardware.store(frame(5), colour(3), offset(24), 90);
    let others = hardware.clone();
    hardware.store(frame(5), colour(2), offset(0), 70);
    hardware.perform(Operation::Flush(frame(5), colour(2)));
    let right = [
        (16, Tag::Clean(frame(5))),
        (17, Tag::Dirty(frame(6))),
        (18, Tag::Clean(frame(7))),
        (27, Tag::Dirty(frame(5))),
    ];
    assert_eq!(lines(&hardware), right);
    for other in [6, 7] {
        assert_eq!(hardware.page(frame(other)), &[0; 64]);
    }
    let mut right = [0; 64];
    right[0] = 70;
    assert_eq!(hardware.page(frame(5)), &right);

    // Of a frame and of a colour that have nothing there, it leaves all.
    for (of, at) in [(8, 2), (6, 3)] {
        let mut hardware = others.clone();
        hardware.perform(Operation::Flush(frame(of), colour(at)));
        assert!(hardware == others, "frame {of} in colour {at}");
    }
}

/// A flushed line is clean: an eviction, a miss, a purge or a second flush does not write it over what memory holds by
/// then.
#[test]
fn a_flushed_line_is_not_written_again() {
    let later: [fn(&mut Hardware); 4] = [
        |hardware| Line::all().for_each(|line| hardware.evict(Cache::Data, line)),
        |hardware| _ = hardware.load(frame(6), colour(2), offset(0)),
        |hardware| hardware.perform(Operation::Purge(frame(5), colour(2))),
        |hardware| hardware.perform(Operation::Flush(frame(5), colour(2))),
    ];
    for later in later {
        let mut hardware = flushed();
        hardware.page_mut(frame(5)).fill(7);
        later(&mut hardware);
        assert_eq!(hardware.page(frame(5)), &[7; 64]);
    }
}

/// A write hits a flushed line and makes it dirty again. The line's other words stay those of the line.
#[test]
fn a_flushed_line_is_written_anew() {
    let mut hardware = flushed();
    hardware.page_mut(frame(5)).fill(7);
    hardware.store(frame(5), colour(2), offset(1), 72);
    let (clean, dirty) = (Tag::Clean(frame(5)), Tag::Dirty(frame(5)));
    assert_eq!(lines(&hardware), [(16, dirty), (17, clean), (23, clean)]);
    hardware.perform(Operation::Flush(frame(5), colour(2)));
    let mut right = [7; 64];
    right[..8].copy_from_slice(&[70, 72, 0, 0, 0, 0, 0, 0]);
    assert_eq!(hardware.page(frame(5)), &right);
}

// ---- the record

/// Stands for the dirty colour where there is none.
const NONE: u8 = 8;

/// Every record of a free frame with a dirty colour and nothing in the instruction cache, and every step of it: what it
/// leaves, and whether it flushes that colour, which goes into the held mask then or into the stale one.
#[test]
fn steps_of_every_record_with_a_dirty_colour() {
    for dirty in 0..NONE {
        let bit: u8 = 1 << dirty;
        for stale in (0..=255).filter(|stale| stale & bit == 0) {
            let before = [bit, stale, 1, 0, dirty, 0, 0];
            let check = |step: &dyn Fn(&mut Record) -> Option<Operation>, right, flushes: bool| {
                let mut after = Record::from_masks(before).unwrap();
                let first = step(&mut after);
                assert_eq!(after.to_masks(), right, "{before:?}");
                let flush = Operation::Flush(frame(5), colour(dirty.into()));
                assert_eq!(first == Some(flush), flushes, "{before:?}");
            };

            for own in 0..NONE {
                let own_bit: u8 = 1 << own;
                let step = |access| {
                    let colour = colour(own.into());
                    move |record: &mut Record| record.access(frame(5), access, colour).unwrap()[0]
                };
                let (read, write) = if own == dirty {
                    (before, before)
                } else {
                    let stale = stale & !own_bit;
                    (
                        [bit | own_bit, stale, 0, 0, NONE, 0, 0],
                        [own_bit, stale | bit, 1, 0, own, 0, 0],
                    )
                };
                let fetch = [bit, stale, 0, 0, NONE, own_bit, 0];
                check(&step(Access::Read), read, own != dirty);
                check(&step(Access::Write), write, own != dirty);
                check(&step(Access::Fetch), fetch, true);
            }

            let held = |busy| [bit, stale, 0, busy, NONE, 0, 0];
            let made_stale = |busy| [0, stale | bit, 0, busy, NONE, 0, 0];
            let emptied = [0, stale, 0, 0, NONE, 0, 0];
            let transfers = [
                (Transfer::Read, held(0), true),
                (Transfer::Write, emptied, false),
                (Transfer::WritePart, made_stale(0), true),
                (Transfer::Begin(Direction::Read), held(1), true),
                (Transfer::Begin(Direction::Write), made_stale(2), true),
            ];
            for (transfer, right, flushes) in transfers {
                let step = |record: &mut Record| record.transfer(frame(5), transfer).unwrap()[0];
                check(&step, right, flushes);
            }
        }
    }
}

// ---- the machine

fn read(page: u16, offset: u8) -> Call {
    Call::Read {
        space: 0,
        page,
        offset,
    }
}

fn fetch(page: u16, offset: u8) -> Call {
    Call::Fetch {
        space: 0,
        page,
        offset,
    }
}

fn write(page: u16, offset: u8, word: u32) -> Call {
    Call::Write {
        space: 0,
        page,
        offset,
        word,
    }
}

const DEVICE_READ: Call = Call::DeviceRead { frame: 5 };
const BEGIN_READ: Call = Call::BeginRead { frame: 5 };
const BEGIN_WRITE: Call = Call::BeginWrite { frame: 5 };
const END: Call = Call::EndTransfer { frame: 5 };

fn part(offset: usize, count: usize, first: u32) -> Call {
    Call::DeviceWritePart {
        frame: 5,
        offset,
        count,
        first,
    }
}

/// Frame 5 at pages 0 to 2, to be read and written, and at pages 8 and 9, of colours 0 and 1, to be fetched; its words
/// 1000 to 1063, of which 70 is written over the first through page 0.
fn start() -> Vec<Call> {
    let pages = [(0, 2), (1, 2), (2, 2), (8, 3), (9, 3)];
    let maps = pages.map(|(page, rights)| {
        Call::Map(Mapping {
            space: 0,
            page,
            frame: 5,
            rights,
        })
    });
    let words = Call::DeviceWrite {
        frame: 5,
        first: 1000,
    };
    maps.into_iter().chain([words, write(0, 0, 70)]).collect()
}

/// The steps for which a flush leaves colour 0 held. A fetch flushes its own colour too.
fn reads() -> [Call; 5] {
    [
        read(1, 0),
        fetch(8, 0),
        fetch(9, 0),
        DEVICE_READ,
        BEGIN_READ,
    ]
}

/// Those for which it leaves it stale.
fn writes() -> [Call; 3] {
    [write(1, 1, 71), part(1, 1, 71), BEGIN_WRITE]
}

/// The machine after the start and this step, which must flush colour 0 and order no more.
fn after(step: Call) -> Machine {
    let mut machine = Machine::default();
    for call in start() {
        machine.call(call).unwrap();
    }
    let Accepted { operations, .. } = machine.call(step).unwrap();
    let flush = Operation::Flush(frame(5), colour(0));
    assert_eq!(operations, [Some(flush), None], "{step:?}");
    machine
}

/// Held: a mapping of the colour may be read and not written, and the next read is no miss. It finds the words of the
/// line, where memory has others by then, and orders nothing.
#[test]
fn a_read_after_a_flush_hits() {
    for step in reads() {
        let mut machine = after(step);
        assert_eq!(machine.manager.protections()[0], 1, "{step:?}");
        machine.hardware.page_mut(frame(5)).fill(7);
        for (offset, word) in [(0, 70), (7, 1007), (8, 7)] {
            let accepted = machine.call(read(0, offset)).unwrap();
            assert_eq!(accepted.operations, [None, None], "{step:?}");
            assert_eq!(accepted.found, Found::Word(word), "{step:?}");
        }
    }
}

/// Stale: the colour's mapping has no protection left, and the next access through it purges, a read and a write. The
/// line, which is in still, has the words from before the step.
#[test]
fn an_access_after_a_flush_for_a_write_purges() {
    for step in writes() {
        let mut machine = after(step);
        assert_eq!(machine.manager.protections()[0], 0, "{step:?}");
        let (_, line) = Line::by_number(0).unwrap();
        assert_eq!(machine.hardware.tag(line), Tag::Clean(frame(5)));
        if step == BEGIN_WRITE {
            machine.call(END).unwrap();
        }
        for access in [read(0, 1), write(0, 2, 72)] {
            let orders = machine.clone().call(access).unwrap().operations;
            let purge = Operation::Purge(frame(5), colour(0));
            assert!(orders.contains(&Some(purge)), "{access:?}");
        }
    }
}

fn accept(pair: &mut Pair, call: Call) -> Accepted {
    let answer = pair.call(call).unwrap();
    answer.unwrap_or_else(|refusal| panic!("{call:?}: {refusal:?}"))
}

/// Holds each call, from the start on, to its operations, as the text shows them, and to the word that it finds.
fn check(rows: &[(Call, &str, Option<u32>)]) {
    let mut pair = Pair::default();
    for call in start() {
        accept(&mut pair, call);
    }
    for &(call, operations, word) in rows {
        let accepted = accept(&mut pair, call);
        let shown = accepted.operations.iter().flatten();
        let shown: Vec<String> = shown.map(Operation::to_string).collect();
        assert_eq!(shown.join(" "), operations, "{call:?}");
        if let Some(word) = word {
            assert_eq!(accepted.found, Found::Word(word), "{call:?}");
        }
        pair.settle().unwrap();
    }
}

/// Held and not empty: a write through a third colour makes it stale, so that the next read through it purges.
#[test]
fn a_colour_flushed_for_a_read_goes_stale_at_a_write() {
    for step in reads() {
        let mut rows = vec![(step, "F5.0", None)];
        if step == BEGIN_READ {
            rows.push((END, "", None));
        }
        rows.extend([
            (write(2, 1, 71), "", None),
            (read(0, 1), "F5.2 P5.0", Some(71)),
            (read(0, 0), "", Some(70)),
        ]);
        check(&rows);
    }
}

/// One program writes and another reads: the writer goes on without an order, the reader purges each time.
#[test]
fn a_writer_and_a_reader() {
    check(&[
        (read(1, 0), "F5.0", Some(70)),
        (read(0, 0), "", Some(70)),
        (write(0, 0, 71), "", None),
        (read(1, 0), "F5.0 P5.1", Some(71)),
        (write(0, 0, 72), "", None),
        (read(1, 0), "F5.0 P5.1", Some(72)),
    ]);
}

/// Each write flushes the other's colour, which is stale then, and from the third on purges its own.
#[test]
fn two_writers() {
    check(&[
        (write(1, 1, 71), "F5.0", None),
        (write(0, 2, 72), "F5.1 P5.0", None),
        (write(1, 3, 73), "F5.0 P5.1", None),
        (read(0, 1), "F5.1 P5.0", Some(71)),
        (read(0, 3), "", Some(73)),
        // Colour 1 was flushed for the read before.
        (read(1, 2), "", Some(72)),
        (read(1, 0), "", Some(70)),
    ]);
}

/// The line has the device's word neither from a part nor from a begun write: the purge is needed.
#[test]
fn a_part_and_a_begun_write_after_a_write() {
    check(&[
        (part(1, 1, 80), "F5.0", None),
        (read(0, 1), "P5.0", Some(80)),
        (read(0, 0), "", Some(70)),
        (write(0, 2, 71), "", None),
        (BEGIN_WRITE, "F5.0", None),
        (
            Call::BringWord {
                frame: 5,
                offset: 3,
                word: 81,
            },
            "",
            None,
        ),
        (END, "", None),
        (write(0, 4, 72), "P5.0", None),
        (read(0, 3), "", Some(81)),
        (read(0, 2), "", Some(71)),
    ]);
}

/// A whole page sent purges as ever: the colour is empty, and no access through it purges again.
#[test]
fn a_whole_page_leaves_the_colour_empty() {
    let whole = Call::DeviceWrite {
        frame: 5,
        first: 2000,
    };
    check(&[
        (whole, "P5.0", None),
        (read(0, 0), "", Some(2000)),
        (write(1, 0, 71), "", None),
        (read(0, 0), "F5.1 P5.0", Some(71)),
    ]);
}
