//! Document 01, "At the edges": its ten cases, and the smallest refusal where several apply. Since N8 of document 02
//! there are two caches, so that the last line to evict is 127, and rights go up to 3.

use peer::board::{Frame, Line};
use peer::call::{Accepted, Call, Found, Mapping, Operation};
use peer::hardware::Tag;
use peer::machine::Machine;
use peer::record::Record;
use peer::Refusal;

fn map(space: u8, page: u16, frame: u8, rights: u8) -> Call {
    Call::Map(Mapping {
        space,
        page,
        frame,
        rights,
    })
}

fn read(page: u16, offset: u8) -> Call {
    Call::Read {
        space: 0,
        page,
        offset,
    }
}

fn write(page: u16, offset: u8, word: u32) -> Call {
    Call::Write {
        space: 0,
        page,
        offset,
        word,
    }
}

/// A machine with these pages of space 0 mapped to frame 5 for reading and writing.
fn with_pages(pages: &[u16]) -> Machine {
    let mut machine = Machine::default();
    for &page in pages {
        machine.call(map(0, page, 5, 2)).unwrap();
    }
    machine
}

/// The operations of an accepted call, as the text shows them.
fn operations(machine: &mut Machine, call: Call) -> String {
    let accepted = machine.call(call).unwrap();
    let shown: Vec<String> = accepted
        .operations
        .iter()
        .flatten()
        .map(Operation::to_string)
        .collect();
    shown.join(" ")
}

fn refusal(machine: &mut Machine, call: Call) -> Refusal {
    let before = machine.clone();
    let refusal = machine.call(call).unwrap_err();
    assert_eq!(*machine, before, "a refused call changes nothing");
    refusal
}

#[test]
fn edge_1_last_page() {
    let mut machine = with_pages(&[1023]);
    assert!(machine.call(read(1023, 0)).is_ok());
    assert_eq!(refusal(&mut machine, read(1024, 0)), Refusal::Place);
    assert_eq!(refusal(&mut machine, map(0, 1024, 5, 2)), Refusal::Place);
    assert_eq!(refusal(&mut machine, map(16, 0, 5, 2)), Refusal::Place);
}

#[test]
fn edge_2_last_frame() {
    let mut machine = Machine::default();
    assert!(machine.call(map(0, 0, 63, 1)).is_ok());
    assert!(machine.call(Call::DeviceRead { frame: 63 }).is_ok());
    assert_eq!(refusal(&mut machine, map(0, 1, 64, 1)), Refusal::Frame);
    let past = Call::DeviceWrite {
        frame: 64,
        first: 0,
    };
    assert_eq!(refusal(&mut machine, past), Refusal::Frame);
}

#[test]
fn edge_3_last_offset_and_line() {
    let mut machine = with_pages(&[3]);
    machine.call(write(3, 63, 1)).unwrap();
    let (_, line) = Line::by_number(8 * 3 + 7).unwrap();
    assert_eq!(Tag::try_from(129 + 5), Ok(machine.hardware.tag(line)));
    assert_eq!(refusal(&mut machine, read(3, 64)), Refusal::Offset);
    assert!(machine.call(Call::Evict { line: 63 }).is_ok());
    assert!(machine.call(Call::Evict { line: 127 }).is_ok());
    let past = Call::Evict { line: 128 };
    assert_eq!(refusal(&mut machine, past), Refusal::Offset);
}

#[test]
fn edge_4_full_list() {
    let mut machine = Machine::default();
    for page in 0..256 {
        assert!(machine.call(map(0, page, 0, 1)).is_ok());
    }
    assert_eq!(refusal(&mut machine, map(0, 256, 0, 1)), Refusal::Full);
    assert_eq!(refusal(&mut machine, map(0, 255, 0, 1)), Refusal::Mapped);
}

#[test]
fn edge_5_aligned_pages() {
    let mut machine = with_pages(&[1, 9]);
    assert_eq!(operations(&mut machine, write(1, 7, 70)), "");
    let accepted = machine.call(read(9, 7)).unwrap();
    assert_eq!(accepted.operations, [None, None]);
    assert_eq!(accepted.found, Found::Word(70));
}

#[test]
fn edge_6_two_writers() {
    let mut machine = with_pages(&[0, 1]);
    assert_eq!(operations(&mut machine, write(0, 0, 1)), "");
    assert_eq!(operations(&mut machine, write(1, 0, 2)), "F5.0");
}

#[test]
fn edge_7_broken_records() {
    for dirty_colour in 0..=8 {
        let record = |held, dirty| Record::from_masks([held, 0, dirty, 0, dirty_colour, 0, 0]);
        assert_eq!(record(3, 1), Err(Refusal::Rules));
        assert_eq!(record(0, 1), Err(Refusal::Rules));
        assert_eq!(record(1, 2), Err(Refusal::Rules));
    }
    let both = Record::from_masks([1, 1, 0, 0, 8, 0, 0]);
    assert_eq!(both, Err(Refusal::Rules));
    assert!(Record::from_masks([3, 0xfc, 0, 0, 8, 0, 0]).is_ok());
    assert!(Record::from_masks([0x80, 0x7f, 1, 0, 7, 0, 0]).is_ok());
}

#[test]
fn edge_8_device_write_over_dirty() {
    let mut machine = with_pages(&[2]);
    machine.call(write(2, 0, 1)).unwrap();
    let transfer = Call::DeviceWrite { frame: 5, first: 9 };
    assert_eq!(operations(&mut machine, transfer), "P5.2");
    assert_eq!(machine.call(read(2, 0)).unwrap().found, Found::Word(9));
}

#[test]
fn edge_9_second_read() {
    let mut machine = with_pages(&[2]);
    machine.call(read(2, 0)).unwrap();
    let before = machine.clone();
    assert_eq!(operations(&mut machine, read(2, 0)), "");
    assert_eq!(machine, before);
}

#[test]
fn edge_10_tags() {
    let last = Frame::new(63).unwrap();
    assert_eq!(Tag::try_from(0), Ok(Tag::Empty));
    assert_eq!(Tag::try_from(64), Ok(Tag::Clean(last)));
    assert_eq!(Tag::try_from(65), Err(Refusal::Rules));
    assert_eq!(Tag::try_from(128), Err(Refusal::Rules));
    assert_eq!(Tag::try_from(192), Ok(Tag::Dirty(last)));
    assert_eq!(Tag::try_from(193), Err(Refusal::Rules));
}

#[test]
fn smallest_refusal() {
    let mut machine = Machine::default();
    machine.call(map(0, 0, 5, 1)).unwrap();
    assert_eq!(refusal(&mut machine, map(16, 0, 64, 0)), Refusal::Place);
    assert_eq!(refusal(&mut machine, map(0, 0, 64, 0)), Refusal::Frame);
    assert_eq!(refusal(&mut machine, map(0, 0, 5, 0)), Refusal::Rights);
    assert_eq!(refusal(&mut machine, map(0, 0, 5, 4)), Refusal::Rights);
    assert_eq!(refusal(&mut machine, map(0, 0, 5, 1)), Refusal::Mapped);
    assert_eq!(refusal(&mut machine, read(1024, 64)), Refusal::Place);
    assert_eq!(refusal(&mut machine, read(1, 64)), Refusal::Offset);
    assert_eq!(refusal(&mut machine, read(1, 0)), Refusal::Unmapped);
    assert_eq!(refusal(&mut machine, write(0, 64, 0)), Refusal::Offset);
    assert_eq!(refusal(&mut machine, write(0, 0, 0)), Refusal::ReadOnly);
}

#[test]
fn unmap_keeps_the_state() {
    let mut machine = with_pages(&[0, 1]);
    machine.call(write(0, 0, 8)).unwrap();
    let unmap = Call::Unmap { space: 0, page: 0 };
    assert_eq!(machine.call(unmap), Ok(Accepted::default()));
    assert_eq!(refusal(&mut machine, read(0, 0)), Refusal::Unmapped);
    assert_eq!(operations(&mut machine, read(1, 0)), "F5.0");
}
