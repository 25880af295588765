//! What calls leave of what they are lent is what they leave of the peer's: after every call of random sheets, the
//! protections, the tags of both caches and memory.

use compare::generate;
use duties::buffers::Buffers;
use duties::list::{AllPairs, AllPairsPacked, Neighbours, Order};
use peer::board::{Cache, Frame, Line};
use peer::call::{Call, Mapping};
use peer::hardware::{InstructionTag, Tag};
use peer::machine::Machine;
use peer::sheet::Sheet;
use std::collections::BTreeSet;

const SHEETS: u64 = 400;

/// The peer's tags as bytes, in the order of the lines to evict.
fn tags(machine: &Machine) -> Vec<u8> {
    let byte = |first: u8, frame: Frame| first + frame.index() as u8;
    let lines = (0..128).map(|number| Line::by_number(number).unwrap());
    let tags = lines.map(|(cache, line)| match cache {
        Cache::Data => match machine.hardware.tag(line) {
            Tag::Empty => 0,
            Tag::Clean(frame) => byte(1, frame),
            Tag::Dirty(frame) => byte(129, frame),
        },
        Cache::Instructions => match machine.hardware.instruction_tag(line) {
            InstructionTag::Empty => 0,
            InstructionTag::Clean(frame) => byte(1, frame),
        },
    });
    tags.collect()
}

/// The lent protections in the order of space, then page, in which the peer's stand.
fn protections<O: Order>(buffers: &Buffers<O>) -> Vec<u8> {
    let listed = buffers.list.listed().iter().zip(&buffers.protections);
    let place = |(mapping, _): &(&Mapping, &u8)| (mapping.space, mapping.page);
    let mut listed: Vec<_> = listed.collect();
    listed.sort_by_key(place);
    listed
        .into_iter()
        .map(|(_, protection)| *protection)
        .collect()
}

/// Runs the sheets' calls on both, and gives the protections that were seen.
fn check<O: Order>() -> BTreeSet<u8> {
    let mut seen = BTreeSet::new();
    for number in 0..SHEETS {
        let (bytes, _) = generate::sheet(2, number);
        let Ok(sheet) = Sheet::parse(&bytes) else {
            continue;
        };
        let (mut buffers, mut machine) = (Buffers::<O>::default(), Machine::default());
        let maps = sheet.mappings.into_iter().map(Call::Map);
        for (at, call) in maps.chain(sheet.steps).enumerate() {
            let (found, right) = (buffers.call(call), machine.call(call));
            let at = format!("sheet {number}, call {at}: {call:?}");
            assert_eq!(found.err(), right.err(), "{at}");
            let right = machine.manager.protections();
            assert_eq!(protections(&buffers), right, "{at}");
            let rest = &buffers.protections[buffers.list.count..];
            assert!(rest.iter().all(|&protection| protection == 0), "{at}");
            assert_eq!(buffers.tags, tags(&machine), "{at}");
            let pages = Frame::all().map(|frame| machine.hardware.page(frame));
            assert!(pages.eq(buffers.memory.chunks(64)), "{at}");
            seen.extend(right);
        }
    }
    seen
}

#[test]
fn random_sheets_leave_what_the_peer_has() {
    for seen in [
        check::<AllPairs>(),
        check::<AllPairsPacked>(),
        check::<Neighbours>(),
    ] {
        assert_eq!(seen, BTreeSet::from([0, 1, 2, 4, 5]));
    }
}
