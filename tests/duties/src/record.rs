//! The page model on a frame's record as it is lent: two masks, held and stale, with a bit for each
//! colour, the dirty flag, the busy mark, the dirty colour, and two masks for the instruction cache.

use peer::board::{Colour, Frame, COLOURS, FRAMES};
use peer::call::{Mapping, Operation, Operations};
use peer::record::{Access, Direction, Transfer};
use peer::Refusal;
use std::mem;

/// Held, stale, dirty, busy and dirty colour, and for instructions held and stale, here `fetched` and
/// `outdated`.
pub type Record = [u32; 7];

/// The words of all frames' records.
pub const RECORDS_WORDS: usize = FRAMES * 7;

/// The busy marks (document 02, N6).
pub const FREE: u32 = 0;
pub const DEVICE_READS: u32 = 1;
pub const DEVICE_WRITES: u32 = 2;

/// The dirty colour of a record that has none (document 02, N7).
pub const NO_DIRTY_COLOUR: u32 = COLOURS as u32;

/// A frame's record at the start.
pub const START: Record = [0, 0, 0, FREE, NO_DIRTY_COLOUR, 0, 0];

pub fn keeps_rules(record: &Record) -> bool {
    let &[held, stale, dirty, busy, dirty_colour, fetched, outdated] = record;
    ((held | stale | fetched | outdated) < 1 << COLOURS)
        & (held & stale == 0)
        & (fetched & outdated == 0)
        & (fetched == 0 || dirty == 0 && busy != DEVICE_WRITES)
        & (dirty == 0 && dirty_colour == NO_DIRTY_COLOUR
            || dirty == 1 && dirty_colour < NO_DIRTY_COLOUR && held == 1 << dirty_colour)
        & (busy == FREE || busy == DEVICE_READS && dirty == 0 || busy == DEVICE_WRITES && held == 0)
}

/// What a mapping of the record's frame allows: nothing (0), to read (1), or to read and write (2); and
/// 4 more to fetch.
pub fn protection(&[held, _, dirty, _, _, fetched, _]: &Record, mapping: &Mapping) -> u8 {
    let colour = usize::from(mapping.page) % COLOURS;
    let data = match (held >> colour & 1, dirty, mapping.rights) {
        (0, ..) => 0,
        (_, 1, 2) => 2,
        _ => 1,
    };
    match (fetched >> colour & 1, mapping.rights) {
        (1, 3) => data | 4,
        _ => data,
    }
}

/// The record after a processor access through a page of this colour, and what is due before it.
pub fn access(
    record @ [held, stale, _, busy, dirty_colour, fetched, outdated]: Record,
    access: Access,
    frame: Frame,
    colour: Colour,
) -> Result<(Record, Operations), Refusal> {
    match (busy, access) {
        (FREE, _) | (DEVICE_READS, Access::Read | Access::Fetch) => {}
        _ => return Err(Refusal::Busy),
    }
    if access == Access::Fetch {
        return Ok(fetch(record, frame, colour));
    }
    let own = 1 << colour.index();
    let dirty_colour = colour_of(dirty_colour);
    // A dirty one of the others is flushed: it stays held or goes stale as those that are held.
    let flushed = dirty_colour.filter(|&dirty| dirty != colour);
    let flush = flushed.map(|dirty| Operation::Flush(frame, dirty));
    let purge = (stale & own != 0).then_some(Operation::Purge(frame, colour));
    let next = match access {
        Access::Write => {
            let (stale, dirty_colour) = ((stale | held) & !own, colour.index() as u32);
            [own, stale, 1, busy, dirty_colour, 0, outdated | fetched]
        }
        _ if dirty_colour == Some(colour) => record,
        _ => {
            let (held, stale) = (held | own, stale & !own);
            [held, stale, 0, busy, NO_DIRTY_COLOUR, fetched, outdated]
        }
    };
    Ok((next, in_order(flush, purge)))
}

/// The same for a fetch, of a frame that takes it: the dirty colour is flushed and stays held, the fetch's
/// own too.
fn fetch(
    [held, stale, _, busy, dirty_colour, fetched, outdated]: Record,
    frame: Frame,
    colour: Colour,
) -> (Record, Operations) {
    let own = 1 << colour.index();
    let flush = colour_of(dirty_colour).map(|dirty| Operation::Flush(frame, dirty));
    let purge = (outdated & own != 0).then_some(Operation::PurgeInstructions(frame, colour));
    let (fetched, outdated) = (fetched | own, outdated & !own);
    let next = [held, stale, 0, busy, NO_DIRTY_COLOUR, fetched, outdated];
    (next, in_order(flush, purge))
}

/// A flush comes before a purge.
fn in_order(flush: Option<Operation>, purge: Option<Operation>) -> Operations {
    match flush {
        Some(_) => [flush, purge],
        None => [purge, None],
    }
}

/// The record after a transfer or its begin, and what is due before it.
pub fn transfer(
    [held, stale, _, busy, dirty_colour, fetched, outdated]: Record,
    transfer: Transfer,
    frame: Frame,
) -> Result<(Record, Operations), Refusal> {
    if busy != FREE {
        return Err(Refusal::Busy);
    }
    let (reads, due, busy): (bool, fn(Frame, Colour) -> Operation, u32) = match transfer {
        Transfer::Read => (true, Operation::Flush, FREE),
        Transfer::Write => (false, Operation::Purge, FREE),
        Transfer::WritePart => (false, Operation::Flush, FREE),
        Transfer::Begin(Direction::Read) => (true, Operation::Flush, DEVICE_READS),
        Transfer::Begin(Direction::Write) => (false, Operation::Flush, DEVICE_WRITES),
    };
    let due = colour_of(dirty_colour).map(|colour| due(frame, colour));
    // A purge leaves nothing held; a flush leaves the colour to go as those that are held.
    let held = match due {
        Some(Operation::Purge(..)) => 0,
        _ => held,
    };
    let (held, stale, fetched, outdated) = match reads {
        true => (held, stale, fetched, outdated),
        false => (0, stale | held, 0, outdated | fetched),
    };
    let next = [held, stale, 0, busy, NO_DIRTY_COLOUR, fetched, outdated];
    Ok((next, [due, None]))
}

/// A word of a transfer that was begun in this direction. The record stays.
pub fn word(&[_, _, _, busy, ..]: &Record, direction: Direction) -> Result<(), Refusal> {
    match (busy, direction) {
        (DEVICE_READS, Direction::Read) | (DEVICE_WRITES, Direction::Write) => Ok(()),
        _ => Err(Refusal::NotBegun),
    }
}

/// The record after the end of a transfer that was begun.
pub fn end(mut record: Record) -> Result<Record, Refusal> {
    let [_, _, _, busy, ..] = &mut record;
    if mem::replace(busy, FREE) == FREE {
        return Err(Refusal::NotBegun);
    }
    Ok(record)
}

/// The colour that a record's dirty colour names, or none.
fn colour_of(dirty_colour: u32) -> Option<Colour> {
    Colour::all().nth(dirty_colour as usize)
}

#[cfg(test)]
mod tests {
    use super::*;
    use peer::record::Record as PeerRecord;

    const FRAME: u8 = 5;
    const TOP: u32 = 1 << 31;

    /// In range and past it. Of some the low byte, or the low bits that a shift takes, would be in range.
    fn dirty_colours() -> impl Iterator<Item = u32> {
        let past = [32, 39, 40, 255, 256, 263, 264];
        (0..=9).chain(past).chain([TOP, TOP | 1, TOP | 8, u32::MAX])
    }

    /// The peer's record of seven words, if they are bytes and keep the rules.
    fn peer_record(words: Record) -> Option<PeerRecord> {
        if words.iter().any(|&word| word > u8::MAX.into()) {
            return None;
        }
        PeerRecord::from_masks(words.map(|word| word as u8)).ok()
    }

    /// The words of a record before those for instructions.
    type Data = [u32; 5];

    fn with(
        [held, stale, dirty, busy, dirty_colour]: Data,
        [fetched, outdated]: [u32; 2],
    ) -> Record {
        [held, stale, dirty, busy, dirty_colour, fetched, outdated]
    }

    /// Every pair of masks below twice their limit.
    fn masks() -> impl Iterator<Item = [u32; 2]> {
        let mask = 0..2 << COLOURS;
        mask.clone()
            .flat_map(move |held| mask.clone().map(move |stale| [held, stale]))
    }

    /// Those, with a flag below 3, a mark below 4 and one of those dirty colours.
    fn data() -> impl Iterator<Item = Data> {
        masks()
            .flat_map(|masks| (0..3).map(move |dirty| (masks, dirty)))
            .flat_map(|(masks, dirty)| (0..4).map(move |busy| (masks, dirty, busy)))
            .flat_map(|([held, stale], dirty, busy)| {
                dirty_colours().map(move |dirty_colour| [held, stale, dirty, busy, dirty_colour])
            })
    }

    /// Some of each sort: free, dirty, read and written by the device, and some that break the rules.
    const SOME_DATA: [Data; 14] = [
        [0x00, 0x00, 0, 0, 8],
        [0x01, 0x80, 0, 0, 8],
        [0x5a, 0xa5, 0, 0, 8],
        [0x01, 0x00, 1, 0, 0],
        [0x80, 0x7f, 1, 0, 7],
        [0x04, 0x03, 1, 0, 2],
        [0x00, 0x00, 0, 1, 8],
        [0xf0, 0x0c, 0, 1, 8],
        [0x00, 0x00, 0, 2, 8],
        [0x00, 0x3f, 0, 2, 8],
        [0x01, 0x01, 0, 0, 8],
        [0x01, 0x00, 1, 1, 0],
        [0x01, 0x00, 0, 2, 8],
        [0x00, 0x00, 0, 3, 8],
    ];

    /// Masks for instructions: nothing, held and stale ones alone, and both.
    const SOME_MASKS: [[u32; 2]; 6] = [
        [0x00, 0x00],
        [0xff, 0x00],
        [0x00, 0xff],
        [0x01, 0x80],
        [0x5a, 0xa5],
        [0x00, 0x11],
    ];

    /// All data that keeps the rules with those masks, and all masks with that data.
    fn records() -> impl Iterator<Item = Record> {
        let kept = data().filter(|&data| keeps_rules(&with(data, [0, 0])));
        let all_data = kept.flat_map(|data| SOME_MASKS.map(|masks| with(data, masks)));
        let all_masks = masks().flat_map(|masks| SOME_DATA.map(|data| with(data, masks)));
        all_data.chain(all_masks)
    }

    #[test]
    fn the_rules_are_the_peers() {
        let data = data().map(|data| with(data, [0, 0]));
        for record in data.chain(records()) {
            assert_eq!(
                keeps_rules(&record),
                peer_record(record).is_some(),
                "{record:?}"
            );
        }
        let broken = [
            [TOP, 0, 0, 0, 8, 0, 0],
            [TOP, 0, 1, 0, 31, 0, 0],
            [0, TOP, 0, 0, 8, 0, 0],
            [1, 0, TOP | 1, 0, 0, 0, 0],
            [0, 0, 0, TOP | 1, 8, 0, 0],
            [0, 0, 0, 256, 8, 0, 0],
            [0, 0, 0, 0, 8, TOP, 0],
            [0, 0, 0, 0, 8, 0, TOP],
            [0, 0, 0, 0, 8, TOP | 1, 0],
            [0, 0, 0, 0, 8, 0, TOP | 1],
            [0, 0, 0, 0, 8, 256, 0],
            [0, 0, 0, 0, 8, 0, 256],
        ];
        for record in broken {
            assert!(!keeps_rules(&record), "{record:?}");
        }
    }

    #[test]
    fn the_start_is_the_peers() {
        assert_eq!(peer_record(START), Some(PeerRecord::default()));
        assert_eq!(PeerRecord::default().to_masks().map(u32::from), START);
    }

    #[test]
    fn every_step_is_the_peers() {
        let frame = Frame::new(FRAME).unwrap();
        for record in records().filter(keeps_rules) {
            let before = peer_record(record).unwrap();
            for kind in [Access::Read, Access::Write, Access::Fetch] {
                for colour in Colour::all() {
                    let mut right = before;
                    let due = right.access(frame, kind, colour);
                    let stepped = access(record, kind, frame, colour);
                    assert_eq!(
                        stepped.map(|(next, operations)| (peer_record(next), operations)),
                        due.map(|due| (Some(right), due)),
                        "{record:?}"
                    );
                }
            }
            let kinds = [
                Transfer::Read,
                Transfer::Write,
                Transfer::WritePart,
                Transfer::Begin(Direction::Read),
                Transfer::Begin(Direction::Write),
            ];
            for kind in kinds {
                let mut right = before;
                let due = right.transfer(frame, kind);
                let stepped = transfer(record, kind, frame);
                assert_eq!(
                    stepped.map(|(next, operations)| (peer_record(next), operations)),
                    due.map(|due| (Some(right), due)),
                    "{record:?}"
                );
            }
            for direction in [Direction::Read, Direction::Write] {
                let right = before.word(direction);
                assert_eq!(word(&record, direction), right, "{record:?}");
            }
            let mut right = before;
            let ended = right.end();
            assert_eq!(
                end(record).map(peer_record),
                ended.map(|()| Some(right)),
                "{record:?}"
            );
        }
    }

    /// By the peer's answers: 1 if it allows to read, 2 if it allows to write through rights 2, and 4 more if it allows
    /// to fetch through rights 3.
    #[test]
    fn protections_by_what_the_peers_record_allows() {
        for record in records().filter(keeps_rules) {
            let peer = peer_record(record).unwrap();
            for colour in Colour::all() {
                let data = |rights| match rights {
                    2 if peer.allows(Access::Write, colour) => 2,
                    _ => u8::from(peer.allows(Access::Read, colour)),
                };
                let fetched = 4 * u8::from(peer.allows(Access::Fetch, colour));
                let right = [data(1), data(2), data(3) + fetched];
                let found = [1, 2, 3].map(|rights| {
                    let mapping = Mapping {
                        space: 0,
                        page: 8 + colour.index() as u16,
                        frame: FRAME,
                        rights,
                    };
                    protection(&record, &mapping)
                });
                assert_eq!(found, right, "{record:?}");
            }
        }
    }
}
