//! The manager: which page maps which frame, the state of every frame, and the operations that each
//! step needs. Protections show neither in a run's text nor in an answer, so it keeps none and gives
//! them when they are asked for. No caller reaches its list, so it trusts the list's order.

use crate::board::{Frame, Place, FRAMES};
use crate::call::Operations;
use crate::record::{Access, Direction, Record, Transfer};
use crate::Refusal;

/// The most mappings that the list takes.
pub const MAPPINGS: usize = 256;

#[derive(Clone, Copy, Debug, PartialEq, Eq)]
enum Rights {
    Read,
    ReadWrite,
    ReadFetch,
}

impl Rights {
    fn new(rights: u8) -> Result<Self, Refusal> {
        match rights {
            1 => Ok(Self::Read),
            2 => Ok(Self::ReadWrite),
            3 => Ok(Self::ReadFetch),
            _ => Err(Refusal::Rights),
        }
    }

    fn test(self, access: Access) -> Result<(), Refusal> {
        match (access, self) {
            (Access::Read, _) => Ok(()),
            (Access::Write, Self::ReadWrite) => Ok(()),
            (Access::Write, _) => Err(Refusal::ReadOnly),
            (Access::Fetch, Self::ReadFetch) => Ok(()),
            (Access::Fetch, _) => Err(Refusal::NoFetch),
        }
    }
}

#[derive(Clone, Copy, Debug, PartialEq, Eq)]
struct Mapping {
    place: Place,
    frame: Frame,
    rights: Rights,
}

#[derive(Clone, Debug, PartialEq, Eq)]
pub struct Manager {
    /// In rising order of place, no two of one place.
    mappings: Vec<Mapping>,
    records: [Record; FRAMES],
}

/// Nothing mapped, every state empty and no frame busy.
impl Default for Manager {
    fn default() -> Self {
        Self {
            mappings: Vec::new(),
            records: [Record::default(); FRAMES],
        }
    }
}

impl Manager {
    pub fn map(&mut self, place: Place, frame: Frame, rights: u8) -> Result<(), Refusal> {
        let rights = Rights::new(rights)?;
        let Err(at) = self.find(place) else {
            return Err(Refusal::Mapped);
        };
        if self.mappings.len() == MAPPINGS {
            return Err(Refusal::Full);
        }
        let mapping = Mapping {
            place,
            frame,
            rights,
        };
        self.mappings.insert(at, mapping);
        Ok(())
    }

    /// Takes the mapping away. Its frame keeps its state.
    pub fn unmap(&mut self, place: Place) -> Result<(), Refusal> {
        let at = self.mapped(place)?;
        self.mappings.remove(at);
        Ok(())
    }

    /// The frame behind a page, and what must be done before the access.
    pub fn access(&mut self, access: Access, place: Place) -> Result<(Frame, Operations), Refusal> {
        let Mapping { frame, rights, .. } = self.mappings[self.mapped(place)?];
        rights.test(access)?;
        let record = &mut self.records[frame.index()];
        Ok((frame, record.access(frame, access, place.colour())?))
    }

    /// What must be done before the transfer, or at its begin.
    pub fn transfer(&mut self, transfer: Transfer, frame: Frame) -> Result<Operations, Refusal> {
        self.records[frame.index()].transfer(frame, transfer)
    }

    /// Whether a word may move in this direction.
    pub fn word(&self, direction: Direction, frame: Frame) -> Result<(), Refusal> {
        self.records[frame.index()].word(direction)
    }

    /// Ends the frame's transfer.
    pub fn end(&mut self, frame: Frame) -> Result<(), Refusal> {
        self.records[frame.index()].end()
    }

    /// Each mapping's protection, in the list's order: 1 to read, 2 to read and write, and 4 more to fetch.
    pub fn protections(&self) -> Vec<u8> {
        let protection = |mapping: &Mapping| {
            let record = &self.records[mapping.frame.index()];
            let allows = |access| {
                mapping.rights.test(access).is_ok() && record.allows(access, mapping.place.colour())
            };
            let data = if allows(Access::Write) {
                2
            } else {
                allows(Access::Read).into()
            };
            data + 4 * u8::from(allows(Access::Fetch))
        };
        self.mappings.iter().map(protection).collect()
    }

    fn mapped(&self, place: Place) -> Result<usize, Refusal> {
        self.find(place).map_err(|_| Refusal::Unmapped)
    }

    /// Where the place's mapping stands or, if it has none, where one would go.
    fn find(&self, place: Place) -> Result<usize, usize> {
        self.mappings
            .binary_search_by_key(&place, |mapping| mapping.place)
    }
}

#[cfg(test)]
mod tests {
    use super::*;

    type Row = (u8, u16, u8);

    /// Space, page and frame, in their order in the list at the start of a test.
    const LISTED: [Row; 4] = [(1, 4, 10), (1, 1023, 11), (3, 0, 12), (3, 9, 13)];

    fn place(space: u8, page: u16) -> Place {
        Place::new(space, page).unwrap()
    }

    fn map(manager: &mut Manager, (space, page, frame): Row) -> Result<(), Refusal> {
        manager.map(place(space, page), Frame::new(frame).unwrap(), 2)
    }

    /// A manager with these mapped, in this order.
    fn with(rows: &[Row]) -> Manager {
        let mut manager = Manager::default();
        for &row in rows {
            map(&mut manager, row).unwrap();
        }
        manager
    }

    /// Holds the list to these, in this order.
    fn check(manager: &Manager, rows: &[Row]) {
        let right = rows.iter().map(|&(space, page, frame)| Mapping {
            place: place(space, page),
            frame: Frame::new(frame).unwrap(),
            rights: Rights::ReadWrite,
        });
        assert_eq!(manager.mappings, right.collect::<Vec<_>>());
    }

    #[test]
    fn a_new_mapping_goes_to_its_place() {
        let inserted = [
            // First.
            (0, (0, 1023, 20)),
            (0, (1, 3, 20)),
            // In the middle: of a space, after a space's last page, before its first, of a new space.
            (1, (1, 5, 20)),
            (3, (3, 8, 20)),
            (2, (2, 1023, 20)),
            (2, (2, 0, 20)),
            // Last.
            (4, (3, 10, 20)),
            (4, (4, 0, 20)),
        ];
        for (at, row) in inserted {
            let mut manager = with(&LISTED);
            map(&mut manager, row).unwrap();
            let mut right = LISTED.to_vec();
            right.insert(at, row);
            check(&manager, &right);
        }
    }

    #[test]
    fn an_unmap_moves_the_later_ones_down() {
        for (at, (space, page, _)) in LISTED.into_iter().enumerate() {
            let mut manager = with(&LISTED);
            manager.unmap(place(space, page)).unwrap();
            let mut right = LISTED.to_vec();
            right.remove(at);
            check(&manager, &right);
        }
    }

    #[test]
    fn the_order_of_mapping_does_not_show() {
        let [a, b, c, d] = LISTED;
        for rows in [[d, c, b, a], [c, a, d, b], [b, d, a, c]] {
            check(&with(&rows), &LISTED);
        }
    }

    #[test]
    fn a_page_of_two_spaces() {
        let mut manager = with(&[(2, 7, 20), (1, 7, 21)]);
        check(&manager, &[(1, 7, 21), (2, 7, 20)]);
        for (space, frame) in [(1, 21), (2, 20)] {
            let (found, _) = manager.access(Access::Read, place(space, 7)).unwrap();
            assert_eq!(found.index(), frame);
        }
        // Space 0 and space 3 stand on either side of the two.
        for space in [0, 3] {
            assert_eq!(manager.unmap(place(space, 7)), Err(Refusal::Unmapped));
        }
        assert_eq!(map(&mut manager, (2, 7, 21)), Err(Refusal::Mapped));
        manager.unmap(place(1, 7)).unwrap();
        check(&manager, &[(2, 7, 20)]);
    }
}
