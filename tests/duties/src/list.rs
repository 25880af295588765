//! The mapping list as it is lent, the two orders in which it may stand, and how it is tested.

use crate::every;
use peer::board::{FRAMES, PAGES, SPACES};
use peer::call::Mapping;
use std::marker::PhantomData;

/// The most mappings that the list takes.
pub const MAPPINGS: usize = 256;

/// What stands past the count.
const NONE: Mapping = Mapping {
    space: 0,
    page: 0,
    frame: 0,
    rights: 0,
};

/// How listed mappings stand, and how a double is seen and a page found.
pub trait Order {
    /// Whether these, at most as many as the list takes, are in range and stand in order.
    fn holds(listed: &[Mapping]) -> bool;

    /// Where the mapping of a space's page stands or, if there is none, where one would go.
    fn find(listed: &[Mapping], space: u8, page: u16) -> Result<usize, usize>;
}

/// In order of mapping, as before request N2: each is compared with all before it. This is the plain
/// one: it goes record by record and compares space and page. Of the plain forms it is the one that is
/// quick in every build: `any` executes a third more, and two loops, though they execute as little, took
/// up to half longer where the code lay badly.
#[derive(Clone, Debug, PartialEq, Eq)]
pub struct AllPairs;

impl Order for AllPairs {
    fn holds(listed: &[Mapping]) -> bool {
        listed.iter().enumerate().all(|(at, mapping)| {
            in_range(mapping) && Self::find(&listed[..at], mapping.space, mapping.page).is_err()
        })
    }

    fn find(listed: &[Mapping], space: u8, page: u16) -> Result<usize, usize> {
        // The page first: it differs more often.
        let same = |mapping: &Mapping| mapping.page == page && mapping.space == space;
        listed.iter().position(same).ok_or(listed.len())
    }
}

/// As `AllPairs`, but it packs space and page into one number, a key, and compares the keys, which the
/// compiler does several at a time.
#[derive(Clone, Debug, PartialEq, Eq)]
pub struct AllPairsPacked;

impl Order for AllPairsPacked {
    fn holds(listed: &[Mapping]) -> bool {
        let mut keys = [0; MAPPINGS];
        listed.iter().enumerate().all(|(at, mapping)| {
            keys[at] = key_of(mapping);
            in_range(mapping) && !keys[..at].contains(&keys[at])
        })
    }

    fn find(listed: &[Mapping], space: u8, page: u16) -> Result<usize, usize> {
        let key = key(space, page);
        let mut keys = listed.iter().map(key_of);
        keys.position(|other| other == key).ok_or(listed.len())
    }
}

/// In rising order of space, then page (request N2): each is compared with the one before it.
#[derive(Clone, Debug, PartialEq, Eq)]
pub struct Neighbours;

impl Order for Neighbours {
    fn holds(listed: &[Mapping]) -> bool {
        let mut least = 0;
        every(listed, |mapping| {
            let key = key_of(mapping);
            let rises = least <= key;
            least = key + 1;
            rises & in_range(mapping)
        })
    }

    fn find(listed: &[Mapping], space: u8, page: u16) -> Result<usize, usize> {
        listed.binary_search_by_key(&key(space, page), key_of)
    }
}

/// What no two mappings share: space and page, as a number that rises with the space, then the page.
fn key(space: u8, page: u16) -> u32 {
    u32::from(space) << u16::BITS | u32::from(page)
}

fn key_of(mapping: &Mapping) -> u32 {
    key(mapping.space, mapping.page)
}

fn in_range(mapping: &Mapping) -> bool {
    (usize::from(mapping.space) < SPACES)
        & (usize::from(mapping.page) < PAGES)
        & (usize::from(mapping.frame) < FRAMES)
        & matches!(mapping.rights, 1..=3)
}

#[derive(Clone, Debug, PartialEq, Eq)]
pub struct MappingList<O> {
    pub items: [Mapping; MAPPINGS],
    pub count: usize,
    order: PhantomData<O>,
}

/// Nothing mapped.
impl<O> Default for MappingList<O> {
    fn default() -> Self {
        Self {
            items: [NONE; MAPPINGS],
            count: 0,
            order: PhantomData,
        }
    }
}

impl<O: Order> MappingList<O> {
    /// Tests every place of the list.
    pub fn keeps_rules(&self) -> bool {
        let Some((listed, rest)) = self.items.split_at_checked(self.count) else {
            return false;
        };
        let bits = |mapping: &Mapping| {
            mapping.page | u16::from(mapping.space | mapping.frame | mapping.rights)
        };
        O::holds(listed) && rest.iter().fold(0, |any, mapping| any | bits(mapping)) == 0
    }

    pub fn listed(&self) -> &[Mapping] {
        &self.items[..self.count]
    }

    /// Where the mapping of a space's page stands or, if there is none, where one would go.
    pub fn find(&self, space: u8, page: u16) -> Result<usize, usize> {
        O::find(self.listed(), space, page)
    }

    /// Puts a mapping at its place in a list that has room. The later ones move up.
    pub fn insert(&mut self, at: usize, mapping: Mapping) {
        self.items.copy_within(at..self.count, at + 1);
        self.items[at] = mapping;
        self.count += 1;
    }

    /// Takes the mapping at a place away. The later ones move down.
    pub fn remove(&mut self, at: usize) {
        self.items.copy_within(at + 1..self.count, at);
        self.count -= 1;
        self.items[self.count] = NONE;
    }
}
