//! Document 02, request N1: many mappings in one call, as single maps in that order would go.

use peer::call::{number, Call, Found, Mapping};
use peer::{Pair, Refusal};
use std::collections::BTreeSet;

fn mapping(space: u8, page: u16, frame: u8, rights: u8) -> Mapping {
    Mapping {
        space,
        page,
        frame,
        rights,
    }
}

/// This many mappings of one space, all different and all in range.
fn pages(space: u8, count: u16) -> Vec<Mapping> {
    (0..count).map(|page| mapping(space, page, 5, 1)).collect()
}

/// The number that a call answers.
fn answer(pair: &mut Pair, call: Call) -> u8 {
    number(&pair.call(call).unwrap())
}

/// Maps the items singly. Each must be accepted.
fn map_singly(pair: &mut Pair, items: &[Mapping]) {
    for &item in items {
        assert_eq!(answer(pair, Call::Map(item)), 0, "{item:?}");
    }
}

/// Maps the items of the rows in one call. Each must be answered by the number in its row, and all
/// be left as by single maps of those items alone whose number is 0.
fn check(pair: &mut Pair, rows: &[(Mapping, u8)]) {
    let (items, right): (Vec<Mapping>, Vec<u8>) = rows.iter().copied().unzip();
    let accepted = rows.iter().filter(|(_, number)| *number == 0);
    let accepted: Vec<Mapping> = accepted.map(|(item, _)| *item).collect();
    let mut singly = pair.clone();
    map_singly(&mut singly, &accepted);

    let mut answers = vec![99; items.len()];
    assert_eq!(pair.map_all(&items, &mut answers), Ok(()));
    assert_eq!(answers, right);
    assert!(*pair == singly, "the tables are not those of single maps");
}

/// The call must be refused whole by 12, and change neither the answers nor anything else.
fn check_refused(pair: &mut Pair, items: &[Mapping], answers: usize) {
    let before = pair.clone();
    let mut answers = vec![99; answers];
    let refusal = pair.map_all(items, &mut answers).unwrap_err();
    assert_eq!((refusal, refusal.number()), (Refusal::Items, 12));
    assert!(answers.iter().all(|&answer| answer == 99));
    assert!(*pair == before, "a refused call changes nothing");
}

/// One page mapped, and a word written through it that memory does not have yet.
fn started() -> Pair {
    let mut pair = Pair::default();
    map_singly(&mut pair, &[mapping(3, 7, 5, 2)]);
    let write = Call::Write {
        space: 3,
        page: 7,
        offset: 0,
        word: 1,
    };
    assert_eq!(answer(&mut pair, write), 0);
    pair
}

#[test]
fn doubles() {
    let rows = [
        (mapping(0, 0, 5, 2), 0),
        (mapping(0, 1, 5, 1), 0),
        // Of the first item, with another frame and other rights.
        (mapping(0, 0, 6, 1), 7),
        // The same page of another space.
        (mapping(1, 0, 6, 2), 0),
        // Of a mapping from before the call.
        (mapping(3, 7, 5, 2), 7),
        (mapping(1, 0, 6, 2), 7),
        (mapping(3, 8, 5, 2), 0),
    ];
    check(&mut started(), &rows);
}

#[test]
fn refused_items() {
    let rows = [
        (mapping(15, 1023, 63, 2), 0),
        (mapping(16, 0, 0, 1), 3),
        (mapping(0, 1024, 0, 1), 3),
        (mapping(0, 0, 64, 1), 4),
        (mapping(0, 0, 0, 0), 5),
        (mapping(0, 0, 0, 4), 5),
        (mapping(0, 0, 0, 255), 5),
        // The smallest of several.
        (mapping(16, 0, 64, 0), 3),
        (mapping(0, 0, 64, 0), 4),
        // No refused item has taken the page.
        (mapping(0, 0, 0, 1), 0),
        // It is taken now, which stands after the item's other faults.
        (mapping(0, 0, 64, 1), 4),
        (mapping(0, 0, 0, 4), 5),
        (mapping(0, 0, 0, 3), 7),
        (mapping(0, 1, 0, 3), 0),
    ];
    check(&mut started(), &rows);
}

#[test]
fn the_list_becomes_full() {
    let mut pair = Pair::default();
    map_singly(&mut pair, &pages(0, 254));
    let rows = [
        // The 255th.
        (mapping(1, 0, 5, 1), 0),
        (mapping(1, 0, 5, 1), 7),
        (mapping(1, 1, 64, 1), 4),
        // The 256th.
        (mapping(1, 1, 5, 1), 0),
        (mapping(1, 2, 5, 1), 9),
        // Smaller numbers go before 9.
        (mapping(1, 1, 5, 1), 7),
        (mapping(1, 2, 5, 0), 5),
        (mapping(1, 3, 5, 1), 9),
    ];
    check(&mut pair, &rows);
}

#[test]
fn at_most_64_items() {
    let rows: Vec<(Mapping, u8)> = pages(0, 64).into_iter().map(|item| (item, 0)).collect();
    check(&mut started(), &rows);
    check_refused(&mut started(), &pages(0, 65), 65);
    check_refused(&mut started(), &pages(0, 65), 64);
    // Refused items count too.
    check_refused(&mut started(), &[mapping(16, 1024, 64, 0); 65], 65);
}

#[test]
fn as_many_answers_as_items() {
    for count in [1, 3, 64] {
        let items = pages(0, count);
        check_refused(&mut started(), &items, items.len() - 1);
        check_refused(&mut started(), &items, items.len() + 1);
    }
    check_refused(&mut started(), &[], 1);
    // An item's own refusal does not go before 12.
    check_refused(&mut started(), &[mapping(16, 1024, 64, 0)], 2);
}

#[test]
fn no_items() {
    check(&mut started(), &[]);
    check(&mut Pair::default(), &[]);
}

#[test]
fn a_read_finds_the_frame_of_the_accepted_item() {
    let mut pair = Pair::default();
    for (frame, first) in [(5, 50), (6, 60)] {
        assert_eq!(answer(&mut pair, Call::DeviceWrite { frame, first }), 0);
    }
    let rows = [
        (mapping(0, 0, 5, 1), 0),
        (mapping(0, 0, 6, 1), 7),
        (mapping(0, 1, 5, 4), 5),
        (mapping(0, 1, 6, 1), 0),
    ];
    check(&mut pair, &rows);
    // Word 2 of a transfer is its first and 2. `call` compares it with the cacheless memory.
    for (page, word) in [(0, 52), (1, 62)] {
        let read = Call::Read {
            space: 0,
            page,
            offset: 2,
        };
        let accepted = pair.call(read).unwrap().unwrap();
        assert_eq!(accepted.found, Found::Word(word));
    }
}

/// Random numbers from a seed: splitmix64.
struct Random(u64);

impl Random {
    /// A number below the limit, which is not 0.
    fn below(&mut self, limit: u16) -> u16 {
        self.0 = self.0.wrapping_add(0x9e37_79b9_7f4a_7c15);
        let mut z = self.0;
        z = (z ^ (z >> 30)).wrapping_mul(0xbf58_476d_1ce4_e5b9);
        z = (z ^ (z >> 27)).wrapping_mul(0x94d0_49bb_1331_11eb);
        ((z ^ (z >> 31)) % u64::from(limit)) as u16
    }

    fn byte_below(&mut self, limit: u8) -> u8 {
        self.below(limit.into()) as u8
    }

    fn one_in(&mut self, chances: u16) -> bool {
        self.below(chances) == 0
    }

    /// A mapping of one of 400 places, now and then with a number out of range.
    fn mapping(&mut self) -> Mapping {
        let mut item = mapping(
            self.byte_below(2),
            self.below(200),
            self.byte_below(64),
            1 + self.byte_below(3),
        );
        if self.one_in(40) {
            item.space += 16;
        }
        if self.one_in(40) {
            item.page += 1024;
        }
        if self.one_in(20) {
            item.frame += 64;
        }
        if self.one_in(20) {
            item.rights = 4 * self.byte_below(2);
        }
        item
    }

    /// A call that makes the next list meet other tables and another cache.
    fn other_call(&mut self) -> Call {
        let Mapping {
            space, page, frame, ..
        } = self.mapping();
        let offset = self.byte_below(64);
        let word = self.below(1000).into();
        match self.below(4) {
            0 => Call::Unmap { space, page },
            1 => Call::Read {
                space,
                page,
                offset,
            },
            2 => Call::Write {
                space,
                page,
                offset,
                word,
            },
            _ => Call::DeviceWrite { frame, first: word },
        }
    }
}

/// 200 runs of 20 lists each. A run's lists have about 640 items together, so most runs fill the
/// mapping list.
#[test]
fn random_lists_go_as_single_maps() {
    let mut random = Random(1);
    let mut seen = BTreeSet::new();
    for run in 0..200 {
        let (mut at_once, mut singly) = (Pair::default(), Pair::default());
        for list in 0..20 {
            let items: Vec<Mapping> = (0..random.below(65)).map(|_| random.mapping()).collect();
            let mut answers = vec![99; items.len()];
            assert_eq!(at_once.map_all(&items, &mut answers), Ok(()));
            for (k, &item) in items.iter().enumerate() {
                let right = answer(&mut singly, Call::Map(item));
                assert_eq!(answers[k], right, "run {run}, list {list}, item {k}");
            }
            assert!(at_once == singly, "run {run}, list {list}");
            seen.extend(answers);

            for _ in 0..8 {
                let call = random.other_call();
                assert_eq!(at_once.call(call).unwrap(), singly.call(call).unwrap());
            }
        }
        at_once.settle().unwrap();
    }
    assert_eq!(seen, BTreeSet::from([0, 3, 4, 5, 7, 9]));
}
