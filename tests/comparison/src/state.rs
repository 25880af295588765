//! What a sheet's accepted calls leave, as far as the tally tells calls apart by it: the frame and the rights of every
//! page mapped, the frames' busy marks (document 02, N6), how each frame's words were changed last, and the colours as
//! flushes left them (N9).

use crate::generate::{
    Mapping, BEGIN_READ, BEGIN_WRITE, BRING, DEVICE_READ, DEVICE_WRITE, DEVICE_WRITE_PART, END,
    FETCH, READ, TAKE, UNMAP, WRITE,
};
use std::collections::BTreeMap;

#[derive(Clone, Copy, Debug, Default, PartialEq, Eq)]
pub enum Mark {
    #[default]
    Free,
    DeviceReads,
    DeviceWrites,
}

/// What changed a frame's words last, or let the device change them.
#[derive(Clone, Copy, Debug, Default, PartialEq, Eq)]
pub enum Change {
    #[default]
    Never,
    Write,
    DeviceWrite,
    Part,
    BeginWrite,
}

/// What a colour of the data cache was flushed for: to be read, and it is held since then, or to be changed, and it is
/// stale.
#[derive(Clone, Copy, Debug, PartialEq, Eq)]
pub enum Flushed {
    ToRead,
    ToChange,
}

/// What is known of the frame that a step is about. If it is about none, it is as a frame at the start.
#[derive(Clone, Copy, Debug, Default, PartialEq, Eq)]
pub struct About {
    pub mark: Mark,
    pub change: Change,
    /// Those of the step's page, if it has one that is mapped.
    pub rights: Option<u8>,
    /// What that page's colour was flushed for, if it is as the flush left it.
    pub flushed: Option<Flushed>,
}

/// Every page mapped, with its frame and rights, the marks other than free, the changes, and by frame and colour the
/// flushes.
#[derive(Default)]
pub struct State {
    mapped: BTreeMap<[u8; 3], (u8, u8)>,
    marks: BTreeMap<u8, Mark>,
    changes: BTreeMap<u8, Change>,
    flushed: BTreeMap<[u8; 2], Flushed>,
}

impl State {
    pub fn of(&self, step: &[u8]) -> About {
        let (frame, rights) = match step[0] {
            READ | WRITE | FETCH | UNMAP => self.mapped.get(&place(step)).copied().unzip(),
            DEVICE_READ | DEVICE_WRITE | DEVICE_WRITE_PART => (Some(step[1]), None),
            BEGIN_READ | BEGIN_WRITE | BRING | TAKE | END => (Some(step[1]), None),
            _ => (None, None),
        };
        let mark = frame.and_then(|frame| self.marks.get(&frame).copied());
        let change = frame.and_then(|frame| self.changes.get(&frame).copied());
        let page = frame.filter(|_| rights.is_some());
        About {
            mark: mark.unwrap_or_default(),
            change: change.unwrap_or_default(),
            rights,
            flushed: page.and_then(|frame| self.flushed.get(&[frame, colour(step)]).copied()),
        }
    }

    /// Follows an accepted mapping.
    pub fn map(&mut self, [space, low, high, frame, rights]: Mapping) {
        self.mapped.insert([space, low, high], (frame, rights));
    }

    /// Follows an accepted step and its flush, a frame and a colour, if it has one.
    pub fn follow(&mut self, step: &[u8], flush: Option<[u8; 2]>) {
        if let READ | WRITE = step[0] {
            let (frame, _) = self.mapped[&place(step)];
            self.flushed.remove(&[frame, colour(step)]);
        }
        let change = match step[0] {
            WRITE => Some((self.mapped[&place(step)].0, Change::Write)),
            DEVICE_WRITE => Some((step[1], Change::DeviceWrite)),
            DEVICE_WRITE_PART => Some((step[1], Change::Part)),
            BEGIN_WRITE => Some((step[1], Change::BeginWrite)),
            _ => None,
        };
        if let Some((frame, change)) = change {
            self.changes.insert(frame, change);
            // What is held goes stale, and what is stale stays so.
            let stays = |of, flushed| of != frame || flushed == Flushed::ToChange;
            self.flushed.retain(|&[of, _], flushed| stays(of, *flushed));
        }
        if let Some(at) = flush {
            let flushed = match change {
                None => Flushed::ToRead,
                Some(_) => Flushed::ToChange,
            };
            self.flushed.insert(at, flushed);
        }
        match step[0] {
            UNMAP => _ = self.mapped.remove(&place(step)),
            BEGIN_READ => _ = self.marks.insert(step[1], Mark::DeviceReads),
            BEGIN_WRITE => _ = self.marks.insert(step[1], Mark::DeviceWrites),
            END => _ = self.marks.remove(&step[1]),
            _ => {}
        }
    }
}

/// Space and page of a processor's access or an unmap.
fn place(step: &[u8]) -> [u8; 3] {
    [step[1], step[2], step[3]]
}

/// The colour of the page of such a step.
pub fn colour(step: &[u8]) -> u8 {
    step[2] % 8
}

#[cfg(test)]
mod tests {
    use super::*;
    use Mark::{DeviceReads, DeviceWrites, Free};

    fn step(kind: u8, s: u8, page: u8) -> [u8; 9] {
        [kind, s, page, 0, 0, 0, 0, 0, 0]
    }

    #[test]
    fn marks_from_begin_to_end() {
        let mut state = State::default();
        state.map([1, 2, 0, 5, 2]);
        for (begin, mark) in [(BEGIN_READ, DeviceReads), (BEGIN_WRITE, DeviceWrites)] {
            let of_frame = [begin, BRING, TAKE, END, DEVICE_READ].map(|kind| step(kind, 5, 0));
            let of_page = [READ, WRITE, FETCH, UNMAP].map(|kind| step(kind, 1, 2));
            let others = [
                step(begin, 6, 0),
                step(READ, 5, 0),
                step(READ, 1, 3),
                step(READ, 2, 2),
            ];
            let all = || of_frame.iter().chain(&of_page);
            assert!(all().all(|step| state.of(step).mark == Free));
            state.follow(&step(begin, 5, 0), None);
            assert!(all().all(|step| state.of(step).mark == mark));
            assert!(others.iter().all(|step| state.of(step).mark == Free));
            state.follow(&step(END, 5, 0), None);
            assert!(all().all(|step| state.of(step).mark == Free));
        }
        state.follow(&step(BEGIN_READ, 5, 0), None);
        state.follow(&step(UNMAP, 1, 2), None);
        assert_eq!(state.of(&step(READ, 1, 2)).mark, Free);
        assert_eq!(state.of(&step(END, 5, 0)).mark, DeviceReads);
    }

    #[test]
    fn rights_of_a_page() {
        let mut state = State::default();
        for rights in 1..=3 {
            state.map([1, rights, 0, 5, rights]);
        }
        for kind in [READ, WRITE, FETCH, UNMAP] {
            for rights in 1..=3 {
                assert_eq!(state.of(&step(kind, 1, rights)).rights, Some(rights));
            }
            assert_eq!(state.of(&step(kind, 1, 4)).rights, None);
            assert_eq!(state.of(&step(kind, 2, 1)).rights, None);
        }
        assert_eq!(state.of(&step(DEVICE_READ, 1, 0)).rights, None);
        state.follow(&step(UNMAP, 1, 3), None);
        assert_eq!(state.of(&step(FETCH, 1, 3)).rights, None);
        state.map([1, 3, 0, 6, 1]);
        assert_eq!(state.of(&step(FETCH, 1, 3)).rights, Some(1));
    }

    #[test]
    fn the_last_change_of_a_frame() {
        let mut state = State::default();
        state.map([1, 2, 0, 5, 2]);
        state.map([1, 3, 0, 5, 3]);
        state.map([1, 4, 0, 6, 3]);
        assert_eq!(state.of(&step(FETCH, 1, 3)).change, Change::Never);
        let changes = [
            (step(WRITE, 1, 2), Change::Write),
            (step(DEVICE_WRITE, 5, 0), Change::DeviceWrite),
            (step(DEVICE_WRITE_PART, 5, 0), Change::Part),
            (step(BEGIN_WRITE, 5, 0), Change::BeginWrite),
        ];
        let others = [
            step(READ, 1, 2),
            step(FETCH, 1, 3),
            step(DEVICE_READ, 5, 0),
            step(BEGIN_READ, 5, 0),
            step(BRING, 5, 0),
            step(TAKE, 5, 0),
            step(END, 5, 0),
            step(DEVICE_WRITE, 7, 0),
        ];
        for (changing, change) in changes {
            state.follow(&changing, None);
            for other in others {
                state.follow(&other, None);
                assert_eq!(state.of(&step(FETCH, 1, 3)).change, change);
            }
            assert_eq!(state.of(&step(FETCH, 1, 4)).change, Change::Never);
        }
    }

    /// Frame 5 in colours 0 and 1, and frame 6 in colour 0.
    #[test]
    fn colours_as_flushes_left_them() {
        let mut state = State::default();
        state.map([1, 0, 0, 5, 2]);
        state.map([1, 1, 0, 5, 3]);
        state.map([1, 8, 0, 6, 2]);
        let (read, write) = (step(READ, 1, 0), step(WRITE, 1, 0));
        let changes = [
            step(WRITE, 1, 1),
            step(DEVICE_WRITE_PART, 5, 0),
            step(BEGIN_WRITE, 5, 0),
        ];
        let reads = [
            step(READ, 1, 1),
            step(FETCH, 1, 0),
            step(FETCH, 1, 1),
            step(DEVICE_READ, 5, 0),
            step(BEGIN_READ, 5, 0),
        ];
        let others = [
            step(READ, 1, 8),
            step(WRITE, 1, 8),
            step(DEVICE_WRITE, 6, 0),
            step(BRING, 5, 0),
            step(TAKE, 5, 0),
            step(END, 5, 0),
        ];
        let all = changes.map(|change| (change, Flushed::ToChange));
        let all = all
            .into_iter()
            .chain(reads.map(|read| (read, Flushed::ToRead)));
        for (flushing, why) in all {
            for access in [read, write] {
                state.follow(&write, None);
                assert_eq!(state.of(&read).flushed, None);
                state.follow(&flushing, Some([5, 0]));
                for other in reads.into_iter().chain(others) {
                    assert_eq!(state.of(&read).flushed, Some(why));
                    state.follow(&other, None);
                }
                // A later change leaves what is stale so, and nothing held; an access makes the colour its own.
                for change in changes {
                    let left = Some(why).filter(|&why| why == Flushed::ToChange);
                    state.follow(&change, None);
                    assert_eq!(state.of(&write).flushed, left);
                }
                state.follow(&access, None);
                assert_eq!(state.of(&read).flushed, None);
            }
        }
        // Neither another frame's colour nor another colour.
        state.follow(&changes[0], Some([5, 0]));
        assert_eq!(state.of(&step(READ, 1, 8)).flushed, None);
        assert_eq!(state.of(&step(READ, 1, 1)).flushed, None);
        assert_eq!(state.of(&step(DEVICE_READ, 5, 0)).flushed, None);
    }
}
