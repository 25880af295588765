//! The page model: a state for each colour of a frame, the two tables by which a step changes it, which colour is
//! dirty, the frame's busy mark, by which it takes a step or does not, and a state for each of its colours in the
//! instruction cache.

use crate::board::{Colour, Frame, Part, COLOURS};
use crate::call::{Operation, Operations};
use crate::Refusal;

/// What the data cache may hold of a frame in one colour. `Present` is document 01's "held".
#[derive(Clone, Copy, Debug, Default, PartialEq, Eq)]
pub enum State {
    #[default]
    Empty,
    Present,
    Dirty,
    Stale,
}

/// What the instruction cache may hold of a frame in one colour (document 02, N8).
#[derive(Clone, Copy, Debug, Default, PartialEq, Eq)]
enum Instructions {
    #[default]
    Empty,
    Present,
    Stale,
}

/// What is to be done with the frame's lines in one colour of the data cache before a step.
#[derive(Clone, Copy, Debug, PartialEq, Eq)]
enum Due {
    Nothing,
    Flush,
    Purge,
}

use Due::{Flush, Nothing, Purge};
use State::{Dirty, Empty, Present, Stale};

/// The processor's accesses. A fetch goes through the instruction cache.
#[derive(Clone, Copy, Debug, PartialEq, Eq)]
pub enum Access {
    Read,
    Write,
    Fetch,
}

fn own_colour(access: Access, state: State) -> (State, Due) {
    match (access, state) {
        (Access::Read, Empty | Present) => (Present, Nothing),
        (Access::Read, Dirty) => (Dirty, Nothing),
        (Access::Read, Stale) => (Present, Purge),
        (Access::Write, Empty | Present | Dirty) => (Dirty, Nothing),
        (Access::Write, Stale) => (Dirty, Purge),
        (Access::Fetch, Dirty) => (Present, Flush),
        (Access::Fetch, Empty | Present | Stale) => (state, Nothing),
    }
}

fn other_colour(access: Access, state: State) -> (State, Due) {
    match (access, state) {
        (_, Empty) => (Empty, Nothing),
        (Access::Read | Access::Fetch, Present) => (Present, Nothing),
        (Access::Read | Access::Fetch, Dirty) => (Present, Flush),
        (Access::Write, Present) => (Stale, Nothing),
        (Access::Write, Dirty) => (Stale, Flush),
        (_, Stale) => (Stale, Nothing),
    }
}

/// Which way a device's words go, named from its side: a read takes memory's words.
#[derive(Clone, Copy, Debug, PartialEq, Eq)]
pub enum Direction {
    Read,
    Write,
}

/// The device's transfers, in one step or begun. A part is not the whole page, and of one that is begun it is
/// not known how many words will come: the words beside them may be in the cache alone.
#[derive(Clone, Copy, Debug, PartialEq, Eq)]
pub enum Transfer {
    Read,
    Write,
    WritePart,
    Begin(Direction),
}

impl Transfer {
    /// A write of these words.
    pub fn write(part: Part) -> Self {
        if part == Part::WHOLE {
            Self::Write
        } else {
            Self::WritePart
        }
    }
}

fn every_colour(transfer: Transfer, state: State) -> (State, Due) {
    match (transfer, state) {
        (_, Empty) => (Empty, Nothing),
        (Transfer::Read | Transfer::Begin(Direction::Read), Present) => (Present, Nothing),
        (Transfer::Read | Transfer::Begin(Direction::Read), Dirty) => (Present, Flush),
        (Transfer::Write, Present) => (Stale, Nothing),
        (Transfer::Write, Dirty) => (Empty, Purge),
        (Transfer::WritePart | Transfer::Begin(Direction::Write), Present) => (Stale, Nothing),
        (Transfer::WritePart | Transfer::Begin(Direction::Write), Dirty) => (Stale, Flush),
        (_, Stale) => (Stale, Nothing),
    }
}

/// Whether a frame takes an access while a transfer runs that was begun.
fn takes(busy: Option<Direction>, access: Access) -> bool {
    match busy {
        None => true,
        Some(Direction::Read) => access != Access::Write,
        Some(Direction::Write) => false,
    }
}

/// Stands for a dirty colour in a written record that has none.
const NO_DIRTY_COLOUR: u8 = COLOURS as u8;

/// The states of one frame: at most one colour is dirty, and beside it none is present. And its busy mark: the
/// transfer that was begun and runs still, if there is one. None is dirty while the device reads; none is dirty
/// or present while it writes. In the instruction cache none is present beside a dirty one, or while it writes.
#[derive(Clone, Copy, Debug, Default, PartialEq, Eq)]
pub struct Record {
    states: [State; COLOURS],
    busy: Option<Direction>,
    /// The one whose state is `Dirty` (document 02, N7).
    dirty_colour: Option<Colour>,
    instructions: [Instructions; COLOURS],
}

impl Record {
    /// The record that two masks, a dirty flag, a busy mark, a dirty colour and two masks of the instruction cache
    /// stand for, if they keep the rules.
    pub fn from_masks(masks: [u8; 7]) -> Result<Self, Refusal> {
        let [held, stale, dirty, busy, dirty_colour, fetched, fetched_stale] = masks;
        let broken = held & stale != 0
            || dirty > 1
            || (dirty == 1 && held.count_ones() != 1)
            || fetched & fetched_stale != 0
            || (fetched != 0 && (dirty == 1 || busy == 2));
        if broken {
            return Err(Refusal::Rules);
        }
        let busy = match busy {
            0 => None,
            1 if dirty == 0 => Some(Direction::Read),
            2 if held == 0 => Some(Direction::Write),
            _ => return Err(Refusal::Rules),
        };
        let dirty_colour = match dirty_colour {
            0..NO_DIRTY_COLOUR if dirty == 1 && held == 1 << dirty_colour => {
                Colour::all().nth(dirty_colour.into())
            }
            NO_DIRTY_COLOUR if dirty == 0 => None,
            _ => return Err(Refusal::Rules),
        };
        let bit = |mask: u8, colour: usize| mask >> colour & 1 == 1;
        let states = std::array::from_fn(|colour| match (bit(held, colour), bit(stale, colour)) {
            (true, _) if dirty == 1 => Dirty,
            (true, _) => Present,
            (false, true) => Stale,
            (false, false) => Empty,
        });
        let instructions = std::array::from_fn(|colour| {
            match (bit(fetched, colour), bit(fetched_stale, colour)) {
                (true, _) => Instructions::Present,
                (false, true) => Instructions::Stale,
                (false, false) => Instructions::Empty,
            }
        });
        Ok(Self {
            states,
            busy,
            dirty_colour,
            instructions,
        })
    }

    /// The numbers that `from_masks` makes this record of, in its order.
    pub fn to_masks(self) -> [u8; 7] {
        let data = |marked: fn(State) -> bool| mask(self.states.map(marked));
        let fetched = |state| mask(self.instructions.map(|other| other == state));
        let busy = match self.busy {
            None => 0,
            Some(Direction::Read) => 1,
            Some(Direction::Write) => 2,
        };
        [
            data(|state| matches!(state, Present | Dirty)),
            data(|state| state == Stale),
            self.dirty_colour.is_some().into(),
            busy,
            self.dirty_colour
                .map_or(NO_DIRTY_COLOUR, |colour| colour.index() as u8),
            fetched(Instructions::Present),
            fetched(Instructions::Stale),
        ]
    }

    /// Whether the caches are as the access wants them in this colour, so that the processor may go on by itself.
    pub fn allows(&self, access: Access, colour: Colour) -> bool {
        let state = self.states[colour.index()];
        match access {
            Access::Read => matches!(state, Present | Dirty),
            Access::Write => state == Dirty,
            Access::Fetch => self.instructions[colour.index()] == Instructions::Present,
        }
    }

    /// A processor access through a page of colour `own`.
    pub fn access(
        &mut self,
        frame: Frame,
        access: Access,
        own: Colour,
    ) -> Result<Operations, Refusal> {
        if !takes(self.busy, access) {
            return Err(Refusal::Busy);
        }
        let (flush, purge) = self.step(frame, Some(own), |colour, state| {
            if colour == own {
                own_colour(access, state)
            } else {
                other_colour(access, state)
            }
        });
        let purge = match access {
            Access::Read => purge,
            Access::Write => {
                self.overwrite();
                purge
            }
            Access::Fetch => self.fetch(frame, own),
        };
        Ok(in_order(flush, purge))
    }

    /// A transfer by the device, or the begin of one.
    pub fn transfer(&mut self, frame: Frame, transfer: Transfer) -> Result<Operations, Refusal> {
        if self.busy.is_some() {
            return Err(Refusal::Busy);
        }
        if let Transfer::Begin(direction) = transfer {
            self.busy = Some(direction);
        }
        match transfer {
            Transfer::Read | Transfer::Begin(Direction::Read) => {}
            Transfer::Write | Transfer::WritePart | Transfer::Begin(Direction::Write) => {
                self.overwrite();
            }
        }
        let (flush, purge) = self.step(frame, None, |_, state| every_colour(transfer, state));
        Ok(in_order(flush, purge))
    }

    /// A word of a transfer that was begun in this direction. It changes no state.
    pub fn word(&self, direction: Direction) -> Result<(), Refusal> {
        if self.busy == Some(direction) {
            Ok(())
        } else {
            Err(Refusal::NotBegun)
        }
    }

    /// The end of a transfer that was begun, in either direction. It changes no state.
    pub fn end(&mut self) -> Result<(), Refusal> {
        let ended = self.busy.take();
        ended.map(|_| ()).ok_or(Refusal::NotBegun)
    }

    /// The instruction cache's side of a fetch, and the purge that is due there.
    fn fetch(&mut self, frame: Frame, own: Colour) -> Option<Operation> {
        let state = &mut self.instructions[own.index()];
        let stale = *state == Instructions::Stale;
        *state = Instructions::Present;
        stale.then_some(Operation::PurgeInstructions(frame, own))
    }

    /// The instruction cache's side of a step that changes the frame's words, or lets the device change them.
    fn overwrite(&mut self) {
        for state in &mut self.instructions {
            if *state == Instructions::Present {
                *state = Instructions::Stale;
            }
        }
    }

    /// Changes each colour's state in the data cache by the rule, with `own` the colour of an access, and gives the
    /// flush and the purge that are due. Something is due, and a colour is dirty after the step, only where the dirty
    /// colour was or at `own`. There is at most one of each: a transfer has one for the dirty colour, an access
    /// purges its own colour alone.
    fn step(
        &mut self,
        frame: Frame,
        own: Option<Colour>,
        rule: impl Fn(Colour, State) -> (State, Due),
    ) -> (Option<Operation>, Option<Operation>) {
        let (mut flush, mut purge) = (None, None);
        for colour in self.dirty_colour.take().into_iter().chain(own) {
            let (next, due) = rule(colour, self.states[colour.index()]);
            match due {
                Nothing => {}
                Flush => flush = Some(Operation::Flush(frame, colour)),
                Purge => purge = Some(Operation::Purge(frame, colour)),
            }
            if next == Dirty {
                self.dirty_colour = Some(colour);
            }
        }
        for (colour, state) in Colour::all().zip(&mut self.states) {
            (*state, _) = rule(colour, *state);
        }
        (flush, purge)
    }
}

/// The bits of the colours that are marked.
fn mask(marked: [bool; COLOURS]) -> u8 {
    let colours = Colour::all().filter(|colour| marked[colour.index()]);
    colours.fold(0, |mask, colour| mask | 1 << colour.index())
}

/// A flush comes before a purge.
fn in_order(flush: Option<Operation>, purge: Option<Operation>) -> Operations {
    match flush {
        Some(_) => [flush, purge],
        None => [purge, None],
    }
}
