//! The machine: each call asks the manager, has the cache do what it says, then makes the access.
//! A call tests its numbers in the order of their refusals, so that the first in that order is given.

use crate::board::{Frame, Line, Offset, Part, Place, PAGE_WORDS};
use crate::call::{number, sent, Accepted, Answer, Call, Found, Mapping, Operations};
use crate::hardware::Hardware;
use crate::manager::Manager;
use crate::record::{Access, Direction, Transfer};
use crate::Refusal;

/// The most items that one `map_all` takes.
pub const ITEMS: usize = 64;

#[derive(Clone, Debug, Default, PartialEq, Eq)]
pub struct Machine {
    pub manager: Manager,
    pub hardware: Hardware,
}

impl Machine {
    pub fn call(&mut self, call: Call) -> Answer {
        match call {
            Call::Map(Mapping {
                space,
                page,
                frame,
                rights,
            }) => {
                let (place, frame) = (Place::new(space, page)?, Frame::new(frame)?);
                self.manager.map(place, frame, rights)?;
                Ok(Accepted::default())
            }
            Call::Unmap { space, page } => {
                self.manager.unmap(Place::new(space, page)?)?;
                Ok(Accepted::default())
            }
            Call::Read {
                space,
                page,
                offset,
            } => {
                let (place, offset) = (Place::new(space, page)?, Offset::new(offset)?);
                let (frame, operations) = self.manager.access(Access::Read, place)?;
                self.perform(operations);
                let word = self.hardware.load(frame, place.colour(), offset);
                Ok(Accepted {
                    operations,
                    found: Found::Word(word),
                })
            }
            Call::Fetch {
                space,
                page,
                offset,
            } => {
                let (place, offset) = (Place::new(space, page)?, Offset::new(offset)?);
                let (frame, operations) = self.manager.access(Access::Fetch, place)?;
                self.perform(operations);
                let word = self.hardware.fetch(frame, place.colour(), offset);
                Ok(Accepted {
                    operations,
                    found: Found::Word(word),
                })
            }
            Call::Write {
                space,
                page,
                offset,
                word,
            } => {
                let (place, offset) = (Place::new(space, page)?, Offset::new(offset)?);
                let (frame, operations) = self.manager.access(Access::Write, place)?;
                self.perform(operations);
                self.hardware.store(frame, place.colour(), offset, word);
                Ok(Accepted {
                    operations,
                    found: Found::Nothing,
                })
            }
            Call::DeviceRead { frame } => {
                let frame = Frame::new(frame)?;
                let operations = self.manager.transfer(Transfer::Read, frame)?;
                self.perform(operations);
                Ok(Accepted {
                    operations,
                    found: Found::Page(Box::new(*self.hardware.page(frame))),
                })
            }
            Call::DeviceWrite { frame, first } => {
                let words = sent(first, PAGE_WORDS);
                self.device_write(Frame::new(frame)?, Part::WHOLE, &words)
            }
            Call::DeviceWritePart {
                frame,
                offset,
                count,
                first,
            } => {
                let (frame, part) = (Frame::new(frame)?, Part::new(offset, count)?);
                self.device_write(frame, part, &sent(first, count))
            }
            Call::BeginRead { frame } => self.begin(Direction::Read, Frame::new(frame)?),
            Call::BeginWrite { frame } => self.begin(Direction::Write, Frame::new(frame)?),
            Call::BringWord {
                frame,
                offset,
                word,
            } => {
                let (frame, offset) = (Frame::new(frame)?, Offset::new(offset)?);
                self.manager.word(Direction::Write, frame)?;
                self.hardware.page_mut(frame)[offset.index()] = word;
                Ok(Accepted::default())
            }
            Call::TakeWord { frame, offset } => {
                let (frame, offset) = (Frame::new(frame)?, Offset::new(offset)?);
                self.manager.word(Direction::Read, frame)?;
                Ok(Accepted {
                    found: Found::Word(self.hardware.page(frame)[offset.index()]),
                    ..Accepted::default()
                })
            }
            Call::EndTransfer { frame } => {
                self.manager.end(Frame::new(frame)?)?;
                Ok(Accepted::default())
            }
            Call::Evict { line } => {
                let (cache, line) = Line::by_number(line)?;
                self.hardware.evict(cache, line);
                Ok(Accepted::default())
            }
        }
    }

    /// Maps the items in order, as single calls would: a refused item changes nothing and the next
    /// one is tried. An item's answer is its refusal's number; an accepted item answers 0.
    pub fn map_all(&mut self, items: &[Mapping], answers: &mut [u8]) -> Result<(), Refusal> {
        if items.len() > ITEMS || answers.len() != items.len() {
            return Err(Refusal::Items);
        }
        for (&item, answer) in items.iter().zip(answers) {
            *answer = number(&self.call(Call::Map(item)));
        }
        Ok(())
    }

    /// The device sends these words, as many as the part has, into it. The frame's others stay.
    pub fn device_write(&mut self, frame: Frame, part: Part, words: &[u32]) -> Answer {
        let operations = self.manager.transfer(Transfer::write(part), frame)?;
        self.perform(operations);
        self.hardware.page_mut(frame)[part.offsets()].copy_from_slice(words);
        Ok(Accepted {
            operations,
            found: Found::Nothing,
        })
    }

    /// Begins a transfer. No word moves yet.
    fn begin(&mut self, direction: Direction, frame: Frame) -> Answer {
        let operations = self.manager.transfer(Transfer::Begin(direction), frame)?;
        self.perform(operations);
        Ok(Accepted {
            operations,
            found: Found::Nothing,
        })
    }

    fn perform(&mut self, operations: Operations) {
        for operation in operations.into_iter().flatten() {
            self.hardware.perform(operation);
        }
    }
}
