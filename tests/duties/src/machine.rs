//! The machine's calls on what they are lent. Each tests all of that, then its own numbers, in the
//! order of the refusals, and changes nothing before it is sure to accept.

use crate::every;
use crate::hardware::Hardware;
use crate::list::{MappingList, Order, MAPPINGS};
use crate::record::{self, Record, RECORDS_WORDS};
use peer::board::{Colour, Frame, Line, Offset, Part, Place, PAGE_WORDS};
use peer::call::{Accepted, Answer, Found, Mapping, Operations};
use peer::record::{Access, Direction, Transfer};
use peer::Refusal;

/// What every call is lent.
pub struct Lent<'a, O> {
    pub list: &'a mut MappingList<O>,
    pub records: &'a mut [u32],
    pub protections: &'a mut [u8],
    pub hardware: Hardware<'a>,
}

const NO_OPERATIONS: Operations = [None, None];

impl<O: Order> Lent<'_, O> {
    pub fn map(&mut self, mapping: Mapping) -> Answer {
        self.test()?;
        let Mapping {
            space,
            page,
            frame,
            rights,
        } = mapping;
        Place::new(space, page)?;
        Frame::new(frame)?;
        if !matches!(rights, 1..=3) {
            return Err(Refusal::Rights);
        }
        let Err(at) = self.list.find(space, page) else {
            return Err(Refusal::Mapped);
        };
        if self.list.count == MAPPINGS {
            return Err(Refusal::Full);
        }
        self.list.insert(at, mapping);
        self.accept(NO_OPERATIONS, Found::Nothing)
    }

    pub fn unmap(&mut self, space: u8, page: u16) -> Answer {
        self.test()?;
        Place::new(space, page)?;
        let at = self.mapped(space, page)?;
        self.list.remove(at);
        self.accept(NO_OPERATIONS, Found::Nothing)
    }

    pub fn read(&mut self, space: u8, page: u16, offset: u8) -> Answer {
        let (operations, frame, colour, offset) = self.access(Access::Read, space, page, offset)?;
        let word = self.hardware.load(frame, colour, offset);
        self.accept(operations, Found::Word(word))
    }

    pub fn write(&mut self, space: u8, page: u16, offset: u8, word: u32) -> Answer {
        let (operations, frame, colour, offset) =
            self.access(Access::Write, space, page, offset)?;
        self.hardware.store(frame, colour, offset, word);
        self.accept(operations, Found::Nothing)
    }

    pub fn fetch(&mut self, space: u8, page: u16, offset: u8) -> Answer {
        let (operations, frame, colour, offset) =
            self.access(Access::Fetch, space, page, offset)?;
        let word = self.hardware.fetch(frame, colour, offset);
        self.accept(operations, Found::Word(word))
    }

    /// The device takes the frame's words into its buffer.
    pub fn device_read(&mut self, frame: u8, buffer: &mut [u32]) -> Answer {
        self.test_with(buffer, PAGE_WORDS)?;
        let frame = Frame::new(frame)?;
        let operations = self.transfer(Transfer::Read, frame)?;
        buffer.copy_from_slice(self.hardware.page(frame));
        self.accept(operations, Found::Nothing)
    }

    /// The device sends the words of its buffer to the frame.
    pub fn device_write(&mut self, frame: u8, buffer: &[u32]) -> Answer {
        self.device_write_part(frame, 0, PAGE_WORDS, buffer)
    }

    /// The device sends the words of its buffer, so many, to the frame's from the offset on.
    pub fn device_write_part(
        &mut self,
        frame: u8,
        offset: usize,
        count: usize,
        buffer: &[u32],
    ) -> Answer {
        self.test_with(buffer, count)?;
        let (frame, part) = (Frame::new(frame)?, Part::new(offset, count)?);
        let operations = self.transfer(Transfer::write(part), frame)?;
        self.hardware.page(frame)[part.offsets()].copy_from_slice(buffer);
        self.accept(operations, Found::Nothing)
    }

    /// The first call of a transfer that takes a while.
    pub fn begin(&mut self, direction: Direction, frame: u8) -> Answer {
        self.test()?;
        let operations = self.transfer(Transfer::Begin(direction), Frame::new(frame)?)?;
        self.accept(operations, Found::Nothing)
    }

    /// The device sends one word of a transfer that was begun.
    pub fn bring_word(&mut self, frame: u8, offset: u8, word: u32) -> Answer {
        *self.word(Direction::Write, frame, offset)? = word;
        self.accept(NO_OPERATIONS, Found::Nothing)
    }

    /// The device takes one word of a transfer that was begun.
    pub fn take_word(&mut self, frame: u8, offset: u8) -> Answer {
        let word = *self.word(Direction::Read, frame, offset)?;
        self.accept(NO_OPERATIONS, Found::Word(word))
    }

    /// Ends a transfer that was begun, in either direction.
    pub fn end_transfer(&mut self, frame: u8) -> Answer {
        self.test()?;
        let record = self.record(Frame::new(frame)?);
        *record = record::end(*record)?;
        self.accept(NO_OPERATIONS, Found::Nothing)
    }

    /// Document 01's "turning out", of a line of either cache.
    pub fn evict(&mut self, line: u8) -> Answer {
        self.test()?;
        let (cache, line) = Line::by_number(line)?;
        self.hardware.evict(cache, line);
        self.accept(NO_OPERATIONS, Found::Nothing)
    }

    /// All of a processor access but the word: what it orders, and where the word lies.
    fn access(
        &mut self,
        access: Access,
        space: u8,
        page: u16,
        offset: u8,
    ) -> Result<(Operations, Frame, Colour, Offset), Refusal> {
        self.test()?;
        let (place, offset) = (Place::new(space, page)?, Offset::new(offset)?);
        let Mapping { frame, rights, .. } = self.list.items[self.mapped(space, page)?];
        match (access, rights) {
            (Access::Write, 1 | 3) => return Err(Refusal::ReadOnly),
            (Access::Fetch, 1 | 2) => return Err(Refusal::NoFetch),
            _ => {}
        }
        let (frame, colour) = (Frame::new(frame)?, place.colour());
        let operations = self.step(frame, |record| {
            record::access(record, access, frame, colour)
        })?;
        Ok((operations, frame, colour, offset))
    }

    /// What comes before a transfer.
    fn transfer(&mut self, transfer: Transfer, frame: Frame) -> Result<Operations, Refusal> {
        self.step(frame, |record| record::transfer(record, transfer, frame))
    }

    /// The word of memory that a transfer in this direction may move.
    fn word(&mut self, direction: Direction, frame: u8, offset: u8) -> Result<&mut u32, Refusal> {
        self.test()?;
        let (frame, offset) = (Frame::new(frame)?, Offset::new(offset)?);
        record::word(self.record(frame), direction)?;
        Ok(&mut self.hardware.page(frame)[offset.index()])
    }

    /// Refusals 1 and 2 of a call that is lent a device's buffer too, to be of this length.
    fn test_with(&self, buffer: &[u32], length: usize) -> Result<(), Refusal> {
        if buffer.len() != length {
            return Err(Refusal::Length);
        }
        self.test()
    }

    /// Refusals 1 and 2: tests all that the call is lent.
    fn test(&self) -> Result<(), Refusal> {
        if self.records.len() != RECORDS_WORDS
            || self.protections.len() != MAPPINGS
            || !self.hardware.has_lengths()
        {
            return Err(Refusal::Length);
        }
        let (records, _) = self.records.as_chunks();
        if self.list.keeps_rules()
            && every(records, record::keeps_rules)
            && self.hardware.keeps_rules()
        {
            Ok(())
        } else {
            Err(Refusal::Rules)
        }
    }

    fn mapped(&self, space: u8, page: u16) -> Result<usize, Refusal> {
        let found = self.list.find(space, page);
        found.map_err(|_| Refusal::Unmapped)
    }

    fn record(&mut self, frame: Frame) -> &mut Record {
        let (records, _) = self.records.as_chunks_mut();
        &mut records[frame.index()]
    }

    /// Steps the frame's record, if it takes the step, and has the cache do what is due.
    fn step(
        &mut self,
        frame: Frame,
        step: impl Fn(Record) -> Result<(Record, Operations), Refusal>,
    ) -> Result<Operations, Refusal> {
        let record = self.record(frame);
        let (next, operations) = step(*record)?;
        *record = next;
        for operation in operations.into_iter().flatten() {
            self.hardware.perform(operation);
        }
        Ok(operations)
    }

    /// Answers, with every protection brought up to the tables: 0 past the count.
    fn accept(&mut self, operations: Operations, found: Found) -> Answer {
        let (records, _) = self.records.as_chunks();
        let (listed, rest) = self.protections.split_at_mut(self.list.count);
        for (protection, mapping) in listed.iter_mut().zip(self.list.listed()) {
            *protection = record::protection(&records[usize::from(mapping.frame)], mapping);
        }
        rest.fill(0);
        Ok(Accepted { operations, found })
    }
}
