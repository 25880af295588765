//! The caller's side: the buffers that it owns and lends to each call.

use crate::hardware::{Hardware, CACHE_WORDS, MEMORY_WORDS, TAGS};
use crate::list::{MappingList, Order, MAPPINGS};
use crate::machine::Lent;
use crate::record;
use peer::board::{FRAMES, PAGE_WORDS};
use peer::call::{sent, Accepted, Answer, Call, Found};
use peer::record::Direction;

/// Vectors, so that a test can lend one of another length.
#[derive(Clone, Debug, PartialEq, Eq)]
pub struct Buffers<O> {
    pub list: MappingList<O>,
    pub records: Vec<u32>,
    pub protections: Vec<u8>,
    pub memory: Vec<u32>,
    pub words: Vec<u32>,
    pub tags: Vec<u8>,
}

/// Nothing mapped, nothing in the caches, and memory all 0.
impl<O> Default for Buffers<O> {
    fn default() -> Self {
        Self {
            list: MappingList::default(),
            records: record::START.repeat(FRAMES),
            protections: vec![0; MAPPINGS],
            memory: vec![0; MEMORY_WORDS],
            words: vec![0; CACHE_WORDS],
            tags: vec![0; TAGS],
        }
    }
}

impl<O: Order> Buffers<O> {
    /// Makes a call with everything lent to it. A device read finds the first word that it took.
    pub fn call(&mut self, call: Call) -> Answer {
        let mut lent = self.lend();
        match call {
            Call::Map(mapping) => lent.map(mapping),
            Call::Unmap { space, page } => lent.unmap(space, page),
            Call::Read {
                space,
                page,
                offset,
            } => lent.read(space, page, offset),
            Call::Fetch {
                space,
                page,
                offset,
            } => lent.fetch(space, page, offset),
            Call::Write {
                space,
                page,
                offset,
                word,
            } => lent.write(space, page, offset, word),
            Call::DeviceRead { frame } => {
                let mut taken = [0; PAGE_WORDS];
                let accepted = lent.device_read(frame, &mut taken)?;
                Ok(Accepted {
                    found: Found::Word(taken[0]),
                    ..accepted
                })
            }
            Call::DeviceWrite { frame, first } => {
                lent.device_write(frame, &sent(first, PAGE_WORDS))
            }
            Call::DeviceWritePart {
                frame,
                offset,
                count,
                first,
            } => lent.device_write_part(frame, offset, count, &sent(first, count)),
            Call::BeginRead { frame } => lent.begin(Direction::Read, frame),
            Call::BeginWrite { frame } => lent.begin(Direction::Write, frame),
            Call::BringWord {
                frame,
                offset,
                word,
            } => lent.bring_word(frame, offset, word),
            Call::TakeWord { frame, offset } => lent.take_word(frame, offset),
            Call::EndTransfer { frame } => lent.end_transfer(frame),
            Call::Evict { line } => lent.evict(line),
        }
    }

    pub fn lend(&mut self) -> Lent<'_, O> {
        Lent {
            list: &mut self.list,
            records: &mut self.records,
            protections: &mut self.protections,
            hardware: Hardware {
                memory: &mut self.memory,
                words: &mut self.words,
                tags: &mut self.tags,
            },
        }
    }
}
