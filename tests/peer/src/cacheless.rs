//! The cacheless memory: what every accepted read must find. It is fed the accepted calls alone and
//! shares nothing with the machine.

use crate::board::{PageWords, FRAMES, PAGES, PAGE_WORDS, SPACES};
use crate::call::{sent, Call, Found, Mapping};

#[derive(Clone, Debug, PartialEq, Eq)]
pub struct Cacheless {
    words: [PageWords; FRAMES],
    frames: Vec<[Option<u8>; PAGES]>,
}

/// Memory all 0 and nothing mapped.
impl Default for Cacheless {
    fn default() -> Self {
        Self {
            words: [[0; PAGE_WORDS]; FRAMES],
            frames: vec![[None; PAGES]; SPACES],
        }
    }
}

impl Cacheless {
    /// Follows an accepted call and says what it finds. A call through a page with no frame, which
    /// no right machine accepts, finds and changes nothing.
    pub fn follow(&mut self, call: Call) -> Found {
        match call {
            Call::Map(Mapping {
                space, page, frame, ..
            }) => *self.frame(space, page) = Some(frame),
            Call::Unmap { space, page } => *self.frame(space, page) = None,
            Call::Read {
                space,
                page,
                offset,
            }
            | Call::Fetch {
                space,
                page,
                offset,
            } => {
                if let Some(frame) = *self.frame(space, page) {
                    return Found::Word(self.words[usize::from(frame)][usize::from(offset)]);
                }
            }
            Call::Write {
                space,
                page,
                offset,
                word,
            } => {
                if let Some(frame) = *self.frame(space, page) {
                    self.words[usize::from(frame)][usize::from(offset)] = word;
                }
            }
            Call::DeviceRead { frame } => {
                return Found::Page(Box::new(self.words[usize::from(frame)]))
            }
            Call::DeviceWrite { frame, first } => self.send(frame, 0, PAGE_WORDS, first),
            Call::DeviceWritePart {
                frame,
                offset,
                count,
                first,
            } => self.send(frame, offset, count, first),
            Call::BringWord {
                frame,
                offset,
                word,
            } => self.words[usize::from(frame)][usize::from(offset)] = word,
            Call::TakeWord { frame, offset } => {
                return Found::Word(self.words[usize::from(frame)][usize::from(offset)])
            }
            Call::BeginRead { .. }
            | Call::BeginWrite { .. }
            | Call::EndTransfer { .. }
            | Call::Evict { .. } => {}
        }
        Found::Nothing
    }

    pub fn words(&self) -> &[PageWords; FRAMES] {
        &self.words
    }

    /// Changes the words sent and no other.
    fn send(&mut self, frame: u8, offset: usize, count: usize, first: u32) {
        let words = &mut self.words[usize::from(frame)][offset..offset + count];
        words.copy_from_slice(&sent(first, count));
    }

    fn frame(&mut self, space: u8, page: u16) -> &mut Option<u8> {
        &mut self.frames[usize::from(space)][usize::from(page)]
    }
}
