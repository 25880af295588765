//! The board's memory and its two caches as they are lent: memory frame after frame; the words of the
//! data cache line after line, and behind them those of the instruction cache; and a tag byte for each
//! line, in the same order.

use crate::every;
use peer::board::{Cache, Colour, Frame, Line, Offset, FRAMES, LINES, LINE_WORDS, PAGE_WORDS};
use peer::call::Operation;
use std::ops::Range;

/// The words of memory, and the tags and words of both caches.
pub const MEMORY_WORDS: usize = FRAMES * PAGE_WORDS;
pub const TAGS: usize = 2 * LINES;
pub const CACHE_WORDS: usize = TAGS * LINE_WORDS;

/// The tag of an empty line, and those of the first and the last frame, clean and dirty.
const EMPTY: u8 = 0;
const CLEAN: u8 = 1;
const LAST_CLEAN: u8 = CLEAN + FRAMES as u8 - 1;
const DIRTY: u8 = 129;
const LAST_DIRTY: u8 = DIRTY + FRAMES as u8 - 1;

pub struct Hardware<'a> {
    pub memory: &'a mut [u32],
    pub words: &'a mut [u32],
    pub tags: &'a mut [u8],
}

impl Hardware<'_> {
    pub fn has_lengths(&self) -> bool {
        self.memory.len() == MEMORY_WORDS
            && self.words.len() == CACHE_WORDS
            && self.tags.len() == TAGS
    }

    /// Tests every tag. One of an instruction line is never dirty.
    pub fn keeps_rules(&self) -> bool {
        let (data, instructions) = self.tags.split_at(LINES);
        every(data, tag_keeps_rules) & every(instructions, |&tag| tag <= LAST_CLEAN)
    }

    /// The processor reads a word of the frame through a page of this colour.
    pub fn load(&mut self, frame: Frame, colour: Colour, offset: Offset) -> u32 {
        *self.cached(Cache::Data, frame, colour, offset)
    }

    /// The processor fetches an instruction of the frame through a page of this colour.
    pub fn fetch(&mut self, frame: Frame, colour: Colour, offset: Offset) -> u32 {
        *self.cached(Cache::Instructions, frame, colour, offset)
    }

    /// The processor writes a word of the frame through a page of this colour.
    pub fn store(&mut self, frame: Frame, colour: Colour, offset: Offset, word: u32) {
        *self.cached(Cache::Data, frame, colour, offset) = word;
        let line = Line::of(colour, offset);
        self.tags[number(Cache::Data, line)] = DIRTY + frame.index() as u8;
    }

    /// What is ordered of the frame's lines in a colour: a flush writes the dirty ones back and leaves all
    /// in, clean; a purge empties those of its cache and writes nothing.
    pub fn perform(&mut self, operation: Operation) {
        let (cache, frame, colour) = match operation {
            Operation::Flush(frame, colour) | Operation::Purge(frame, colour) => {
                (Cache::Data, frame, colour)
            }
            Operation::PurgeInstructions(frame, colour) => (Cache::Instructions, frame, colour),
        };
        for line in colour.lines() {
            if self.names(cache, line, frame) {
                match operation {
                    Operation::Flush(..) => self.write_back(cache, line),
                    Operation::Purge(..) | Operation::PurgeInstructions(..) => {
                        self.tags[number(cache, line)] = EMPTY;
                    }
                }
            }
        }
    }

    /// Writes a line back if it is dirty, and empties it (document 01's "turning out").
    pub fn evict(&mut self, cache: Cache, line: Line) {
        self.write_back(cache, line);
        self.tags[number(cache, line)] = EMPTY;
    }

    /// Memory past the cache: the device's view.
    pub fn page(&mut self, frame: Frame) -> &mut [u32] {
        &mut self.memory[page_of(frame.index())]
    }

    /// A word of the frame in a cache's line of this colour, which is filled from memory if it did not
    /// hold the frame.
    fn cached(&mut self, cache: Cache, frame: Frame, colour: Colour, offset: Offset) -> &mut u32 {
        let line = Line::of(colour, offset);
        let number = number(cache, line);
        if !self.names(cache, line, frame) {
            self.evict(cache, line);
            let page = &self.memory[page_of(frame.index())];
            self.words[words_of(number)].copy_from_slice(&page[line.offsets()]);
            self.tags[number] = CLEAN + frame.index() as u8;
        }
        &mut self.words[words_of(number)][offset.index() % LINE_WORDS]
    }

    /// Writes a line back if it is dirty, and leaves it clean.
    fn write_back(&mut self, cache: Cache, line: Line) {
        let number = number(cache, line);
        if let Some(frame) = self.tags[number].checked_sub(DIRTY) {
            let page = &mut self.memory[page_of(frame.into())];
            page[line.offsets()].copy_from_slice(&self.words[words_of(number)]);
            self.tags[number] = CLEAN + frame;
        }
    }

    fn names(&self, cache: Cache, line: Line, frame: Frame) -> bool {
        let (tag, frame) = (self.tags[number(cache, line)], frame.index() as u8);
        tag == CLEAN + frame || tag == DIRTY + frame
    }
}

fn tag_keeps_rules(&tag: &u8) -> bool {
    matches!(tag, EMPTY | CLEAN..=LAST_CLEAN | DIRTY..=LAST_DIRTY)
}

/// Where a frame's words lie in memory.
fn page_of(frame: usize) -> Range<usize> {
    frame * PAGE_WORDS..(frame + 1) * PAGE_WORDS
}

/// Where a line's tag lies among those of both caches: a data line at 8 times its colour and its place
/// there, an instruction line 64 behind.
fn number(cache: Cache, line: Line) -> usize {
    match cache {
        Cache::Data => line.index(),
        Cache::Instructions => LINES + line.index(),
    }
}

/// Where the words of the line with this number lie among those of both caches.
fn words_of(number: usize) -> Range<usize> {
    number * LINE_WORDS..(number + 1) * LINE_WORDS
}
