//! The board's memory and its direct-mapped, virtually indexed, physically tagged caches: one for data, which
//! writes back, and one for instructions, which has nothing to write.

use crate::board::{
    Cache, Colour, Frame, Line, Offset, PageWords, FRAMES, LINES, LINE_WORDS, PAGE_WORDS,
};
use crate::call::Operation;
use crate::Refusal;

/// What a line of the data cache holds. A dirty line has been written by the processor and not written back since.
#[derive(Clone, Copy, Debug, PartialEq, Eq)]
pub enum Tag {
    Empty,
    Clean(Frame),
    Dirty(Frame),
}

impl Tag {
    fn frame(self) -> Option<Frame> {
        match self {
            Self::Empty => None,
            Self::Clean(frame) | Self::Dirty(frame) => Some(frame),
        }
    }
}

/// The tag that a byte stands for, if it keeps the rules.
impl TryFrom<u8> for Tag {
    type Error = Refusal;

    fn try_from(byte: u8) -> Result<Self, Refusal> {
        let frame = |first: u8| Frame::new(byte - first).map_err(|_| Refusal::Rules);
        match byte {
            0 => Ok(Self::Empty),
            1..=128 => frame(1).map(Self::Clean),
            129.. => frame(129).map(Self::Dirty),
        }
    }
}

/// What a line of the instruction cache holds.
#[derive(Clone, Copy, Debug, PartialEq, Eq)]
pub enum InstructionTag {
    Empty,
    Clean(Frame),
}

/// The tag that a byte stands for, if it keeps the rules.
impl TryFrom<u8> for InstructionTag {
    type Error = Refusal;

    fn try_from(byte: u8) -> Result<Self, Refusal> {
        match Tag::try_from(byte)? {
            Tag::Empty => Ok(Self::Empty),
            Tag::Clean(frame) => Ok(Self::Clean(frame)),
            Tag::Dirty(_) => Err(Refusal::Rules),
        }
    }
}

#[derive(Clone, Copy, Debug, PartialEq, Eq)]
struct Slot<T> {
    tag: T,
    words: [u32; LINE_WORDS],
}

impl<T> Slot<T> {
    fn empty(tag: T) -> Self {
        Self {
            tag,
            words: [0; LINE_WORDS],
        }
    }
}

/// How many lines of each cache were filled from memory, one at each miss. Nothing that the board does goes by them.
#[derive(Clone, Copy, Debug, Default, PartialEq, Eq)]
pub struct Fills {
    pub data: usize,
    pub instructions: usize,
}

#[derive(Clone, Debug, PartialEq, Eq)]
pub struct Hardware {
    memory: [PageWords; FRAMES],
    data: [Slot<Tag>; LINES],
    instructions: [Slot<InstructionTag>; LINES],
    fills: Fills,
}

/// Memory all 0 and every line empty.
impl Default for Hardware {
    fn default() -> Self {
        Self {
            memory: [[0; PAGE_WORDS]; FRAMES],
            data: [Slot::empty(Tag::Empty); LINES],
            instructions: [Slot::empty(InstructionTag::Empty); LINES],
            fills: Fills::default(),
        }
    }
}

impl Hardware {
    /// The processor reads a word of the frame through a page of this colour.
    pub fn load(&mut self, frame: Frame, colour: Colour, offset: Offset) -> u32 {
        self.slot(frame, colour, offset).words[offset.index() % LINE_WORDS]
    }

    /// The processor writes a word of the frame through a page of this colour.
    pub fn store(&mut self, frame: Frame, colour: Colour, offset: Offset, word: u32) {
        let slot = self.slot(frame, colour, offset);
        slot.words[offset.index() % LINE_WORDS] = word;
        slot.tag = Tag::Dirty(frame);
    }

    /// The processor fetches an instruction of the frame through a page of this colour.
    pub fn fetch(&mut self, frame: Frame, colour: Colour, offset: Offset) -> u32 {
        let line = Line::of(colour, offset);
        let slot = &mut self.instructions[line.index()];
        if slot.tag != InstructionTag::Clean(frame) {
            let words = &self.memory[frame.index()][line.offsets()];
            slot.words.copy_from_slice(words);
            slot.tag = InstructionTag::Clean(frame);
            self.fills.instructions += 1;
        }
        slot.words[offset.index() % LINE_WORDS]
    }

    /// What is ordered of the frame's lines in a colour: a flush writes the dirty ones back and leaves all in, clean
    /// (document 02, N9); a purge empties those of its cache and writes nothing.
    pub fn perform(&mut self, operation: Operation) {
        let (Operation::Flush(frame, colour)
        | Operation::Purge(frame, colour)
        | Operation::PurgeInstructions(frame, colour)) = operation;
        for line in colour.lines() {
            let data = self.tag(line).frame() == Some(frame);
            let instructions = self.instruction_tag(line) == InstructionTag::Clean(frame);
            match operation {
                Operation::Flush(..) if data => self.write_back(line),
                Operation::Purge(..) if data => self.data[line.index()].tag = Tag::Empty,
                Operation::PurgeInstructions(..) if instructions => {
                    self.evict(Cache::Instructions, line);
                }
                _ => {}
            }
        }
    }

    /// Writes a line back if it is dirty, and empties it (document 01's "turning out").
    pub fn evict(&mut self, cache: Cache, line: Line) {
        match cache {
            Cache::Data => {
                self.write_back(line);
                self.data[line.index()].tag = Tag::Empty;
            }
            Cache::Instructions => self.instructions[line.index()].tag = InstructionTag::Empty,
        }
    }

    /// Memory past the cache: the device's view.
    pub fn page(&self, frame: Frame) -> &PageWords {
        &self.memory[frame.index()]
    }

    pub fn page_mut(&mut self, frame: Frame) -> &mut PageWords {
        &mut self.memory[frame.index()]
    }

    pub fn tag(&self, line: Line) -> Tag {
        self.data[line.index()].tag
    }

    pub fn instruction_tag(&self, line: Line) -> InstructionTag {
        self.instructions[line.index()].tag
    }

    pub fn fills(&self) -> Fills {
        self.fills
    }

    /// Writes a line of the data cache back if it is dirty, and leaves it clean.
    fn write_back(&mut self, line: Line) {
        let Slot { tag, words } = &mut self.data[line.index()];
        if let Tag::Dirty(frame) = *tag {
            self.memory[frame.index()][line.offsets()].copy_from_slice(words);
            *tag = Tag::Clean(frame);
        }
    }

    /// The data cache's line of a word, filled from memory if it did not hold the frame.
    fn slot(&mut self, frame: Frame, colour: Colour, offset: Offset) -> &mut Slot<Tag> {
        let line = Line::of(colour, offset);
        if self.tag(line).frame() != Some(frame) {
            self.evict(Cache::Data, line);
            let words = &self.memory[frame.index()][line.offsets()];
            let slot = &mut self.data[line.index()];
            slot.words.copy_from_slice(words);
            slot.tag = Tag::Clean(frame);
            self.fills.data += 1;
        }
        &mut self.data[line.index()]
    }
}
