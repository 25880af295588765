//! The sizes of the board, and its numbers as types that hold only what is in range.

use crate::Refusal;
use std::ops::Range;

pub const FRAMES: usize = 64;
pub const PAGE_WORDS: usize = 64;
pub const SPACES: usize = 16;
pub const PAGES: usize = 1024;
pub const COLOURS: usize = 8;
pub const LINE_WORDS: usize = 8;
/// The lines of one cache.
pub const LINES: usize = 64;
const PAGE_LINES: usize = PAGE_WORDS / LINE_WORDS;

/// The words of one page.
pub type PageWords = [u32; PAGE_WORDS];

/// A physical page.
#[derive(Clone, Copy, Debug, PartialEq, Eq)]
pub struct Frame(u8);

impl Frame {
    pub fn new(frame: u8) -> Result<Self, Refusal> {
        below(FRAMES, frame, Refusal::Frame).map(Self)
    }

    pub fn all() -> impl Iterator<Item = Self> {
        (0..FRAMES as u8).map(Self)
    }

    pub fn index(self) -> usize {
        self.0.into()
    }
}

/// A page of an address space. Places go by space, then by page.
#[derive(Clone, Copy, Debug, PartialEq, Eq, PartialOrd, Ord)]
pub struct Place {
    space: u8,
    page: u16,
}

impl Place {
    pub fn new(space: u8, page: u16) -> Result<Self, Refusal> {
        let space = below(SPACES, space, Refusal::Place)?;
        let page = below(PAGES, page, Refusal::Place)?;
        Ok(Self { space, page })
    }

    pub fn colour(self) -> Colour {
        Colour((usize::from(self.page) % COLOURS) as u8)
    }
}

/// A cache page.
#[derive(Clone, Copy, Debug, PartialEq, Eq)]
pub struct Colour(u8);

impl Colour {
    pub fn all() -> impl Iterator<Item = Self> {
        (0..COLOURS as u8).map(Self)
    }

    pub fn index(self) -> usize {
        self.0.into()
    }

    /// The lines for words of pages of this colour.
    pub fn lines(self) -> impl Iterator<Item = Line> {
        let first = self.0 * PAGE_LINES as u8;
        (first..first + PAGE_LINES as u8).map(Line)
    }
}

/// The number of a word in its page.
#[derive(Clone, Copy, Debug, PartialEq, Eq)]
pub struct Offset(u8);

impl Offset {
    pub fn new(offset: u8) -> Result<Self, Refusal> {
        below(PAGE_WORDS, offset, Refusal::Offset).map(Self)
    }

    pub fn index(self) -> usize {
        self.0.into()
    }
}

/// Words of a page in a row, one at least.
#[derive(Clone, Copy, Debug, PartialEq, Eq)]
pub struct Part {
    offset: usize,
    count: usize,
}

impl Part {
    /// All words of the page.
    pub const WHOLE: Self = Self {
        offset: 0,
        count: PAGE_WORDS,
    };

    /// So many words from the offset on. The two are not added before they are tested.
    pub fn new(offset: usize, count: usize) -> Result<Self, Refusal> {
        let left = PAGE_WORDS.saturating_sub(offset);
        if (1..=left).contains(&count) {
            Ok(Self { offset, count })
        } else {
            Err(Refusal::Part)
        }
    }

    pub fn offsets(self) -> Range<usize> {
        self.offset..self.offset + self.count
    }
}

/// The board's two caches, of the same lines and colours (document 02, N8).
#[derive(Clone, Copy, Debug, PartialEq, Eq)]
pub enum Cache {
    Data,
    Instructions,
}

/// A line of either cache.
#[derive(Clone, Copy, Debug, PartialEq, Eq)]
pub struct Line(u8);

impl Line {
    /// The cache and the line that are evicted by this number: the data cache's come first.
    pub fn by_number(number: u8) -> Result<(Cache, Self), Refusal> {
        const FIRST: u8 = LINES as u8;
        match below(2 * LINES, number, Refusal::Offset)? {
            line @ ..FIRST => Ok((Cache::Data, Self(line))),
            line => Ok((Cache::Instructions, Self(line - FIRST))),
        }
    }

    /// The line of an offset in a page of this colour.
    pub fn of(colour: Colour, offset: Offset) -> Self {
        Self(colour.0 * PAGE_LINES as u8 + offset.0 / LINE_WORDS as u8)
    }

    /// Those of one cache.
    pub fn all() -> impl Iterator<Item = Self> {
        (0..LINES as u8).map(Self)
    }

    pub fn index(self) -> usize {
        self.0.into()
    }

    /// The offsets of a page's words that lie in this line.
    pub fn offsets(self) -> Range<usize> {
        let first = self.index() % PAGE_LINES * LINE_WORDS;
        first..first + LINE_WORDS
    }
}

/// The number itself if it is below the limit.
fn below<N: Copy + Into<usize>>(limit: usize, n: N, refusal: Refusal) -> Result<N, Refusal> {
    if n.into() < limit {
        Ok(n)
    } else {
        Err(refusal)
    }
}

#[cfg(test)]
mod tests {
    use super::*;

    #[test]
    fn lines_of_both_caches() {
        let rows = [
            (0, Cache::Data, 0),
            (63, Cache::Data, 63),
            (64, Cache::Instructions, 0),
            (65, Cache::Instructions, 1),
            (127, Cache::Instructions, 63),
        ];
        for (number, cache, line) in rows {
            assert_eq!(Line::by_number(number), Ok((cache, Line(line))));
        }
        for number in [128, 129, 192, 255] {
            assert_eq!(Line::by_number(number), Err(Refusal::Offset));
        }
    }

    #[test]
    fn parts_in_the_page() {
        let rows = [
            (0, 1, 0..1),
            (0, 12, 0..12),
            (0, 63, 0..63),
            (0, 64, 0..64),
            (1, 63, 1..64),
            (52, 12, 52..64),
            (63, 1, 63..64),
        ];
        for (offset, count, offsets) in rows {
            assert_eq!(Part::new(offset, count).map(Part::offsets), Ok(offsets));
        }
        assert_eq!(Part::new(0, 64), Ok(Part::WHOLE));
    }

    #[test]
    fn no_words_and_words_past_the_page() {
        const MAX: usize = usize::MAX;
        let rows = [
            // No words.
            (0, 0),
            (63, 0),
            (64, 0),
            (MAX, 0),
            // One word past the last offset, and more.
            (0, 65),
            (1, 64),
            (53, 12),
            (63, 2),
            (64, 1),
            (64, 64),
            // The largest numbers. Some of these sums, cut to a usize, would be 0, 1, 63 and 64.
            (MAX, 1),
            (MAX, 2),
            (MAX, 64),
            (MAX, 65),
            (MAX, MAX),
            (0, MAX),
            (1, MAX),
            (2, MAX),
            (63, MAX),
            (64, MAX),
            (MAX - 62, 63),
            (MAX - 63, 64),
        ];
        for (offset, count) in rows {
            assert_eq!(Part::new(offset, count), Err(Refusal::Part));
        }
    }
}
