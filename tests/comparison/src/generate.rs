//! Random run sheets: of every size, with refusals of every sort, with many pages for few frames, with
//! transfers that take a while, with fetches of what was just changed, and some of them damaged.

use crate::damage::Damage;
use crate::random::Random;

pub const MAPPINGS: usize = 256;
pub const STEPS: usize = 4096;
const SPACES: usize = 16;
const PAGES: usize = 1024;
const FRAMES: usize = 64;
const OFFSETS: usize = 64;
/// The lines of one cache. Those of the instruction cache are evicted by the numbers after them.
const LINES: usize = 64;
const COLOURS: usize = 8;
const LINE_WORDS: usize = 8;

/// The kinds of step, by the numbers of documents 01 and 02.
pub const READ: u8 = 1;
pub const WRITE: u8 = 2;
pub const DEVICE_READ: u8 = 3;
pub const DEVICE_WRITE: u8 = 4;
pub const EVICT: u8 = 5;
pub const UNMAP: u8 = 6;
pub const DEVICE_WRITE_PART: u8 = 7;
pub const BEGIN_READ: u8 = 8;
pub const BEGIN_WRITE: u8 = 9;
pub const BRING: u8 = 10;
pub const TAKE: u8 = 11;
pub const END: u8 = 12;
pub const FETCH: u8 = 13;
const KINDS: usize = FETCH as usize;

/// The rights of a mapping.
const TO_READ: u8 = 1;
const TO_WRITE: u8 = 2;
const TO_FETCH: u8 = 3;

pub type Mapping = [u8; 5];
pub type Step = [u8; 9];

/// The records of a sheet.
#[derive(Default)]
pub struct Sheet {
    pub mappings: Vec<Mapping>,
    pub steps: Vec<Step>,
}

impl Sheet {
    pub fn encode(&self) -> Vec<u8> {
        let mut bytes = (self.mappings.len() as u16).to_le_bytes().to_vec();
        bytes.extend(self.mappings.concat());
        bytes.extend((self.steps.len() as u16).to_le_bytes());
        bytes.extend(self.steps.concat());
        bytes
    }
}

/// The bytes of one random sheet, and how it was damaged, if it was.
pub fn sheet(seed: u64, number: u64) -> (Vec<u8>, Option<Damage>) {
    let mut random = Random::new(seed, number);
    let plan = Plan::random(&mut random);
    let sheet = Maker::make(&mut random, plan);
    if random.chance(8) {
        let damage = Damage::random(&mut random);
        (damage.apply(&mut random, sheet), Some(damage))
    } else {
        (sheet.encode(), None)
    }
}

/// A sheet to measure with: this many mappings, and as many steps as a sheet may have, of kinds 1 to 5,
/// so that an older program takes it too. Nothing is refused.
pub fn accepted_sheet(seed: u64, mappings: usize) -> Vec<u8> {
    let mut random = Random::new(seed, mappings as u64);
    let plan = Plan {
        mappings,
        steps: STEPS,
        spaces: (0..SPACES).collect(),
        pages: (0..PAGES).collect(),
        frames: random.some(mappings.min(16), FRAMES),
        offsets: (0..OFFSETS).collect(),
        read_only: 0,
        fetched: 0,
        bad: 0,
        weights: [45, 35, 6, 6, 8, 0, 0, 0, 0, 0, 0, 0, 0],
    };
    Maker::make(&mut random, plan).encode()
}

/// What a sheet's numbers are drawn from.
struct Plan {
    mappings: usize,
    steps: usize,
    spaces: Vec<usize>,
    pages: Vec<usize>,
    frames: Vec<usize>,
    offsets: Vec<usize>,
    /// How many of 100 mappings may be read through alone, and how many be fetched through too.
    read_only: usize,
    fetched: usize,
    /// How many of 100 calls are to be refused.
    bad: usize,
    /// How often each kind of step comes, from kind 1.
    weights: [usize; KINDS],
}

impl Plan {
    fn random(random: &mut Random) -> Self {
        let (mappings, steps) = match random.below(1000) {
            0..300 => (random.below(4), random.below(11)),
            300..800 => (1 + random.below(16), 1 + random.below(64)),
            800..950 => (1 + random.below(64), 1 + random.below(300)),
            950..980 => (MAPPINGS, random.below(65)),
            980..990 => (1 + random.below(32), STEPS - random.pick(&[0, 1, 1000])),
            _ => (MAPPINGS, STEPS),
        };
        let crowded = mappings > 16;
        let spaces = if crowded {
            16
        } else {
            random.pick(&[1, 2, 16])
        };
        let pages = if crowded {
            64
        } else {
            random.pick(&[2, 9, 24])
        };
        let first_page = random.pick(&[0, 3, 512, PAGES - pages]);
        let frames = random.pick(&[1, 1, 2, 3, 8, FRAMES]);
        let offsets = random.pick(&[2, 8, OFFSETS]);
        Self {
            mappings,
            steps,
            spaces: random.some(spaces, SPACES),
            pages: (first_page..first_page + pages).collect(),
            frames: random.some(frames, FRAMES),
            offsets: random.some(offsets, OFFSETS),
            read_only: random.pick(&[0, 10, 20]),
            fetched: random.pick(&[10, 30, 50]),
            bad: random.pick(&[0, 0, 5, 30]),
            weights: random.pick(&[
                [40, 40, 6, 6, 7, 1, 6, 0, 0, 0, 0, 0, 20],
                [20, 20, 25, 15, 8, 2, 20, 3, 3, 10, 10, 12, 20],
                [30, 30, 4, 4, 30, 2, 8, 4, 4, 20, 20, 12, 25],
                [30, 30, 8, 8, 4, 20, 8, 3, 3, 8, 8, 10, 15],
                [10, 60, 5, 10, 10, 0, 10, 3, 5, 14, 14, 14, 40],
                [30, 35, 4, 4, 4, 1, 30, 2, 2, 6, 6, 8, 15],
                [30, 20, 2, 2, 8, 2, 3, 6, 6, 40, 40, 16, 15],
                [10, 30, 3, 12, 12, 1, 15, 3, 6, 14, 6, 14, 70],
            ]),
        }
    }
}

/// A page of a space.
#[derive(Clone, Copy, PartialEq, Eq)]
struct Place {
    space: u8,
    page: u16,
}

/// A mapping that the sheet's calls so far leave in the list.
#[derive(Clone, Copy)]
struct Mapped {
    place: Place,
    rights: u8,
}

impl Mapped {
    /// Whether a step of this kind may go through it.
    fn takes(self, kind: u8) -> bool {
        match kind {
            WRITE => self.rights == TO_WRITE,
            FETCH => self.rights == TO_FETCH,
            _ => true,
        }
    }
}

/// A transfer that the sheet's calls so far have begun and not ended.
#[derive(Clone, Copy)]
struct Begun {
    frame: u8,
    /// The kind of its words.
    word: u8,
}

struct Maker<'a> {
    random: &'a mut Random,
    plan: Plan,
    mapped: Vec<Mapped>,
    unmapped: Vec<Place>,
    begun: Vec<Begun>,
}

impl<'a> Maker<'a> {
    fn make(random: &'a mut Random, plan: Plan) -> Sheet {
        let (mappings, steps) = (plan.mappings, plan.steps);
        let mut maker = Maker {
            random,
            plan,
            mapped: Vec::new(),
            unmapped: Vec::new(),
            begun: Vec::new(),
        };
        Sheet {
            mappings: (0..mappings).map(|_| maker.mapping()).collect(),
            steps: (0..steps).map(|_| maker.step()).collect(),
        }
    }

    fn mapping(&mut self) -> Mapping {
        let [bad_place, bad_frame, bad_rights, twice] = self.faults();
        let mut place = match self.mapped.as_slice() {
            [] => self.place(),
            mapped if twice => self.random.pick(mapped).place,
            _ => self.fresh_place(),
        };
        let mut frame = self.random.pick(&self.plan.frames) as u8;
        let Plan {
            read_only, fetched, ..
        } = self.plan;
        let mut rights = match self.random.below(100) {
            at if at < read_only => TO_READ,
            at if at < read_only + fetched => TO_FETCH,
            _ => TO_WRITE,
        };
        if bad_place {
            place = self.beyond(place);
        }
        if bad_frame {
            frame = self.past_frame();
        }
        if bad_rights {
            rights = self.random.pick(&[0, 4, 5, 255]);
        }
        if !(bad_place || bad_frame || bad_rights || self.is_mapped(place)) {
            self.mapped.push(Mapped { place, rights });
        }
        let [low, high] = place.page.to_le_bytes();
        [place.space, low, high, frame, rights]
    }

    fn step(&mut self) -> Step {
        let mut kind = 1 + self.random.weighted(&self.plan.weights) as u8;
        if kind == UNMAP && self.long() && 2 * self.mapped.len() <= self.plan.mappings {
            kind = READ;
        }
        // Few words and ends come where nothing is begun.
        if matches!(kind, BRING | TAKE | END) && self.begun.is_empty() && !self.random.chance(10) {
            kind = self.random.pick(&[READ, WRITE]);
        }
        let word = self.word();
        match kind {
            READ | WRITE | FETCH => {
                let (place, offset) = self.word_place(kind);
                let word = if kind == WRITE { word } else { 0 };
                encode(kind, place.space, place.page, offset, word)
            }
            DEVICE_READ => encode(kind, self.frame(), 0, 0, 0),
            DEVICE_WRITE => encode(kind, self.frame(), 0, 0, word),
            DEVICE_WRITE_PART => {
                let (offset, count) = self.part();
                encode(kind, self.frame(), offset, count, word)
            }
            EVICT => encode(kind, self.line(), 0, 0, 0),
            BEGIN_READ | BEGIN_WRITE => encode(kind, self.beginning_frame(kind), 0, 0, 0),
            BRING | TAKE => {
                let (kind, frame, offset) = self.transfer_word(kind);
                let word = if kind == BRING { word } else { 0 };
                encode(kind, frame, 0, offset, word)
            }
            END => encode(kind, self.ending_frame(), 0, 0, 0),
            _ => {
                let place = self.leaving_place();
                encode(kind, place.space, place.page, 0, 0)
            }
        }
    }

    /// Whether unmaps would soon leave the sheet nothing to do: it keeps half its mappings.
    fn long(&self) -> bool {
        self.plan.steps > 4 * self.plan.mappings
    }

    /// The page and offset of a read, write or fetch: mapped, and mostly with the rights to it, unless it is to be
    /// refused.
    fn word_place(&mut self, kind: u8) -> (Place, u8) {
        let [bad_place, bad_offset, not_mapped, _] = self.faults();
        let mut place = match self.mapped.as_slice() {
            mapped @ [_, ..] if !not_mapped => {
                let mut found = self.random.pick(mapped);
                for _ in 0..4 {
                    if found.takes(kind) {
                        break;
                    }
                    found = self.random.pick(mapped);
                }
                found.place
            }
            _ => self.absent_place(),
        };
        if bad_place {
            place = self.beyond(place);
        }
        let offset = if bad_offset {
            self.random.pick(&[64, 65, 72, 128, 255])
        } else {
            self.random.pick(&self.plan.offsets) as u8
        };
        (place, offset)
    }

    /// The page of an unmap: mapped, unless it is to be refused.
    fn leaving_place(&mut self) -> Place {
        let [bad_place, not_mapped, ..] = self.faults();
        if not_mapped || self.mapped.is_empty() {
            let place = self.absent_place();
            return if bad_place { self.beyond(place) } else { place };
        }
        let leaving = self.random.below(self.mapped.len());
        if bad_place {
            return self.beyond(self.mapped[leaving].place);
        }
        let Mapped { place, .. } = self.mapped.remove(leaving);
        self.unmapped.push(place);
        place
    }

    fn frame(&mut self) -> u8 {
        let [bad, ..] = self.faults();
        match self.random.below(8) {
            _ if bad => self.past_frame(),
            0 => self.random.below(FRAMES) as u8,
            _ => self.random.pick(&self.plan.frames) as u8,
        }
    }

    fn past_frame(&mut self) -> u8 {
        self.random.pick(&[64, 65, 127, 128, 192, 255])
    }

    /// The first offset and the number of a part's words: in the page, unless it is to be refused.
    fn part(&mut self) -> (u16, u8) {
        let [none, past, beyond, _] = self.faults();
        let (mut first, mut count) = self.part_in_page();
        if none {
            count = 0;
        }
        if past {
            let one = OFFSETS - first + 1;
            count = self.random.pick(&[one, one, 128, 255]);
        }
        if beyond {
            // The page's end, a low byte that would do, and sums that two bytes do not hold.
            let sum = 65536 - count.max(1);
            let far = [64, 65, first + 256, first | 0x8000, sum, 65535];
            first = self.random.pick(&far);
        }
        (first as u16, count as u8)
    }

    /// All words, all but one, all from an offset on, a receiver's twelve, or any. Often the first is one
    /// that programs reach, or the next.
    fn part_in_page(&mut self) -> (usize, usize) {
        let reached = self.random.pick(&self.plan.offsets);
        let any = self.random.below(OFFSETS);
        let first = self.random.pick(&[reached, (reached + 1) % OFFSETS, any]);
        let left = OFFSETS - first;
        let some = (first, 1 + self.random.below(left));
        self.random.pick(&[
            (0, OFFSETS),
            (0, OFFSETS - 1),
            (1, OFFSETS - 1),
            (first, left),
            (first, left.min(12)),
            some,
            some,
            some,
        ])
    }

    /// The frame of a begin. Some are busy, and so the begin is refused.
    fn beginning_frame(&mut self, kind: u8) -> u8 {
        let frame = self.frame();
        let busy = self.begun.iter().any(|begun| begun.frame == frame);
        if usize::from(frame) < FRAMES && !busy {
            let word = if kind == BEGIN_READ { TAKE } else { BRING };
            self.begun.push(Begun { frame, word });
        }
        frame
    }

    /// The kind, frame and offset of a transfer's word: of one that is begun, in its direction but for a few, unless
    /// it is to be refused. Often the offset is one that programs reach, or the next.
    fn transfer_word(&mut self, kind: u8) -> (u8, u8, u8) {
        let [bad_frame, bad_offset, not_begun, other_way] = self.faults();
        let (frame, kind) = match self.begun.as_slice() {
            begun @ [_, ..] if !not_begun => {
                let Begun { frame, word } = self.random.pick(begun);
                let other = BRING + TAKE - word;
                let other_way = other_way || self.random.chance(4);
                (frame, if other_way { other } else { word })
            }
            _ => (self.frame(), kind),
        };
        let reached = self.random.pick(&self.plan.offsets);
        let any = self.random.below(OFFSETS);
        let offset = self
            .random
            .pick(&[reached, reached, (reached + 1) % OFFSETS, any]);
        let past = self.random.pick(&[64, 65, 72, 128, 255]);
        (
            kind,
            if bad_frame { self.past_frame() } else { frame },
            if bad_offset { past } else { offset as u8 },
        )
    }

    /// The frame of an end: of a transfer that is begun, unless it is to be refused.
    fn ending_frame(&mut self) -> u8 {
        let [bad_frame, not_begun, ..] = self.faults();
        let frame = match self.begun.as_slice() {
            _ if bad_frame => self.past_frame(),
            begun @ [_, ..] if !not_begun => self.random.pick(begun).frame,
            _ => self.frame(),
        };
        self.begun.retain(|begun| begun.frame != frame);
        frame
    }

    /// A line to evict: where something is fetched, one of the instruction cache as often as one of the other.
    fn line(&mut self) -> u8 {
        let [bad, ..] = self.faults();
        let line = match self.mapped.as_slice() {
            _ if bad => return self.random.pick(&[128, 129, 191, 192, 255]),
            mapped @ [_, ..] if self.random.chance(70) => {
                let colour = usize::from(self.random.pick(mapped).place.page) % COLOURS;
                let offset = self.random.pick(&self.plan.offsets);
                colour * LINES / COLOURS + offset / LINE_WORDS
            }
            _ => self.random.below(LINES),
        };
        let fetched = self.plan.fetched > 0 && self.random.chance(50);
        (if fetched { LINES + line } else { line }) as u8
    }

    fn word(&mut self) -> u32 {
        match self.random.below(4) {
            0 => self.random.below(100) as u32,
            1 => self
                .random
                .pick(&[0, 1, 255, 256, 1 << 31, u32::MAX - 63, u32::MAX]),
            _ => self.random.draw() as u32,
        }
    }

    /// Which of four faults a call has: some at least if it is to be refused, else none.
    fn faults(&mut self) -> [bool; 4] {
        let set = if self.random.chance(self.plan.bad) {
            1 + self.random.below(15)
        } else {
            0
        };
        [1, 2, 4, 8].map(|bit| set & bit != 0)
    }

    fn place(&mut self) -> Place {
        Place {
            space: self.random.pick(&self.plan.spaces) as u8,
            page: self.random.pick(&self.plan.pages) as u16,
        }
    }

    fn is_mapped(&self, place: Place) -> bool {
        self.mapped.iter().any(|mapped| mapped.place == place)
    }

    /// A page that is not mapped, if one is soon found.
    fn fresh_place(&mut self) -> Place {
        let mut place = self.place();
        for _ in 0..20 {
            if !self.is_mapped(place) {
                break;
            }
            place = self.place();
        }
        place
    }

    /// A page that was unmapped or, more or less surely, never mapped.
    fn absent_place(&mut self) -> Place {
        if self.unmapped.is_empty() || self.random.chance(30) {
            self.fresh_place()
        } else {
            self.random.pick(&self.unmapped)
        }
    }

    /// The place with its space, its page or both past their limits, often by the limit itself.
    fn beyond(&mut self, place: Place) -> Place {
        let Place { space, page } = place;
        let past_space = self.random.pick(&[16, 255, space + 16, space | 0x80]);
        let past_page = self.random.pick(&[1024, 65535, page + 1024, page | 0x8000]);
        let (space, page) = self.random.pick(&[
            (past_space, page),
            (space, past_page),
            (past_space, past_page),
        ]);
        Place { space, page }
    }
}

fn encode(kind: u8, s: u8, p: u16, o: u8, w: u32) -> Step {
    let [p0, p1] = p.to_le_bytes();
    let [w0, w1, w2, w3] = w.to_le_bytes();
    [kind, s, p0, p1, o, w0, w1, w2, w3]
}
