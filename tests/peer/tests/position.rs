//! Document 02, request N5: the position hold; N6: it while transfers that take a while run; and N8: it beside
//! fetches.

use peer::board::{Frame, Part, FRAMES, PAGE_WORDS};
use peer::call::{number, Call, Found, Mapping};
use peer::machine::Machine;
use peer::position::{look, Shown};
use peer::Refusal;
use std::collections::{BTreeMap, BTreeSet};
use std::fs;
use std::path::Path;

/// Number, second, latitude and longitude.
type Fix = [u32; 4];

/// 10 degrees south, 20 degrees west, at second 1000.
const FIX: Fix = [5, 1000, -100_000_000_i32 as u32, -200_000_000_i32 as u32];

const MAX: u32 = u32::MAX;

/// The first word that is negative in two's complement.
const TURN: u32 = 1 << 31;

/// The two pages of `mapped`.
const PLACES: [(u8, u16); 2] = [(0, 0), (1, 9)];

fn read(space: u8, page: u16, offset: u8) -> Call {
    Call::Read {
        space,
        page,
        offset,
    }
}

fn fetch(space: u8, page: u16, offset: u8) -> Call {
    Call::Fetch {
        space,
        page,
        offset,
    }
}

fn write(offset: u8, word: u32) -> Call {
    Call::Write {
        space: 0,
        page: 0,
        offset,
        word,
    }
}

fn accept(machine: &mut Machine, calls: &[Call]) {
    for &call in calls {
        machine.call(call).unwrap();
    }
}

/// Frame 3 at page 0 of space 0 for reading and writing and at page 9 of space 1 for reading.
fn mapped() -> Machine {
    let mut machine = Machine::default();
    for ((space, page), rights) in PLACES.into_iter().zip([2, 1]) {
        let mapping = Mapping {
            space,
            page,
            frame: 3,
            rights,
        };
        accept(&mut machine, &[Call::Map(mapping)]);
    }
    machine
}

/// The receiver sends its twelve words to frame 3: a fix, then eight words of 7.
fn receive(machine: &mut Machine, [number, second, latitude, longitude]: Fix) {
    let words = [number, second, latitude, longitude, 7, 7, 7, 7, 7, 7, 7, 7];
    let part = Part::new(0, 12).unwrap();
    let answer = machine.device_write(Frame::new(3).unwrap(), part, &words);
    assert!(answer.is_ok());
}

fn received(fix: Fix) -> Machine {
    let mut machine = mapped();
    receive(&mut machine, fix);
    machine
}

/// Reads the four words in order, if the reads are accepted.
fn read_four(machine: &mut Machine, space: u8, page: u16) -> Result<Fix, Refusal> {
    let mut words = Fix::default();
    for (offset, word) in (0..).zip(&mut words) {
        let Found::Word(found) = machine.call(read(space, page, offset))?.found else {
            panic!("a read finds a word");
        };
        *word = found;
    }
    Ok(words)
}

fn position([_, _, latitude, longitude]: Fix) -> Shown {
    Shown::Position {
        latitude,
        longitude,
    }
}

/// What an accepted look shows. It must leave record, tags and cache as four reads do, of which on this board
/// the first leaves all: the four words share a line.
fn shown(machine: &mut Machine, (space, page): (u8, u16), clock: u32, hold: u32) -> Shown {
    let mut after_reads = machine.clone();
    read_four(&mut after_reads, space, page).unwrap();
    let shown = look(machine, space, page, clock, hold).unwrap();
    assert!(*machine == after_reads, "a look leaves what four reads do");
    shown
}

/// The number of a refused look, which must change nothing.
fn refusal(machine: &mut Machine, space: u8, page: u16, hold: u32) -> u8 {
    let before = machine.clone();
    let refusal = look(machine, space, page, 1000, hold).unwrap_err();
    assert!(*machine == before, "a refused look changes nothing");
    refusal.number()
}

/// Holds a look at the fix through each page to whether it is blank.
fn check(fix: Fix, clock: u32, hold: u32, blank: bool) {
    let right = if blank { Shown::Blank } else { position(fix) };
    for place in PLACES {
        let found = shown(&mut received(fix), place, clock, hold);
        assert_eq!(found, right, "{fix:?} at {clock}, hold {hold}");
    }
}

#[test]
fn the_number_of_the_fix() {
    let [_, second, latitude, longitude] = FIX;
    for number in [0, 1, 2, 1 << 8, 1 << 16, TURN, MAX] {
        check([number, second, latitude, longitude], 1000, 2, number == 0);
    }
}

#[test]
fn the_clock_before_the_fix() {
    let [number, _, latitude, longitude] = FIX;
    for second in [1, 2, 1000, TURN - 1, TURN, TURN + 1, MAX - 1, MAX] {
        let fix = [number, second, latitude, longitude];
        for hold in [2, 30] {
            check(fix, second - 1, hold, true);
            check(fix, second, hold, false);
            check(fix, 0, hold, true);
        }
    }
    check([number, 0, latitude, longitude], 0, 2, false);
}

#[test]
fn the_hold_reached_and_passed() {
    let [number, _, latitude, longitude] = FIX;
    // With the last of these the clock that is one over hold 30 is the largest.
    for second in [0, 1, 1000, TURN - 30, TURN - 2, TURN, MAX - 31] {
        let fix = [number, second, latitude, longitude];
        for hold in 2..=30 {
            check(fix, second + 1, hold, false);
            check(fix, second + hold, hold, false);
            check(fix, second + hold + 1, hold, true);
            check(fix, MAX, hold, MAX - second > hold);
        }
    }
    // Fix second and hold have no sum in 32 bits.
    for second in [MAX - 2, MAX - 1, MAX] {
        check([number, second, latitude, longitude], MAX, 30, false);
    }
}

#[test]
fn latitudes() {
    let [number, second, _, longitude] = FIX;
    let rows = [
        (0, false),
        (1, false),
        (-1, false),
        (899_999_999, false),
        (900_000_000, false),
        (900_000_001, true),
        (-899_999_999, false),
        (-900_000_000, false),
        (-900_000_001, true),
        (1_800_000_000, true),
        (-1_800_000_000, true),
        (i32::MAX - 1, true),
        (i32::MAX, true),
        (i32::MIN, true),
        (i32::MIN + 1, true),
    ];
    for (latitude, blank) in rows {
        check([number, second, latitude as u32, longitude], 1000, 2, blank);
    }
}

#[test]
fn longitudes() {
    let [number, second, latitude, _] = FIX;
    let rows = [
        (0, false),
        (1, false),
        (-1, false),
        (900_000_001, false),
        (-900_000_001, false),
        (1_799_999_999, false),
        (1_800_000_000, false),
        (1_800_000_001, true),
        (-1_799_999_999, false),
        (-1_800_000_000, false),
        (-1_800_000_001, true),
        (i32::MAX - 1, true),
        (i32::MAX, true),
        (i32::MIN, true),
        (i32::MIN + 1, true),
    ];
    for (longitude, blank) in rows {
        check([number, second, latitude, longitude as u32], 1000, 2, blank);
    }
}

/// Every limit reached in one fix, and all passed in another.
#[test]
fn all_limits_at_once() {
    for latitude in [900_000_000, -900_000_000_i32] {
        for longitude in [1_800_000_000, -1_800_000_000_i32] {
            let fix = [1, 970, latitude as u32, longitude as u32];
            check(fix, 1000, 30, false);
        }
    }
    check([0, 1001, 900_000_001, 1_800_000_001], 1000, 30, true);
    check([0, 969, 900_000_001, 1_800_000_001], 1000, 30, true);
}

#[test]
fn holds_out_of_range() {
    assert_eq!(Refusal::Hold.number(), 14);
    // Some of these, cut to fewer bits, would do.
    let holds = [0, 1, 31, 32, (1 << 8) + 2, (1 << 16) + 2, TURN + 2, MAX];
    // Fixes that would be shown, and that would be blank.
    for fix in [FIX, [0; 4]] {
        let mut machine = received(fix);
        for hold in holds {
            assert_eq!(refusal(&mut machine, 0, 0, hold), 14, "hold {hold}");
            assert_eq!(refusal(&mut machine, 1, 9, hold), 14, "hold {hold}");
            // What the reads would refuse by 3 and by 8.
            assert_eq!(refusal(&mut machine, 16, 1024, hold), 14, "hold {hold}");
            assert_eq!(refusal(&mut machine, 0, 1, hold), 14, "hold {hold}");
        }
    }
}

#[test]
fn refusals_of_the_reads() {
    let rows = [
        (16, 0, 3),
        (255, 0, 3),
        (0, 1024, 3),
        (1, 1024 + 9, 3),
        (0, u16::MAX, 3),
        (16, 1024, 3),
        // In range and not mapped: other spaces, other pages.
        (0, 9, 8),
        (1, 0, 8),
        (15, 1023, 8),
    ];
    let mut machine = received(FIX);
    for (space, page, number) in rows {
        for hold in [2, 30] {
            let refusal = refusal(&mut machine, space, page, hold);
            assert_eq!(refusal, number, "space {space}, page {page}");
        }
    }
    // Mapped till now, and looked at.
    assert_eq!(shown(&mut machine, (1, 9), 1000, 2), position(FIX));
    accept(&mut machine, &[Call::Unmap { space: 1, page: 9 }]);
    assert_eq!(refusal(&mut machine, 1, 9, 2), 8);
    assert_eq!(shown(&mut machine, (0, 0), 1000, 2), position(FIX));
}

/// Nothing was sent: all words are 0.
#[test]
fn no_fix_yet() {
    for place in PLACES {
        assert_eq!(shown(&mut mapped(), place, 0, 30), Shown::Blank);
    }
}

/// A fix that the receiver brings word by word. No look is taken before the last has come; the next one is, and
/// finds them.
#[test]
fn a_fix_that_takes_a_while() {
    for place @ (space, page) in PLACES {
        let mut machine = received([1, 999, 0, 0]);
        shown(&mut machine, place, 1000, 2);
        accept(&mut machine, &[Call::BeginWrite { frame: 3 }]);
        for (offset, word) in (0..).zip(FIX) {
            assert_eq!(refusal(&mut machine, space, page, 2), 15);
            // Before the reads, and so before what they refuse.
            assert_eq!(refusal(&mut machine, space, page, 1), 14);
            let bring = Call::BringWord {
                frame: 3,
                offset,
                word,
            };
            accept(&mut machine, &[bring]);
        }
        assert_eq!(refusal(&mut machine, space, page, 2), 15);
        assert_eq!(refusal(&mut machine, 15, 1023, 2), 8);
        accept(&mut machine, &[Call::EndTransfer { frame: 3 }]);
        assert_eq!(shown(&mut machine, place, 1000, 2), position(FIX));
    }
}

/// The device takes the fix, and a look finds it meanwhile.
#[test]
fn a_look_while_the_device_reads() {
    for place in PLACES {
        let mut machine = received(FIX);
        accept(&mut machine, &[write(1, 998)]);
        accept(&mut machine, &[Call::BeginRead { frame: 3 }]);
        let [number, _, latitude, longitude] = FIX;
        let fix = [number, 998, latitude, longitude];
        assert_eq!(shown(&mut machine, place, 1000, 2), position(fix));
        assert_eq!(shown(&mut machine, place, 1001, 2), Shown::Blank);
    }
}

/// A look after calls that leave words of the page, or of another, in the cache. It is right, and leaves
/// what four reads do, whether it is blank or not.
#[test]
fn words_in_the_cache() {
    let other = Call::Map(Mapping {
        space: 0,
        page: 8,
        frame: 4,
        rights: 2,
    });
    let write_other = Call::Write {
        space: 0,
        page: 8,
        offset: 0,
        word: 70,
    };
    let befores: [&[Call]; 7] = [
        &[],
        &[read(0, 0, 0)],
        &[read(0, 0, 0), read(1, 9, 0)],
        &[write(0, 70)],
        &[read(1, 9, 3), write(3, 70)],
        &[write(3, 70), Call::Evict { line: 0 }],
        &[other, write_other],
    ];
    let [number, second, latitude, longitude] = FIX;
    let blanks = [
        [0, second, latitude, longitude],
        [number, 1001, latitude, longitude],
        [number, 997, latitude, longitude],
        [number, second, TURN, longitude],
        [number, second, latitude, TURN],
    ];
    for before in befores {
        for place in PLACES {
            let mut machine = mapped();
            accept(&mut machine, before);
            receive(&mut machine, FIX);
            assert_eq!(shown(&mut machine, place, 1000, 2), position(FIX));
            for fix in blanks {
                let mut blank = mapped();
                accept(&mut blank, before);
                receive(&mut blank, fix);
                assert_eq!(shown(&mut blank, place, 1000, 2), Shown::Blank);
                // A later fix, which the last look's words do not hide.
                receive(&mut blank, FIX);
                assert_eq!(shown(&mut blank, place, 1000, 2), position(FIX));
            }
        }
    }
}

/// Rights 3 are to read too. The look's reads go by the data cache, whatever fetches have left in the other.
#[test]
fn a_look_through_rights_3() {
    let place @ (space, page) = (2, 1);
    let mapping = Mapping {
        space,
        page,
        frame: 3,
        rights: 3,
    };
    let mut machine = received([1, 999, 0, 0]);
    accept(&mut machine, &[Call::Map(mapping), fetch(space, page, 0)]);
    receive(&mut machine, FIX);
    assert_eq!(shown(&mut machine, place, 1000, 2), position(FIX));
    accept(&mut machine, &[write(1, 998), fetch(space, page, 1)]);
    let [number, _, latitude, longitude] = FIX;
    let fix = [number, 998, latitude, longitude];
    assert_eq!(shown(&mut machine, place, 1000, 2), position(fix));
}

/// What a program writes over the fix is shown, through the other page too.
#[test]
fn a_program_writes_over_the_fix() {
    let [number, second, _, longitude] = FIX;
    for place in PLACES {
        let mut machine = received(FIX);
        accept(&mut machine, &[write(2, 70)]);
        let right = position([number, second, 70, longitude]);
        assert_eq!(shown(&mut machine, place, 1000, 2), right);
        accept(&mut machine, &[write(0, 0)]);
        assert_eq!(shown(&mut machine, place, 1000, 2), Shown::Blank);
        receive(&mut machine, FIX);
        assert_eq!(shown(&mut machine, place, 1000, 2), position(FIX));
    }
}

/// What the words show by the request, counted in 64 bits.
fn right(fix: Fix, clock: u32, hold: u32) -> Shown {
    let [number, second, latitude, longitude] = fix;
    let age = i64::from(clock) - i64::from(second);
    let within = |coordinate: u32, degrees: i64| {
        let limit = degrees * 10_000_000;
        (-limit..=limit).contains(&i64::from(coordinate as i32))
    };
    let fresh = number != 0 && (0..=i64::from(hold)).contains(&age);
    if fresh && within(latitude, 90) && within(longitude, 180) {
        position(fix)
    } else {
        Shown::Blank
    }
}

/// What the accepted calls alone say of the words that transfers sent.
struct Sent {
    frames: BTreeMap<(u8, u16), u8>,
    /// The word that a transfer last sent there, if one has and no program has written it since.
    words: [[Option<u32>; PAGE_WORDS]; FRAMES],
}

/// Nothing mapped and nothing sent.
impl Default for Sent {
    fn default() -> Self {
        Self {
            frames: BTreeMap::new(),
            words: [[None; PAGE_WORDS]; FRAMES],
        }
    }
}

impl Sent {
    fn follow(&mut self, call: Call) {
        match call {
            Call::Map(Mapping {
                space, page, frame, ..
            }) => {
                self.frames.insert((space, page), frame);
            }
            Call::Unmap { space, page } => {
                self.frames.remove(&(space, page));
            }
            Call::Write {
                space,
                page,
                offset,
                ..
            } => {
                let frame = self.frames[&(space, page)];
                self.words[usize::from(frame)][usize::from(offset)] = None;
            }
            Call::DeviceWrite { frame, first } => self.send(frame, 0, PAGE_WORDS, first),
            Call::DeviceWritePart {
                frame,
                offset,
                count,
                first,
            } => self.send(frame, offset, count, first),
            Call::BringWord {
                frame,
                offset,
                word,
            } => self.send(frame, offset.into(), 1, word),
            Call::Read { .. }
            | Call::Fetch { .. }
            | Call::DeviceRead { .. }
            | Call::BeginRead { .. }
            | Call::BeginWrite { .. }
            | Call::TakeWord { .. }
            | Call::EndTransfer { .. }
            | Call::Evict { .. } => {}
        }
    }

    fn send(&mut self, frame: u8, offset: usize, count: usize, first: u32) {
        let words = &mut self.words[usize::from(frame)][offset..offset + count];
        for (k, word) in (0..).zip(words) {
            *word = Some(first.wrapping_add(k));
        }
    }

    /// The page's words from the first on.
    fn words(&self, space: u8, page: u16) -> &[Option<u32>] {
        &self.words[usize::from(self.frames[&(space, page)])]
    }
}

/// Random numbers from a seed: splitmix64.
struct Random(u64);

impl Random {
    /// A number below the limit, which is not 0.
    fn below(&mut self, limit: u32) -> u32 {
        self.0 = self.0.wrapping_add(0x9e37_79b9_7f4a_7c15);
        let mut z = self.0;
        z = (z ^ (z >> 30)).wrapping_mul(0xbf58_476d_1ce4_e5b9);
        z = (z ^ (z >> 27)).wrapping_mul(0x94d0_49bb_1331_11eb);
        ((z ^ (z >> 31)) % u64::from(limit)) as u32
    }

    fn one_in(&mut self, chances: u32) -> bool {
        self.below(chances) == 0
    }

    fn pick<T: Copy>(&mut self, from: &[T]) -> T {
        from[self.below(from.len() as u32) as usize]
    }

    /// One of eight pages of two spaces, in two colours, now and then out of range.
    fn place(&mut self) -> (u8, u16) {
        let (mut space, mut page) = (self.pick(&[0, 1]), self.pick(&[0, 1, 8, 9]));
        if self.one_in(40) {
            space += 16;
        }
        if self.one_in(40) {
            page += 1024;
        }
        (space, page)
    }

    /// One of three frames, now and then out of range.
    fn frame(&mut self) -> u8 {
        let frame = self.pick(&[3, 4, 63]);
        if self.one_in(20) {
            frame + 64
        } else {
            frame
        }
    }

    /// Mostly a second or a small coordinate, else one beside a coordinate's limit.
    fn word(&mut self) -> u32 {
        if self.one_in(8) {
            let limit = self.pick(&[900_000_000, 1_800_000_000, 0, i32::MAX]);
            let word = limit.wrapping_add(self.below(3) as i32 - 1);
            self.pick(&[word, word.wrapping_neg()]) as u32
        } else {
            self.below(60)
        }
    }

    /// Words from one of the fix or from the one after it, now and then past the page.
    fn part(&mut self) -> Call {
        let offset = self.below(5) as usize;
        let most = self.pick(&[1, 4, 12, PAGE_WORDS - offset]);
        let count = if self.one_in(20) {
            self.pick(&[0, PAGE_WORDS - offset + 1])
        } else {
            1 + self.below(most as u32) as usize
        };
        Call::DeviceWritePart {
            frame: self.frame(),
            offset,
            count,
            first: self.word(),
        }
    }

    fn call(&mut self) -> Call {
        let (space, page) = self.place();
        let offset = if self.one_in(40) {
            64
        } else {
            self.below(5) as u8
        };
        match self.below(26) {
            0..4 => Call::Map(Mapping {
                space,
                page,
                frame: self.frame(),
                rights: self.pick(&[1, 1, 2, 2, 2, 2, 3, 3, 4]),
            }),
            4 => Call::Unmap { space, page },
            5 => read(space, page, offset),
            6..9 => Call::Write {
                space,
                page,
                offset,
                word: self.word(),
            },
            9 => Call::DeviceWrite {
                frame: self.frame(),
                first: self.word(),
            },
            10..13 => self.part(),
            13 => Call::DeviceRead {
                frame: self.frame(),
            },
            14 => Call::BeginRead {
                frame: self.frame(),
            },
            15 => Call::BeginWrite {
                frame: self.frame(),
            },
            16..18 => Call::BringWord {
                frame: self.frame(),
                offset,
                word: self.word(),
            },
            18 => Call::TakeWord {
                frame: self.frame(),
                offset,
            },
            19..22 => Call::EndTransfer {
                frame: self.frame(),
            },
            22..24 => fetch(space, page, offset),
            _ => Call::Evict {
                line: self.pick(&[0, 0, 8, 8, 63, 64, 72, 127, 128]),
            },
        }
    }

    fn hold(&mut self) -> u32 {
        let any = 2 + self.below(29);
        self.pick(&[2, 30, any])
    }
}

/// Looks with one hold, and on a copy with another that is not shorter. What each shows must be right by the
/// words of four reads, these be the words last sent where there are such, and all be left as by these reads.
fn look_twice(
    machine: &mut Machine,
    sent: &Sent,
    (space, page): (u8, u16),
    clock: u32,
    [shorter, longer]: [u32; 2],
) -> Result<[Shown; 2], Refusal> {
    let (mut copy, mut after_reads) = (machine.clone(), machine.clone());
    let answers = [
        look(machine, space, page, clock, shorter),
        look(&mut copy, space, page, clock, longer),
    ];
    let words = read_four(&mut after_reads, space, page);
    let right = [shorter, longer].map(|hold| words.map(|words| right(words, clock, hold)));
    assert_eq!(answers, right);
    assert!(*machine == after_reads, "a look leaves what four reads do");
    assert!(copy == after_reads, "the hold does not change what is left");

    let words = words?;
    for (word, last_sent) in words.iter().zip(sent.words(space, page)) {
        assert!(last_sent.is_none_or(|last_sent| last_sent == *word));
    }
    let [in_shorter, in_longer] = [answers[0]?, answers[1]?];
    if in_shorter != in_longer {
        assert_eq!(in_shorter, Shown::Blank);
        assert_eq!(in_longer, position(words));
    }
    Ok([in_shorter, in_longer])
}

/// 400 runs from the start, each of 400 calls, a third of them looks.
#[test]
fn random_looks_find_the_words_last_sent() {
    let mut random = Random(1);
    let (mut numbers, mut refused_looks) = (BTreeSet::new(), BTreeSet::new());
    let (mut both_blank, mut shorter_blank, mut none_blank) = (0, 0, 0);
    for _ in 0..400 {
        let (mut machine, mut sent) = (Machine::default(), Sent::default());
        for _ in 0..400 {
            if !random.one_in(3) {
                let call = random.call();
                let answer = machine.call(call);
                numbers.insert(number(&answer));
                if answer.is_ok() {
                    sent.follow(call);
                }
                continue;
            }
            let (space, page) = random.place();
            if random.one_in(20) {
                let hold = random.pick(&[0, 1, 31, MAX]);
                assert_eq!(refusal(&mut machine, space, page, hold), 14);
                continue;
            }
            let clock = random.below(90);
            let mut holds = [random.hold(), random.hold()];
            holds.sort();
            match look_twice(&mut machine, &sent, (space, page), clock, holds) {
                Err(refusal) => _ = refused_looks.insert(refusal.number()),
                Ok([_, Shown::Blank]) => both_blank += 1,
                Ok([Shown::Blank, _]) => shorter_blank += 1,
                Ok(_) => none_blank += 1,
            }
        }
    }
    let right = [0, 3, 4, 5, 6, 7, 8, 10, 13, 15, 16, 17];
    assert_eq!(numbers, BTreeSet::from(right));
    assert_eq!(refused_looks, BTreeSet::from([3, 8, 15]));
    let least = both_blank.min(shorter_blank).min(none_blank);
    assert!(least > 1000, "{least} looks of one sort");
}

/// The peer's line for the look of a line `do position_fix ..`, if that is well formed: a fix, and the clock and the hold of a look at it.
fn drawn(line: &str) -> Option<String> {
    let numbers = line.strip_prefix("do position_fix ")?.split(' ');
    let numbers: Vec<u32> = numbers.flat_map(str::parse).collect();
    let [number, second, latitude, longitude, clock, hold] = *numbers else {
        return None;
    };

    let mut machine = received([number, second, latitude, longitude]);
    let answer = match look(&mut machine, 0, 0, clock, hold) {
        Ok(Shown::Blank) => "blank".to_string(),
        Ok(Shown::Position {
            latitude,
            longitude,
        }) => format!("position {latitude} {longitude}"),
        Err(refusal) => refusal.number().to_string(),
    };
    Some(format!("look 0 0 {clock} {hold}: {answer}"))
}

/// The text of the proved crate's cases: the answer of each look at a fix is the peer's. What the look changed stands behind its answer.
#[test]
fn cases_of_the_proved_crate() {
    let file = "../../crates/calls/stdout";
    let file = Path::new(env!("CARGO_MANIFEST_DIR")).join(file);
    let text = fs::read_to_string(&file);
    let text = text.unwrap_or_else(|error| panic!("{}: {error}", file.display()));
    let mut lines = text.lines();
    let mut count = 0;
    while let Some(fix) = lines.find(|line| line.starts_with("do position_fix ")) {
        let look = lines.find(|line| line.starts_with("look "));
        let told = look.unwrap_or("").split(' ');
        let told: Vec<&str> = told.take_while(|word| !word.contains('=')).collect();
        let right = drawn(fix);
        assert_eq!(Some(told.join(" ")), right, "the peer has the latter");
        count += 1;
    }
    assert!(count >= 30, "{count} looks at a fix");
}
