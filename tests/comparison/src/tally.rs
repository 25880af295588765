//! What the compared sheets met, counted from their text, so that a reader sees that nothing was
//! left out.

use crate::damage::Damage;
use crate::generate::{
    BEGIN_READ, BEGIN_WRITE, BRING, DEVICE_READ, DEVICE_WRITE, DEVICE_WRITE_PART, END, EVICT,
    FETCH, MAPPINGS, READ, STEPS, TAKE, UNMAP, WRITE,
};
use crate::state::Mark::{DeviceReads, DeviceWrites, Free};
use crate::state::{colour, About, Change, Flushed, State};
use std::collections::BTreeMap;
use std::fmt;

/// The ways to be accepted: with these operations (document 01's orders).
const ORDERS: [&str; 6] = ["no order", "F", "P", "F P", "I", "F I"];

/// A kind of call, with the orders (by their place above) and the refusals that it can meet.
struct Kind {
    name: &'static str,
    orders: &'static [usize],
    refusals: &'static [u8],
}

const fn kind(name: &'static str, orders: &'static [usize], refusals: &'static [u8]) -> Kind {
    Kind {
        name,
        orders,
        refusals,
    }
}

const MAP: &str = "map";

/// The mappings, then the steps by their number: parts by how they lie to their page, steps of a busy frame apart from
/// the others, most by what the device does there, reads and writes by what their colour was flushed for, if it is as
/// the flush left it, and fetches by what changed their frame's words last: an own write is one through the fetch's own
/// colour that has yet to be flushed. No sheet meets refusal 1 or 2, since the program's own buffers have their lengths
/// and keep the rules, 9, since no mapping follows the 256th, or 12 or 14, since no step is a list of mappings or a look
/// at the position.
const KINDS: [Kind; 52] = [
    kind(MAP, &[0], &[3, 4, 5, 7]),
    kind("read", &[0, 1, 2, 3], &[3, 6, 8]),
    kind("read, flushed to read", &[0], &[6]),
    kind("read, flushed to change", &[2, 3], &[6]),
    kind("read, device reads", &[0, 2], &[6]),
    kind("read, device writes", &[], &[6, 15]),
    kind("write", &[0, 1, 2, 3], &[3, 6, 8, 10]),
    kind("write, flushed to read", &[0], &[6, 10]),
    kind("write, flushed to change", &[2, 3], &[6, 10]),
    kind("write, rights 3", &[], &[6, 10]),
    kind("write, device reads", &[], &[6, 10, 15]),
    kind("write, device writes", &[], &[6, 10, 15]),
    kind("device read", &[0, 1], &[4]),
    kind("device read, busy", &[], &[15]),
    kind("device write", &[0, 2], &[4]),
    kind("device write, busy", &[], &[15]),
    kind("evict", &[0], &[]),
    kind("evict instructions", &[0], &[]),
    kind("evict past", &[], &[6]),
    kind("unmap", &[0], &[3, 8]),
    kind("unmap, busy", &[0], &[]),
    kind("part no words", &[], &[4, 13]),
    kind("part whole", &[0, 2], &[4]),
    kind("part inside", &[0, 1], &[4]),
    kind("part to end", &[0, 1], &[4]),
    kind("part one past", &[], &[4, 13]),
    kind("part past", &[], &[4, 13]),
    kind("part beyond", &[], &[4, 13]),
    kind("part overflow", &[], &[4, 13]),
    kind("part, busy", &[], &[13, 15]),
    kind("begin read", &[0, 1], &[4]),
    kind("begin read, busy", &[], &[15]),
    kind("begin write", &[0, 1], &[4]),
    kind("begin write, busy", &[], &[15]),
    kind("bring", &[], &[4, 6, 16]),
    kind("bring, device reads", &[], &[6, 16]),
    kind("bring, device writes", &[0], &[6]),
    kind("take", &[], &[4, 6, 16]),
    kind("take, device reads", &[0], &[6]),
    kind("take, device writes", &[], &[6, 16]),
    kind("end", &[], &[4, 16]),
    kind("end, busy", &[0], &[]),
    kind("fetch", &[0], &[3, 6, 8]),
    kind("fetch, rights 1", &[], &[6, 17]),
    kind("fetch, rights 2", &[], &[6, 17]),
    kind("fetch, device reads", &[0, 4], &[6, 17]),
    kind("fetch, device writes", &[], &[6, 15, 17]),
    kind("fetch after write", &[0, 1, 4, 5], &[6]),
    kind("fetch after own write", &[1, 5], &[]),
    kind("fetch after device write", &[0, 4], &[6]),
    kind("fetch after part", &[0, 4], &[6]),
    kind("fetch after begin write", &[0, 4], &[6]),
];

/// The name of a step's kind, by its frame and its line.
fn name(step: &[u8], about: About, line: &str) -> &'static str {
    match (step[0], about.mark) {
        (READ, Free) => match about.flushed {
            None => "read",
            Some(Flushed::ToRead) => "read, flushed to read",
            Some(Flushed::ToChange) => "read, flushed to change",
        },
        (READ, DeviceReads) => "read, device reads",
        (READ, DeviceWrites) => "read, device writes",
        (WRITE, Free) if about.rights == Some(3) => "write, rights 3",
        (WRITE, Free) => match about.flushed {
            None => "write",
            Some(Flushed::ToRead) => "write, flushed to read",
            Some(Flushed::ToChange) => "write, flushed to change",
        },
        (WRITE, DeviceReads) => "write, device reads",
        (WRITE, DeviceWrites) => "write, device writes",
        (DEVICE_READ, Free) => "device read",
        (DEVICE_READ, _) => "device read, busy",
        (DEVICE_WRITE, Free) => "device write",
        (DEVICE_WRITE, _) => "device write, busy",
        (EVICT, _) => match step[1] {
            0..64 => "evict",
            64..128 => "evict instructions",
            128.. => "evict past",
        },
        (UNMAP, Free) => "unmap",
        (UNMAP, _) => "unmap, busy",
        (DEVICE_WRITE_PART, Free) => part_name(step),
        (DEVICE_WRITE_PART, _) => "part, busy",
        (BEGIN_READ, Free) => "begin read",
        (BEGIN_READ, _) => "begin read, busy",
        (BEGIN_WRITE, Free) => "begin write",
        (BEGIN_WRITE, _) => "begin write, busy",
        (BRING, Free) => "bring",
        (BRING, DeviceReads) => "bring, device reads",
        (BRING, DeviceWrites) => "bring, device writes",
        (TAKE, Free) => "take",
        (TAKE, DeviceReads) => "take, device reads",
        (TAKE, DeviceWrites) => "take, device writes",
        (END, Free) => "end",
        (END, _) => "end, busy",
        (FETCH, Free) => match (about.rights, about.change) {
            (Some(1), _) => "fetch, rights 1",
            (Some(2), _) => "fetch, rights 2",
            (_, Change::Never) => "fetch",
            (_, Change::Write) => match flush(line) {
                Some([_, flushed]) if flushed == colour(step) => "fetch after own write",
                _ => "fetch after write",
            },
            (_, Change::DeviceWrite) => "fetch after device write",
            (_, Change::Part) => "fetch after part",
            (_, Change::BeginWrite) => "fetch after begin write",
        },
        (FETCH, DeviceReads) => "fetch, device reads",
        (FETCH, DeviceWrites) => "fetch, device writes",
        (kind, _) => panic!("a sheet with a step of kind {kind} is broken"),
    }
}

/// The frame and the colour that a step flushes, by its line.
fn flush(line: &str) -> Option<[u8; 2]> {
    let flush = line.split(' ').find_map(|word| word.strip_prefix('F'))?;
    let (frame, colour) = flush.split_once('.')?;
    Some([frame.parse().ok()?, colour.parse().ok()?])
}

/// The name of a part by how it lies to its page.
fn part_name(step: &[u8]) -> &'static str {
    let first = usize::from(u16::from_le_bytes([step[2], step[3]]));
    let count = usize::from(step[4]);
    match (first, count, first + count) {
        (_, 0, _) => "part no words",
        (0, _, 64) => "part whole",
        (_, _, ..64) => "part inside",
        (_, _, 64) => "part to end",
        (_, _, 65) => "part one past",
        (..64, _, _) => "part past",
        (_, _, ..65536) => "part beyond",
        // The sum does not fit the first offset's two bytes.
        _ => "part overflow",
    }
}

/// The place in `KINDS` of a name.
fn place(name: &str) -> usize {
    let found = KINDS.iter().position(|kind| kind.name == name);
    found.expect("every name has a kind")
}

/// What the calls of one kind met: how many were accepted with each of `ORDERS`, and refused by each number.
#[derive(Default)]
struct Met {
    accepted: [u64; ORDERS.len()],
    refused: BTreeMap<u8, u64>,
}

pub struct Tally {
    met: [Met; KINDS.len()],
    broken: BTreeMap<Damage, u64>,
    full_lists: u64,
    full_steps: u64,
}

impl Default for Tally {
    fn default() -> Self {
        Self {
            met: std::array::from_fn(|_| Met::default()),
            broken: BTreeMap::new(),
            full_lists: 0,
            full_steps: 0,
        }
    }
}

impl Tally {
    /// Counts a sheet by its text, which is right.
    pub fn add(&mut self, sheet: &[u8], damage: Option<Damage>, text: &[u8]) {
        let text = String::from_utf8_lossy(text);
        if text.starts_with("refused ") {
            if let Some(damage) = damage {
                *self.broken.entry(damage).or_default() += 1;
            }
            return;
        }
        let count = usize::from(u16::from_le_bytes([sheet[0], sheet[1]]));
        let (mappings, steps) = sheet[2..].split_at(5 * count);
        let (mappings, _) = mappings.as_chunks();
        let steps = steps[2..].chunks(9);
        self.full_steps += u64::from(steps.len() == STEPS);

        let mut state = State::default();
        let mut lines = text.lines();
        let mut listed = 0;
        for (&mapping, line) in mappings.iter().zip(&mut lines) {
            if self.count(MAP, line) {
                state.map(mapping);
                listed += 1;
            }
        }
        self.full_lists += u64::from(listed == MAPPINGS);
        for (step, line) in steps.zip(lines) {
            if self.count(name(step, state.of(step), line), line) {
                state.follow(step, flush(line));
            }
        }
    }

    /// Counts a call by its line, and says whether it was accepted.
    fn count(&mut self, name: &str, line: &str) -> bool {
        let Met { accepted, refused } = &mut self.met[place(name)];
        let words: Vec<&str> = line.split(' ').collect();
        match words[1].parse().expect("every line has a number") {
            0 => {
                accepted[orders(&words[2..])] += 1;
                true
            }
            number => {
                *refused.entry(number).or_default() += 1;
                false
            }
        }
    }

    /// What a sheet can meet and none of these met.
    pub fn left_out(&self) -> Vec<String> {
        let mut left_out = Vec::new();
        for (kind, Met { accepted, refused }) in KINDS.iter().zip(&self.met) {
            for &orders in kind.orders {
                if accepted[orders] == 0 {
                    left_out.push(format!("{} with {}", kind.name, ORDERS[orders]));
                }
            }
            for number in kind.refusals {
                if !refused.contains_key(number) {
                    left_out.push(format!("{} with refusal {number}", kind.name));
                }
            }
        }
        for damage in Damage::ALL {
            if !self.broken.contains_key(&damage) {
                left_out.push(format!("a sheet broken by {damage:?}"));
            }
        }
        left_out
    }
}

/// The place in `ORDERS` of what follows the number in an accepted call's line.
fn orders(words: &[&str]) -> usize {
    let letters = words.iter().take(2).filter(|word| **word != "-");
    let letters: Vec<&str> = letters.map(|word| &word[..1]).collect();
    let shown = match letters.as_slice() {
        [] => ORDERS[0].to_string(),
        letters => letters.join(" "),
    };
    let found = ORDERS.iter().position(|orders| *orders == shown);
    found.unwrap_or_else(|| panic!("no call has the orders {shown}"))
}

impl fmt::Display for Tally {
    fn fmt(&self, f: &mut fmt::Formatter) -> fmt::Result {
        write!(f, "{:24}{:>9}", "", "accepted")?;
        for orders in ORDERS {
            write!(f, "{orders:>9}")?;
        }
        writeln!(f, "   refused, by number")?;
        let mut by_number = BTreeMap::new();
        for (kind, Met { accepted, refused }) in KINDS.iter().zip(&self.met) {
            let all: u64 = accepted.iter().sum();
            write!(f, "{:24}{all:>9}", kind.name)?;
            for count in accepted {
                write!(f, "{count:>9}")?;
            }
            writeln!(f, " {}", counts(refused))?;
            for (&number, &count) in refused {
                *by_number.entry(number).or_default() += count;
            }
        }
        by_number.insert(11, self.broken.values().sum::<u64>());
        writeln!(f, "refusals    {}", counts(&by_number))?;
        writeln!(f, "              (no sheet can meet 1, 2, 9, 12 or 14)")?;
        writeln!(f, "broken by   {}", counts(&self.broken))?;
        let (lists, steps) = (self.full_lists, self.full_steps);
        write!(
            f,
            "full sheets   {lists} with {MAPPINGS} mappings accepted, "
        )?;
        writeln!(f, "{steps} with {STEPS} steps")?;
        let left_out = match self.left_out() {
            none if none.is_empty() => "nothing".to_string(),
            some => some.join(", "),
        };
        write!(f, "left out      {left_out}")
    }
}

fn counts<K: fmt::Debug>(counts: &BTreeMap<K, u64>) -> String {
    let each = counts.iter().map(|(what, n)| format!("  {what:?}: {n}"));
    each.collect()
}

#[cfg(test)]
mod tests {
    use super::*;
    use std::collections::BTreeSet;

    #[test]
    fn parts_by_how_they_lie() {
        let rows: [(u16, u8, &str); 16] = [
            (0, 0, "part no words"),
            (65535, 0, "part no words"),
            (0, 64, "part whole"),
            (0, 63, "part inside"),
            (62, 1, "part inside"),
            (1, 63, "part to end"),
            (63, 1, "part to end"),
            (0, 65, "part one past"),
            (63, 2, "part one past"),
            (64, 1, "part one past"),
            (63, 3, "part past"),
            (0, 255, "part past"),
            (64, 2, "part beyond"),
            (65280, 255, "part beyond"),
            (65535, 1, "part overflow"),
            (65535, 255, "part overflow"),
        ];
        for (first, count, name) in rows {
            let [low, high] = first.to_le_bytes();
            let step = [DEVICE_WRITE_PART, 0, low, high, count, 0, 0, 0, 0];
            let found = super::name(&step, About::default(), "0 0 - - -");
            assert_eq!(found, name, "{first} {count}");
        }
    }

    #[test]
    fn every_name_has_a_kind() {
        let changes = [
            Change::Never,
            Change::Write,
            Change::DeviceWrite,
            Change::Part,
            Change::BeginWrite,
        ];
        let flushed = [None, Some(Flushed::ToRead), Some(Flushed::ToChange)];
        let mut abouts = Vec::new();
        for mark in [Free, DeviceReads, DeviceWrites] {
            for rights in [None, Some(1), Some(2), Some(3)] {
                for change in changes {
                    abouts.extend(flushed.map(|flushed| About {
                        mark,
                        change,
                        rights,
                        flushed,
                    }));
                }
            }
        }
        let mut named = BTreeSet::from([MAP]);
        for kind in READ..=FETCH {
            for s in [0, 64, 128] {
                let step = [kind, s, 0, 0, 0, 0, 0, 0, 0];
                for &about in &abouts {
                    for line in ["0 0 - - -", "0 0 F0.0 - 7", "0 0 F0.1 - 7"] {
                        let name = name(&step, about, line);
                        assert_eq!(KINDS[place(name)].name, name);
                        named.insert(name);
                    }
                }
            }
        }
        // And every kind has a step, the parts beside this one too.
        let parts = KINDS.iter().filter(|kind| kind.name.starts_with("part "));
        named.extend(parts.map(|kind| kind.name));
        assert_eq!(named.len(), KINDS.len());
    }

    #[test]
    fn orders_by_their_letters() {
        let rows = [
            ("m0 0", 0),
            ("7 0 - - -", 0),
            ("7 0 - - 12", 0),
            ("7 0 F5.0 - 12", 1),
            ("7 0 P63.7 - -", 2),
            ("7 0 F5.0 P5.1 12", 3),
            ("7 0 I5.0 - 12", 4),
            ("7 0 F5.0 I5.0 12", 5),
        ];
        for (line, right) in rows {
            let words: Vec<&str> = line.split(' ').collect();
            assert_eq!(orders(&words[2..]), right, "{line}");
        }
    }

    /// Frame 5 at page 0 to be written, at page 8, of the same colour, to be fetched, and at page 9 to be fetched.
    #[test]
    fn fetches_by_what_changed_their_frame() {
        let mut sheet = vec![3, 0];
        sheet.extend([0, 0, 0, 5, 2]);
        sheet.extend([0, 8, 0, 5, 3]);
        sheet.extend([0, 9, 0, 5, 3]);
        let fetch = |page| [FETCH, 0, page, 0, 0, 0, 0, 0, 0];
        let write = [WRITE, 0, 0, 0, 0, 7, 0, 0, 0];
        let of_frame = |kind| [kind, 5, 0, 0, 0, 0, 0, 0, 0];
        let steps: [[u8; 9]; 20] = [
            fetch(8),
            write,
            fetch(8),
            write,
            fetch(9),
            fetch(8),
            of_frame(DEVICE_WRITE),
            fetch(8),
            [DEVICE_WRITE_PART, 5, 1, 0, 1, 0, 0, 0, 0],
            fetch(8),
            of_frame(BEGIN_WRITE),
            fetch(8),
            of_frame(END),
            fetch(8),
            of_frame(BEGIN_READ),
            fetch(8),
            fetch(0),
            of_frame(END),
            fetch(0),
            [WRITE, 0, 8, 0, 0, 7, 0, 0, 0],
        ];
        sheet.extend([steps.len() as u8, 0]);
        sheet.extend(steps.concat());
        let mut tally = Tally::default();
        tally.add(&sheet, None, &peer::run(&sheet));
        let accepted = [
            ("fetch", [1, 0, 0, 0, 0, 0]),
            ("fetch after own write", [0, 0, 0, 0, 0, 1]),
            ("fetch after write", [0, 1, 0, 0, 1, 0]),
            ("fetch after device write", [0, 0, 0, 0, 1, 0]),
            ("fetch after part", [0, 0, 0, 0, 1, 0]),
            ("fetch after begin write", [0, 0, 0, 0, 1, 0]),
            ("fetch, device reads", [1, 0, 0, 0, 0, 0]),
        ];
        for (name, right) in accepted {
            assert_eq!(tally.met[place(name)].accepted, right, "{name}");
        }
        let refused = [
            ("fetch, device writes", 15),
            ("fetch, device reads", 17),
            ("fetch, rights 2", 17),
            ("write, rights 3", 10),
        ];
        for (name, number) in refused {
            let right = BTreeMap::from([(number, 1)]);
            assert_eq!(tally.met[place(name)].refused, right, "{name}");
        }
    }

    #[test]
    fn flushes_by_their_lines() {
        let rows = [
            ("m0 0", None),
            ("7 0 - - 12", None),
            ("7 0 P5.0 - -", None),
            ("7 0 I5.0 - 12", None),
            ("7 0 F5.0 - -", Some([5, 0])),
            ("7 0 F63.7 P63.1 12", Some([63, 7])),
            ("7 0 F5.0 I5.1 12", Some([5, 0])),
        ];
        for (line, right) in rows {
            assert_eq!(flush(line), right, "{line}");
        }
    }

    /// Frame 5 at pages 0, 1 and 2. What a write leaves dirty is flushed by a read, a device read and a write, and its
    /// colour read and written after each.
    #[test]
    fn accesses_by_what_their_colour_was_flushed_for() {
        let mut sheet = vec![3, 0];
        for page in 0..3 {
            sheet.extend([0, page, 0, 5, 2]);
        }
        let access = |kind, page| [kind, 0, page, 0, 0, 0, 0, 0, 0];
        let steps = [
            access(WRITE, 0),
            access(READ, 1),
            access(READ, 0),
            access(WRITE, 0),
            [DEVICE_READ, 5, 0, 0, 0, 0, 0, 0, 0],
            access(WRITE, 0),
            access(WRITE, 2),
            access(READ, 0),
            access(WRITE, 2),
            access(WRITE, 0),
            access(WRITE, 2),
        ];
        sheet.extend([steps.len() as u8, 0]);
        sheet.extend(steps.concat());
        let mut tally = Tally::default();
        tally.add(&sheet, None, &peer::run(&sheet));
        let accepted = [
            ("read", [0, 1, 0, 0, 0, 0]),
            ("read, flushed to read", [1, 0, 0, 0, 0, 0]),
            ("read, flushed to change", [0, 0, 0, 1, 0, 0]),
            ("write", [2, 1, 0, 1, 0, 0]),
            ("write, flushed to read", [2, 0, 0, 0, 0, 0]),
            ("write, flushed to change", [0, 0, 0, 1, 0, 0]),
        ];
        for (name, right) in accepted {
            assert_eq!(tally.met[place(name)].accepted, right, "{name}");
        }
    }

    #[test]
    fn lines_that_are_evicted() {
        let mut sheet = vec![0, 0, 5, 0];
        for line in [0, 63, 64, 127, 128] {
            sheet.extend([EVICT, line, 0, 0, 0, 0, 0, 0, 0]);
        }
        let mut tally = Tally::default();
        tally.add(&sheet, None, &peer::run(&sheet));
        for name in ["evict", "evict instructions"] {
            assert_eq!(tally.met[place(name)].accepted[0], 2, "{name}");
        }
        let refused = &tally.met[place("evict past")].refused;
        assert_eq!(*refused, BTreeMap::from([(6, 1)]));
    }

    /// What the steps of a frame that the device reads are counted as, to its end and after it.
    #[test]
    fn steps_of_a_busy_frame() {
        let mut sheet = vec![1, 0, 0, 0, 0, 5, 2, 6, 0];
        let steps: [[u8; 9]; 6] = [
            [BEGIN_READ, 5, 0, 0, 0, 0, 0, 0, 0],
            [READ, 0, 0, 0, 0, 0, 0, 0, 0],
            [WRITE, 0, 0, 0, 0, 7, 0, 0, 0],
            [BRING, 5, 0, 0, 0, 7, 0, 0, 0],
            [END, 5, 0, 0, 0, 0, 0, 0, 0],
            [END, 5, 0, 0, 0, 0, 0, 0, 0],
        ];
        sheet.extend(steps.concat());
        let mut tally = Tally::default();
        tally.add(&sheet, None, &peer::run(&sheet));
        let accepted = ["map", "begin read", "read, device reads", "end, busy"];
        for (kind, met) in KINDS.iter().zip(&tally.met) {
            let right = u64::from(accepted.contains(&kind.name));
            assert_eq!(met.accepted[0], right, "{}", kind.name);
        }
        let refused = [
            ("write, device reads", 15),
            ("bring, device reads", 16),
            ("end", 16),
        ];
        for (name, number) in refused {
            let right = BTreeMap::from([(number, 1)]);
            assert_eq!(tally.met[place(name)].refused, right, "{name}");
        }
    }
}
