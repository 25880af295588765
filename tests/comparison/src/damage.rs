//! Ways to damage a run sheet. Most leave it broken, in one place only.

use crate::generate::{
    Sheet, BEGIN_READ, BEGIN_WRITE, BRING, DEVICE_READ, DEVICE_WRITE, END, EVICT, FETCH, MAPPINGS,
    READ, STEPS, TAKE, UNMAP,
};
use crate::random::Random;

#[derive(Clone, Copy, Debug, PartialEq, Eq, PartialOrd, Ord)]
pub enum Damage {
    Cut,
    Longer,
    MappingCount,
    StepCount,
    ManyMappings,
    ManySteps,
    Kind,
    Unused,
    Byte,
    Noise,
}

impl Damage {
    pub const ALL: [Self; 10] = [
        Self::Cut,
        Self::Longer,
        Self::MappingCount,
        Self::StepCount,
        Self::ManyMappings,
        Self::ManySteps,
        Self::Kind,
        Self::Unused,
        Self::Byte,
        Self::Noise,
    ];

    pub fn random(random: &mut Random) -> Self {
        random.pick(&Self::ALL)
    }

    /// The bytes of the damaged sheet.
    pub fn apply(self, random: &mut Random, mut sheet: Sheet) -> Vec<u8> {
        let step_count = 2 + 5 * sheet.mappings.len();
        match self {
            Self::Cut => {
                let mut bytes = sheet.encode();
                let end = match random.below(3) {
                    0 => bytes.len() - 1,
                    1 => random.below(bytes.len().min(4)),
                    _ => random.below(bytes.len()),
                };
                bytes.truncate(end);
                bytes
            }
            Self::Longer => {
                let mut bytes = sheet.encode();
                for _ in 0..random.pick(&[1, 1, 9, 300]) {
                    bytes.push(random.pick(&[0, 0, 1, 255]));
                }
                bytes
            }
            Self::MappingCount => with_count(random, sheet.encode(), 0),
            Self::StepCount => with_count(random, sheet.encode(), step_count),
            Self::ManyMappings => {
                let count = MAPPINGS + random.pick(&[1, 1, 2, 1000]);
                sheet.mappings.resize(count, [0, 1, 0, 3, 2]);
                sheet.encode()
            }
            Self::ManySteps => {
                let count = STEPS + random.pick(&[1, 1, 2, 1000]);
                sheet.steps.resize(count, [EVICT, 0, 0, 0, 0, 0, 0, 0, 0]);
                sheet.encode()
            }
            Self::Kind => {
                if !sheet.steps.is_empty() {
                    let at = random.below(sheet.steps.len());
                    sheet.steps[at][0] = random.pick(&[0, FETCH + 1, FETCH + 2, 129, 255]);
                }
                sheet.encode()
            }
            Self::Unused => {
                if !sheet.steps.is_empty() {
                    let at = random.below(sheet.steps.len());
                    let step = &mut sheet.steps[at];
                    if let unused @ [_, ..] = unused(step[0]) {
                        step[random.pick(unused)] = random.pick(&[1, 128, 255]);
                    }
                }
                sheet.encode()
            }
            Self::Byte => {
                let mut bytes = sheet.encode();
                let at = random.below(bytes.len());
                bytes[at] = random.draw() as u8;
                bytes
            }
            Self::Noise => (0..random.below(60)).map(|_| random.draw() as u8).collect(),
        }
    }
}

/// The bytes with another count at this place: one off, or any.
fn with_count(random: &mut Random, mut bytes: Vec<u8>, at: usize) -> Vec<u8> {
    let count = u16::from_le_bytes([bytes[at], bytes[at + 1]]);
    let other = match random.below(3) {
        0 => count.wrapping_add(1),
        1 => count.wrapping_sub(1),
        _ => random.draw() as u16,
    };
    bytes[at..at + 2].copy_from_slice(&other.to_le_bytes());
    bytes
}

/// The bytes of a step that its kind does not use.
fn unused(kind: u8) -> &'static [usize] {
    match kind {
        READ | FETCH => &[5, 6, 7, 8],
        DEVICE_READ | EVICT => &[2, 3, 4, 5, 6, 7, 8],
        BEGIN_READ | BEGIN_WRITE | END => &[2, 3, 4, 5, 6, 7, 8],
        DEVICE_WRITE => &[2, 3, 4],
        BRING => &[2, 3],
        TAKE => &[2, 3, 5, 6, 7, 8],
        UNMAP => &[4, 5, 6, 7, 8],
        _ => &[],
    }
}
