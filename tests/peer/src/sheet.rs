//! The run sheet's bytes: mappings, then steps, each after its count, every number low byte first.

use crate::call::{Call, Mapping};
use crate::Refusal;

const MAPPINGS: usize = 256;
const STEPS: usize = 4096;

#[derive(Debug, PartialEq, Eq)]
pub struct Sheet {
    pub mappings: Vec<Mapping>,
    pub steps: Vec<Call>,
}

impl Sheet {
    /// The whole sheet, or the refusal of a broken one.
    pub fn parse(bytes: &[u8]) -> Result<Self, Refusal> {
        let mut rest = bytes;
        let mappings = section(&mut rest, MAPPINGS, mapping)?;
        let steps = section(&mut rest, STEPS, step)?;
        if rest.is_empty() {
            Ok(Self { mappings, steps })
        } else {
            Err(Refusal::Sheet)
        }
    }
}

/// A count of at most `limit`, and that many records of `N` bytes.
fn section<const N: usize, T>(
    rest: &mut &[u8],
    limit: usize,
    record: impl Fn(&[u8; N]) -> Result<T, Refusal>,
) -> Result<Vec<T>, Refusal> {
    let count = usize::from(u16::from_le_bytes(*take(rest)?));
    if count > limit {
        return Err(Refusal::Sheet);
    }
    (0..count).map(|_| record(take(rest)?)).collect()
}

/// The next `N` bytes.
fn take<'a, const N: usize>(rest: &mut &'a [u8]) -> Result<&'a [u8; N], Refusal> {
    let (taken, left) = rest.split_first_chunk().ok_or(Refusal::Sheet)?;
    *rest = left;
    Ok(taken)
}

fn mapping(&[space, page_low, page_high, frame, rights]: &[u8; 5]) -> Result<Mapping, Refusal> {
    Ok(Mapping {
        space,
        page: u16::from_le_bytes([page_low, page_high]),
        frame,
        rights,
    })
}

fn step(&[kind, s, p0, p1, o, w0, w1, w2, w3]: &[u8; 9]) -> Result<Call, Refusal> {
    let p = u16::from_le_bytes([p0, p1]);
    let w = u32::from_le_bytes([w0, w1, w2, w3]);
    match (kind, p, o, w) {
        (1, page, offset, 0) => Ok(Call::Read {
            space: s,
            page,
            offset,
        }),
        (2, page, offset, word) => Ok(Call::Write {
            space: s,
            page,
            offset,
            word,
        }),
        (3, 0, 0, 0) => Ok(Call::DeviceRead { frame: s }),
        (4, 0, 0, first) => Ok(Call::DeviceWrite { frame: s, first }),
        (5, 0, 0, 0) => Ok(Call::Evict { line: s }),
        (6, page, 0, 0) => Ok(Call::Unmap { space: s, page }),
        (7, offset, count, first) => Ok(Call::DeviceWritePart {
            frame: s,
            offset: offset.into(),
            count: count.into(),
            first,
        }),
        (8, 0, 0, 0) => Ok(Call::BeginRead { frame: s }),
        (9, 0, 0, 0) => Ok(Call::BeginWrite { frame: s }),
        (10, 0, offset, word) => Ok(Call::BringWord {
            frame: s,
            offset,
            word,
        }),
        (11, 0, offset, 0) => Ok(Call::TakeWord { frame: s, offset }),
        (12, 0, 0, 0) => Ok(Call::EndTransfer { frame: s }),
        (13, page, offset, 0) => Ok(Call::Fetch {
            space: s,
            page,
            offset,
        }),
        _ => Err(Refusal::Sheet),
    }
}
