//! Runs two programs on the same sheets until their texts differ.

use crate::generate;
use crate::tally::Tally;
use std::fmt;

/// A program: from a sheet's bytes to its text.
pub type Program<'a> = &'a mut dyn FnMut(&[u8]) -> Vec<u8>;

/// The first sheet on which the two programs differ.
pub struct Difference {
    pub number: u64,
    pub sheet: Vec<u8>,
    pub peer: Vec<u8>,
    pub proved: Vec<u8>,
}

/// Compares the texts of `count` sheets byte for byte. `done` hears the number of sheets behind.
pub fn compare(
    seed: u64,
    count: u64,
    peer: Program,
    proved: Program,
    mut done: impl FnMut(u64),
) -> Result<Tally, Box<Difference>> {
    let mut tally = Tally::default();
    for number in 0..count {
        let (sheet, damage) = generate::sheet(seed, number);
        let (right, found) = (peer(&sheet), proved(&sheet));
        if right != found {
            return Err(Box::new(Difference {
                number,
                sheet,
                peer: right,
                proved: found,
            }));
        }
        tally.add(&sheet, damage, &right);
        done(number + 1);
    }
    Ok(tally)
}

/// How many lines are shown before and after the first that differs.
const AROUND: usize = 4;

impl fmt::Display for Difference {
    fn fmt(&self, f: &mut fmt::Formatter) -> fmt::Result {
        let pairs = self.peer.iter().zip(&self.proved);
        let byte = pairs.take_while(|(a, b)| a == b).count();
        let line = self.peer[..byte].iter().filter(|&&b| b == b'\n').count();
        let number = self.number;
        writeln!(
            f,
            "sheet {number} differs at line {}, byte {byte}",
            line + 1
        )?;
        if let Some(record) = self.record(line) {
            writeln!(f, "the line's record, in hexadecimal: {record:02x?}")?;
        }
        for (name, text) in [("peer", &self.peer), ("proved", &self.proved)] {
            writeln!(f, "{name}, {} bytes:", text.len())?;
            let text = String::from_utf8_lossy(text);
            let first = line.saturating_sub(AROUND);
            let shown = text.lines().enumerate().skip(first);
            for (at, words) in shown.take(line - first + AROUND + 1) {
                let mark = if at == line { '>' } else { ' ' };
                writeln!(f, "  {mark} {words}")?;
            }
        }
        Ok(())
    }
}

impl Difference {
    /// The sheet's bytes behind a line of the text, if the line is of a mapping or a step.
    fn record(&self, line: usize) -> Option<&[u8]> {
        let mappings = usize::from(u16::from_le_bytes(*self.sheet.first_chunk()?));
        let (at, length) = match line.checked_sub(mappings) {
            None => (2 + 5 * line, 5),
            Some(step) => (2 + 5 * mappings + 2 + 9 * step, 9),
        };
        self.sheet.get(at..at + length)
    }
}

#[cfg(test)]
mod tests {
    use super::*;

    /// Compares the peer with itself but for what `fault` does to the text of sheet 70.
    fn with_fault(fault: fn(&mut Vec<u8>)) -> Result<Tally, Box<Difference>> {
        let mut number = 0;
        let mut faulty = |sheet: &[u8]| {
            let mut text = peer::run(sheet);
            if number == 70 {
                fault(&mut text);
            }
            number += 1;
            text
        };
        compare(1, 2000, &mut peer::run, &mut faulty, |_| {})
    }

    #[test]
    fn no_difference_and_nothing_left_out() {
        let tally = with_fault(|_| {}).unwrap_or_else(|difference| panic!("{difference}"));
        assert!(tally.left_out().is_empty(), "{tally}");
    }

    #[test]
    fn every_fault_is_found() {
        let faults: [fn(&mut Vec<u8>); 5] = [
            |text| text[0] ^= 1,
            |text| *text.last_mut().unwrap() = b' ',
            |text| text.push(b'\n'),
            |text| text.truncate(text.len() - 1),
            |text| text.clear(),
        ];
        for fault in faults {
            let difference = with_fault(fault).err().expect("the fault is found");
            assert_eq!(difference.number, 70);
            assert_eq!(difference.sheet, generate::sheet(1, 70).0);
            assert!(difference.to_string().starts_with("sheet 70 differs"));
        }
    }
}
