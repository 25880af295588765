//! Runs a run sheet as document 01 describes, on a machine written from documents 01 and 02 (of
//! 02 the requests N1 to N9; docs/DECISIONS.md, 87, says what else it was told), with a cacheless memory beside it
//! that every accepted read and fetch and the memory at the end must equal. Of N5 no sheet has a step, and of N7 no
//! text shows anything.

pub mod board;
pub mod cacheless;
pub mod call;
pub mod hardware;
pub mod machine;
pub mod manager;
pub mod position;
pub mod record;
mod refusal;
pub mod sheet;
pub mod text;

pub use refusal::Refusal;

use board::{Cache, Frame, Line};
use cacheless::Cacheless;
use call::{Answer, Call, Mapping};
use machine::{Machine, ITEMS};
use sheet::Sheet;
use text::Text;

/// The text of a sheet. Panics where the machine and the cacheless memory differ.
pub fn run(sheet: &[u8]) -> Vec<u8> {
    try_run(sheet).unwrap_or_else(|difference| panic!("{difference}"))
}

/// The text of a sheet, or how the machine and the cacheless memory differ. The mappings are made in lists, as
/// many to a list as it takes: what they answer is what single calls would.
pub fn try_run(sheet: &[u8]) -> Result<Vec<u8>, String> {
    let Ok(sheet) = Sheet::parse(sheet) else {
        return Ok(text::broken());
    };
    let mut pair = Pair::default();
    let mut text = Text::default();
    let mut answers = vec![0; sheet.mappings.len()];
    let lists = sheet.mappings.chunks(ITEMS).zip(answers.chunks_mut(ITEMS));
    for (items, answers) in lists {
        pair.map_all(items, answers)
            .map_err(|refusal| format!("{} mappings: {refusal:?}", items.len()))?;
    }
    for (k, &answer) in answers.iter().enumerate() {
        text.mapping(k, answer);
    }
    for (k, &step) in sheet.steps.iter().enumerate() {
        text.step(k, pair.call(step).map_err(|e| format!("step {k}: {e}"))?);
    }
    pair.settle()?;
    Ok(text.end())
}

/// The machine, and the memory that it must look like.
#[derive(Clone, Debug, Default, PartialEq, Eq)]
pub struct Pair {
    machine: Machine,
    cacheless: Cacheless,
}

impl Pair {
    /// The machine's answer, or how what it found differs from the cacheless memory.
    pub fn call(&mut self, call: Call) -> Result<Answer, String> {
        let answer = self.machine.call(call);
        if let Ok(accepted) = &answer {
            let right = self.cacheless.follow(call);
            let found = &accepted.found;
            if *found != right {
                return Err(format!("{call:?} found {found:?} and not {right:?}"));
            }
        }
        Ok(answer)
    }

    /// Maps the items in one call (document 02, N1). To the cacheless memory it is its items in order,
    /// each of them accepted or refused.
    pub fn map_all(&mut self, items: &[Mapping], answers: &mut [u8]) -> Result<(), Refusal> {
        self.machine.map_all(items, answers)?;
        for (&item, &answer) in items.iter().zip(&*answers) {
            if answer == 0 {
                self.cacheless.follow(Call::Map(item));
            }
        }
        Ok(())
    }

    /// Evicts every line of a copy and compares the two memories.
    pub fn settle(&self) -> Result<(), String> {
        let mut hardware = self.machine.hardware.clone();
        for line in Line::all() {
            hardware.evict(Cache::Data, line);
            hardware.evict(Cache::Instructions, line);
        }
        for (frame, right) in Frame::all().zip(self.cacheless.words()) {
            let found = hardware.page(frame);
            if found != right {
                return Err(format!(
                    "at the end {frame:?} is {found:?} and not {right:?}"
                ));
            }
        }
        Ok(())
    }
}

#[cfg(test)]
mod tests {
    use super::*;

    /// A pair with frame 0 mapped at page 0 and word 5 written at offset 0.
    fn written() -> Pair {
        let mut pair = Pair::default();
        let (space, page) = (0, 0);
        let calls = [
            Call::Map(Mapping {
                space,
                page,
                frame: 0,
                rights: 2,
            }),
            Call::Write {
                space,
                page,
                offset: 0,
                word: 5,
            },
        ];
        for call in calls {
            pair.call(call).unwrap().unwrap();
        }
        pair
    }

    /// Changes a word of memory behind the machine's back.
    fn tamper(pair: &mut Pair, offset: usize) {
        let frame = Frame::new(0).unwrap();
        pair.machine.hardware.page_mut(frame)[offset] += 1;
    }

    #[test]
    fn a_wrong_read_is_caught() {
        let read = Call::Read {
            space: 0,
            page: 0,
            offset: 8,
        };
        assert!(written().call(read).is_ok());
        let mut pair = written();
        tamper(&mut pair, 8);
        assert!(pair.call(read).is_err());
    }

    #[test]
    fn a_wrong_fetch_is_caught() {
        for (offset, wrong) in [(15, false), (16, true)] {
            let mut pair = written();
            let mapping = Mapping {
                space: 0,
                page: 8,
                frame: 0,
                rights: 3,
            };
            pair.call(Call::Map(mapping)).unwrap().unwrap();
            tamper(&mut pair, 16);
            let fetched = pair.call(Call::Fetch {
                space: 0,
                page: 8,
                offset,
            });
            assert_eq!(fetched.is_err(), wrong);
        }
    }

    #[test]
    fn a_wrong_word_of_a_transfer_is_caught() {
        let mut pair = written();
        tamper(&mut pair, 63);
        assert!(pair.call(Call::DeviceRead { frame: 0 }).is_err());
    }

    #[test]
    fn a_wrong_word_beside_a_part_is_caught() {
        for (offset, sent_over) in [(62, false), (63, true)] {
            let mut pair = written();
            tamper(&mut pair, 63);
            let part = Call::DeviceWritePart {
                frame: 0,
                offset,
                count: 1,
                first: 9,
            };
            assert!(pair.call(part).is_ok());
            let read = pair.call(Call::DeviceRead { frame: 0 });
            assert_eq!(read.is_ok(), sent_over);
        }
    }

    #[test]
    fn a_wrong_word_taken_is_caught() {
        for (offset, wrong) in [(62, false), (63, true)] {
            let mut pair = written();
            pair.call(Call::BeginRead { frame: 0 }).unwrap().unwrap();
            tamper(&mut pair, 63);
            let taken = pair.call(Call::TakeWord { frame: 0, offset });
            assert_eq!(taken.is_err(), wrong);
        }
    }

    #[test]
    fn a_wrong_word_brought_is_caught() {
        for wrong in [false, true] {
            let mut pair = written();
            pair.call(Call::BeginWrite { frame: 0 }).unwrap().unwrap();
            let bring = Call::BringWord {
                frame: 0,
                offset: 63,
                word: 9,
            };
            pair.call(bring).unwrap().unwrap();
            if wrong {
                tamper(&mut pair, 63);
            }
            // While the transfer runs, and after its end.
            assert_eq!(pair.settle().is_err(), wrong);
            pair.call(Call::EndTransfer { frame: 0 }).unwrap().unwrap();
            assert_eq!(pair.settle().is_err(), wrong);
            assert_eq!(pair.call(Call::DeviceRead { frame: 0 }).is_err(), wrong);
        }
    }

    #[test]
    fn a_wrong_memory_at_the_end_is_caught() {
        assert!(written().settle().is_ok());
        let mut pair = written();
        tamper(&mut pair, 63);
        assert!(pair.settle().is_err());
    }
}
