//! Reads a run sheet on standard input and prints four counts: the flushes and the purges that it orders, and the lines
//! that its misses fill, of the data cache and of the instruction cache.

use peer::call::{Call, Operation};
use peer::machine::Machine;
use peer::sheet::Sheet;
use std::io::{self, Read};

fn main() -> io::Result<()> {
    let mut bytes = Vec::new();
    io::stdin().read_to_end(&mut bytes)?;
    let sheet = Sheet::parse(&bytes).expect("the sheet is not broken");
    let mut machine = Machine::default();
    let (mut flushes, mut purges) = (0, 0);
    let maps = sheet.mappings.into_iter().map(Call::Map);
    for call in maps.chain(sheet.steps) {
        let operations = machine.call(call).unwrap_or_default().operations;
        for operation in operations.into_iter().flatten() {
            match operation {
                Operation::Flush(..) => flushes += 1,
                Operation::Purge(..) | Operation::PurgeInstructions(..) => purges += 1,
            }
        }
    }
    let fills = machine.hardware.fills();
    println!("{flushes} {purges} {} {}", fills.data, fills.instructions);
    Ok(())
}
