//! Writes the sheets to measure with: sheets FOLDER

use compare::generate::accepted_sheet;
use std::path::Path;

const SEED: u64 = 1;

fn main() -> std::io::Result<()> {
    let folder = std::env::args().nth(1).expect("usage: sheets FOLDER");
    let folder = Path::new(&folder);
    std::fs::write(folder.join("0"), [0; 4])?;
    for mappings in [1, 16, 64, 256] {
        let sheet = accepted_sheet(SEED, mappings);
        std::fs::write(folder.join(mappings.to_string()), sheet)?;
    }
    Ok(())
}
