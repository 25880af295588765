//! Reads a run sheet on standard input and prints its text. The list stands in order of mapping, tested for doubles by all pairs,
//! plainly: record by record.

use duties::list::AllPairs;

fn main() -> std::io::Result<()> {
    duties::run_input::<AllPairs>()
}
