//! Reads a run sheet on standard input and prints its text. The list stands in order of mapping, tested for doubles by all pairs
//! of its spaces and pages, each packed into one number.

use duties::list::AllPairsPacked;

fn main() -> std::io::Result<()> {
    duties::run_input::<AllPairsPacked>()
}
