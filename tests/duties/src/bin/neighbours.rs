//! Reads a run sheet on standard input and prints its text. The list stands in rising order of space, then page, tested by neighbours.

use duties::list::Neighbours;

fn main() -> std::io::Result<()> {
    duties::run_input::<Neighbours>()
}
