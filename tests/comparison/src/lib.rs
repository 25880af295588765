//! Random run sheets, and the comparison of two programs on them.

pub mod damage;
pub mod generate;
pub mod harness;
pub mod random;
pub mod state;
pub mod tally;
