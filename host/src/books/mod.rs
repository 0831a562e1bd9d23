//! Books, damaged bytes, runs and forged plans to test with.

pub mod damaged;
pub mod drums;
pub mod examples;
pub mod forged;
pub mod inputs;
pub mod lengths;
pub mod limits;
pub mod loose;
pub mod named;
pub mod random;
pub mod runs;
pub mod shapes;
pub mod sheets;
pub mod small;
pub mod trees;
