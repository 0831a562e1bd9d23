//! The proved library's calls as C has them, and memory to lend to it.

pub mod board;
pub mod compile;
pub mod depth;
pub mod form;
pub mod lent;
pub mod moves;
pub mod read;
pub mod sample;
pub mod sheet;
pub mod unread;
pub mod vast;
