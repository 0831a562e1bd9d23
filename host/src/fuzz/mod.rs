//! Random calls compared with the independent implementations; a call that fails is made as small as it can be.

pub mod case;
pub mod child;
pub mod make;
pub mod shrink;
