//! A second judge, and what is measured and compared with it.

pub mod assemble;
pub mod generate;
pub mod judge;
pub mod proved;
pub mod random;
pub mod search;
