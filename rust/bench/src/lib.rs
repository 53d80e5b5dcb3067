//! Times the original and the proved call on the same records.

pub mod classes;
pub mod measure;
pub mod search;
pub mod stopwatch;
pub mod table;
