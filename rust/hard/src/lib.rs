//! Calls on records and buffers of exact lengths between guard pages, on a stack of 256 KiB, compared with the model.

pub mod area;
pub mod classes;
pub mod fault;
pub mod lengths;
pub mod stack;
pub mod sys;
pub mod trial;
