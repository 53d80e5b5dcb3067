//! A plain model of document 01, written from its text: a record goes in, a number comes out, and both lent buffers are written.
//! It is meant to be read beside the document, one module to a section, and prefers the obvious to the fast.

pub mod access;
pub mod check;
pub mod constraints;
pub mod decode;
pub mod encode;
pub mod graph;
pub mod liveness;
pub mod loans;
pub mod output;
pub mod paths;
pub mod regions;
pub mod syntax;
pub mod types;

pub use output::{analyse, answer, Answer};
pub use syntax::Job;

/// The job that a record holds, or refusal 1 to 9.
pub fn accept(record: &[u8]) -> Result<Job, u8> {
    let job = decode::decode(record)?;
    check::check(&job)?;
    Ok(job)
}
